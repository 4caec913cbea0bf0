"""Checks for the tests of the frame: they pass, fail and are skipped."""
from workshop import frame

MADE: list[str] = []


@frame.once
def shared() -> str:
    """What two checks need, and can't have."""
    MADE.append("shared")
    raise AssertionError("it isn't there")


class Sample(frame.Check):
    """Checks of each kind."""

    def test_well(self) -> None:
        self.must(["true"])

    def test_status(self) -> None:
        self.must(["false"])

    def test_value(self) -> None:
        self.assertEqual(frame.output(["cat"], b"a"), (b"b", 0))

    def test_counted(self) -> None:
        self.count = 3

    @frame.each(("a", "b c"))
    def test_rows(self, row: str) -> None:
        self.assertEqual(row, "a")

    @frame.needs("sh", "no-such-program")
    def test_skipped(self) -> None:
        raise AssertionError("it is made")

    @frame.each(("sh", "no-such-program"))
    def test_needed(self, row: str) -> None:
        frame.need(row)

    @frame.needs("/no/such/file")
    def test_without_file(self) -> None:
        raise AssertionError("it is made")

    def test_parts(self) -> None:
        self.part("one", True)
        self.part("two", False, "it is wrong")

    def test_parts_and_more(self) -> None:
        self.part("one", True)
        self.must(["false"])

    @frame.each(("x", "y"))
    def test_shared(self, _: str) -> None:
        shared()


@frame.needs("no-such-program")
class Needing(frame.Check):
    """A class whose checks need a program."""

    def test_any(self) -> None:
        raise AssertionError("it is made")
