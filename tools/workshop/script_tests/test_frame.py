"""Tests of the frame: how checks are named, made, skipped and counted, and compared with `tools/checks.txt`."""
import contextlib
import io
import os
import tempfile
import unittest
from typing import Optional
from unittest import mock

from workshop import commands, floor, frame, kit
from workshop.frame import FAILED, PASSED, SKIPPED, State
from workshop.script_tests import came_of, samples

FLOOR = """\
# A comment.
[one]
a.A.first
a.A.rows: x, y*12,
    z w
?a.A.last
a.B.rows: x, ?y

[two]
a.C.first
&one
"""


class Making(unittest.TestCase):
    """A check has the state and the name that it should have, and one that fails says why."""

    def test_states(self) -> None:
        wanted = {
            "counted": PASSED,
            "needed/no-such-program": SKIPPED,
            "needed/sh": PASSED,
            "parts/one": PASSED,
            "parts/two": FAILED,
            "parts_and_more": FAILED,
            "parts_and_more/one": PASSED,
            "rows/a": PASSED,
            "rows/b c": FAILED,
            "shared/x": FAILED,
            "shared/y": FAILED,
            "skipped": SKIPPED,
            "status": FAILED,
            "value": FAILED,
            "well": PASSED,
            "without_file": SKIPPED,
        }
        self.assertEqual(came_of(samples.Sample), {f"samples.Sample.{it}": state for it, state in wanted.items()})
        self.assertEqual(came_of(samples.Needing), {"samples.Needing.any": SKIPPED})
        # What two checks share is made once.
        self.assertEqual(samples.MADE, ["shared"])

    def run_all(self, *words: str, section: str = "") -> tuple[int, list[str], Optional[frame.States]]:
        """The status of a run of the samples, its lines, and its report."""
        with tempfile.TemporaryDirectory() as folder, contextlib.redirect_stdout(io.StringIO()) as said:
            with mock.patch.object(frame.Requested, "report", f"{folder}/report"):
                status = frame.check("some", [samples], words, section)
                return status, said.getvalue().splitlines(), frame.read_report(f"{folder}/report")

    def test_lines(self) -> None:
        status, lines, report = self.run_all()
        self.assertEqual((status, lines[-1]), (1, "6 passed, 7 failed, 4 skipped"))
        for line in (
            "some: samples.Sample.rows/a: ok",
            "some: samples.Sample.rows/b c: FAILED",
            "some: samples.Sample.skipped: skipped, since there is no no-such-program",
            "some: samples.Sample.parts: 1 passed",
            "AssertionError: false",
            "it is wrong",
        ):
            self.assertEqual(lines.count(line), 2 if line == "AssertionError: false" else 1, line)
        assert report
        self.assertEqual(report["samples.Sample.counted"], State(PASSED, count=3))
        self.assertEqual(report["samples.Needing.any"], State(SKIPPED, "there is no no-such-program"))

    def test_chosen(self) -> None:
        rows = [
            (["Sample.rows/a"], 0, "1 passed, 0 failed, 0 skipped"),
            (["samples.Sample.rows"], 1, "1 passed, 1 failed, 0 skipped"),
            (["Needing"], 0, "0 passed, 0 failed, 1 skipped"),
            (["Sample.row"], 1, "0 passed, 0 failed, 0 skipped"),
        ]
        for words, status, line in rows:
            with self.subTest(words):
                found = self.run_all(*words)
                self.assertEqual((found[0], found[1][-1]), (status, line))

    def test_section(self) -> None:
        """All checks of a run have to be those of its section."""
        known = {"some": {"samples.Sample.well": (0, False), "samples.Sample.gone": (0, False)}}
        with mock.patch.object(floor, "sections", lambda: known):
            _, lines, _ = self.run_all(section="some")
            self.assertIn("some: samples.Sample.gone was neither made nor skipped: FAILED", lines)
            self.assertIn("some: tools/checks.txt lacks, in its section some: samples.Sample.counted*3: FAILED", lines)
            _, lines, _ = self.run_all("Sample.well", section="some")
            self.assertEqual(lines[-1], "1 passed, 0 failed, 0 skipped")

    def test_names(self) -> None:
        """A name that `tools/checks.txt` couldn't have is refused."""
        for name in ("", "a, b", "a/b", "a: b", "?a", "a*3", " a", "a\nb"):
            with self.assertRaises(AssertionError, msg=name):
                frame.each([name])(lambda: None)

    def test_commands(self) -> None:
        """Each command is a file that is there, and has a module."""
        for name, (module, _) in commands.COMMANDS.items():
            ran = kit.run([f"{kit.ROOT}/tools/{name}", "--help"])
            self.assertEqual(ran.returncode, 0, name)
            self.assertIn(f"    tools/{name}", ran.stdout)
            self.assertIn("    install ", ran.stdout)
            self.assertRegex(ran.stdout, f"(?m)^    {name} ", module)


    def test_assertions(self) -> None:
        """A Python that makes no assertions makes no checks."""
        env = {**os.environ, "PYTHONOPTIMIZE": "1"}
        ran = kit.run([f"{kit.ROOT}/tools/constants", "--check"], env=env)
        self.assertEqual((ran.returncode, ran.stdout.count("\n")), (1, 1))
        self.assertRegex(ran.stdout, "^PYTHONOPTIMIZE turns assertions off")


class Floor(unittest.TestCase):
    """The names of all checks are read and compared."""

    KNOWN = {
        "a.A.first": (0, False),
        "a.A.rows/x": (0, False),
        "a.A.rows/y": (12, False),
        "a.A.rows/z w": (0, False),
        "a.A.last": (0, True),
        "a.B.rows/x": (0, False),
        "a.B.rows/y": (0, True),
    }

    def setUp(self) -> None:
        patched = mock.patch.object(floor, "sections", lambda: floor.read(FLOOR))
        patched.start()
        self.addCleanup(patched.stop)

    def test_read(self) -> None:
        self.assertEqual(floor.read(FLOOR), {"one": self.KNOWN, "two": {"a.C.first": (0, False), **self.KNOWN}})
        self.assertEqual(floor.skippable("one"), {"a.A.last", "a.B.rows/y"})

    def test_differences(self) -> None:
        whole: dict[str, Optional[int]] = {name: count for name, (count, _) in self.KNOWN.items()}
        # What is made more or otherwise, what isn't, and what is said.
        rows: list[tuple[dict[str, Optional[int]], list[str], list[str]]] = [
            ({}, [], []),
            ({"a.A.first": None}, [], []),
            ({}, ["a.A.first"], ["a.A.first was neither made nor skipped"]),
            ({"a.A.second": 0}, ["a.A.first"], ["a.A.first was neither made nor skipped", "one: a.A.second"]),
            ({"a.A.rows/v": 7}, [], ["one: a.A.rows: v*7"]),
            ({"a.A.rows/y": 11}, [], ["a.A.rows/y made 11 comparisons, and tools/checks.txt has 12"]),
            # The parts of a check that was skipped are unknown.
            ({"a.A.rows": None}, ["a.A.rows/x", "a.A.rows/y", "a.A.rows/z w"], []),
            ({"a.A.row": None}, [], ["one: a.A.row"]),
            ({"a.A.rows": 0}, [], ["one: a.A.rows"]),
        ]
        for more, without, wanted in rows:
            made = {name: count for name, count in {**whole, **more}.items() if name not in without}
            found = [it.replace("tools/checks.txt lacks, in its section ", "") for it in floor.differences("one", made)]
            self.assertEqual(found, wanted)

    def test_lines(self) -> None:
        """What is said of names that the file lacks can be put there."""
        lines = floor.lines_of({name: count for name, (count, _) in self.KNOWN.items()})
        found = {name: count for name, (count, _) in floor.read("[one]\n" + "\n".join(lines))["one"].items()}
        self.assertEqual(found, {name: count for name, (count, _) in self.KNOWN.items()})
