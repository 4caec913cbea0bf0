"""Tests that what CONTRIBUTING lists before a release was run over the code that is released."""
import re

from workshop import frame, kit
from workshop.compare import measured

# A row of the list: a command, the date of its last run, and the commit that was compared. The last row leaves both to
# the file of measurements, whose sections begin with them.
ROW = re.compile(r"^\| `(tools/compare [^`]*)` \| .* \| (\d{4}-\d\d-\d\d), ([0-9a-f]{8}) \|$", re.M)
RUN = re.compile(r"^(\d{4}-\d\d-\d\d), ([0-9a-f]{8}(?:-dirty)?); ", re.M)
# The crates whose code is compared and measured, with those below them.
COMPARED = ("dwarf_compare", "dwarf_read_c", "dwarf_list")
CODE = sorted({f"crates/{it}/src" for top in COMPARED for it in (*kit.below(top), top)} | {"compare/src", "rust/src"})


def runs(page: str, file: str) -> dict[str, tuple[str, str]]:
    """The date and the commit of each command that a page and a file of measurements with these texts tell."""
    found = {command: (date, commit) for command, date, commit in ROW.findall(page)}
    return {**found, **{f"tools/compare {it}": RUN.findall(said)[0] for it, said in measured.SECTION.findall(file)}}


def is_older(commit: str, paths: list[str]) -> bool:
    """Whether these paths were changed after a commit."""
    return kit.run(["git", "diff", "--quiet", commit, "--", *paths], cwd=kit.ROOT).returncode != 0


def older(found: dict[str, tuple[str, str]]) -> list[str]:
    """The commands whose runs are older than the code."""
    return [it for it, (_, commit) in found.items() if is_older(commit, CODE)]


@frame.needs("git")
class Release(frame.Check):
    """What was run before a release, and over which commits."""

    def setUp(self) -> None:
        super().setUp()
        if kit.run(["git", "rev-parse", "--is-shallow-repository"], cwd=kit.ROOT).stdout.strip() != "false":
            frame.skip("this is no checkout of git that has all commits")
        page, file = (kit.text_of(it) for it in (f"{kit.ROOT}/CONTRIBUTING.md", measured.FILE))
        self.runs = runs(page, file)
        rows = re.findall(r"^(?:\| `|## `)tools/compare ", page + file, re.M)
        self.assertEqual(len(self.runs), len(rows))

    def test_commits(self) -> None:
        """Each row names a commit before this one, made at the day of the run or before it."""
        for command, (date, commit) in self.runs.items():
            before = kit.run(["git", "merge-base", "--is-ancestor", commit, "HEAD"], cwd=kit.ROOT)
            made = kit.run(["git", "show", "--no-patch", "--format=%as", commit], cwd=kit.ROOT)
            self.assertEqual(before.returncode, 0, f"{command}: no commit {commit}")
            self.assertLessEqual(made.stdout.strip(), date, command)

    def test_runs(self) -> None:
        """A version that has a date is released: then no run is older than the code."""
        dates = dict(re.findall(r"^\| (\d+\.\d+\.\d+) \| (.*?) ?\|$", kit.text_of(f"{kit.ROOT}/CHANGELOG.md"), re.M))
        self.assertIn(kit.VERSION, dates)
        if dates[kit.VERSION]:
            self.assertEqual(older(self.runs), [], "older than the code: run these again")

    def test_older(self) -> None:
        self.assertFalse(is_older("HEAD", ["LICENSE-MIT"]))
        first = kit.run(["git", "rev-list", "--max-parents=0", "HEAD"], cwd=kit.ROOT).stdout.split()[0]
        self.assertTrue(is_older(first, CODE))
        self.assertTrue(is_older("HEAD-dirty", CODE))
        self.assertEqual(older({"tools/compare growth": ("2026-11-24", first)}), ["tools/compare growth"])
