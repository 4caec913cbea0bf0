"""Runs the tests that this machine allows, and checks the types of the scripts.

    tools/tests              all of them
    tools/tests CRATE..      the tests of these crates in Rattle
    tools/tests scripts      those of the scripts and pages; the names of some may follow

Without the Rattle kit these are the worked cases of dwarf_list, the example and the tests in C, the tests of the crate
for Rust and of dwarf_elf, and those of the scripts. They run the proved code that the repository has as assembler
files. With the kit, the tests of each crate in Rattle run too. Nothing is proved: the sources are compiled with checks
(`code/unproved.py`). A test fails if a value isn't the expected one, and in Rattle also at an index out of bounds, an
overflow or a bad access. That each function meets its contract on every input is what `tools/gate` shows.

They run side by side. A line is printed for each group of tests, and what a failed one printed. The types of all
scripts are one check, by tools/mypy.ini. What a missing program leaves out is named and counted as skipped. The last
line is `N passed, M failed, K skipped`. The exit status is 0 if nothing failed, 1 if a test did, and 2 for a wrong
command line.
"""
import glob
import importlib
import os
import re
from collections import Counter

from workshop import frame, kit
from workshop.checks import c, cases
from workshop.code import unproved

# What one run takes of memory, the compiler included.
TRY_BYTES = 2_000_000_000
# Debian's crates.
REGISTRY = "/usr/share/cargo/registry"
# A test of Rattle or Rust, and whether it passed. Those of a page have the number of a line. Before the tests of a file
# cargo names it.
TEST = re.compile(
    r"^ +(?:Running|Doc-tests) (?:unittests )?(?P<file>\S+).*$"
    r"|^test (?P<name>\S.*?)(?: \(line \d+\))?(?: - should panic| - compile)? \.\.\. (?P<state>\w+)",
    re.M,
)


def tested(said: str) -> list[tuple[str, bool]]:
    """The tests that a runner names, and whether each passed."""
    file = ""
    counts: Counter[str] = Counter()
    found = []
    for it in TEST.finditer(said):
        if it["file"]:
            file = f"{os.path.basename(it['file'])} "
            continue
        name = file + it["name"].replace("/", ".")
        counts[name] += 1
        found.append((name if counts[name] == 1 else f"{name} again {counts[name]}", it["state"] == "ok"))
    return found


class OfProgram(frame.Check):
    """Tests that another program runs."""

    def judge(self, ran: kit.Finished) -> None:
        """Reports each test that a run names as a part. The run has to end well."""
        for name, is_well in tested(ran.stdout):
            self.part(name, is_well)
        assert ran.returncode == 0 and self.parts, f"status {ran.returncode}:\n{ran.stdout}"


class Rattle(OfProgram):
    """The tests of each crate in Rattle, unproved."""

    @frame.each(sorted((it for it in kit.CRATES if kit.tests_in(it)), key=lambda it: -kit.tests_in(it)))
    @frame.needs("rt")
    def test_crate(self, crate: str) -> None:
        self.judge(unproved.test(crate))


@frame.needs("cargo")
class Rust(OfProgram):
    """The tests of the crate for Rust and of dwarf_elf, which is built with Debian's crates or those of the network."""

    def test_crate(self) -> None:
        self.judge(kit.run(["cargo", "test", "--offline", "--manifest-path", "rust/Cargo.toml"], cwd=kit.ROOT))

    def test_dwarf_elf(self) -> None:
        words = ["cargo", "test", "--locked", "--manifest-path", "elf/Cargo.toml"]
        self.judge(kit.run(["elf/offline", "test"] if os.path.isdir(REGISTRY) else words, cwd=kit.ROOT))


class Scripts(frame.Check):
    """The types of the scripts, and their tests, which run alone, since they replace parts of modules."""

    @frame.needs("mypy")
    def test_types(self) -> None:
        words = ["mypy", "--config-file", "tools/mypy.ini", "-p", "workshop"]
        self.assertRegex(self.must(words, cwd=kit.ROOT), r"^Success: no issues found in \d+ source files")

    def test_tests(self) -> None:
        report = f"{self.work}/report"
        ran = kit.run([f"{kit.ROOT}/tools/tests", "scripts", "--report", report], cwd=kit.ROOT)
        self.parts = frame.read_report(report) or {}
        assert ran.returncode == 0 and self.parts, ran.stdout


def script_tests() -> list[object]:
    """The modules with tests of scripts."""
    files = sorted(glob.glob(f"{os.path.dirname(__file__)}/script_tests/test_*.py"))
    names = [os.path.basename(it).removesuffix(".py") for it in files]
    return [importlib.import_module(f"workshop.script_tests.{it}") for it in names]


CHECKS = [Rattle, Rust, *cases.CHECKS, *c.SHORT, Scripts]


def main(words: list[str]) -> int:
    unknown = [it for it in words if it not in kit.CRATES or not kit.tests_in(it)]
    if words[:1] == ["scripts"]:
        return frame.check("tests", script_tests(), words[1:], lanes=1)
    if unknown:
        return frame.usage(__doc__, f"tests: no crate with tests: {' '.join(unknown)}")
    if words:
        return frame.check("tests", [Rattle], [f"Rattle.crate/{it}" for it in words])
    return frame.check("tests", CHECKS, section="tests", lanes=kit.lanes(TRY_BYTES))
