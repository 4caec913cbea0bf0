"""Runs the worked cases of dwarf_list, which are data, and compares what it prints.

    tools/cases               by ./dwarf_list if its assembler file is of these sources, or by an unproved program
    tools/cases --built       by ./dwarf_list

The cases are in crates/dwarf_list/cases, in blocks for a console. A line that begins with `$ dwarf_list` is a run with
these arguments, quoted as for a shell, and after `<` with these bytes of standard input, in hexadecimal. Lines that
begin with `> ` continue it. What follows is what the run prints, to standard output, or to standard error if its
status isn't 0. Each line ends with a newline, the last one too. A byte that isn't ASCII is written `\\xff`, and ` ...`
is any rest of a line. The last line of a run is its exit status in brackets, if that isn't 0.

Each case that fails is printed with what came. The last line is `N passed, M failed, K skipped`. The exit status is 0
if nothing failed, 1 if a case did or the program can't be run, and 2 for a wrong command line.
"""
import glob
import os
import re
import shlex
import subprocess
import sys
from collections import Counter
from collections.abc import Iterable
from dataclasses import dataclass, field

from workshop import frame, kit
from workshop.code import assembler, products, unproved

CRATE = "dwarf_list"
RUN = re.compile(rf"\$ {CRATE}(?: (.*))?")
STATUS = re.compile(r"\[(\d+)\]")
FOLDER = f"{kit.ROOT}/crates/{CRATE}/cases"
FILES = sorted(os.path.basename(it).removesuffix(".md") for it in glob.glob(f"{FOLDER}/*.md"))
# How much of an input is in the name of a case.
SHOWN = 47


@dataclass
class Case:
    """A run of the program, and what it has to print."""

    place: str
    command: str
    lines: list[str] = field(default_factory=list)
    status: int = 0

    def words(self) -> list[str]:
        return shlex.split(self.command.partition("<")[0])

    def input(self) -> bytes:
        return bytes.fromhex(self.command.partition("<")[2])

    def is_met(self, output: bytes, error: bytes, status: int) -> bool:
        """Whether the program printed what it has to."""
        printed, other = (error, output) if self.status else (output, error)
        if other or status != self.status or printed and not printed.endswith(b"\n"):
            return False
        found = lines_of(printed)
        return len(found) == len(self.lines) and all(map(is_like, found, self.lines))


def lines_of(printed: bytes) -> list[str]:
    return printed.decode("ascii", "backslashreplace").removesuffix("\n").split("\n") if printed else []


def is_like(found: str, wanted: str) -> bool:
    return found.startswith(wanted[:-3]) if wanted.endswith(" ...") else found == wanted


def cases_of(path: str) -> list[Case]:
    """The cases of a file. A line that is of none ends the run."""
    found: list[Case] = []
    is_open = False
    for number, line in enumerate(kit.text_of(path).splitlines(), 1):
        place = f"{os.path.relpath(path, kit.ROOT)}:{number}"
        run = RUN.fullmatch(line)
        status = STATUS.fullmatch(line)
        last = found[-1] if found else None
        if line.startswith("```"):
            is_open = line == "```console"
        elif is_open and run:
            found.append(Case(place, run[1] or ""))
        elif is_open and not last:
            sys.exit(f"cases: {place}: this line is of no run")
        elif is_open and last and line.startswith("> ") and not last.lines:
            last.command += line[1:]
        elif is_open and last and status:
            last.status = int(status[1])
        elif is_open and last:
            last.lines.append(line)
    return found


def all_cases() -> list[Case]:
    return [it for name in FILES for it in cases_of(f"{FOLDER}/{name}.md")]


def run(case: Case, *program: str) -> tuple[bytes, bytes, int]:
    """What a program prints to both outputs in a case, and its status."""
    words = [*program, *case.words()]
    ran = subprocess.run(words, input=case.input(), capture_output=True, timeout=60, check=False)
    return ran.stdout, ran.stderr, ran.returncode


def names_of(cases: Iterable[Case]) -> list[str]:
    """The names of the cases of a file: the command of each, whose input is cut if it is long, and its number if there
    are more of the same."""
    counts: Counter[str] = Counter()
    found = []
    for it in cases:
        words, _, given = re.sub("[,:/]", "_", it.command).partition("<")
        given = " ".join(given.split())
        short = f"{given[:SHOWN]}.. {len(it.input())} bytes" if len(given) > SHOWN + 9 else given
        name = f"{words.strip() or 'no words'} < {short}".removesuffix(" < ")
        counts[name] += 1
        found.append(name if counts[name] == 1 else f"{name} again {counts[name]}")
    return found


@frame.once
def program(is_built: bool) -> str:
    """Where the program is that runs the cases."""
    if not is_built and not assembler.are_of(CRATE, products.code_of(CRATE)):
        print("cases: the sources changed, so the program is built of them, unproved", flush=True)
        found = unproved.build_once(CRATE)
        assert found, f"no {CRATE} is built"
        return found
    return frame.must([f"{kit.ROOT}/{CRATE}", "--path"], stderr=None).strip()


class Cases(frame.Check):
    """Each case of a file is a part."""

    is_built = False

    @frame.each(FILES)
    @frame.needs("cc")
    def test_file(self, name: str) -> None:
        cases = cases_of(f"{FOLDER}/{name}.md")
        at = program(self.is_built)
        for label, case in zip(names_of(cases), cases):
            came = run(case, at)
            self.part(label, case.is_met(*came), what_came(case, came))


def what_came(case: Case, came: tuple[bytes, bytes, int]) -> str:
    """What a case says that isn't met."""
    lines = [*lines_of(came[0]), *lines_of(came[1]), f"[{came[2]}]"]
    return "\n".join([f"{case.place}: {CRATE} {case.command}", "  prints", *(f"    {it}" for it in lines)])


CHECKS = [Cases]


def main(words: list[str]) -> int:
    if words not in ([], ["--built"]):
        return frame.usage(__doc__)
    Cases.is_built = bool(words)
    return frame.check("cases", CHECKS, section="cases")
