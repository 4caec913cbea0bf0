"""Times `dwarf_list`, a plain program over gimli and the readers of binutils and LLVM, on large sections."""
import argparse
import filecmp
import os
import shutil
import statistics
import subprocess
import tempfile
from collections.abc import Iterator
from typing import NamedTuple, Optional

from workshop import kit
from workshop.compare.common import Failed, build, must, say
from workshop.compare.measure import what_ran
from workshop.compare.measured import table, tell

BYTES = 20_000_000
TURNS = 9


class Listing(NamedTuple):
    """What is listed: its name, what is made, the words for dwarf_list and for the plain program, the section's name,
    and the words for readelf and llvm-dwarfdump if they print the same things."""

    name: str
    made: str
    ours: str
    plain: str
    section: str
    readelf: Optional[str]
    dwarfdump: Optional[str]


ABBREV = ("debug_abbrev", "--debug-dump=abbrev", "--debug-abbrev")
LISTINGS = [
    Listing("`abbrev`, codes that rise from 1", "rising", "abbrev 0", "abbrev 0 1", *ABBREV),
    Listing("`abbrev`, codes that rise with gaps", "gaps", "abbrev 0", "abbrev 0 4294967297", *ABBREV),
    Listing("`addr`", "addresses", "addr le", "addr", "debug_addr", None, "--debug-addr"),
    Listing("`str`, one string of 20 MB", "string", "str 0", "str 0", "debug_str", "-p .debug_str", "--debug-str"),
    Listing("`str`, a short string at the front", "strings", "str 0", "str 0", "debug_str", None, None),
]
# The processor seconds of each turn of a side, and the megabytes that it had.
Found = dict[str, list[tuple[float, float]]]


def ran(words: list[str], given: str, to: str) -> tuple[float, float]:
    """The processor seconds of a program, and the most megabytes that it had."""
    with open(given, "rb") as source, open(to, "wb") as target:
        child = subprocess.Popen(words, stdin=source, stdout=target, stderr=subprocess.DEVNULL)
        _, status, used = os.wait4(child.pid, 0)
        child.returncode = os.waitstatus_to_exitcode(status)
    if child.returncode:
        raise Failed(f"{' '.join(words)} ended with status {child.returncode}")
    return used.ru_utime + used.ru_stime, used.ru_maxrss * 1024 / 1e6


def elf_with(section: str, given: str, work: str) -> str:
    """An object file that has a section of these bytes."""
    empty = f"{work}/empty.o"
    path = f"{work}/section.o"
    must(["gcc", "-c", "-x", "c", "/dev/null", "-o", empty], "an empty object isn't made")
    must(["objcopy", "--add-section", f".{section}={given}", empty, path], "an object with a section isn't made")
    return path


def sides(program: str, listing: Listing, given: str, work: str) -> Iterator[tuple[str, list[str]]]:
    """What is run of a listing: names and words."""
    yield "here", [f"{kit.ROOT}/program/out/dwarf_list", *listing.ours.split()]
    yield "gimli", [os.path.join(os.path.dirname(program), "plain_list"), *listing.plain.split()]
    path = elf_with(listing.section, given, work)
    for tool, words in (("readelf", listing.readelf), ("llvm-dwarfdump", listing.dwarfdump)):
        if words and shutil.which(tool):
            yield tool, [tool, *words.split(), path]


def time_all(listing: Listing, program: str, work: str) -> Found:
    """The times and memory of all programs on one listing."""
    given = f"{work}/given"
    must([program, "--make", listing.made, str(BYTES), given], "the section isn't made")
    chosen = dict(sides(program, listing, given, work))
    for side in ("here", "gimli"):
        ran(chosen[side], given, f"{work}/{side}")
    if not filecmp.cmp(f"{work}/here", f"{work}/gimli", shallow=False):
        raise Failed(f"{listing.name}: dwarf_list and the plain program print different texts")
    found: Found = {}
    for turn in range(TURNS):
        turns = list(chosen.items())
        if turn % 2 == 0:
            turns.reverse()
        for side, words in turns:
            if side in ("here", "gimli") or turn < 3:
                found.setdefault(side, []).append(ran(words, given, os.devnull))
    return found


def cell_of(side: str, found: Found) -> str:
    """The median time and memory of a side. The cell is empty if it wasn't run."""
    if side not in found:
        return ""
    times, memory = zip(*found[side])
    return f"{statistics.median(times):.2f} s, {statistics.median(memory):.0f} MB"


def row_of(name: str, found: Found) -> str:
    """A row of the table."""
    ratios = sorted(here[0] / gimli[0] for here, gimli in zip(found["here"], found["gimli"]))
    low, middle, high = (ratios[(len(ratios) - 1) * part // 4] for part in (1, 2, 3))
    cells = [name, cell_of("gimli", found), cell_of("here", found), f"{middle:.2f}", f"{low:.2f} to {high:.2f}"]
    cells += [cell_of("readelf", found), cell_of("llvm-dwarfdump", found)]
    return f"| {' | '.join(cells)} |"


def program(given: argparse.Namespace) -> int:
    """Prints the table."""
    must([f"{kit.ROOT}/dwarf_list", "--path"], "dwarf_list isn't built")
    built = build(given.debian)
    for tool, package in (("readelf", "binutils"), ("llvm-dwarfdump", "llvm")):
        if not shutil.which(tool):
            say(f"{tool} is left out: `apt-get install {package}` installs it")
    heads = ["listing", "gimli", "here", "ratio", "middle half", "readelf", "llvm-dwarfdump"]
    with tempfile.TemporaryDirectory(prefix="compare-") as work:
        rows = [row_of(it.name, time_all(it, built, work)) for it in LISTINGS]
    return tell(given, "program", what_ran(built), table(heads, rows))
