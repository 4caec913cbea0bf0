"""Compares the named constants with the tables that gimli, elfutils and LLVM publish."""
import argparse
import glob
import re

from workshop import frame, kit
from workshop.lists import constants

HEADER = f"{kit.ROOT}/include/dwarf_constants.h"
COMMENT = re.compile(r"/\*.*?\*/|//[^\n]*", re.S)
NAME = re.compile(r"\bDW_\w+")
# An enumerator, of which a line may have several, or a macro. The value is a number, which may be shifted, or another
# name.
ENUMERATOR = re.compile(
    r"\b(DW_\w+)\s*=\s*(\w+(?:\s*<<\s*\d+)?)|^[ \t]*#[ \t]*define[ \t]+(DW_\w+)[ \t]+(\w+)[ \t]*$", re.M
)
# The arguments of a macro: a value, and the name after that of the family. Some values hold only for one
# machine, which the family's name tells.
HANDLED = re.compile(r"^HANDLE_(DW_[A-Z_]+?)(?:_PRED)?\((\w+),\s*(\w+)", re.M)


# The names of a table, each with its value as a text.
Rows = list[tuple[str, str]]


def of_enumerators(text: str) -> Rows:
    """The names of a header in C, and their values as texts."""
    found = ENUMERATOR.findall(COMMENT.sub("", text))
    return [(name or macro, value or of_macro) for name, value, macro, of_macro in found]


def of_macros(text: str) -> Rows:
    """The same of LLVM's list."""
    return [(f"{family}_{name}", value) for family, value, name in HANDLED.findall(COMMENT.sub("", text))]


# Each table: where it is, the package of Debian's that has it, and what reads it.
TABLES = {
    "gimli": ("/usr/share/cargo/registry/gimli-*/src/constants.rs", "librust-gimli-dev", of_enumerators),
    "elfutils": ("/usr/include/dwarf.h", "libdw-dev", of_enumerators),
    "LLVM": ("/usr/include/llvm-*/llvm/BinaryFormat/Dwarf.def", "llvm-14-dev", of_macros),
}


def number(text: str) -> int:
    """A number as C or Rust has it."""
    first, _, shift = text.partition("<<")
    digits = first.strip().rstrip("uUlL")
    return int(digits, 8 if re.match(r"0\d", digits) else 0) << int(shift or 0)


def values(rows: Rows) -> dict[str, set[int]]:
    """The values of each name. One may be another name that is defined before it."""
    found: dict[str, set[int]] = {}
    for name, value in rows:
        own = {number(value)} if value[0].isdigit() else found.get(value, set())
        found.setdefault(name, set()).update(own)
    return found


def header() -> dict[str, set[int]]:
    """The names of the header, with their values."""
    return values(of_enumerators(kit.text_of(HEADER)))


def table(producer: str) -> dict[str, set[int]]:
    """The names of the newest table that is here, with their values. Without one the check is skipped."""
    place, package, read = TABLES[producer]
    files = sorted(glob.glob(place), key=lambda it: [int(part) for part in re.findall(r"\d+", it)])
    if not files:
        frame.skip(f"there is no {place}: `apt-get install {package}` installs it")
    return values(read(kit.text_of(files[-1])))


class Published(frame.Check):
    """Each constant has the value that gimli, elfutils and LLVM publish, if they have its name."""

    def test_names(self) -> None:
        """All names of the header are read."""
        text = COMMENT.sub("", kit.text_of(HEADER))
        self.assertEqual(sorted(set(NAME.findall(text)) - header().keys()), [])
        declared = {it for names in constants.Constants().modules.values() for it in names if it.startswith("DW_")}
        self.assertEqual(sorted(declared ^ header().keys()), [])
        known = {it for producer in TABLES if glob.glob(TABLES[producer][0]) for it in table(producer)}
        self.note = f"{len(header())} constants, {len(header().keys() - known)} in no table that is here"

    @frame.each(TABLES)
    def test_values(self, producer: str) -> None:
        there, here = table(producer), header()
        both = here.keys() & there.keys()
        other = {it: (sorted(here[it]), sorted(there[it])) for it in both if there[it] != here[it]}
        self.assertEqual(other, {}, "values here, and there")
        # Each has some four names of five. A table that isn't read has none.
        self.assertGreater(len(both), len(here) * 3 // 4)
        self.note = f"{len(both)} names equal, {len(here.keys() - both)} only here, {len(there.keys() - both)} only there"


def compare(_given: argparse.Namespace) -> int:
    """Compares all tables that are here, and returns the exit status."""
    return frame.check("compare", [Published], section="published")
