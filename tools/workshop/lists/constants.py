"""Keeps every list of the named constants as the families declare them, and every list of the errors that C sees.

    tools/constants            writes the lists
    tools/constants --check    says which lists aren't as the declarations are, and which constants and published rows
                               have no partner; the exit status is 1 if there is one

A constant is one line, `pub const NAME: Type = Type(VALUE);`, in its family's module in dwarf_const_core or
dwarf_code_core. From these lines come the family's table `NAMES`, the list of values and names in specs/Type.antt, and
the names in `constants` and at the root of dwarf_read_core. If two constants have one value, the first that is declared
has the name. The header include/dwarf_constants.h and the crate for Rust have all names. The number of a family is that
of its arm in dwarf_read_c/src/families.rt; the specs and proofs that list all families follow it. A comment above each
list says that this script writes it; a new list needs one by hand.

The tables of published values, in dwarf_reader_tests, are written by hand from the published ones, to find wrong lines.
Each constant has a row there, `NAME=0xVALUE`, and each row a constant with this name and value. The tests compare the
value with the one that is compiled.

An error that a call for C returns is a row of `number_and_value` in dwarf_fault/specs/Fault.antt, with what it says on
the line above. From these rows come the arms in dwarf_fault/src/lib.rt, the numbers in include/dwarf_read.h, the names
in compare/src/question.rs, the errors in rust/src/error.rs, and the rows of the tests in C and Rust, with the texts
that dwarf_reader_tests has.
"""
import pathlib
import re
import subprocess
import sys
import textwrap
from collections.abc import Callable, Iterator

from workshop import frame, kit
from workshop.lists import errors

CRATES = pathlib.Path(kit.ROOT) / "crates"
FAMILIES = ("dwarf_const_core", "dwarf_code_core")
CONSTANT = re.compile(r"^pub const (\w+): (\w+) = \2\((.+)\);$", re.M)
TABLE = re.compile(r"(?<=^const NAMES: Names = names!\[)[^\]]*(?=\];)", re.M)
STRUCT = re.compile(r"^pub struct (\w+)\(pub (\w+)\);", re.M)
HEADER = CRATES.parent / "include" / "dwarf_constants.h"
CALLS = CRATES.parent / "include" / "dwarf_read.h"
RUST = CRATES.parent / "rust" / "src" / "constants.rs"
TESTS = CRATES / "dwarf_reader_tests" / "src" / "tests"
FAMILY_BOUNDS = CRATES / "dwarf_read_c" / "proofs" / "FamilyBounds.antt"
# A row of the tables of published values.
PUBLISHED = re.compile(r"\b(\w+)=(0x[0-9a-f]+)\b")
# The arm of a family, with its number, and the list of these numbers in the header of the calls.
ARM = re.compile(r"^ +(\d+) => (\w+)\(", re.M)
NUMBERS = re.compile(r"(?<=^/\* The families of constants\. \(Generated\.\) \*/\nenum \{\n)[^}]*", re.M)
# The families of the crate for Rust, each with its constants.
RUST_LIST = re.compile(r"(?<=^// tools/constants writes this list\.\nfamilies! \{\n).*?(?=^\})", re.M | re.S)
LISTED = re.compile(r"(?<=_names =\n).*?(?=^    \[\])", re.M | re.S)
# The name of a type's list of values and names, in its specs.
DEFINED = re.compile(r"^(\w+_names) =$", re.M)
# The lists of all families in dwarf_read_c: the imports from a crate, the families by number, and what a proof unfolds.
IMPORTED = re.compile(
    r"^use Rattle\.(\w+)\.specs\.\w+\.\{\w+_names\}\n(?:use Rattle\.\1\.specs\.\w+\.\{\w+_names\}\n)*", re.M
)
FAMILY_LIST = re.compile(r"(?<=^families =\n).*?(?=^    \[\])", re.M | re.S)
UNFOLDED = re.compile(r"(?<=^unfolding families)(?:\s+\w+_names)+", re.M)
EXPORT = re.compile(r"^(// .*\n)pub use ([\w:]+)::\{([^}]*)\};", re.M)


def value_of(text: str) -> int:
    """A value as Rust has it: a number, or a number that is shifted."""
    number, _, shift = text.partition(" << ")
    return int(number, 0) << int(shift or "0")


class Constants:
    """The constants of all families: the values and names of each type, and the names of each module, as they are
    declared. A title says of a type what its constants are of, a width is the type of its numbers, and a number is that
    of the family in the calls for C. A list is the crate and the name of the list of values and names in the specs."""

    def __init__(self) -> None:
        self.types: dict[str, list[tuple[int, str]]] = {}
        self.modules: dict[str, list[str]] = {}
        self.titles: dict[str, str] = {}
        self.widths: dict[str, str] = {}
        self.lists: dict[str, tuple[str, str]] = {}
        arms = ARM.findall((CRATES / "dwarf_read_c" / "src" / "families.rt").read_text())
        self.numbers = {kind: int(number) for number, kind in arms}
        for crate in FAMILIES:
            source = CRATES / crate / "src"
            for path in sorted(source.rglob("*.rt")):
                module = "::".join((crate, *path.relative_to(source).with_suffix("").parts))
                text = path.read_text()
                for name, kind, value in CONSTANT.findall(text):
                    self.types.setdefault(kind, []).append((value_of(value), name))
                    self.modules.setdefault(module, []).append(name)
                for kind, width in STRUCT.findall(text):
                    self.titles[kind] = text.partition("\n")[0].removeprefix("//! ").replace("`", "")
                    self.widths[kind] = width
            for path in sorted((CRATES / crate / "specs").glob("*.antt")):
                if path.stem in self.types:
                    self.lists[path.stem] = (crate, DEFINED.findall(path.read_text())[0])
        unnumbered = sorted(self.types.keys() - self.numbers.keys())
        if unnumbered:
            sys.exit(f"constants: {unnumbered[0]} has no arm in dwarf_read_c/src/families.rt")

    def all_rows(self, kind: str) -> list[tuple[int, str]]:
        """The values of a type by rising value with all names of each, in the order in which they are declared."""
        return sorted(self.types[kind], key=lambda row: row[0])

    def by_number(self) -> list[str]:
        """The types, by the numbers of their families."""
        return sorted(self.types, key=lambda kind: self.numbers[kind])

    def rows(self, kind: str) -> list[tuple[int, str]]:
        """The values of a type by rising value, each with the name that is declared first."""
        return sorted(dict(reversed(self.types[kind])).items())


def packed(words: str) -> str:
    """A list over several lines, as long as a line of code may be."""
    return textwrap.fill(words, 100, initial_indent=" " * 4, subsequent_indent=" " * 4)


def with_table(constants: Constants, text: str) -> str:
    """A module whose table `NAMES` has each name of its type."""
    kinds = {kind for _, kind, _ in CONSTANT.findall(text)}
    if len(kinds) != 1:
        return text
    names = packed(", ".join(name for _, name in constants.rows(kinds.pop())) + ",")
    return TABLE.sub(lambda _: f"\n{names}\n", text)


def with_rows(constants: Constants, kind: str, text: str) -> str:
    """A definition that lists each value and name of a type."""
    rows = (f'    (0x{value:02x}, codes "{name}") ∷\n' for value, name in constants.rows(kind))
    return LISTED.sub(lambda _: "".join(rows), text)


def with_names(constants: Constants, groups: dict[str, str]) -> Callable[[re.Match[str]], str]:
    """What writes a list of exports: groups are the modules by the comment before a list."""

    def write(found: re.Match[str]) -> str:
        comment, place, body = found.groups()
        module = place if place in constants.modules else groups.get(comment, "")
        names = constants.modules.get(module, [])
        old = re.findall(r"\w+", body)
        others = [name for name in old if not re.match(r"(DW|GDB)_", name)]
        if not names or {*old} == {*names, *others}:
            return found[0]
        return f"{comment}pub use {place}::{{{', '.join([*names, *others])}}};"

    return write


def rows_of(constants: Constants, kind: str, indent: int) -> str:
    """The names and values of a type over several lines, each row on one of them."""
    rows = ", ".join(f"{name}\0=\0{value:#04x}" for value, name in constants.all_rows(kind))
    lines = textwrap.fill(rows, 100, initial_indent=" " * indent, subsequent_indent=" " * indent)
    return lines.replace("\0", " ")


def header(constants: Constants) -> str:
    """The header for C. Each type is an enumeration, by rising value, with all names of a value."""
    text = """\
/*
 * The numbers of DWARF by their names, as the published tables have them. tools/constants writes this file from
 * the declarations of the library.
 *
 * Another header that declares these names, such as the dwarf.h of elfutils, can't be included together with this one.
 */
#ifndef DWARF_CONSTANTS_H
#define DWARF_CONSTANTS_H
"""
    for kind in sorted(constants.types, key=lambda it: constants.titles[it]):
        text += f"\n/* {constants.titles[kind]} */\nenum {{\n{rows_of(constants, kind, 4)}\n}};\n"
    return text + "\n#endif\n"


def with_numbers(constants: Constants, text: str) -> str:
    """The header of the calls, with the numbers of the families."""
    rows = []
    for kind in constants.by_number():
        words = re.findall(r"[A-Z][a-z0-9]*", kind.removeprefix("Dw"))
        # `SectV2` is `SECT_V2`, as in the names of its constants.
        rows.append((f"DWARF_FAMILY_{'_'.join(words).upper()} = {constants.numbers[kind]}", constants.titles[kind]))
    width = max(len(row) for row, _ in rows) + 1
    lines = []
    for row, title in rows:
        comma = "" if row == rows[-1][0] else ","
        lines.append(f"    {row + comma:{width}} /* {title.rstrip('.')} */\n")
    return NUMBERS.sub(lambda _: "".join(lines), text)


def with_families(constants: Constants, text: str) -> str:
    """The module of the crate for Rust, with all families and their constants."""
    blocks = []
    for kind in constants.by_number():
        lines = rows_of(constants, kind, 8)
        head = f"{kind}({constants.widths[kind]}) = {constants.numbers[kind]}"
        blocks.append(f"    /// {constants.titles[kind]}\n    {head} {{\n{lines}\n    }}\n")
    return RUST_LIST.sub(lambda _: "".join(blocks), text)


def imports(constants: Constants, crate: str) -> str:
    """Imports of a crate's lists of values and names, by their types."""
    lists = sorted((kind, name) for kind, (place, name) in constants.lists.items() if place == crate)
    return "".join(f"use Rattle.{crate}.specs.{kind}.{{{name}}}\n" for kind, name in lists)


def answers(constants: Constants, crate: str) -> str:
    """The proof that no list of a crate has a value twice."""
    text = "-- The values of each list rise, so no value occurs twice. tools/constants writes this file.\n"
    text += "use Rattle.std.proofs.Common.{refl}\n" + imports(constants, crate)
    text += "use Rattle.dwarf_const_core.proofs.public.Search.{distinct_from_rising}\n"
    text += f"use Rattle.{crate}.proofs.laws.names_are_distinct.Goals as goal\n"
    for name in sorted(name for place, name in constants.lists.values() if place == crate):
        goal = f"returns-clause-{name.removesuffix('_names')}"
        text += f"\npub {goal} : goal.{goal}\nunfolding {name}\n{goal} c = distinct_from_rising {name} refl\n"
    return text


def with_lists(constants: Constants, text: str) -> str:
    """A spec or proof of dwarf_read_c with the lists of all families."""
    lists = [constants.lists[kind][1] for kind in constants.by_number()]
    rows = "".join(f"    ({number}, {name}) ∷\n" for number, name in enumerate(lists, 1))
    unfolded = textwrap.fill("unfolding families " + " ".join(lists), 119, subsequent_indent=" " * 4)
    text = IMPORTED.sub(lambda found: imports(constants, found[1]), text)
    text = FAMILY_LIST.sub(lambda _: rows, text)
    return UNFOLDED.sub(lambda _: unfolded.removeprefix("unfolding families"), text)


def files(constants: Constants) -> Iterator[tuple[pathlib.Path, str]]:
    """Each file that has a list, with the text that it should have."""
    for crate in FAMILIES:
        for path in sorted((CRATES / crate / "src").rglob("*.rt")):
            yield path, with_table(constants, path.read_text())
        for path in sorted((CRATES / crate / "specs").glob("*.antt")):
            if path.stem in constants.types:
                yield path, with_rows(constants, path.stem, path.read_text())
        yield CRATES / crate / "proofs" / "laws" / "names_are_distinct" / "Answers.antt", answers(constants, crate)
    for path in (CRATES / "dwarf_read_c" / "specs" / "Families.antt", FAMILY_BOUNDS):
        yield path, with_lists(constants, path.read_text())
    exports = CRATES / "dwarf_read_core" / "src"
    groups = {comment: place for comment, place, _ in EXPORT.findall((exports / "constants.rt").read_text())}
    for name in ("constants.rt", "lib.rt"):
        path = exports / name
        yield path, EXPORT.sub(with_names(constants, groups), path.read_text())
    yield HEADER, header(constants)
    yield CALLS, with_numbers(constants, CALLS.read_text())
    yield RUST, with_families(constants, RUST.read_text())
    yield from errors.files()


def unpaired(constants: Constants) -> list[str]:
    """A line for each constant that no published row names with its value, and for each row without a constant."""
    declared = {(name, value) for rows in constants.types.values() for value, name in rows}
    folders = [TESTS / it.removeprefix("dwarf_") for it in FAMILIES]
    paths = [path for it in folders for path in (it.with_suffix(".rt"), *sorted(it.glob("*.rt")))]
    published = {(name, int(value, 0)) for it in paths for name, value in PUBLISHED.findall(it.read_text())}
    sides = (
        (declared - published, "declared, and in no table of dwarf_reader_tests"),
        (published - declared, "in a table of dwarf_reader_tests, and not declared"),
    )
    return [f"{name}=0x{value:02x}: {what}" for rows, what in sides for name, value in sorted(rows)]


def stale(constants: Constants) -> list[tuple[pathlib.Path, str]]:
    """The files that aren't as declared, each with the text that it should have."""
    return [(path, text) for path, text in files(constants) if not path.is_file() or path.read_text() != text]


class Lists(frame.Check):
    """The lists are as the constants are declared, and each constant is as it is published."""

    def test_files(self) -> None:
        names = [str(path.relative_to(CRATES.parent)) for path, _ in stale(Constants())]
        self.assertEqual(names, [], "not as declared")

    def test_published(self) -> None:
        self.assertEqual(unpaired(Constants()), [])


CHECKS = [Lists]


def main(words: list[str]) -> int:
    if words == ["--check"]:
        return frame.check("constants", CHECKS, section="constants")
    if words:
        return frame.usage(__doc__)
    written = stale(Constants())
    for path, text in written:
        print(f"{path.relative_to(CRATES.parent)}: written")
        path.write_text(text)
    for crate in sorted({path.relative_to(CRATES).parts[0] for path, _ in written if CRATES in path.parents}):
        subprocess.run(["rt", "fmt"], cwd=CRATES / crate, check=True)
    return 0
