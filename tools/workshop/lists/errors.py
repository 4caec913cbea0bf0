"""Keeps every list of the errors that calls for C return as crates/dwarf_fault/specs/Fault.antt has them.

Its rows have the errors by their numbers. Above each is what the error says, in parts that semicolons separate; the
last part may say that no call returns it. The types of values are those of the declaration in dwarf_base_core. The
texts are those of the table in dwarf_reader_tests, which is written by hand.
"""
import pathlib
import re
import sys
import textwrap
from collections.abc import Iterable, Iterator
from typing import NamedTuple

from workshop import kit

ROOT = pathlib.Path(kit.ROOT)
CRATES = ROOT / "crates"
ROWS = CRATES / "dwarf_fault" / "specs" / "Fault.antt"
MATCHES = CRATES / "dwarf_fault" / "src" / "lib.rt"
DECLARED = CRATES / "dwarf_base_core" / "src" / "error.rt"
TEXTS = CRATES / "dwarf_reader_tests" / "src" / "tests" / "base_core" / "errors.rt"
HEADER = ROOT / "include" / "dwarf_read.h"
C_TEST = ROOT / "tests" / "c" / "dwarf_bounds.c"
COMPARER = ROOT / "compare" / "src" / "question.rs"
RUST = ROOT / "rust" / "src" / "error.rs"
# A row: what the error says, its name, the name of its value, and its number.
ROW = re.compile(r"^((?:-- .*\n)+)number_and_value \(?([A-Z]\w*)(?: (\w+))?\)? = \((\d+), ", re.M)
# An error where it is declared, with the type of its value; and a struct of one number, with the type of the number.
VARIANT = re.compile(r"^    (\w+)(?:\((\w+)\))?,$", re.M)
STRUCT = re.compile(r"^pub struct (\w+)\(pub (\w+)\);", re.M)
# A row of the table of texts: an error, its value if it has one, and the text.
TEXT = re.compile(r'\(\s*([A-Z]\w*)(?:\((?:\w+\()?(\w+)\)?\))?,\s*("[^"]*"),?\s*\),')
# What the last part of an error's words may be: that no call returns it, and that none for C does.
UNRETURNED = ("no call returns it", "no call for C returns it")


class Error(NamedTuple):
    """An error: its number and name, what it says, the name of its value in code, the type of the value, the type of
    that value's number, and a value with the text that then is written. An error without a value has no types."""

    number: int
    name: str
    parts: list[str]
    value: str
    kind: str
    width: str
    sample: str
    text: str

    def said(self) -> list[str]:
        """What the error says, without whether a call returns it."""
        return [it for it in self.parts if it not in UNRETURNED]

    def in_c(self) -> str:
        """Its name in the header: `BadUtf8` is `DWARF_BAD_UTF8`."""
        return "_".join(["DWARF", *re.findall(r"[A-Z][a-z0-9]*", self.name)]).upper()

    def of(self, number: str) -> str:
        """The error with this value, as code has it."""
        if not self.kind:
            return f"Error::{self.name}"
        return f"Error::{self.name}({number if self.kind == self.width else f'{self.kind}({number})'})"


def errors(rows: str) -> list[Error]:
    """The errors by their numbers, of a specification with this text."""
    structs = [it for crate in ("base", "code", "const") for it in (CRATES / f"dwarf_{crate}_core").rglob("*.rt")]
    widths = {kind: width for it in structs for kind, width in STRUCT.findall(it.read_text())}
    declared = DECLARED.read_text().partition("\npub enum Error {\n")[2].partition("\n}")[0]
    kinds = dict(VARIANT.findall(declared))
    texts = {name: (value or "0", text) for name, value, text in TEXT.findall(TEXTS.read_text())}
    found = []
    for said, name, value, number in ROW.findall(rows):
        if name not in kinds or name not in texts:
            sys.exit(f"constants: {name} is no error of dwarf_base_core, or dwarf_reader_tests has no text of it")
        parts = " ".join(it.removeprefix("-- ") for it in said.splitlines()).split("; ")
        kind = kinds[name]
        found.append(Error(int(number), name, parts, value, kind, widths.get(kind, kind), *texts[name]))
    # The last row is that of all other errors.
    if [it.number for it in found] != [*range(1, rows.count("\nnumber_and_value "))]:
        sys.exit(f"constants: the rows of {ROWS.relative_to(ROOT)} aren't numbered from 1 on, or one has no words")
    return found


def lines(rows: Iterable[str], indent: int) -> str:
    """Rows with this indent, each on a line."""
    return "".join(f"{' ' * indent}{it}\n" for it in rows)


def numbered(it: Error) -> str:
    """The arm that says the number and the value of an error."""
    number = "0" if not it.kind else it.value if it.width == "u64" else f"u64::from({it.value})"
    return f"{it.of(it.value)} => ({it.number}, {number}),"


def named(it: Error) -> str:
    """The arm that says the error of a number and a value."""
    return f"{it.number} => {it.of('value' if it.width == 'u64' else f'{it.width}::try_from(value).ok()?')},"


def enumerators(found: list[Error]) -> str:
    """The errors in the header. Those that no call for C returns are last."""
    start = max(len(f"    {it.in_c()} = {it.number}, ") for it in found)
    groups = ["", "    /* No call here returns these. dwarf_fault_text has their texts. */\n"]
    for it in found:
        said = textwrap.wrap("; ".join(it.said()), 119 - start - len("/*  */"))
        comment = f"\n{' ' * (start + 3)}".join(said)
        groups[it.parts[-1] in UNRETURNED] += f"    {it.in_c()} = {it.number},".ljust(start) + f"/* {comment} */\n"
    return "\n".join([*groups, ""])


def variant(it: Error) -> str:
    """An error of the crate for Rust, with its comment."""
    said = [*it.said(), *(["no call here returns this"] if it.parts[-1] == UNRETURNED[0] else [])]
    comment = " ".join(f"{part[0].upper()}{part[1:]}." for part in said)
    rows = textwrap.wrap(comment, 100, initial_indent="    /// ", subsequent_indent="    /// ")
    return "\n".join([*rows, f"    {it.name},\n"])


def tested(found: list[Error]) -> list[str]:
    """The rows of the test in C: each error, and the number after them."""
    rows = [f"{{{{{it.in_c()}, {it.sample}}}, 63, DWARF_OK, {len(it.text) - 2}, {it.text}}}," for it in found]
    return [*rows, f'{{{{{len(found) + 1}, 0}}, 63, DWARF_NO_NAME, 7, ""}},']


def lists(found: list[Error]) -> list[tuple[pathlib.Path, str, str, str]]:
    """Each list of these errors, after its file and the texts between which it is."""
    names = [it.name for it in found]
    imported = "use Rattle.dwarf_read_core.specs.declared.Error.TheVariants.{"
    used = sorted({it.kind for it in found if it.kind != it.width} | {"Error"})
    kinds = [f"ErrorKind::{it}," for it in names]
    texts = [f"(ErrorKind::{it.name}, {it.sample}, {it.text})," for it in found]
    mark = "// tools/constants writes"
    return [
        (ROWS, imported, "}", ", ".join(names)),
        (MATCHES, "use dwarf_read_core::{", "}", ", ".join(used)),
        (MATCHES, " = match error {\n", "        _ =>", lines(map(numbered, found), 8)),
        (MATCHES, " = match fault.kind {\n", "        _ =>", lines(map(named, found), 8)),
        (HEADER, "    /* The errors. (Generated.) */\n", "    DWARF_NO_ROOM", enumerators(found)),
        (C_TEST, "    /* tools/constants writes the rows from here on. */\n", "};", lines(tested(found), 4)),
        (COMPARER, f"{mark} the names.\n    \"none\",\n", "];", lines((f'"{it}",' for it in names), 4)),
        (RUST, f"    {mark} these variants.\n", "    /// An error that only", "".join(map(variant, found))),
        (RUST, f"{mark} this list.\nconst KINDS: &[ErrorKind] = &[\n", "];", lines(kinds, 4)),
        (RUST, f"{mark} this list.\n    const TEXTS: &[(ErrorKind, u64, &str)] = &[\n", "    ];", lines(texts, 8)),
    ]


def with_lists(found: list[Error], path: pathlib.Path, text: str) -> str:
    """The text of a file, with its lists of these errors."""
    for place, before, after, rows in lists(found):
        if place == path:
            head, begin, rest = text.partition(before)
            _, end, tail = rest.partition(after)
            if not (begin and end):
                sys.exit(f"constants: {path.relative_to(ROOT)} has no list of errors after {before.strip()}")
            text = "".join([head, begin, rows, end, tail])
    return text


def files() -> Iterator[tuple[pathlib.Path, str]]:
    """Each file that has a list, with the text that it should have."""
    found = errors(ROWS.read_text())
    for path in sorted({it[0] for it in lists(found)}):
        yield path, with_lists(found, path, path.read_text())
