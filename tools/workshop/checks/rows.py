"""The sections that programs over the library are run on, and what dwarf_list prints of them."""
import os
import shutil
from collections.abc import Sequence
from typing import Any

from workshop import frame, kit

LISTER = f"{kit.ROOT}/dwarf_list"
SHOW = f"{kit.ROOT}/examples/c/dwarf_show.c"
SETS = bytes.fromhex(
    "0c000000 05000400 78563412 efbeadde"
    "ffffffff1400000000000000 05000800 f0debc9a78563412 efbeaddeefbeadde"
)
UNITS = bytes.fromhex("08000000 0400 10000000 08 01" "11000000 0500 04 04 20000000 8877665544332211 01")
SECTIONS = {
    "table": bytes.fromhex("0111010308000000"),
    "constant": bytes.fromhex("012e0003215600 0000"),
    "falling": bytes.fromhex("0111000000 0311000000 0211000000 00"),
    "repeated": bytes.fromhex("0111000000 810011000000"),
    "unnamed": bytes.fromhex("01b42401b424b4240000"),
    "wide": bytes.fromhex("011100" + 10 * "0308" + "000000"),
    "strings": b"one\0two\0\0",
    "sets": SETS,
    "cut": SETS[:15],
    "remainder": bytes.fromhex("0900000005000400 78563412 aa"),
    "units": UNITS,
    "cut_units": UNITS[:-1],
    "odd_units": UNITS[:4] + b"\6" + UNITS[5:],
    "empty": b"",
}
ROWS = [
    *(f"abbrev 0 {it}" for it in ("table", "constant", "falling", "repeated", "unnamed", "wide", "empty")),
    *("abbrev 8 table", "abbrev 9 table", "str 0 empty"),
    *(f"str {it} strings" for it in (0, 4, 8, 9, 10)),
    *(f"{kind} le {it}" for kind in ("addr", "str-offsets") for it in ("sets", "cut", "remainder", "empty")),
    *("addr be sets", "str-offsets be sets"),
    *(f"uleb {it} empty" for it in (0, 12857, 2**64 - 1)),
]
OBJECT_ROWS = ["abbrev 0 object_abbrev", "str 0 object_str", "str 100 object_str"]
# The tables that a whole section has: larger ones, an empty one, one that has an error, one that the end closes.
WHOLE: dict[str, list[bytes]] = {
    "tables": [SECTIONS["table"], b"\0", SECTIONS["falling"], SECTIONS["constant"], SECTIONS["repeated"]],
    "unclosed": [SECTIONS["falling"], SECTIONS["unnamed"]],
    "nothing": [],
}
# What a program writes, and its status.
Output = tuple[bytes, int]


@frame.once
def of_object() -> dict[str, bytes]:
    """The sections of an object file, which the compiler makes of the example itself."""
    frame.need("cc", "objcopy")
    work = frame.new_folder()
    frame.must(["cc", "-g", "-c", "-I", f"{kit.ROOT}/include", SHOW, "-o", "object.o"], cwd=work)
    found = {}
    for it in ("abbrev", "str"):
        flags = [f"--only-section=.debug_{it}", "--set-section-flags", f".debug_{it}=alloc"]
        frame.must(["objcopy", "-O", "binary", *flags, "object.o", it], cwd=work)
        with open(f"{work}/{it}", "rb") as file:
            found[f"object_{it}"] = file.read()
    assert all(found.values()), "the object file has no such sections"
    return found


@frame.once
def wanted_object() -> dict[str, bytes]:
    """The sections of an object file, or none if it can't be made here: a check of its own is skipped then."""
    return of_object() if shutil.which("objcopy") else {}


def output_of(program: Sequence[str], row: str, **how: Any) -> Output:
    """What a program writes of a row, and its status."""
    command, word, section = row.split()
    return frame.output([*program, command, word], {**SECTIONS, **wanted_object()}[section], **how)


@frame.once
def wanted() -> dict[str, Output]:
    """What dwarf_list writes of each row."""
    return {it: output_of([LISTER], it) for it in [*ROWS, *(OBJECT_ROWS if wanted_object() else ())]}


def compare(program: Sequence[str], without: str = "", **how: Any) -> None:
    """A program writes what dwarf_list writes of each row, or of its error, with the same status."""
    rows = [it for it in wanted() if it.split()[0] != without]
    other = [it for it in rows if output_of(program, it, **how) != wanted()[it]]
    assert rows and not other, f"{' '.join(program)} writes something else of these rows: {', '.join(other)}"


def put_sections(folder: str) -> list[str]:
    """Writes the sections to files of a folder, and returns their names."""
    for name, section in SECTIONS.items():
        kit.write_file(f"{folder}/{name}", section)
    return [*SECTIONS]


def like_clone(folder: str) -> None:
    """Links what the lines of pages name into a folder, and puts the example there as a program in C and in C++."""
    for it in ("include", "examples", "program", "rust"):
        os.symlink(f"{kit.ROOT}/{it}", f"{folder}/{it}")
    for name in ("program.c", "program.cc"):
        shutil.copy(SHOW, f"{folder}/{name}")


class Rows(frame.Check):
    """dwarf_list lists each row, or says in a line what is wrong with its section."""

    @frame.each((*ROWS, *OBJECT_ROWS))
    def test_row(self, row: str) -> None:
        if row in OBJECT_ROWS:
            of_object()
        said, status = wanted()[row]
        self.assertIn(status, (0, 1))
        if status:
            self.assertRegex(said, b"^error: .*\n$")
