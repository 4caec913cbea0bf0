"""Checks of docs/C.md and of README's section on C: their programs, functions and lines are built and run."""
import os
import re
import shutil
import subprocess
from collections.abc import Sequence

from workshop import frame, kit
from workshop.checks import consumers, rows
from workshop.checks.c import COMPILERS, HEAP, INCLUDE, LIBRARY, PAGE, STRICT, TAGS, VALGRIND, as_language
from workshop.checks.rows import LISTER, SECTIONS, SHOW, WHOLE, Output

# The line of the page that takes a section out of a file.
OBJCOPY = re.compile(r"^objcopy .* FILE /dev/null$", re.M)
PEDANTIC = ("-Wall", "-Wextra", "-pedantic", "-Werror", "-O2", "-I", INCLUDE)
# What the functions of the page, after its program, are called by: the declaration, and the call on a section.
FORMS = """\
uint16_t form_of_name(const struct dwarf_table *table, uint64_t code);

static int print_forms(const uint8_t *section, size_t len) {
    struct dwarf_table table;
    struct dwarf_fault fault;
    uint32_t status = dwarf_table_load(section, len, 0, &table, &fault);
    for (uint64_t code = 0; code < 3; code++) {
        printf("%u\\n", (unsigned)form_of_name(&table, code));
    }
    dwarf_table_free(&table);
    return (int)status;
}"""
FUNCTIONS = {
    FORMS: "print_forms(section, len)",
    "int list_units(const uint8_t *section, size_t len, bool is_big);": "list_units(section, len, false)",
    "int list_addresses(const uint8_t *section, size_t len, bool is_big);": "list_addresses(section, len, false)",
}
# What the first two print of sections, with the status. dwarf_list says it for the third.
FORM_ROWS = {
    "table": ("0\n8\n0\n", 0),
    "constant": ("0\n33\n0\n", 0),
    "falling": ("0\n0\n0\n", 0),
    "empty": ("0\n0\n0\n", 0),
}
FIRST_UNIT = "unit at 0: version 4, table at 16, entries from 11 to 12\n"
UNIT_ROWS = {
    "units": (f"{FIRST_UNIT}unit at 12: version 5, table at 32, entries from 32 to 33\n", 0),
    "cut_units": (f"{FIRST_UNIT}error: unexpected end of input\n", 1),
    "odd_units": ("error: unknown DWARF version: 6\nunit at 12: version 5, table at 32, entries from 32 to 33\n", 1),
    "empty": ("", 0),
}
CALLER = """\
#include "dwarf_read.h"

#include <stdio.h>

{declared}

int main(void) {{
    static uint8_t section[1 << 16];
    size_t len = fread(section, 1, sizeof section, stdin);
    setbuf(stdout, NULL);
    return {called};
}}
"""
# What dwarf_tags.c and dwarf_show.c can call in place of `malloc`.
FEW = """\
#include <stdlib.h>

void *few(size_t size);

/* Refuses all but small blocks. */
void *few(size_t size) {
    return size > LIMIT ? NULL : malloc(size);
}
"""


def by_valgrind(program: str) -> list[str]:
    """The words that run a program, by valgrind if it is there."""
    return [*VALGRIND, program] if shutil.which("valgrind") else [program]


def listed(section: bytes, *words: str) -> tuple[str, int]:
    """What dwarf_list prints of a section, and its status."""
    said, status = frame.output([LISTER, *words], section)
    return said.decode(), status


def listed_addresses(section: str) -> tuple[str, int]:
    """What the loop of the page prints of a section of sets, by what dwarf_list prints, and its status. dwarf_list
    prints no address before an error, and the loop those that it has read."""
    said, status = listed(SECTIONS[section], "addr", "le")
    before = {"remainder": "  0x12345678\n"}.get(section, "")
    return (before + said if status else "".join(re.findall(r"^  0x.*\n", said, re.M))), status


def tags_of(section: bytes, tables: Sequence[bytes]) -> Output:
    """What dwarf_tags.c prints of a section of these tables, by what dwarf_list prints of each, and its status."""
    text = ""
    offset = 0
    for table in tables:
        said, status = listed(section, "abbrev", str(offset))
        if status:
            # Its output is buffered, and its errors aren't.
            return (said + text).encode(), status
        found = re.findall(r"^(\d+) (?:Unknown DwTag: (\d+)|(\S+)) (?:yes|no)$", said, re.M)
        text += "".join(f"{code} {name or hex(int(number))}\n" for code, number, name in found)
        offset += len(table)
    return text.encode(), 0


@frame.once
def wanted_tags() -> dict[str, tuple[bytes, Output]]:
    """The sections that dwarf_tags.c is run on, each with what it has to print."""
    found = {name: b"".join(tables) for name, tables in WHOLE.items()}
    return {name: (section, tags_of(section, WHOLE[name])) for name, section in found.items()}


def in_any_order(came: Output) -> tuple[list[bytes], int]:
    """The lines of an output and of errors, which may come in another order, and a status."""
    return sorted(came[0].splitlines()), came[1]


class OfPage(frame.Check):
    """What the checks of the page share."""

    def built(self, compiler: str, *words: str) -> str:
        """Builds a program over the library, and returns where it is."""
        frame.need(compiler)
        self.must([compiler, *as_language(compiler), *words, HEAP, "-x", "none", LIBRARY, "-o", "program"])
        return f"{self.work}/program"

    def built_with_little_memory(self, limit: int, source: str) -> list[str]:
        """Builds a program whose source can have only small blocks of memory."""
        kit.write_file(f"{self.work}/few.c", FEW)
        first = ["cc", "-std=c99", *PEDANTIC, f"-DLIMIT={limit}"]
        self.must([*first, "-c", source, "-Dmalloc=few", "-o", "few.o"])
        self.must([*first, "few.o", "few.c", HEAP, LIBRARY, "-o", "few"])
        return by_valgrind(f"{self.work}/few")

    def says_unreadable(self, source: str, *words: str) -> None:
        """A program says that its standard input can't be read if that is a folder."""
        program = self.built("cc", *PEDANTIC, source)
        folder = os.open(self.work, os.O_RDONLY)
        ran = subprocess.run([program, *words], stdin=folder, capture_output=True, check=False)
        os.close(folder)
        self.assertRegex(ran.stderr, b"^error: standard input: ")
        self.assertEqual((ran.stdout, ran.returncode), (b"", 1))


@frame.needs("cc")
class Tags(OfPage):
    """The program at the front of docs/C.md is dwarf_tags.c. It prints what dwarf_list says of whole sections, as does
    the class there."""

    def judge(self, program: Sequence[str]) -> None:
        """Compares what a program prints of each section."""
        other = [it for it, (given, wanted) in wanted_tags().items() if frame.output(program, given) != wanted]
        self.assertEqual(other, [])

    def test_program_of_page(self) -> None:
        program, *functions = re.findall(r"^```c\n(.*?)^```$", kit.text_of(PAGE), re.M | re.S)
        self.assertEqual(program, kit.text_of(TAGS))
        self.assertEqual(len(functions), len(FUNCTIONS), "docs/C.md has other functions than are called here")

    @frame.each(COMPILERS)
    def test_sections(self, compiler: str) -> None:
        self.judge([self.built(compiler, *STRICT, TAGS)])

    @frame.needs("objcopy")
    def test_section_of_object(self) -> None:
        """A section is taken out of an object file by the line of the page."""
        rows.like_clone(self.work)
        self.must(["cc", "-g", "-c", "-I", "include", "program.c", "-o", "object.o"])
        line = OBJCOPY.findall(kit.text_of(PAGE))[0].replace("FILE", "object.o")
        self.must(["sh", "-c", line])
        with open(f"{self.work}/abbrev.bin", "rb") as file:
            section = file.read()
        self.assertTrue(section)
        self.assertEqual(frame.output([self.built("cc", *STRICT, TAGS)], section), tags_of(section, [b""]))

    @frame.each(("c++", "clang++"))
    def test_class(self, compiler: str) -> None:
        """The class is that of dwarf_tags.cc, which prints what dwarf_tags.c prints. It gives no number to a tag that
        has no name, and prints what it has read before an error."""
        frame.need(compiler)
        found = re.findall(r"^```cpp\n(.*?)^```$", kit.text_of(PAGE), re.M | re.S)
        self.assertEqual(len(found), 1)
        self.assertIn(found[0], kit.text_of(f"{TAGS}c"))
        self.must(["cc", "-c", "-I", INCLUDE, HEAP, LIBRARY])
        objects = ["dwarf_read_heap.o", "dwarf_read.o"]
        self.must([compiler, *STRICT, "-std=c++11", f"{TAGS}c", *objects, "-o", "tags"])
        named = {it: (given, said) for it, (given, said) in wanted_tags().items() if b" 0x" not in said[0]}
        came = {it: frame.output([f"{self.work}/tags"], given) for it, (given, _) in named.items()}
        other = [it for it, (_, said) in named.items() if in_any_order(came[it]) != in_any_order(said)]
        self.assertTrue(named)
        self.assertEqual(other, [])

    def test_little_memory(self) -> None:
        """`malloc` refuses the first block of a table."""
        self.judge(self.built_with_little_memory(120, TAGS))

    def test_unreadable(self) -> None:
        self.says_unreadable(TAGS)


@frame.needs("cc")
class Example(OfPage):
    """dwarf_show.c says so if memory runs out, and if its input can't be read."""

    @frame.each(("100", "10"))
    def test_little_memory(self, limit: str) -> None:
        """`malloc` refuses the first block of a table, or all."""
        row = "abbrev 0 falling"
        wanted = rows.wanted()[row] if limit == "100" else (b"error: out of memory\n", 1)
        self.assertEqual(rows.output_of(self.built_with_little_memory(int(limit), SHOW), row), wanted)

    def test_unreadable(self) -> None:
        self.says_unreadable(SHOW, "abbrev", "0")


def rows_of_function(number: int) -> dict[str, tuple[str, int]]:
    """The sections that a function is called on, with what it prints and its status."""
    if number < 2:
        return (FORM_ROWS, UNIT_ROWS)[number]
    return {name: listed_addresses(name) for name in ("sets", "cut", "remainder", "empty")}


class Functions(OfPage):
    """The functions of docs/C.md compile as they are there, as pedantic C99 and C++11, and print what they have to."""

    def judge(self, number: int, compiler: str) -> None:
        """Builds and calls a function of the page."""
        frame.need(compiler)
        _, *functions = re.findall(r"^```c\n(.*?)^```$", kit.text_of(PAGE), re.M | re.S)
        declared, called = [*FUNCTIONS.items()][number]
        kit.write_file(f"{self.work}/function.c", functions[number])
        kit.write_file(f"{self.work}/caller.c", CALLER.format(declared=declared, called=called))
        program = by_valgrind(self.built(compiler, *PEDANTIC, "function.c", "caller.c"))
        for name, (text, status) in rows_of_function(number).items():
            self.assertEqual(frame.output(program, SECTIONS[name]), (text.encode(), status), name)

    @frame.each(COMPILERS)
    def test_forms(self, compiler: str) -> None:
        self.judge(0, compiler)

    @frame.each(COMPILERS)
    def test_units(self, compiler: str) -> None:
        self.judge(1, compiler)

    @frame.each(COMPILERS)
    def test_addresses(self, compiler: str) -> None:
        self.judge(2, compiler)


def is_part(line: str) -> bool:
    """Whether a line makes only objects, which the next line links."""
    return " -c " in line


def lines_of_pages() -> dict[str, list[str]]:
    """The lines of the pages that build a program in C or C++, by each compiler, with what has to be run before. A line
    for C builds the example in C++ too, since that compiles as both."""
    pages = kit.text_of(f"{kit.ROOT}/README.md") + kit.text_of(PAGE)
    found: dict[str, list[str]] = {}
    parts: list[str] = []
    for line in dict.fromkeys(re.findall(r"^(?:cc|c\+\+) .*$", pages, re.M)):
        if is_part(line):
            parts.append(line)
            continue
        first, _, rest = line.partition(" ")
        of_parts, parts = parts, []
        for it in COMPILERS if first == "cc" else ("c++", "clang++"):
            in_c = [("clang" if "clang" in it else "cc") + part.removeprefix("cc") for part in of_parts]
            found[f"{it} {rest}"] = in_c
    return found


class Lines(frame.Check):
    """The lines of the pages that build a program in C or C++ are run as they are there."""

    # A name has no folder.
    lines = {it.replace("include/", ""): it for it in lines_of_pages()}

    @frame.each(lines)
    def test_line(self, name: str) -> None:
        line = self.lines[name]
        frame.need(line.partition(" ")[0], *(["pkg-config"] if "pkg-config" in line else []))
        env = {**os.environ}
        if "pkg-config" in line:
            env = consumers.installed().environment()
        rows.like_clone(self.work)
        for it in (*lines_of_pages()[line], line):
            self.must(["sh", "-c", it], env=env)
        rows.compare([f"{self.work}/a.out"], env=env)

    def test_kinds(self) -> None:
        """The pages have lines over a clone, over an installation, and with objects."""
        lines = lines_of_pages()
        self.assertEqual({"pkg-config" in it for it in lines}, {True, False})
        self.assertTrue(any(lines.values()))
