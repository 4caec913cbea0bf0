"""Builds the examples and tests in C, C++ and Rust with the assembler files of the library, and compares what they
write with what dwarf_list writes of the same sections.

    tools/examples
    tools/examples --short    the example and the tests in C alone, by cc, in seconds
    tools/examples CHECK..    checks by their names, or by the front of these: `page`, `c.Programs.example/cc`

`tools/assembler --check` says whether the files have the proved code. This is done:

- Each line of README.md and docs/C.md that builds a program is run as it is there, by cc, c++, clang and clang++.
  Those that name pkg-config are run over an installation in a scratch folder, which `tools/install` makes.
- The program and the loops of docs/C.md are compiled as they are there, as pedantic C99 and C++11 with warnings as
  errors. They list tables and addresses of worked bytes as dwarf_list does. Its line with objcopy is run, too. Both
  programs in C say if their input can't be read.
- A program without a C library is linked. The functions that the library then lacks are those that docs/C.md names.
- Tables are loaded into arenas of all sizes, and in a signal handler, on AArch64 too.
- The stack is walked from within the library, by its unwind tables, on AArch64 too.
- examples/c/dwarf_show.c and the tests of tests/c are compiled with warnings as errors by each compiler. The example
  is run by each, and the tests by cc: on worked bytes, with bad input, with pages without access next to each buffer,
  with each allocation failing, by ASan and UBSan, and under valgrind. For AArch64 and RISC-V both are run by qemu, and
  so is dwarf_list, which has to print the worked cases; for Windows they are run by wine. For each other system the
  library is assembled, and linked with the same names in C.
- The crate for Rust is packaged, and used by a program. What is packaged is unpacked in another place, where no C
  compiler works; it is built there by this Rust, and tested by Debian's. `tools/tests` runs the tests of the clone.
- A project that CMake builds takes the library from this clone, and CMake installs it.
- ./dwarf_list is run from another folder.

A line is printed for each check. A compiler or a tool that the machine lacks is named and counted as skipped. The
last line is `N passed, M failed, K skipped`, and the exit status is 0 if nothing failed, 1 if a check did, and 2 for
a wrong command line.
"""
from workshop import frame
from workshop.checks import c, consumers, page, rows, rust

CHECKS = [rows.Rows, c.Versions, c.Headers, c.Programs, c.Launcher, c.Linked, c.Systems, page, rust, consumers]


def main(words: list[str]) -> int:
    if words == ["--short"]:
        return frame.check("examples", c.SHORT)
    if any(it.startswith("-") for it in words):
        return frame.usage(__doc__)
    return frame.check("examples", CHECKS, words, section="examples")
