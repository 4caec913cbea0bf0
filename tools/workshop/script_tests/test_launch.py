"""Tests of how ./dwarf_list makes its program, of its help, and of the manual pages."""
import contextlib
import os
import re
import shutil
import subprocess
import tempfile
import unittest
from collections.abc import Iterator

from workshop import kit

NAME = "dwarf_list"
LAUNCHER = f"{kit.ROOT}/{NAME}"


class Starting(unittest.TestCase):
    """The script makes the program if it isn't there or older than what it is made of, and passes its arguments on."""

    @contextlib.contextmanager
    def clone(self) -> Iterator[str]:
        """A clone whose program prints a number and its first argument."""
        with tempfile.TemporaryDirectory() as root:
            shutil.copy(LAUNCHER, root)
            for it in ("include/dwarf_read_heap.h", "include/dwarf_read_heap.c", "program/proved/any.s"):
                kit.write_file(f"{root}/{it}", "")
            kit.write_file(f"{root}/program/one.S", '.section .note.GNU-stack,"",@progbits\n')
            self.write(root, 1)
            yield root

    def write(self, root: str, number: int) -> None:
        text = f'#include <stdio.h>\nint main(int count, char **words) {{ return printf("{number} %s", words[1]) < 0; }}\n'
        kit.write_file(f"{root}/program/one.c", text)

    def said(self, root: str, **environment: str) -> tuple[str, str, int]:
        """What the script prints, and its status."""
        env = {**os.environ, "HOME": f"{root}/user", "CC": "cc", **environment}
        env.pop("XDG_CACHE_HOME", None)
        ran = subprocess.run([f"{root}/{NAME}", "uleb"], capture_output=True, text=True, env=env, check=False)
        return ran.stdout, ran.stderr, ran.returncode

    def test_program(self) -> None:
        none = "dwarf_list: a C compiler has to make the program first, and there is no no-compiler\n"
        with self.clone() as root:
            self.assertEqual(self.said(root, CC="no-compiler"), ("", none, 3))
            self.assertEqual(self.said(root, CC="false"), ("", "dwarf_list: false can't make the program\n", 3))
            self.assertEqual(self.said(root, CC="cc -std=c99"), ("1 uleb", "", 0))
            self.assertEqual(self.said(root, CC="no-compiler"), ("1 uleb", "", 0))
            self.write(root, 2)
            self.assertEqual(self.said(root), ("2 uleb", "", 0))
            self.assertEqual(os.listdir(f"{root}/program/out"), [NAME])

    def test_other_systems(self) -> None:
        """On a system that there is no code for, one line says so."""
        rows = {"Darwin on arm64": 3, "Linux on s390x": 3, "FreeBSD on x86_64": 3, "Linux on riscv64": 0}
        for system, status in rows.items():
            name, _, processor = system.partition(" on ")
            with self.clone() as root:
                kit.write_file(f"{root}/bin/uname", f"#!/bin/sh\n[ $1 = -s ] && echo {name} || echo {processor}\n")
                os.chmod(f"{root}/bin/uname", 0o755)
                said = f"dwarf_list: its code is for Linux on x86-64, AArch64 and RISC-V, and this is {system}\n"
                wanted = ("", said, 3) if status else ("1 uleb", "", 0)
                self.assertEqual(self.said(root, PATH=f"{root}/bin:{os.environ['PATH']}"), wanted)

    def test_cache(self) -> None:
        """If program/out can't be made, the program is in the user's cache, under a checksum of what it is made of."""
        with self.clone() as root:
            kit.write_file(f"{root}/program/out", "a file")
            self.assertEqual(self.said(root), ("1 uleb", "", 0))
            self.assertEqual(self.said(root, CC="no-compiler"), ("1 uleb", "", 0))
            self.write(root, 2)
            self.assertEqual(self.said(root), ("2 uleb", "", 0))
            kept = os.listdir(f"{root}/user/.cache/dwarf_read_core")
            self.assertEqual(sorted(it.partition("-")[0] for it in kept), [NAME, NAME])
            kit.write_file(f"{root}/file", "")
            said = f"dwarf_list: neither {root}/program/out nor {root}/file/.cache/dwarf_read_core can be written\n"
            os.utime(f"{root}/program/one.c", (2**31, 2**31))
            self.assertEqual(self.said(root, HOME=f"{root}/file"), ("", said, 3))


def usage(file: str, program: str) -> str:
    """What the usage line of a program has after its name."""
    text = kit.text_of(f"{kit.ROOT}/crates/dwarf_listing_core/specs/{file}.antt")
    found = re.search(rf'codes "usage: {program} (.*)"', text)
    assert found
    return found[1]


def printed(*words: str) -> str:
    """What a command prints, which has to end well and to report nothing."""
    ran = subprocess.run(words, capture_output=True, text=True, check=True)
    assert not ran.stderr, ran.stderr
    return ran.stdout


class Help(unittest.TestCase):
    """The help of ./dwarf_list has each command of the program's usage line."""

    def test_commands(self) -> None:
        listed = re.findall(r"^  ([a-z-]+ (?:OFFSET|N|le\|be))  ", printed(LAUNCHER, "--help"), re.M)
        self.assertEqual(sorted(listed), sorted(usage("Fault", NAME).split(" | ")))


class Manual(unittest.TestCase):
    """The manual pages have the commands, options and statuses that the helps have."""

    # What the help of dwarf_list says of a status, and what its page says.
    STATUSES = {
        "0": ("0 if the result was printed", "The result was printed."),
        "1": ("1 for malformed input and if memory runs out", "malformed or past the section's end, or memory ran out."),
        "2": ("2 for a wrong command line", "The arguments name no command."),
        "3": ("3 for an I/O error", "Input or output failed"),
    }

    def section(self, page: str, heading: str) -> str:
        """A section of a manual page, without what chooses a font."""
        found = re.search(rf"^\.SH {heading}\n(.*?)(?=^\.SH )", kit.text_of(f"{kit.ROOT}/docs/{page}.1"), re.M | re.S)
        assert found
        return re.sub(r"\\f.", "", found[1]).replace("\\-", "-")

    def tags(self, page: str, heading: str) -> set[str]:
        """What a section describes: the tags of its paragraphs, whose words are written without spaces between them."""
        tags = re.findall(r"^\.TP\n\.[BIR]+ (.*)$", self.section(page, heading), re.M)
        joined = ("".join(map("".join, re.findall(r'"([^"]*)"|(\S+)', it))) for it in tags)
        return {part for it in joined for part in it.split(", ")}

    def test_dwarf_list(self) -> None:
        start = kit.text_of(LAUNCHER)
        commands = [it.partition(" ") for it in usage("Fault", NAME).split(" | ")]
        wanted = {f"{name} {word}" for name, _, words in commands for word in words.split("|")}
        self.assertEqual(self.tags(NAME, "COMMANDS"), wanted)
        options = set(re.findall(r"\b1/(-[a-z-]+)", start))
        self.assertEqual(self.tags(NAME, "OPTIONS"), options)
        self.assertEqual(set(re.findall(r"--\w+", self.section(NAME, "SYNOPSIS"))), options - {"-h"})
        said = " ".join(start.split())
        page = " ".join(self.section(NAME, "EXIT STATUS").split())
        for status, (in_help, on_page) in self.STATUSES.items():
            self.assertIn(in_help, said)
            self.assertRegex(page, rf"\.B {status} [^.]*{re.escape(on_page)}")
        self.assertEqual(self.tags(NAME, "EXIT STATUS"), {*self.STATUSES})
        self.assertIn("the status is 141.", said)
        self.assertIn("ends with status 141", page)

    def test_dwarf_elf(self) -> None:
        said = kit.text_of(f"{kit.ROOT}/elf/src/help.txt")
        commands = set(re.findall(r"^    \S*dwarf_elf FILE\.\. (\S+(?: \S+)?)  ", said, re.M))
        self.assertEqual(self.tags("dwarf_elf", "COMMANDS"), commands)
        options = {*re.findall(r"^    (--\w+)  ", said, re.M), *re.findall(r"dwarf_elf (--\w+)", said)}
        self.assertEqual(self.tags("dwarf_elf", "OPTIONS"), options | {"--help", "-h"})
        self.assertEqual(set(re.findall(r"--\w+", self.section("dwarf_elf", "SYNOPSIS"))), options | {"--help"})
        statuses = {"0", *re.findall(r"\b[1-9]\b", said[said.index("The exit status is") :].partition("`cat`")[0])}
        self.assertEqual(self.tags("dwarf_elf", "EXIT STATUS"), statuses)
