"""Tests of how `tools/cases` reads the worked cases, and of what it accepts as printed."""
import os
import re
import tempfile
import unittest
from unittest import mock

from workshop import frame, kit
from workshop.checks import cases
from workshop.script_tests import came_of, failed

PAGE = """\
Text between the blocks is of no run.

```console
$ dwarf_list str 0 <
> 61 00
a
and ...
$ dwarf_list str 9 < 61
error: none
[1]
$ dwarf_list uleb 0
```

```sh
$ dwarf_list of another block
```
"""


class Reading(unittest.TestCase):
    """A case is a command, its input, the lines that it prints, and its status."""

    def test_page(self) -> None:
        with tempfile.NamedTemporaryFile("w", suffix=".md") as file:
            file.write(PAGE)
            file.flush()
            found = [(it.words(), it.input(), it.lines, it.status) for it in cases.cases_of(file.name)]
        wanted = [
            (["str", "0"], b"a\0", ["a", "and ..."], 0),
            (["str", "9"], b"a", ["error: none"], 1),
            (["uleb", "0"], b"", [], 0),
        ]
        self.assertEqual(found, wanted)

    def test_all(self) -> None:
        """Each line that begins as a case does is one, and its name is its own."""
        for name in cases.FILES:
            path = f"{cases.FOLDER}/{name}.md"
            found = cases.cases_of(path)
            self.assertEqual(len(found), len(re.findall(r"^\$ dwarf_list\b", kit.text_of(path), re.M)), name)
            self.assertTrue(found, name)
            self.assertEqual(len({*cases.names_of(found)}), len(found), name)

    def test_any_line(self) -> None:
        """No case leaves a whole line open."""
        self.assertEqual([it.place for it in cases.all_cases() if "..." in map(str.strip, it.lines)], [])

    def test_names(self) -> None:
        rows = [
            ("str 0 < 61 00", "str 0 < 61 00"),
            ("uleb 5", "uleb 5"),
            ("", "no words"),
            ("abbrev 0 <", "abbrev 0"),
            ("str 'a, b: c/d'", "str 'a_ b_ c_d'"),
            ("str 0 < " + 40 * "00 ", "str 0 < 00 00 00 00 00 00 00 00 00 00 00 00 00 00 00 00.. 40 bytes"),
            ("uleb 5", "uleb 5 again 2"),
        ]
        self.assertEqual(cases.names_of(cases.Case("here", it) for it, _ in rows), [name for _, name in rows])


class Judging(unittest.TestCase):
    """What a run has to print is all that it prints."""

    # The lines and the status of a case; what a run prints to both outputs, and its status; and whether that is right.
    ROWS: list[tuple[list[str], int, tuple[bytes, bytes, int], bool]] = [
        (["a", "b ..."], 0, (b"a\nb and c\n", b"", 0), True),
        (["a", "b ..."], 0, (b"a\nb and c\nd\n", b"", 0), False),
        (["a", "b ..."], 0, (b"a\n", b"", 0), False),
        (["a", "b ..."], 0, (b"b and c\na\n", b"", 0), False),
        (["a"], 0, (b"a", b"", 0), False),
        (["a"], 0, (b"ab\n", b"", 0), False),
        (["a"], 0, (b"a\n", b"b\n", 0), False),
        (["a"], 0, (b"a\n", b"", 1), False),
        ([], 0, (b"", b"", 0), True),
        ([], 0, (b"\n", b"", 0), False),
        (["a"], 1, (b"", b"a\n", 1), True),
        (["a"], 1, (b"b\n", b"a\n", 1), False),
        (["a"], 1, (b"", b"a\nb\n", 1), False),
        (["\\xff"], 0, (b"\xff\n", b"", 0), True),
    ]

    def test_prints(self) -> None:
        for lines, status, came, is_met in self.ROWS:
            case = cases.Case("here", "", lines, status)
            self.assertEqual(case.is_met(*came), is_met, (lines, came))

    def test_check(self) -> None:
        """A case that isn't met fails by its name, and each file does if there is no program."""
        with tempfile.TemporaryDirectory() as folder:
            for name in cases.FILES:
                kit.write_file(f"{folder}/{name}.md", PAGE)
            kit.write_file(f"{folder}/program", '#!/bin/sh\n[ "$1 $2" = "str 0" ] || exit 2\necho a; echo and more\n')
            os.chmod(f"{folder}/program", 0o755)
            wanted = {"str 0 < 61 00": frame.PASSED, "str 9 < 61": frame.FAILED, "uleb 0": frame.FAILED}
            with mock.patch.multiple(cases, FOLDER=folder, program=lambda _: f"{folder}/program"):
                states = came_of(cases.Cases)
            with mock.patch.object(cases, "program", mock.Mock(side_effect=AssertionError)):
                self.assertEqual(failed(cases.Cases), [f"cases.Cases.file/{it}" for it in cases.FILES])
        named = {f"cases.Cases.file/{name}/{it}": state for name in cases.FILES for it, state in wanted.items()}
        self.assertEqual(states, named)
