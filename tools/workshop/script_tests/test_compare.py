"""Tests of how `tools/compare` measures, and of how it reads lists of constants."""
import tempfile
import unittest
from unittest import mock

from workshop import kit
from workshop.compare import measure, published
from workshop.script_tests import failed


class Borders(unittest.TestCase):
    """Jumps that end at a border of 32 bytes or cross one are counted, and no other code."""

    def test_jumps(self) -> None:
        # A line of a disassembly, and whether it is a jump, and one at a border.
        rows = [
            ("  95261:\t75 1d                \tjne    95280 <compare_short+0x20>", True, False),
            ("  9527d:\t75 01                \tjne    95280 <compare_short+0x20>", True, False),
            ("  9527e:\t75 1d                \tjne    9529d <compare_short+0x3d>", True, True),
            ("  9527c:\te9 1d 00 00 00       \tjmp    9529e <compare_short+0x3e>", True, True),
            ("  9527e:\tff e0                \tjmp    *%rax", False, False),
            ("  9527e:\t3e ff e0             \tnotrack jmp *%rax", False, False),
            ("  9527c:\te8 1d 00 00 00       \tcall   9529e <compare_short+0x3e>", False, False),
            ("0000000000095260 <jump_short>:", False, False),
        ]
        for line, is_jump, is_found in rows:
            self.assertEqual(measure.at_borders(f"{line}\n"), (is_found, is_jump), line)
        self.assertEqual(measure.at_borders("\n".join(line for line, _, _ in rows)), (2, 4))


class Constants(unittest.TestCase):
    """Each name of the header is read, wherever it stands in a line, and a name that isn't fails the comparison."""

    def test_rows(self) -> None:
        rows = [
            ("    DW_TAG_a = 0x01,\n", {"DW_TAG_a": {1}}),
            ("enum { DW_TAG_a = 0x01, DW_TAG_b = 0x02 };\n", {"DW_TAG_a": {1}, "DW_TAG_b": {2}}),
            ("#define DW_LANG_a 0x8001\n#define DW_LANG_b DW_LANG_a\n", {"DW_LANG_a": {32769}, "DW_LANG_b": {32769}}),
            ("DW_CFA_a = 0x01 << 6,\n", {"DW_CFA_a": {64}}),
            ("/* DW_TAG_a = 0x01 */ DW_AT_b = 10u // DW_AT_c = 3\n", {"DW_AT_b": {10}}),
        ]
        for text, wanted in rows:
            self.assertEqual(published.values(published.of_enumerators(text)), wanted)

    def test_checks(self) -> None:
        """What fails if the header or the table of a producer is another one."""
        text = kit.text_of(published.HEADER)
        names = "published.Published.names"
        # What the header has more, what the table is, and which checks fail.
        rows = [
            ("", text, []),
            ("int DW_TAG_c;\n", text, [names]),
            ("enum { DW_TAG_planted = 0x1234 };\n", text, [names]),
            ("", text.replace("DW_TAG_array_type = 0x01", "DW_TAG_array_type = 0x02"), ["published.Published.values/gimli"]),
            ("", "DW_TAG_array_type = 0x01\n", ["published.Published.values/gimli"]),
        ]
        for more, table, wanted in rows:
            with tempfile.TemporaryDirectory() as folder:
                kit.write_file(f"{folder}/header", text + more)
                kit.write_file(f"{folder}/list", table)
                tables = {it: ("/none", "none", published.of_enumerators) for it in published.TABLES}
                tables["gimli"] = (f"{folder}/list", "", published.of_enumerators)
                with mock.patch.multiple(published, HEADER=f"{folder}/header", TABLES=tables):
                    self.assertEqual(failed(published.Published), wanted, (more, table[-60:]))
