"""Tests of what `tools/constants --check` finds."""
import os
import re
import unittest
from unittest import mock

from workshop import frame, kit
from workshop.lists import constants, errors
from workshop.script_tests import failed


class Checking(unittest.TestCase):
    """A constant without a published row, a row without a constant, and a list that isn't as declared fail the check."""

    def check(self, kind: str, change: str) -> tuple[list[str], list[str]]:
        """Which checks fail, and the lines of the constants and rows without a partner, if the constants of a type are
        read with a change, but the files are as they should be."""
        found = constants.Constants()
        rows = found.types[kind]
        if change == "added":
            rows.append((0x1234, "DW_TAG_planted"))
        elif change == "removed":
            rows.remove((0x11, "DW_TAG_compile_unit"))
        elif change == "another value":
            rows[rows.index((0x11, "DW_TAG_compile_unit"))] = (0x1234, "DW_TAG_compile_unit")
        with mock.patch.multiple(constants, Constants=lambda: found, files=lambda _: []):
            return failed(constants.Lists), constants.unpaired(found)

    def test_published(self) -> None:
        unpublished = "declared, and in no table of dwarf_reader_tests"
        undeclared = "in a table of dwarf_reader_tests, and not declared"
        rows = {
            "none": [],
            "added": [f"DW_TAG_planted=0x1234: {unpublished}"],
            "removed": [f"DW_TAG_compile_unit=0x11: {undeclared}"],
            "another value": [
                f"DW_TAG_compile_unit=0x1234: {unpublished}",
                f"DW_TAG_compile_unit=0x11: {undeclared}",
            ],
        }
        for change, lines in rows.items():
            names = ["constants.Lists.published"] if lines else []
            self.assertEqual(self.check("DwTag", change), (names, lines), change)

    def test_files(self) -> None:
        """Each file that says that this script writes a part of it is one of those that are compared."""
        paths = {os.path.relpath(path, kit.ROOT) for path, _ in constants.files(constants.Constants())}
        words = ["git", "grep", "-lE", r"tools/constants writes|\(Generated\.\)", "--", "crates", "include", "rust"]
        found = kit.run(words, cwd=kit.ROOT).stdout.split()
        self.assertGreater(len(found), 60)
        self.assertEqual(sorted({*found} - paths), [])

    def test_stale(self) -> None:
        """A file that isn't as declared is named, and isn't written."""
        path = constants.HEADER
        text = path.read_text()
        with mock.patch.object(constants, "files", lambda _: [(path, f"{text}more")]):
            name, states, _ = frame.made(constants.Lists("test_files"))
        self.assertIn("include/dwarf_constants.h", states[name].why)
        self.assertEqual(path.read_text(), text)


# The errors of version 0.4.0, in the order of their numbers from 1 on: a program that is linked with a newer library
# knows them by these.
RELEASED = """UnexpectedEof BadUnsignedLeb128 BadSignedLeb128 AbbreviationTagZero InvalidAbbreviationChildren
    AttributeNameZero AttributeFormZero DuplicateAbbreviationCode UnknownReservedLength UnsupportedOffset UnknownVersion
    UnsupportedAddressSize UnsupportedSegmentSize UnsupportedOffsetSize BadUtf8 AddressOverflow UnsupportedRegister
    OutOfMemory UnterminatedAbbreviations UnknownUnitType"""


class Errors(unittest.TestCase):
    """A list of errors that isn't as the rows of Fault.antt are, and rows that make no list, fail the check."""

    def test_released(self) -> None:
        """Errors keep their numbers from version to version."""
        names = [it.name for it in errors.errors(errors.ROWS.read_text())]
        self.assertEqual(names[: len(RELEASED.split())], RELEASED.split())

    def test_each_list(self) -> None:
        """A slip in any list is written over, so its file isn't as declared."""
        rows = [
            (errors.ROWS, "UnexpectedEof, BadUnsignedLeb128", "BadUnsignedLeb128"),
            (errors.MATCHES, "use dwarf_read_core::{DwChildren, DwUt, ", "use dwarf_read_core::{"),
            (errors.MATCHES, "Error::UnknownVersion(version) => (11, version)", "Error::UnknownVersion(_) => (11, 0)"),
            (errors.MATCHES, "11 => Error::UnknownVersion(value)", "12 => Error::UnknownVersion(value)"),
            (errors.HEADER, "DWARF_OUT_OF_MEMORY = 18", "DWARF_OUT_OF_MEMORY = 17"),
            (errors.HEADER, "/* memory ran out */", "/* memory */"),
            (errors.C_TEST, '13, "out of memory"', '14, "out of memory"'),
            (errors.COMPARER, '    "OutOfMemory",\n', ""),
            (errors.RUST, "    /// Memory ran out.\n    OutOfMemory,\n", ""),
            (errors.RUST, "    ErrorKind::OutOfMemory,\n", ""),
            (errors.RUST, '(ErrorKind::OutOfMemory, 0, "out of', '(ErrorKind::OutOfMemory, 1, "out of'),
        ]
        found = errors.errors(errors.ROWS.read_text())
        self.assertEqual({it[0] for it in rows}, {it[0] for it in errors.lists(found)})
        for path, old, new in rows:
            text = path.read_text()
            changed = text.replace(old, new)
            self.assertTrue(changed != text and errors.with_lists(found, path, changed) == text, old)

    def test_bad_rows(self) -> None:
        text = errors.ROWS.read_text()
        for old, new, why in (
            ("OutOfMemory = (18,", "OutOfMemory = (19,", "aren't numbered"),
            ("-- memory ran out\n", "", "aren't numbered"),
            ("number_and_value OutOfMemory", "number_and_value NoMemory", "NoMemory is no error"),
        ):
            with self.assertRaisesRegex(SystemExit, re.escape(why)):
                errors.errors(text.replace(old, new))
