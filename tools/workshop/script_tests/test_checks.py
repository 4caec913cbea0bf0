"""Tests of the verdicts: what each kind of check says of a program, a file or a listing that is wrong."""
import contextlib
import functools
import importlib
import os
import tempfile
import unittest
from collections.abc import Iterator
from typing import Any
from unittest import mock

from workshop import commands, floor, frame, gate, kit
from workshop.checks import consumers, elf, memory, package, rows
from workshop.compare import command
from workshop.frame import FAILED, PASSED, SKIPPED
from workshop.script_tests import came_of, state_of


@contextlib.contextmanager
def script(text: str) -> Iterator[str]:
    """A program that is this script."""
    with tempfile.TemporaryDirectory() as folder:
        kit.write_file(f"{folder}/program", f"#!/bin/sh\n{text}\n")
        os.chmod(f"{folder}/program", 0o755)
        yield f"{folder}/program"


class Names(unittest.TestCase):
    """The checks that commands have are those of `tools/checks.txt`, before they are made."""

    def test_checks(self) -> None:
        for name, (place, _) in commands.COMMANDS.items():
            checks = getattr(importlib.import_module(f"workshop.{place}"), "CHECKS", None)
            if checks:
                known = floor.sections()[name]
                own = [frame.name_of(it) for it in frame.tests_of(checks)]
                self.assertEqual(len({*own}), len(own), name)
                lacking = [it for it in own if it not in known and not any(one.startswith(f"{it}/") for one in known)]
                gone = [it for it in known if it not in own and not it.startswith(tuple(f"{one}/" for one in own))]
                self.assertEqual((lacking, gone), ([], []), name)

    def test_proofs(self) -> None:
        """The crates and the wrong bodies of all crates."""
        known = [f"crate/{it}" for it in kit.CRATES] + [f"body/{it.removesuffix('.edit')}" for it in gate.bodies()]
        self.assertEqual(sorted(floor.sections()["proofs"]), sorted(known))

    def test_planted(self) -> None:
        """The errors that the comparison plants."""
        known = {it for it in floor.sections()["compare"] if it.startswith("plant/")}
        self.assertEqual(known, {f"plant/{it}" for it in command.plants()})


class Rows(unittest.TestCase):
    """A program has to write what dwarf_list writes of each row, with the same status."""

    WANTED = {"str 0 strings": (b"one\n", 0), "str 9 strings": (b"error: none\n", 1)}

    def test_compare(self) -> None:
        texts = {
            'case $2 in 0) echo one ;; *) echo "error: none"; exit 1 ;; esac': PASSED,
            'case $2 in 0) echo two ;; *) echo "error: none"; exit 1 ;; esac': FAILED,
            'case $2 in 0) echo one ;; *) echo "error: none" ;; esac': FAILED,
            "echo one": FAILED,
        }
        with mock.patch.multiple(rows, wanted=lambda: self.WANTED, wanted_object=lambda: {}):
            for text, state in texts.items():
                with script(text) as program:
                    self.assertEqual(state_of(lambda: rows.compare([program])), state, text)

    def test_no_rows(self) -> None:
        with mock.patch.object(rows, "wanted", lambda: {}), script("true") as program:
            self.assertEqual(state_of(lambda: rows.compare([program])), FAILED)

    def test_consumers(self) -> None:
        """Each way to build a program runs what was built, and compares it."""
        for way in consumers.WAYS:
            compare = mock.Mock(side_effect=AssertionError)
            with mock.patch.object(rows, "compare", compare), mock.patch.dict(consumers.WAYS, {way: lambda *_: ["built"]}):
                self.assertEqual(state_of(lambda: consumers.consume(mock.Mock(), consumers.Root("/none"), way)), FAILED)
            self.assertEqual(compare.call_args.args, (["built"],))


class Listings(unittest.TestCase):
    """A comparison of listings that differ fails its check, and doesn't end it."""

    # Two texts, and how many comparisons and faults they are.
    TEXTS = [
        ("unit 0x0\nset 0x8\n", "unit 0x0\nset 0x8\n", 0),
        ("unit 0x0\n", "unit 0x1\n", 1),
        ("unit 0x0\n", "unit 0x0\nset 0x8\n", 1),
        ("", "unit 0x0\n", 1),
    ]

    def test_equal(self) -> None:
        for here, there, faults in self.TEXTS:

            class One(elf.OfTool):
                """A comparison of these texts."""

                def test_equal(self, here: str = here, there: str = there) -> None:
                    self.equal("texts", here, there)
                    self.tell(True, "and more")

            with mock.patch.object(elf, "build", lambda: None):
                [made] = frame.tests_of([One])
                states = [*frame.made(made)[1].values()]
            self.assertEqual([it.state for it in states], [FAILED if faults else PASSED])
            self.assertEqual(made.count, 2)  # type: ignore[attr-defined]

    def test_files(self) -> None:
        """A file is compared section by section, and a listing that reports an error fails."""
        well = {"sections": (0, ".debug_str 4\n1 section\n", ""), "str": (0, "0x0: a\n", "")}
        rows: list[tuple[dict[str, tuple[int, str, str]], str]] = [
            ({}, PASSED),
            ({"str": (0, "0x0: a\n0x2: b\n", "")}, FAILED),
            ({"str": (0, "0x0: a\n", "dwarf_elf: no\n")}, FAILED),
            ({"str": (1, "0x0: a\n", "")}, FAILED),
            ({"sections": (0, ".debug_str 4\n1 section\n", "dwarf_elf: no\n")}, FAILED),
        ]
        for other, wanted in rows:
            said = {**well, **other}

            class One(elf.OfFiles):
                """A comparison of a file."""

                def test_file(self) -> None:
                    self.compare_all([("a file", "file")])

            fakes: dict[str, Any] = {"build": lambda: None, "tool": lambda _, name: said[name]}
            fakes["of_llvm"] = lambda _: {".debug_str": '0x00000000: "a"\n'}
            fakes["output"] = lambda *_: "\n  [     0]  a\n"
            with mock.patch.multiple(elf, **fakes):
                self.assertEqual([*came_of(One).values()], [wanted], other)


class Packages(unittest.TestCase):
    """Packages that differ when they are made again fail, and so do warnings of lintian."""

    def test_same_again(self) -> None:
        for text, state in (("one", PASSED), ("two", FAILED)):
            with tempfile.TemporaryDirectory() as folder:
                kit.write_file(f"{folder}/a.deb", "one")

                class Made:
                    """A package that is made."""

                    def __init__(self, work: str, folder: str = folder, text: str = text) -> None:
                        self.work, self.files, self.text = work, ["a.deb"], text

                    def make(self) -> None:
                        kit.write_file(f"{self.work}/a.deb", self.text)

                with mock.patch.multiple(package, made=lambda: Made(folder), Package=Made):
                    self.assertEqual(state_of_check(package.Files("test_same_again")), state)

    def test_lintian(self) -> None:
        run = mock.Mock(return_value="")
        made = mock.Mock(debs=["a.deb"], work="/")
        with mock.patch.object(frame, "must", run), mock.patch.object(package, "made", lambda: made):
            with mock.patch.object(frame, "need"):
                self.assertEqual(state_of_check(package.Files("test_lintian")), PASSED)
        self.assertEqual(run.call_args.args, (["lintian", "--fail-on", "error,warning", "a.deb"],))


def state_of_check(check: unittest.TestCase) -> str:
    """The state of a check."""
    return [*frame.made(check)[1].values()][0].state


class Memory(unittest.TestCase):
    """A program with a refused request writes a beginning of what it writes otherwise, and says that memory ran out."""

    END = b"error: out of memory\n"
    WHOLE = (b"one\ntwo\n", 0, b"")

    def test_programs(self) -> None:
        # What the program does with its second request refused.
        programs: list[tuple[memory.Ran, str]] = [
            ((b"", 1, self.END), PASSED),
            ((b"one\n", 1, self.END), PASSED),
            (self.WHOLE, PASSED),
            ((b"", 1, b""), FAILED),
            ((b"two\n", 1, self.END), FAILED),
            ((b"", 0, self.END), FAILED),
            ((b"", -11, b""), FAILED),
            ((b"one\n", 0, b""), FAILED),
            ((b"", 1, b"error: another\n" + self.END), FAILED),
        ]
        for ran, state in programs:
            refused = {1: (b"", 1, self.END), 2: ran}
            call = functools.partial(memory.try_requests, lambda number: refused.get(number, self.WHOLE))
            self.assertEqual(state_of(call), state, ran)
        self.assertEqual(state_of(lambda: memory.try_requests(lambda number: self.WHOLE)), FAILED)
        self.assertEqual(state_of(lambda: memory.try_requests(lambda number: (b"", 1, self.END))), FAILED)

    def test_tests(self) -> None:
        last, reached = f"    {memory.LAST}\n", "    reached: a\n"
        # What a test prints in its runs, with its verdicts, and how many faults it has.
        runs = [
            ([("ok", reached), ("ok", last)], 0),
            ([("ok", ""), ("ok", last + "    wanted: a\n")], 1),
            ([("ok", reached), ("ok", last + "    wanted: a\n")], 0),
            ([("FAILED", ""), ("ok", last)], 1),
            ([("ok", "")], 1),
        ]
        for said, faults in runs:
            found = memory.faults_of(lambda number: [("a", *said[min(number, len(said)) - 1])])
            self.assertEqual(len(found["a"]), faults, said)


class Comparison(unittest.TestCase):
    """What the program that compares says of its questions and planted errors."""

    SAID = """\
seed 1, gimli 0.27.0
planted position: found in 7 inputs and 0.00 seconds
planted gimli: not found in 9 inputs and 10.00 seconds
all short inputs: 11965026 in 9.1 seconds
/file.debug .debug_str: 7 of 9 offsets
file .debug_str: 9 of 9 offsets
table: 12 inputs, 0 differences: a 12
units: 3 inputs, 2 differences: b 3
left out: this gimli has no sets of addresses, so the second reader alone had them
7 inputs were read by 3 other readers of the library too
2 passed, 2 failed, 1 skipped: 15 inputs, of which gimli 0.27.0 read 9, and 2 differences
"""

    def test_states(self) -> None:
        states = command.states_of(self.SAID, 1)
        wanted = {
            "question/table": PASSED,
            "question/units": FAILED,
            "gimli/sets": SKIPPED,
            "gimli/units": PASSED,
            "other readers": PASSED,
            "short inputs": PASSED,
            "offsets of files": PASSED,
            "plant/position": PASSED,
            "plant/gimli": FAILED,
        }
        self.assertEqual({name: it.state for name, it in states.items()}, wanted)
        self.assertEqual(states["short inputs"].count, 11965026)

    def test_others(self) -> None:
        """No other reader, no offset, plants that are left out, and a status that nothing explains."""
        none = command.states_of(self.SAID.replace("\nfile .debug_str: 9", "\nfile .debug_str: 0"), 1)
        self.assertEqual(none["offsets of files"].state, FAILED)
        said = self.SAID.replace("7 inputs were read", "0 inputs were read").replace("planted gimli: not found", "none")
        self.assertEqual(command.states_of(said, 1)["other readers"].state, FAILED)
        left = len(command.plants()) - 1
        for count, state in ((left, SKIPPED), (left - 1, FAILED)):
            line = f"left out: errors that are planted where units are compared with gimli 0.27: {count}\n"
            self.assertEqual(command.states_of(said + line, 0)["plant/gimli"].state, state)
        self.assertEqual(command.states_of("", 101)["status"].state, FAILED)
        self.assertEqual(command.states_of("", 0), {})
