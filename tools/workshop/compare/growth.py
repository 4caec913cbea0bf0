"""Measures how time, touched pages and instructions grow with tables of 10^2 to 10^7 declarations, on either side."""
import argparse
from collections.abc import Callable, Sequence

from workshop.compare.common import build, must, need
from workshop.compare.measure import counted, what_ran

COUNTS = [10**power for power in range(2, 8)]
KINDS = {"rising": "that rise from 1", "falling": "that fall", "gaps": "with gaps"}
# What makes a cell, by the program, the words for the kind of table, and the number of declarations.
Cell = Callable[[str, list[str], int], str]


def timed(program: str, words: list[str], _count: int) -> str:
    """The nanoseconds of a declaration: gimli's, the library's, and their ratio."""
    gimli, here = must([program, "--time", *words], "growth isn't measured").split("\t")[2:4]
    return f"{float(gimli):.0f}, {float(here):.0f} ({float(here) / float(gimli):.2f})"


def touched(program: str, words: list[str], count: int) -> str:
    """The bytes of pages that the reading of a table touches first, of a declaration."""
    cells = []
    for side in ("gimli", "here"):
        total = must([program, "--touched", side, *words], "growth is not measured")
        cells.append(f"{int(total) / count:.0f}")
    return ", ".join(cells)


def instructions(program: str, words: list[str], _count: int) -> str:
    """The instructions of a declaration: gimli's, the library's, and their ratio."""
    [(_, gimli, here)] = counted(program, words)
    return f"{gimli:,.0f}, {here:,.0f} ({here / gimli:.2f})"


def print_table(what: str, counts: Sequence[int], program: str, cell: Cell) -> None:
    """Prints a table, whose cells a function makes. A cell has gimli's number and the library's."""
    heads = ["declarations", *(f"{words}: {what}" for words in KINDS.values())]
    print(f"\n| {' | '.join(heads)} |\n{'|---' * len(heads)}|", flush=True)
    for count in counts:
        cells = [cell(program, ["--table", kind, str(count)], count) for kind in KINDS]
        print(f"| {count:,} | {' | '.join(cells)} |", flush=True)


def growth(given: argparse.Namespace) -> int:
    """Prints the tables of `growth`."""
    need("valgrind", "valgrind")
    program = build(given.debian)
    print(what_ran(program))
    print_table("ns", COUNTS, program, timed)
    # 100 declarations take so few pages that one more or less is a large part of them.
    print_table("bytes of touched pages", COUNTS[1:], program, touched)
    print_table("instructions", COUNTS, program, instructions)
    return 0
