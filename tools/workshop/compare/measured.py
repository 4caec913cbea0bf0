"""Keeps what the measuring commands print in compare/measured.md, and puts its rows into the page that shows some of
them. A test compares the page with the file."""
import argparse
import re
import time
from collections.abc import Iterable

from workshop import kit
from workshop.compare.common import Failed

# The version that the page compares with.
GIMLI = "gimli 0.34."
FILE = f"{kit.ROOT}/compare/measured.md"
PAGE = f"{kit.ROOT}/docs/BENCHMARKS.md"
TOP = """\
# Measurements

`tools/compare` writes this file, so edit nothing here: each section is what the command of its heading printed last,
with `--write`, and begins with the day and the commit. [BENCHMARKS](../docs/BENCHMARKS.md) shows some of the rows.
"""
# A section: the heading, and what a command printed.
SECTION = re.compile(r"^## `tools/compare (.*?)`\n(.*?)(?=^## |\Z)", re.M | re.S)
# A table: its first line, and its rows.
TABLE = re.compile(r"^(\|.*\|)\n\|[-|]+\|\n((?:\|.*\|\n)*)", re.M)


def rows_of(text: str) -> dict[tuple[str, str], str]:
    """The rows of the tables of a text, each by the first line of its table and by its first cell."""
    return {(head, row.split("|")[1]): row for head, rows in TABLE.findall(text) for row in rows.splitlines()}


def put_rows(page: str, new: dict[tuple[str, str], str]) -> str:
    """A page whose rows are those that are new, where they have the same first line and first cell."""
    for place, old in rows_of(page).items():
        page = page.replace(f"\n{old}\n", f"\n{new.get(place, old)}\n")
    return page


def table(heads: Iterable[str], rows: Iterable[str]) -> str:
    """A table with these words in the first line."""
    return "".join(f"{it}\n" for it in (f"| {' | '.join(heads)} |", "|---" * len([*heads]) + "|", *rows))


def when() -> str:
    """The day, and the commit of this checkout, with `-dirty` after it if there are changes that it doesn't have."""
    described = kit.run(["git", "describe", "--always", "--dirty", "--abbrev=8", "--exclude=*"], cwd=kit.ROOT)
    if described.returncode:
        raise Failed("nothing is written, since git doesn't say which commit this is")
    return f"{time.strftime('%Y-%m-%d')}, {described.stdout.strip()}"


def tell(given: argparse.Namespace, name: str, what_ran: str, printed: str) -> int:
    """Prints the table that a command has made, with what ran, and writes it if that was requested."""
    print(f"{what_ran}\n\n{printed}", end="")
    if given.write:
        if given.files or not what_ran.startswith(GIMLI):
            raise Failed(f"nothing is written, since the page compares with {GIMLI}0, and without a FILE")
        sections = dict(SECTION.findall(kit.text_of(FILE)))
        sections[f"{name} --elf" if given.elf else name] = f"\n{when()}; {what_ran}\n\n{printed}\n"
        kit.write_file(FILE, TOP + "".join(f"\n## `tools/compare {it}`\n{sections[it].rstrip()}\n" for it in sorted(sections)))
        kit.write_file(PAGE, put_rows(kit.text_of(PAGE), rows_of(printed)))
    return 0
