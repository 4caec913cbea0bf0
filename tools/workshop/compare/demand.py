"""Measures the reading of single tables of a large section, with what the kernel takes of it."""
import argparse
import tempfile

from workshop.compare.common import Missing, build, debug_file_of_libc, must, sections
from workshop.compare.measure import what_ran
from workshop.compare.measured import table, tell


def demand(given: argparse.Namespace) -> int:
    """Prints the table of `demand`."""
    program = build(given.debian)
    path = given.files[0] if given.files else debug_file_of_libc()
    if not path:
        raise Missing("there is no debug file of the C library: `apt-get install libc6-dbg` installs it")
    with tempfile.TemporaryDirectory(prefix="compare-") as work:
        words = sections(path, f"{work}/sections")
        rows = must([program, "--demand", *words], "tables aren't measured").splitlines()
    heads = ["tables", "gimli", "page faults", "here", "page faults", "ratio"]
    return tell(given, "demand", f"{what_ran(program)}; {rows[0]}", table(heads, rows[1:]))
