"""The names of all checks, in `tools/checks.txt`, which a commit that adds or takes away a check changes by hand.

The file has a section for each command that makes checks. A line is the name of a check, or the front that several
names have up to a `/`, and after a colon the rest of each. `*N` after a name says that this check makes N comparisons.
A name that begins with `?` may be skipped on a machine that has all that CONTRIBUTING lists. `&SECTION` means the
lines of another section.
"""
import functools
import itertools
import re
import textwrap
from collections.abc import Iterator, Mapping
from typing import Optional

from workshop import kit

FILE = f"{kit.ROOT}/tools/checks.txt"
WIDTH = 120
LINE = "\n    "
SECTION = re.compile(r"^\[(\S+)\]\n(.*?)(?=^\[|\Z)", re.M | re.S)
NAME = re.compile(r"(\??)(.*?)(?:\*([\d,]+))?")
# A line that means those of another section.
OTHER = re.compile(r"^&(\S+)\n", re.M)
COMMENT = re.compile(r"^#.*\n", re.M)
# The names of each section: how many comparisons each check makes, and whether it may be skipped.
Sections = dict[str, dict[str, tuple[int, bool]]]
# The names of checks, each with its count, or with None if it was skipped or failed.
Counts = Mapping[str, Optional[int]]


@functools.cache
def sections() -> Sections:
    """The sections of `tools/checks.txt`."""
    return read(kit.text_of(FILE))


def read(text: str) -> Sections:
    """The sections of a file with this text."""
    texts: dict[str, str] = dict(SECTION.findall(COMMENT.sub("", text)))
    return {title: dict(names_in(OTHER.sub(lambda found: texts[found[1]], it))) for title, it in texts.items()}


def names_in(text: str) -> Iterator[tuple[str, tuple[int, bool]]]:
    """The names of a section with this text."""
    # A line that is indented goes on with the one above.
    for line in re.sub(r"\n +", " ", text).splitlines():
        front, _, rest = line.partition(": ")
        for it in re.split(", ?", rest) if rest else [front] * bool(line):
            found = NAME.fullmatch(it)
            assert found
            name = f"{front}/{found[2]}" if rest else found[2]
            yield name, (int((found[3] or "0").replace(",", "")), bool(found[1]))


def differences(section: str, made: Counts) -> list[str]:
    """A line for each check of a section that was neither made nor skipped, and for each other one that was made, or
    made another number of comparisons."""
    known = sections().get(section, {})
    # The parts of a check that was skipped or failed are unknown.
    unknown = tuple(f"{name}/" for name, count in made.items() if count is None)
    fronts = {name for name in made if made[name] is None and any(it.startswith(f"{name}/") for it in known)}
    lines = [f"{it} was neither made nor skipped" for it in known if it not in made and not it.startswith(unknown)]
    other = {name: count or 0 for name, count in made.items() if name not in known and name not in fronts}
    lines += [f"tools/checks.txt lacks, in its section {section}: {it}" for it in lines_of(other)]
    for name, (count, _) in known.items():
        there = made.get(name)
        if there is not None and there != count:
            lines.append(f"{name} made {there:,} comparisons, and tools/checks.txt has {count:,}")
    return lines


def split(name: str) -> tuple[str, str]:
    """The front of a name and the rest, if it has a front."""
    front, _, rest = name.rpartition("/")
    return front, rest


def lines_of(made: Mapping[str, int]) -> list[str]:
    """The lines of the file for these names and counts."""
    lines = []
    for front, group in itertools.groupby(sorted(made, key=split), lambda it: split(it)[0]):
        ends = [it.removeprefix(f"{front}/") + f"*{made[it]:,}".replace(",", "") * bool(made[it]) for it in group]
        if front:
            is_long = sum(map(len, ends)) > 16 * len(ends)
            text = f"{front}: {', '.join(ends)}"
            text = textwrap.fill(text, WIDTH, subsequent_indent="    ", break_on_hyphens=False)
            lines.append(f"{front}:{LINE}{(',' + LINE).join(ends)}" if is_long else text)
        else:
            lines += ends
    return lines


def skippable(section: str) -> set[str]:
    """The checks of a section that may be skipped where all is there."""
    return {name for name, (_, may_skip) in sections().get(section, {}).items() if may_skip}
