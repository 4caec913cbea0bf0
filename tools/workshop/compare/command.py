"""Compares the library with the published gimli and a second reader over the same bytes, and measures it and gimli.

    tools/compare [--debian] [--seconds N] [--seed S] [--or-skip] [FILE..]
    tools/compare [--debian] --case 'QUESTION BYTES'
    tools/compare [--debian] --all
    tools/compare [--debian] --plants | --plant NAME
    tools/compare client [--debian] [FILE..]
    tools/compare time [--debian] [--elf] [--write] [FILE..]
    tools/compare count [--debian] [--elf] [--write] [FILE..]
    tools/compare program [--debian] [--write]
    tools/compare growth [--debian]
    tools/compare demand [--debian] [--write] [FILE]
    tools/compare constants

Without a word each input goes to the library, to gimli, and to a plain second reader that was written from the text of
the standard (compare/src/plain.rs), in one process. A result is a value or an error by its name, with its value or
position, and for a number also how many bytes remain. Inputs are the sections of ELF files, read at each offset, and
sections that are made: well formed, cut, padded and changed ones. Without a FILE these are the debug file of the C
library, if it is installed, and the program that compares. The seed determines what is made. It takes N seconds, 60
if no N is given. About every sixteenth input, and of long ones one in 16,384, is read by other readers of the library
too: slices whose byte order is big or known at run time, and `OwnedReader` of `crates/dwarf_uses`.

A difference is printed with the smallest input that is found to show it, what each reader gives, and the command that
reads it alone, which is the second form. Then comes a line for each question, with how often each error and each kind
of value was reached, and lines that say what this gimli doesn't have or reads otherwise, how many inputs there were, and
how many of them differed. The last line has how many of the questions were equal throughout, `N passed, M failed,
K skipped`.

`--all` goes through all short inputs, some thirteen million: the sections of up to five bytes over an alphabet of
eleven, and those of up to four after the front of a table; sets and units whose headers are nearly right; entries whose
first value, of each form, has up to three bytes over an alphabet of seven; lookups in up to five bytes, at small
indexes and at those whose product with a size is as large as an offset can be; the numbers of up to three bytes; and
longer numbers at the edges of their range. That takes seconds.

`--plants` tries the comparison: errors are planted in the second reader, one at a time, and two where gimli is called,
each of another kind, such as a position, the order of two errors or the tag of a declaration. A line has how
many inputs it took until one was found, with its smallest input above it. One that isn't found in ten seconds has
failed. `--plant NAME` plants one alone. `--all`, `--plants` and `--plant` may be combined. With them nothing else is
compared, unless N is given.

`client` is a program that nobody here wrote, reading by the library: a scratch copy of gimli 0.27, as Debian installs
it, in which tables, strings, lookups and LEB128 numbers are the library's calls. Its own tests are run, and those that
call the library are counted: they fail if each call panics. Each FILE is dumped by it and by the unchanged gimli, entry
by entry. Then three errors are planted in the library's results, which the tests or the dumps have to show.

`time` and `count` measure the library and gimli on equal inputs, whose sums have to be equal, and print a table. For
`time` it has the nanoseconds of one operation of each side, and the ratio of the library's to gimli's, which is the
median of 31 pairs of neighbouring turns, and the middle half of these ratios. Both sides are built so that no jump ends
at a border of 32 bytes or crosses one. Some processors are slow at these, and then a time tells where code is rather
than what it does. If the disassembled program has such jumps, nothing is measured. For `count` the table has the
instructions that valgrind counts, which repeat exactly, of an ordinary build.

With --elf or with a FILE, `time` and `count` measure the tables and strings of files alone, and `time` adds the page
faults of one call; without a FILE these are a Rust program, the one that compares, and an object that g++ makes of
<regex>. The call that reads tables counts their declarations, which gimli can't tell. The call for C,
`dwarf_table_read`, gets arrays that are made once for the section. `tables`, `Table::read` and `Table::read_again` of
the crate for Rust are measured too.

`program` times `dwarf_list`, a plain program over gimli, and `readelf` and `llvm-dwarfdump` if they are installed, on
sections of 20 MB. `growth` reads tables of 10^2 to 10^7 declarations on either side, and prints tables of their time,
touched pages and instructions. It takes half an hour. `demand` reads each table of a section by itself,
as a debugger does, by gimli and by the crate for Rust, in one thread and in four, and prints a table of the processor's
time and of page faults. The section is that of the C library's debug file, or of FILE, eight times over.

`constants` compares the named constants of dwarf_constants.h with those of gimli 0.27, elfutils' dwarf.h and LLVM's
Dwarf.def, as the gate does. A line of each table has how many names are equal, and how many are on one side alone, since
each list has names of makers that the others leave out. A name of the header that it can't read fails it.

With --write the table replaces that of the same command in compare/measured.md, and the rows that docs/BENCHMARKS.md
shows of it. `tools/tests` fails if that page has other numbers.

gimli comes from crates.io. Where cargo doesn't reach it, or with --debian, Debian's package librust-gimli-dev is
used. The code of dwarf_compare is proved first if it isn't kept. What is made is in compare/out.

The exit status is 0 if nothing differs, 1 if something does, and 2 for a wrong command line or if cargo, gimli or
another tool is missing. With --or-skip a missing tool is counted as skipped, with status 0.
"""
import argparse
import functools
import re
import subprocess
import tempfile
from collections.abc import Callable
from typing import Optional

from workshop import floor, frame, kit
from workshop.compare import client, demand, growth, measure, program, published
from workshop.compare.common import Failed, Missing, build, check_files, files_by_default, say, sections
from workshop.frame import FAILED, PASSED, SKIPPED, State


def compare(given: argparse.Namespace) -> int:
    """Runs the program that compares, and returns its exit status."""
    program = build(given.debian)
    again = "tools/compare --debian --case" if given.debian else "tools/compare --case"
    words = [program, "--again", again]
    if given.plants:
        words.append("--plants")
    if given.all:
        words.append("--all")
    for name in given.plant:
        words += ["--plant", name]
    if given.case is not None:
        return subprocess.run([*words, "--case", given.case], check=False).returncode
    is_alone = (given.plants or given.all or given.plant) and given.seconds is None
    files: list[str] = []
    seconds = "0"
    if not is_alone:
        files = given.files or files_by_default(program)
        seconds = given.seconds or "60"
    words += ["--seed", given.seed or "1", "--seconds", seconds]
    with tempfile.TemporaryDirectory(prefix="compare-") as work:
        for i, path in enumerate(files):
            words += sections(path, f"{work}/{i}")
        ran = kit.run(words, show, stderr=None)
    return frame.end("compare", states_of(ran.stdout, ran.returncode))


# What the program says of a question, of a planted error, of the short inputs, of those that other readers of the library
# had, of the offsets of a file's section that were asked for, and of what this gimli hasn't.
QUESTION = re.compile(r"^([\w-]+): \d+ inputs, (\d+) differences", re.M)
PLANT = re.compile(r"^planted ([\w-]+): (not )?found in ", re.M)
SHORT = re.compile(r"^all short inputs: (\d+) in ", re.M)
OTHERS = re.compile(r"^(\d+) inputs were read by 3 other readers", re.M)
OFFSETS = re.compile(r"^\S+ \.debug_\w+: (\d+) of \d+ offsets$", re.M)
LEFT_OUT = {
    "sets": "this gimli has no sets of addresses, so the second reader alone had them",
    "units": "units are compared with gimli 0.27, so the second reader alone had them",
}
LEFT_PLANTS = re.compile(r"^left out: (errors that are planted where units are compared .*): (\d+)$", re.M)
# A list of the errors that are planted.
PLANTS = re.compile(r"^plants! \{\n(.*?)^\}", re.M | re.S)


def show(line: str) -> None:
    print(line, end="", flush=True)


def plants() -> list[str]:
    """The errors that can be planted."""
    found = PLANTS.findall(kit.text_of(f"{kit.ROOT}/compare/src/plain.rs"))
    return [it for text in found for it in re.findall(r'^    \w+ "([\w-]+)",$', text, re.M)]


def states_of(said: str, status: int) -> frame.States:
    """What the program says of each question and of each planted error, if it ended with this status."""
    states = {f"question/{it}": State(FAILED if int(count) else PASSED) for it, count in QUESTION.findall(said)}
    if states:
        for name, why in LEFT_OUT.items():
            states[f"gimli/{name}"] = State(SKIPPED, why) if f"left out: {why}\n" in said else State(PASSED)
        others = OTHERS.search(said)
        states["other readers"] = State(PASSED if others and int(others[1]) else FAILED)
    if asked := OFFSETS.findall(said):
        states["offsets of files"] = State(PASSED if all(map(int, asked)) else FAILED)
    if short := SHORT.search(said):
        states["short inputs"] = State(PASSED, count=int(short[1]))
    states.update((f"plant/{it}", State(FAILED if lost else PASSED)) for it, lost in PLANT.findall(said))
    if left := LEFT_PLANTS.search(said):
        unseen = [it for it in plants() if f"plant/{it}" not in states]
        well = len(unseen) == int(left[2])
        states.update((f"plant/{it}", State(SKIPPED if well else FAILED, left[1])) for it in unseen)
    if status and not any(it.state == FAILED for it in states.values()):
        states["status"] = State(FAILED, f"the program that compares ended with status {status}")
    return states


Command = Callable[[argparse.Namespace], int]
# What each command does, and which options it takes, or files. Without a name it compares.
COMMANDS: dict[Optional[str], tuple[Command, str]] = {
    None: (compare, "debian or_skip seconds seed case plants plant all files"),
    "client": (client.client, "debian files"),
    "time": (functools.partial(measure.measure, True), "debian elf write files"),
    "count": (functools.partial(measure.measure, False), "debian elf write files"),
    "program": (program.program, "debian write"),
    "growth": (growth.growth, "debian"),
    "demand": (demand.demand, "debian write files"),
    "constants": (published.compare, ""),
}


def number(form: str, what: str) -> Callable[[str], str]:
    """What takes a word of this form, and rejects any other."""

    def take(word: str) -> str:
        if not re.fullmatch(form, word):
            raise argparse.ArgumentTypeError(f"it needs {what}, and not '{word}'")
        return word

    return take


def read_words(words: list[str]) -> tuple[Command, argparse.Namespace]:
    """What is to be called, and with what. A wrong word ends the run with status 2."""
    usage = "tools/compare [COMMAND] [OPTION].. [FILE..]"
    parser = argparse.ArgumentParser("compare", usage, add_help=False, allow_abbrev=False)
    for it in ("--debian", "--or-skip", "--elf", "--write", "--plants", "--all"):
        parser.add_argument(it, action="store_true")
    parser.add_argument("--plant", action="append", default=[])
    parser.add_argument("--case")
    parser.add_argument("--seconds", type=number(r"\d{1,9}(\.\d+)?", "a number such as 20 or 0.5"))
    parser.add_argument("--seed", type=number(r"\d{1,19}", "a whole number below 10^19"))
    parser.add_argument("files", nargs="*")
    given = parser.parse_intermixed_args(words)
    name = given.files.pop(0) if given.files and given.files[0] in COMMANDS else None
    command, taken = COMMANDS[name]
    for option, value in vars(given).items():
        if value and option not in taken.split():
            parser.error(f"{name} takes no {option}: tools/compare --help says what it takes")
    return command, given


def main(words: list[str]) -> int:
    command, given = read_words(words)
    try:
        check_files(given.files)
        return command(given)
    except Missing as error:
        say(error)
        if given.or_skip:
            return frame.end("compare", {it: State(SKIPPED, str(error)) for it in floor.sections()["compare"]})
    except Failed as error:
        say(error)
    return 2
