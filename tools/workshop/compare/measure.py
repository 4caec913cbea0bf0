"""Measures calls of the library and of gimli."""
import argparse
import os
import re
import shutil
import subprocess
import tempfile
from collections.abc import Iterator, Sequence

from workshop import kit
from workshop.compare.common import Failed, build, must, need, run, sections
from workshop.compare.measured import table, tell

# The C library copies a large block by one instruction that valgrind counts once a byte. With this setting it copies by
# moves of 32 bytes, as it does small blocks.
COUNTED_COPIES = {"GLIBC_TUNABLES": "glibc.cpu.x86_rep_movsb_threshold=1073741824"}
# Whether the C library gives freed memory back to the system depends on what was freed before, and would be measured,
# too. With these settings the library keeps the memory of inputs that are made.
KEPT_MEMORY = {"GLIBC_TUNABLES": "glibc.malloc.mmap_threshold=1073741824:glibc.malloc.trim_threshold=1073741824"}
# A jump in a disassembly, to a place that the code names: where it is, and its bytes.
JUMP = re.compile(r"^ *([0-9a-f]+):\t((?:[0-9a-f]{2} )+) *\tj(?!\S* +\*)", re.M)


def what_ran(program: str) -> str:
    """The version of gimli, the processor, and the compiler of gimli's side."""
    model = re.search(r"^model name\s*: (.*)$", kit.text_of("/proc/cpuinfo"), re.M)
    gimli = must([program, "--gimli"], "the program is another one")
    return f"gimli {gimli}; {model[1] if model else 'a processor without a name'}; {run(['rustc', '--version'])[0]}"


def at_borders(disassembled: str) -> tuple[int, int]:
    """How many jumps to a known place end at a border of 32 bytes or cross one, and how many there are."""
    jumps = [(int(place, 16), len(code.split())) for place, code in JUMP.findall(disassembled)]
    return sum(place // 32 != (place + size) // 32 for place, size in jumps), len(jumps)


def build_aligned(is_debian: bool) -> str:
    """Builds the program that compares with jumps off the borders of 32 bytes, and sees that they are."""
    program = build(is_debian, True)
    found, all_jumps = at_borders(must(["objdump", "-dw", program], f"{program} isn't disassembled"))
    # Some are left in objects that were compiled before, such as the C library's. One jump in eight is at a border by
    # chance.
    if found * 200 > all_jumps:
        raise Failed(f"{found} of {all_jumps} jumps are at borders of 32 bytes: the compilers here don't move them")
    return program


def timed(program: str, words: Sequence[str]) -> Iterator[str]:
    """The rows of the table of `time`, for files with the page faults of one call."""
    how = {} if words else {"env": {**os.environ, **KEPT_MEMORY}}
    for line in must([program, "--time", *words], "it can't be timed", **how).splitlines():
        name, _, gimli, here, low, middle, high, *faults = line.split("\t")
        cells = [name, f"{float(gimli):.1f}", f"{float(here):.1f}", f"{float(middle):.2f}"]
        cells.append(f"{float(low):.2f} to {float(high):.2f}")
        yield f"| {' | '.join(cells + faults if words else cells)} |"


def counted(program: str, words: Sequence[str]) -> Iterator[tuple[str, float, float]]:
    """What a program counts by `--count`: names, and the instructions of one operation of gimli's and of the library.
    They are in the parts that callgrind writes after each counted call."""
    found: dict[str, list[int]] = {"gimli_counted": [], "ours_counted": []}
    with tempfile.TemporaryDirectory(prefix="compare-") as work:
        flags = ["--tool=callgrind", f"--callgrind-out-file={work}/part"]
        flags += [f"--{what}={side}" for side in found for what in ("toggle-collect", "dump-after")]
        command = ["valgrind", "-q", *flags, program, "--count", *words]
        environment = {**os.environ, **COUNTED_COPIES}
        said = must(command, "it can't be counted", stderr=subprocess.DEVNULL, env=environment)
        for name in sorted(os.listdir(work), key=number_of_part):
            text = kit.text_of(f"{work}/{name}")
            side = re.search(r"^desc: Trigger: --dump-after=(\w+)", text, re.M)
            if side:
                count = re.findall(r"^(?:summary|totals): (\d+)", text, re.M)[0]
                found[side[1]].append(int(count))
    lines = said.splitlines()
    if {len(it) for it in found.values()} != {len(lines)}:
        raise Failed("callgrind didn't count each call")
    for line, gimli, here in zip(lines, *found.values()):
        name, operations = line.split("\t")
        yield name, gimli / int(operations), here / int(operations)


def number_of_part(name: str) -> int:
    """Which of the files of callgrind this is. The one without a number is the first."""
    return int(name.rpartition(".")[2]) if "." in name else 0


def counted_rows(program: str, words: Sequence[str]) -> Iterator[str]:
    """The rows of the table of `count`."""
    for name, gimli, here in counted(program, words):
        yield f"| {name} | {gimli:,.0f} | {here:,.0f} | {here / gimli:.2f} |"


def own_files(program: str, folder: str) -> list[str]:
    """A Rust program, which is the one that compares, and an object that a C++ compiler makes."""
    need("g++", "g++")
    paths = [f"{folder}/a Rust program", f"{folder}/a C++ object"]
    shutil.copy(program, paths[0])
    kit.write_file(f"{folder}/source", '#include <regex>\nstd::regex made("a*");\n')
    with open(f"{folder}/source", encoding="utf-8") as source:
        must(["g++", "-g", "-c", "-x", "c++", "-", "-o", paths[1]], "the C++ object isn't made", stdin=source)
    return paths


def measure(is_timed: bool, given: argparse.Namespace) -> int:
    """Prints the table of `time` or of `count`."""
    need(*(("objdump", "binutils") if is_timed else ("valgrind", "valgrind")))
    program = build_aligned(given.debian) if is_timed else build(given.debian)
    with tempfile.TemporaryDirectory(prefix="compare-") as work:
        files = given.files
        if given.elf and not files:
            files = own_files(build(given.debian), work)
        words = [word for i, path in enumerate(files) for word in sections(path, f"{work}/{i}")]
        rows = list(timed(program, words) if is_timed else counted_rows(program, words))
    heads = ["instructions of one operation", "gimli", "here", "ratio"]
    if is_timed:
        heads = ["nanoseconds of one operation", *heads[1:], "middle half"]
        heads += ["gimli's page faults", "here"] if words else []
    return tell(given, "time" if is_timed else "count", what_ran(program), table(heads, rows))
