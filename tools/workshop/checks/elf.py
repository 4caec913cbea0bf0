"""Compares what `dwarf_elf` lists of many ELF files with what llvm-dwarfdump and readelf print of them.

    tools/compare-elf               compiles small sources in many ways, and compares all units, tables, strings and sets
    tools/compare-elf FILE..        compares these files instead
    tools/compare-elf CHECK..       makes the checks with these names alone, such as `Files.listed/gcc5`

The sources are in C, C++ and Rust, in DWARF 2 to 5, in both formats, plain, compressed, split, packed, linked, and
linked to one relocatable file, for ten machines. The tool is built for that without a network, and its package's tests
are run, which have malformed files, by Debian's cargo. Archives and stripped files are
compared with their members and whole files, and the strings of string offsets with all strings. At the end are files
with units of two versions, and those that could take much memory.

A line is printed for each check, with how many units, tables, strings and sets it compared. What can't be made because
a compiler or another program isn't installed is skipped. The last line is `N passed, M failed, K skipped`, and the exit status is 0 if nothing failed,
1 if something did, and 2 for a wrong command line.
"""
import itertools
import os
import pathlib
import re
import shutil
import struct
import subprocess
import sys
import tempfile
from collections import Counter
from collections.abc import Callable, Iterable, Iterator, Sequence
from typing import Optional, Union

from workshop import frame, kit

# The crates of Debian without which the tool isn't built.
CRATES = ("flate2", "memmap2", "object")
REGISTRY = pathlib.Path("/usr/share/cargo/registry")
OFFLINE = f"{kit.ROOT}/elf/offline"
# The tool, in the folder where cargo makes it, and the same with zstd.
TOOL = [f"{kit.ROOT}/elf/target/release/dwarf_elf"]
WITH_ZSTD = f"{kit.ROOT}/elf/target/zstd"
# Debian's, which is of the oldest version that compiles the tool.
DEBIAN = {"CARGO": "/usr/bin/cargo", "RUSTC": "/usr/bin/rustc", "CARGO_TARGET_DIR": f"{kit.ROOT}/elf/target/debian"}
# How much time a run of the tool may take, and how much memory besides that of the largest section.
SECONDS = 20
KILOBYTES = 20_000
# Runs a command, and writes the most kilobytes that a process of it had to a file.
MEASURE = """
import resource, subprocess, sys
status = subprocess.run(sys.argv[2:]).returncode
open(sys.argv[1], "w").write(str(resource.getrusage(resource.RUSAGE_CHILDREN).ru_maxrss))
sys.exit(status)
"""
C_SOURCE = """
struct list { int first; struct list *rest; };
static int größe = 3;
static int *place = &größe;
static int sum(struct list *it) { return it ? it->first + sum(it->rest) : *place; }
int %s(void) { struct list last = {3, 0}, all = {4, &last}; return sum(&all); }
"""
CC_SOURCE = """
namespace shapes {
struct Shape { virtual ~Shape() {} virtual int area() const { return 0; } int edge = 1; };
template <class T, int N> struct Row : Shape { T items[N]; int area() const override { return N * edge; } };
enum class Colour : char { red, green };
}
int %s(void) { shapes::Row<long, 4> row; shapes::Row<char, 2> other; return row.area() + other.area(); }
"""
RUST_SOURCE = """
#[derive(Debug, Clone)]
pub enum Shape { Dot, Row(Vec<u32>) }
pub fn main() { println!("{:?}", vec![Shape::Dot, Shape::Row(vec![1, 2])].clone()); }
"""


# A word of a command.
Word = Union[str, pathlib.Path]


def output(*words: Word) -> Optional[str]:
    """What a program prints, or None if it fails."""
    ran = subprocess.run(words, capture_output=True, text=True, errors="surrogateescape")
    return ran.stdout if ran.returncode == 0 else None


def tool(*words: Word, start: Sequence[str] = ()) -> tuple[int, str, str]:
    """Runs the tool. Returns its status, its output and its errors."""
    ran = subprocess.run([*start, "timeout", str(SECONDS), *TOOL, *words], capture_output=True)
    text = ran.stdout.decode(errors="surrogateescape")
    errors = ran.stderr.decode(errors="surrogateescape")
    return ran.returncode, text, errors


def measured(*words: Word) -> tuple[int, str, str, int]:
    """The same, and how many kilobytes the tool took."""
    with tempfile.NamedTemporaryFile("r") as file:
        # Memory counts as at least that of the process that starts a program. So a small one starts the tool.
        found = tool(*words, start=[sys.executable, "-ISc", MEASURE, file.name])
        return *found, int(file.read())


# What llvm-dwarfdump prints, by section, in the lines of dwarf_elf.


def of_llvm(path: Word) -> dict[str, str]:
    """The sections that llvm-dwarfdump prints: the text of each by its name."""
    kinds = ("info", "types", "abbrev", "str", "line-str", "str-offsets", "addr")
    words = [f"--debug-{it}" for it in kinds]
    ran = subprocess.run([dumper(), *words, path], capture_output=True, text=True, errors="surrogateescape")
    parts = re.split(r"^(\.debug\S*) contents:\n", ran.stdout, flags=re.M)
    found: dict[str, str] = {}
    for name, text in zip(parts[1::2], parts[2::2]):
        found[name] = found.get(name, "") + text
    return found


def llvm_units(text: str) -> Iterator[str]:
    for at, kind, line in re.findall(r"^0x(\w+): (\w+) Unit: (.*) \(next unit", text, re.M):
        fields = {"unit_type": f"DW_UT_{kind.lower()}", **dict(re.findall(r"(\w+) = (\w+)", line))}
        length, version, size, table = (int(fields[it], 16) for it in ("length", "version", "addr_size", "abbr_offset"))
        form = f"length {length}, {fields['format'][5:]}-bit, version {version}, {fields['unit_type']}"
        yield f"unit 0x{int(at, 16):x}: {form}, address size {size}, table 0x{table:x}"


def llvm_tables(text: str) -> Iterator[str]:
    for at, lines in re.findall(r"^Abbrev table for offset: 0x(\w+)\n((?:[\[\t].*\n|\n(?!Abbrev))*)", text, re.M):
        yield f"table 0x{int(at, 16):x}:"
        rows = re.findall(r"^\[(\d+)\] (\S+)\tDW_CHILDREN_(yes|no)\n((?:\t.*\n)*)", lines, re.M)
        for code, tag, children, below in sorted(rows, key=lambda it: int(it[0])):
            yield f"{code} {tag} {children}"
            yield from ("  " + " ".join(it.split()) for it in below.splitlines())


def shown(text: bytes) -> str:
    """A string as the tool shows it: with an escape for each byte that isn't printable, and for a backslash."""
    known = {0x5C: "\\\\", 9: "\\t", 10: "\\n", 13: "\\r"}
    return "".join(known.get(it) or (chr(it) if 32 <= it < 127 else f"\\x{it:02x}") for it in text)


def unescaped(text: str) -> bytes:
    """The string that llvm-dwarfdump prints in ASCII, with its other bytes in octal."""
    return text.encode("ascii").decode("unicode_escape").encode("latin-1")


def llvm_strings(text: str) -> Iterator[str]:
    rows = re.findall(r'^0x(\w+): "(.*)"$', text, re.M)
    return (f"0x{int(at, 16):x}: {shown(unescaped(it))}" for at, it in rows)


def llvm_addresses(text: str) -> Iterator[str]:
    """The sets, of which it doesn't print where they are."""
    for header, lines in re.findall(r"^(?:Address table header: (.*)\n)?Addrs: \[\n((?:0x\w+\n)*)\]", text, re.M):
        head = re.search(r"length = 0x(\w+), format = DWARF(\d+), .*addr_size = 0x(\w+)", header)
        if head:
            yield f"set: length {int(head[1], 16)}, {head[2]}-bit, address size {int(head[3], 16)}"
        else:
            yield "set: no header"
        yield from (f"  0x{int(it, 16):x}" for it in lines.split())


def llvm_offsets(text: str) -> Iterator[str]:
    for line in text.splitlines():
        head = re.match(r"0x(\w+): Contribution size = (\d+), Format = DWARF(\d+), Version = \d+", line)
        # Between the sets there may be a line with the word Gap.
        entry = re.match(r"0x\w+: ([0-9a-f]{8,16})\b", line)
        if head:
            yield f"set 0x{int(head[1], 16):x}: length {head[2]}, {head[3]}-bit"
        elif entry:
            yield f"  0x{int(entry[1], 16):x}"


# What the tool prints.


def by_section(text: str, names: list[str]) -> dict[str, str]:
    """The tool's lines by the name of the section. If there is one section, the tool doesn't tell its name."""
    parts = re.split(r"^section \d+ (\.debug\S*):\n", text, flags=re.M)
    found: dict[str, str] = {} if parts[1:] else {names[0]: text}
    for name, part in zip(parts[1::2], parts[2::2]):
        found[name] = found.get(name, "") + part
    return found


def tool_addresses(text: str) -> str:
    return re.sub(r"^set \w+: (?:(no header),.*|(.*))$", r"set: \1\2", text, flags=re.M)


def tool_offsets(text: str) -> str:
    return re.sub(r"^(set 0x\w+): no header, (\d+) bytes", r"\1: length \2", text, flags=re.M)


# For each command: the section's name, how the tool's text is read, and what reads that of llvm-dwarfdump.
COMMANDS: dict[str, tuple[str, Callable[[str], str], Callable[[str], Iterator[str]]]] = {
    "units": ("debug_(?:info|types)", str, llvm_units),
    "abbrev": ("debug_abbrev", str, llvm_tables),
    "str": ("debug_str", str, llvm_strings),
    "line-str": ("debug_line_str", str, llvm_strings),
    "addr": ("debug_addr", tool_addresses, llvm_addresses),
    "str-offsets": ("debug_str_offsets", tool_offsets, llvm_offsets),
}


class OfTool(frame.Check):
    """What the checks of the tool share. A check makes many comparisons, of which one that fails doesn't end it."""

    def setUp(self) -> None:
        super().setUp()
        build()
        self.faults: list[str] = []

    def tearDown(self) -> None:
        self.assertEqual(self.faults, [])

    def tell(self, well: object, what: str) -> bool:
        """Counts a comparison, and keeps what it says of a fault."""
        self.count += 1
        if not well:
            self.faults.append(what)
        return bool(well)

    def equal(self, what: str, here: str, there: str) -> int:
        """Compares two texts, and says which line is the first to differ. Returns how many tables, strings or sets
        that was."""
        pairs = itertools.zip_longest(here.split("\n"), there.split("\n"))
        one = next((it for it in pairs if it[0] != it[1]), None)
        self.tell(not one, f"{what}: {one and one[0]!r:.200} here, {one and one[1]!r:.200} there")
        return len(re.findall("^(?:unit|table|set|0x)", here, re.M))


class OfFiles(OfTool):
    """Compares what is listed of files with what the other tools print."""

    def compare_all(self, files: Iterable[tuple[str, Word]]) -> None:
        """Compares files, each after its name, and notes how much was compared."""
        compared: Counter[str] = Counter()
        for name, path in files:
            compared += self.compare(name, path)
        self.note = ", ".join(f"{compared[it]} {it}" for it in [*COMMANDS, "strings of readelf"] if compared[it])

    def compare(self, name: str, path: Word) -> Counter[str]:
        """Compares all that both print of a file. Returns how much that was."""
        compared: Counter[str] = Counter()
        status, text, errors = tool(path, "sections")
        self.tell(status == 0 and not errors, f"{name}: sections (status {status}) {errors.strip()}")
        names = [line.split()[0] for line in text.splitlines()[:-1]]
        there = of_llvm(path)
        for command, (base, plain, read) in COMMANDS.items():
            own = [it for it in dict.fromkeys(names) if re.fullmatch(rf"\.{base}(?:\.dwo)?", it)]
            if not own:
                continue
            status, text, errors = tool(path, command)
            noted = re.sub(r"dwarf_elf: section \d+ \S+ has no headers, as in DWARF 4, .*\n", "", errors)
            self.tell(status == 0 and not noted, f"{name}: {command}: status {status}: {noted.strip()}")
            here = by_section(text, own)
            for section in own:
                wanted = "".join(f"{it}\n" for it in read(there.get(section, "")))
                compared[command] += self.equal(f"{name}: {section}", plain(here.get(section, "")), wanted)
            if own[0] == ".debug_str":
                compared["strings of readelf"] += self.readelf(name, path, here.get(".debug_str", ""))
        return compared

    def readelf(self, name: str, path: Word, here: str) -> int:
        """Each string that readelf prints has its offset and its text. Both rewrite what isn't printable."""
        text = output("readelf", "-W", "-z", "-p", ".debug_str", path) if shutil.which("readelf") else None
        if text is None:
            frame.skip("there is no readelf, or it knows no -z")
        rows = re.findall(r"^  \[ *([0-9a-f]+)\]  (.*)$", text, re.M)
        lines = {*here.split("\n")}
        plain = (f"0x{at}: {shown(it.encode())}" for at, it in rows if it.isascii() and not re.search(r"\^|\\n", it))
        wrong = [it for it in plain if it not in lines]
        self.tell(not wrong and rows, f"{name}: strings that readelf prints: {wrong[:1]}")
        return len(rows)


@frame.once
def dumper() -> str:
    """The name of llvm-dwarfdump here."""
    found = next((it for it in ("llvm-dwarfdump", "llvm-dwarfdump-14") if shutil.which(it)), "")
    return found or frame.skip("there is no llvm-dwarfdump; `apt-get install llvm` installs it on Debian")


@frame.once
def build() -> None:
    """Builds the tool."""
    frame.need("cargo")
    for crate in CRATES:
        if not any(REGISTRY.glob(f"{crate}-*")):
            frame.skip(f"there is no crate {crate}; `apt-get install librust-{crate}-dev` installs it on Debian")
    frame.must([OFFLINE, "build", "--quiet", "--release"])


# The files that are compared. A command runs in the folder of its file, which is next to those of the others.

# How an object is made: a part of its name, from which version of DWARF on, the flags, and the source.
WAYS = (
    ("", 2, "", "one"),
    ("-gz", 2, "-gz", "one"),
    ("-64", 3, "-gdwarf64", "one"),
    ("-split", 4, "-gsplit-dwarf", "one"),
    ("-two-split", 4, "-gsplit-dwarf", "two"),
)
WAYS_WITH_TYPES = (
    ("-types", 4, "-fdebug-types-section", "one"),
    ("-types-split", 4, "-fdebug-types-section -gsplit-dwarf", "one"),
)
MACHINES = ("i386", "aarch64", "arm", "mips", "mips64", "mips64el", "powerpc64", "riscv64", "s390x")


def commands_of(compiler: str, suffix: str) -> Iterator[tuple[str, str]]:
    """The names and the commands of a compiler's files: objects in each version and format, and what is linked."""
    is_cc = suffix == "cc"
    ways = WAYS + WAYS_WITH_TYPES if is_cc else WAYS
    for version in (2, 3, 4, 5):
        for way, first, flags, source in ways:
            if version >= first:
                yield f"{compiler}{version}{way}", f"{compiler} -O1 -c -gdwarf-{version} {flags} ../{source}.{suffix}"
    yield f"{compiler}5-64-split", f"{compiler} -c -gdwarf-5 -gdwarf64 -gsplit-dwarf ../one.{suffix}"
    for version in (4, 5):
        name = f"{compiler}{version}"
        types = "-fdebug-types-section" if is_cc else ""
        objects = f"../{name}/one.o ../{name}-two/two.o"
        yield f"{name}-two", f"{compiler} -c -gdwarf-{version} {types} ../two.{suffix}"
        yield f"{name}-relocatable", f"ld -r {objects} -o whole.o"
        yield f"{name}-linked", f"{compiler} {objects} -o whole"
        yield f"{name}-linked-gz", f"{compiler} -Wl,--compress-debug-sections=zlib {objects} -o whole"


def commands() -> Iterator[tuple[str, str]]:
    """The names and the commands of all files."""
    for compiler, suffix in (("gcc", "c"), ("g++", "cc"), ("clang", "c"), ("clang++", "cc")):
        yield from commands_of(compiler, suffix)
    # GNU's dwp knows no DWARF 5, and LLVM's takes that of its own compiler alone.
    packed = [*itertools.product(("dwp", "llvm-dwp"), ("g++4", "clang++4")), ("llvm-dwp", "clang++5")]
    for packer, name in packed:
        halves = " ".join(f"../{name}{it}-split/*.dwo" for it in ("", "-two", "-types"))
        yield f"{name}-{packer}", f"{packer} {halves} -o all.dwp"
    for version in (4, 5):
        yield f"clang{version}-single", f"clang -c -gdwarf-{version} -gsplit-dwarf=single ../one.c"
        for machine in MACHINES:
            command = f"clang --target={machine}-linux-gnu -c -gdwarf-{version} ../one.c"
            yield f"{machine}-{version}", command
            # LLVM doesn't split the debug information of this machine.
            if machine != "riscv64":
                yield f"{machine}-{version}-split", f"{command} -gsplit-dwarf"
        gcc = f"s390x-linux-gnu-gcc -r -gdwarf-{version} ../one.c ../two.c -o whole.o"
        yield f"s390x-{version}-relocatable", gcc
    for way in ("off", "unpacked", "packed"):
        rustc = f"rustc -g --crate-type=lib -Csplit-debuginfo={way} --emit=obj --crate-name=five ../five.rs"
        yield f"rustc-{way}", rustc
    yield "rustc-linked", "rustc -g -Csplit-debuginfo=packed ../five.rs"
    yield "gcc-many", "gcc -c -gdwarf-5 ../many.c"


# The command that makes each of these files.
MADE = dict(commands())


@frame.once
def folder() -> pathlib.Path:
    """The folder of the sources, and of the files that are made of them."""
    at = pathlib.Path(frame.new_folder())
    for suffix, text in (("c", C_SOURCE), ("cc", CC_SOURCE)):
        for name, function in (("one", "main"), ("two", "two")):
            (at / f"{name}.{suffix}").write_text(text % function)
    (at / "five.rs").write_text(RUST_SOURCE)
    many = "".join(f"  value_of_the_enumeration_{it},\n" for it in range(20000))
    (at / "many.c").write_text(f"enum many {{\n{many}}} first;\n")
    return at


@frame.once
def made(name: str, command: str) -> list[pathlib.Path]:
    """The files that a command of the shell makes in a new folder of this name, next to those that it names. If it can't
    be run here, the check is skipped."""
    frame.need(command.split()[0])
    for it in re.findall(r"\.\./([^/ ]+)/", command):
        made(it, MADE[it])
    at = folder() / name
    at.mkdir()
    words = ["timeout", "30", "sh", "-c", command]
    ran = subprocess.run(words, cwd=at, capture_output=True, text=True, errors="replace")
    if ran.returncode:
        why = (ran.stderr.strip().splitlines() or ["no reason given"])[0]
        frame.skip(f"{command.split()[0]} fails with status {ran.returncode}: {why:.100}")
    return sorted(at.iterdir())


def file_of(name: str) -> pathlib.Path:
    """A file that a command makes, named by its folder and its name there."""
    at = name.partition("/")[0]
    found = {f"{at}/{it.name}": it for it in made(at, MADE[at])}
    assert name in found, f"{name} isn't made"
    return found[name]


class Files(OfFiles):
    """What is listed of each file is what the other tools print."""

    @frame.each(MADE)
    def test_listed(self, name: str) -> None:
        self.compare_all((f"{name}/{it.name}", it) for it in made(name, MADE[name]))


class Given(OfFiles):
    """The same for the files that the command line names."""

    paths: list[str] = []

    def test_files(self) -> None:
        self.compare_all((it, it) for it in self.paths)


class Good:
    """A good file of ELF's 64-bit class in little byte order, for copies with other headers."""

    def __init__(self, path: pathlib.Path):
        self.data = path.read_bytes()
        self.headers: int = struct.unpack_from("<Q", self.data, 40)[0]
        count, names = struct.unpack_from("<HH", self.data, 60)
        rows = [struct.unpack_from("<I20xQQ", self.data, self.headers + 64 * it) for it in range(count)]
        # The sections by name: the number, where the bytes are, and how many.
        self.sections: dict[str, tuple[int, int, int]] = {}
        for number, (name, at, size) in enumerate(rows):
            begin = rows[names][1] + name
            self.sections[self.data[begin : self.data.index(0, begin)].decode()] = number, at, size

    def with_section(self, name: str, at: int, size: int) -> bytes:
        """A copy in which a section is somewhere else."""
        data = bytearray(self.data)
        struct.pack_into("<QQ", data, self.headers + 64 * self.sections[name][0] + 24, at, size)
        return bytes(data)


class Listings(OfTool):
    """What is listed beyond the sections of a file: archives, debug files, strings of offsets, tables of no unit."""

    def test_unnamed_tables(self) -> None:
        """Units of a split section that objects share name the first table alone, and a line says which bytes none
        names. --all lists the tables there, as llvm-dwarfdump does."""
        flags = "clang -c -gdwarf-5 -gsplit-dwarf=single"
        command = f"{flags} ../one.c && {flags} ../two.c && ld -r one.o two.o -o whole.o"
        path = next(it for it in made("unnamed tables", command) if it.name == "whole.o")
        wanted = "".join(f"{it}\n" for it in llvm_tables(of_llvm(path)[".debug_abbrev.dwo"]))
        _, start, *others = re.findall(r"^table 0x(\w+):", wanted, re.M) + [""]
        (number, _, size), section = Good(path).sections[".debug_abbrev.dwo"], "section {} .debug_abbrev.dwo"
        said = f"dwarf_elf: no unit names the bytes from 0x{start} to 0x{size:x} of {section.format(number)}"
        first = wanted.partition(f"table 0x{start}:")[0]
        hint = ", and --all lists the tables there"
        for options, listed, noted in (((), first, said + hint), (("--all",), wanted, said)):
            status, text, errors = tool(path, "abbrev", *options)
            here = by_section(text, [])[".debug_abbrev.dwo"]
            self.tell((status, errors) == (0, f"{noted}\n"), f"status {status}: {errors:.300}")
            self.equal(f"{options}", here, listed)

    @frame.each(("rc", "rcT"))
    def test_archive(self, kind: str) -> None:
        """The members of an archive, or of a thin one, are listed as the files are."""
        objects = [file_of(it) for it in ("gcc5/one.o", "gcc5-two/two.o")]
        [archive] = made(f"archive {kind}", f"ar {kind} all.a ../gcc5/one.o ../gcc5-two/two.o")
        # A thin archive has the paths of its members.
        names = [os.path.relpath(it, archive.parent) if kind == "rcT" else it.name for it in objects]
        wanted = "".join(f"file {archive}({it}):\n{tool(path, 'str')[1]}" for it, path in zip(names, objects))
        self.tell(tool(archive, "str") == (0, wanted, ""), "another listing")

    @frame.needs("objcopy", "strip")
    def test_stripped(self) -> None:
        """The debug file of a stripped file is listed on request."""
        link = "objcopy --only-keep-debug ../gcc5-linked/whole whole.debug && strip -o whole ../gcc5-linked/whole"
        path = made("stripped", f"{link} && objcopy --add-gnu-debuglink=whole.debug whole")[0]
        status, text, errors = tool(path, "--follow", "abbrev")
        well = status == 0 and f"{path}.debug is listed" in errors
        well = well and text == tool(file_of("gcc5-linked/whole"), "abbrev")[1]
        self.tell(well, f"its debug file: status {status}: {errors:.300}")

    @frame.each(("g++5 one.o", "g++5-types one.o", "clang5-split one.dwo", "clang4-split one.dwo", "rustc-linked five"))
    def test_strings(self, name: str) -> None:
        """Each string offset has the string that is there, and one string is listed as all are."""
        path = file_of(name.replace(" ", "/"))
        lines = tool(path, "str")[1].splitlines()
        strings = {f"  {it.partition(':')[0]}": f"  {it}" for it in lines}
        last = lines[-1].partition(":")[0]
        one = tool(path, "str", last)
        self.tell(one == (0, f"{lines[-1]}\n", ""), f"str {last}: {one}")
        plain = tool(path, "str-offsets")[1]
        wanted = "".join(f"{strings.get(it, it)}\n" for it in plain.splitlines())
        self.equal("str-offsets --strings", tool(path, "str-offsets", "--strings")[1], wanted)

    @frame.each(("5", "4", "4 split"))
    @frame.needs("gcc")
    def test_mixed_units(self, row: str) -> None:
        """An executable of units of DWARF 5, another version and 5 is listed if each set has a header: if all are of
        version 5, or that of version 4 isn't split. Else nothing says which bytes are whose, and a line says that none
        are listed."""
        parts = ("main", "next", "last")
        flags = {"5": "-gdwarf-5 -gsplit-dwarf", "4": "-gdwarf-4", "4 split": "-gdwarf-4 -gsplit-dwarf"}[row]
        own = dict.fromkeys(parts, "-gdwarf-5 -gsplit-dwarf") | {"next": flags}
        objects = [f"gcc -c {own[part]} ../two.c -Dtwo={part} -o {part}.o" for part in parts]
        files = made(f"mixed {row}", " && ".join([*objects, "gcc main.o next.o last.o -o whole"]))
        path = next(it for it in files if it.name == "whole")
        status, text, errors = tool(path, "addr")
        if row != "4 split":
            there = "".join(f"{it}\n" for it in llvm_addresses(of_llvm(path)[".debug_addr"]))
            self.equal(row, tool_addresses(text), there)
            self.tell(status == 0 and not errors, f"status {status}: {errors:.300}")
            return
        said = f"the bytes from 0x0 to 0x{Good(path).sections['.debug_addr'][2]:x} aren't listed"
        self.tell(status == 1 and not text and said in errors, f"status {status}: {errors:.300}")
        for stream in ("2>&-", "2>/dev/full"):
            ran = redirected(stream, path, "addr")
            self.tell(ran.returncode == 1 and not ran.stdout, f"{stream}: status {ran.returncode}")


def redirected(stream: str, *words: Word) -> kit.Finished:
    """Runs the tool with a stream that a shell redirects."""
    return subprocess.run(["sh", "-c", f'"$@" {stream}', "sh", *TOOL, *words], capture_output=True, text=True)


class Statuses(OfTool):
    """The statuses of the process, and an output that can't be written."""

    def test_words(self) -> None:
        rows: list[tuple[list[Word], int]] = [(["--help"], 0), (["--version"], 0), ([], 2), (["--none", "a", "str"], 2)]
        rows += [([f"{self.work}/none", "sections"], 3), (["--", "--help", "sections"], 3)]
        for words, wanted in rows:
            status, text, errors = tool(*words)
            told = errors if wanted else text
            self.tell(status == wanted and told and not (text and errors), f"{words}: {status}: {errors:.300}")

    def test_version(self) -> None:
        self.assertEqual(tool("--version"), (0, f"dwarf_elf {kit.VERSION}\n", ""))

    def test_command_first(self) -> None:
        many = file_of("gcc-many/many.o")
        alone = tool("str", many)
        self.tell(alone[0] == 0 and alone == tool(many, "str"), "another listing")

    def test_streams(self) -> None:
        """An output that can't be written, and an input that can't be read."""
        many = file_of("gcc-many/many.o")
        streams: tuple[tuple[str, Word], ...] = (">&-", many), (">/dev/full", many), ("<&-", "-")
        for stream, path in streams:
            ran = redirected(stream, path, "str")
            well = ran.returncode == 3 and ran.stderr.startswith("dwarf_elf: ")
            self.tell(well, f"{stream}: status {ran.returncode}: {ran.stderr:.300}")

    @frame.each(("dwarf_elf", "cat", "dwarf_list"))
    def test_closed_pipe(self, name: str) -> None:
        """The tool and dwarf_list end as `cat` does if the reader of their output has enough of it, and say nothing."""
        section = f"{self.work}/piped"
        kit.write_file(section, struct.pack("<IHBBQ", 12, 5, 8, 0, 1) * 10_000)
        words: list[Word] = ["cat", section]
        if name == "dwarf_elf":
            words = [*TOOL, file_of("gcc-many/many.o"), "str"]
        elif name == "dwarf_list":
            words = [self.must([f"{kit.ROOT}/dwarf_list", "--path"]).strip(), "addr", "le"]
        with open(section, "rb") as given:
            with subprocess.Popen(words, stdin=given, stdout=subprocess.PIPE, stderr=subprocess.PIPE) as child:
                assert child.stdout and child.stderr
                child.stdout.read(1)
                child.stdout.close()
                errors = child.stderr.read().decode()
        # A shell has this for a program that a signal ended.
        status = child.returncode if child.returncode >= 0 else 128 - child.returncode
        self.assertEqual((status, errors), (141, ""))


class OfPackage(OfTool):
    """What the checks of the tool's package share. A build leaves no link in a clone: `rt` proves nothing in one that
    has any."""

    def tearDown(self) -> None:
        super().tearDown()
        self.assertEqual([str(it) for it in pathlib.Path(f"{kit.ROOT}/elf").rglob("*") if it.is_symlink()], [])


class Zstd(OfPackage):
    """LLVM's tools may lack this compression, so the file is compared with the one that isn't compressed."""

    COMMANDS = ("abbrev", "str")

    def packed(self) -> pathlib.Path:
        """A file whose sections are compressed by zstd."""
        return made("zstd", "objcopy --compress-debug-sections=zstd ../g++5/one.o zstd.o")[0]

    def test_without(self) -> None:
        """Without the feature a line says that."""
        said = "is compressed by zstd, which this program can't inflate: it was built without the feature `zstd`\n"
        for command in self.COMMANDS:
            status, text, errors = tool(self.packed(), command)
            self.tell(status == 1 and said in errors, f"{command}: status {status}: {errors:.300}")

    def test_with(self) -> None:
        if not any(REGISTRY.glob("zstd-*")):
            frame.skip("there is no crate zstd; `apt-get install librust-zstd-dev` installs it on Debian")
        own = {**os.environ, **DEBIAN, "CARGO_TARGET_DIR": WITH_ZSTD}
        # Only these tests differ by the feature.
        self.must([OFFLINE, "test", "--quiet", "--features", "zstd", "compressed"], env=own)
        self.must([OFFLINE, "build", "--quiet", "--release", "--features", "zstd"], env=own)
        for command in self.COMMANDS:
            words: list[Word] = [f"{WITH_ZSTD}/release/dwarf_elf", self.packed(), command]
            ran = subprocess.run(words, capture_output=True, text=True)
            plain = tool(file_of("g++5/one.o"), command)[1]
            self.tell(ran.returncode == 0 and ran.stdout == plain, f"{command}: {ran.stderr:.300}")


class Memory(OfTool):
    """What a file takes of memory."""

    def packed(self, sections: dict[str, bytes]) -> str:
        """An object with these bytes in its debug sections, compressed."""
        for name, data in sections.items():
            kit.write_file(f"{self.work}/{name}", data)
        source = "".join(f'.section .debug_{it},"",@progbits\n.incbin "{it}"\n' for it in sections)
        kit.write_file(f"{self.work}/many.s", source)
        self.must(["as", "many.s", "-o", "many.o"])
        self.must(["objcopy", "--compress-debug-sections=zlib-gabi", "many.o", "packed"])
        return f"{self.work}/packed"

    def test_large_file(self) -> None:
        """A file with a section of 2 GiB, which is a hole: what doesn't need it takes little memory."""
        good, large = file_of("gcc5-linked/whole"), pathlib.Path(f"{self.work}/large")
        it = Good(good)
        with large.open("wb") as file:
            file.write(it.with_section(".debug_line", len(it.data), 1 << 31))
            file.truncate(len(it.data) + (1 << 31))
        status, text, errors, kilobytes = measured(large, "abbrev")
        self.assertEqual((status, text, errors), (0, tool(good, "abbrev")[1], ""))
        self.assertLess(kilobytes, KILOBYTES)

    @frame.needs("as", "objcopy")
    def test_compressed_units(self) -> None:
        """24 KB that inflate to 2,000,000 units of one table take the memory of their section."""
        units = struct.pack("<IHBBI", 8, 5, 1, 8, 0) * 2_000_000
        status, text, errors, kilobytes = measured(self.packed({"info": units, "abbrev": b"\0"}), "abbrev")
        self.assertEqual((status, text, errors), (0, "table 0x0:\n", ""))
        self.assertLess(kilobytes, len(units) // 1024 + KILOBYTES)

    # The sections of a file, a command, the memory that it gets, and what it says.
    ROWS: dict[str, tuple[Callable[[], dict[str, bytes]], str, int, str]] = {
        "section": (
            lambda: {"str": bytes(50 << 20)},
            "str",
            45_000,
            "section 4 .debug_str isn't read: memory ran out",
        ),
        "tables": (
            lambda: {
                "info": b"".join(struct.pack("<IHBBI", 8, 5, 1, 8, it) for it in range(2_000_000)),
                "abbrev": b"\0" * 2_000_000,
            },
            "abbrev",
            48_000,
            "memory ran out",
        ),
    }

    @frame.each(ROWS)
    @frame.needs("as", "objcopy")
    def test_memory_runs_out(self, row: str) -> None:
        """Memory that runs out is an error with status 1, and no end by a signal: for a section, and for all else."""
        sections, command, limit, said = self.ROWS[row]
        words: list[Word] = ["sh", "-c", f'ulimit -v {limit}; "$@"', "sh", *TOOL, self.packed(sections()), command]
        ran = subprocess.run(words, capture_output=True, text=True)
        self.assertEqual((ran.returncode, ran.stderr), (1, f"dwarf_elf: {said}\n"))


def registry(folder: str) -> str:
    """A registry of Debian's crates with the checksums that the lock file has for them."""
    lock = kit.text_of(f"{kit.ROOT}/elf/Cargo.lock")
    for name, version, checksum in re.findall(r'name = "(.*)"\nversion = "(.*)"\nsource = .*\nchecksum = "(.*)"', lock):
        crate = REGISTRY / f"{name}-{version}"
        if not crate.is_dir():
            frame.skip(f"there is no crate {crate.name}")
        for it in crate.iterdir():
            if it.name != ".cargo-checksum.json":
                os.makedirs(f"{folder}/{crate.name}", exist_ok=True)
                os.symlink(it, f"{folder}/{crate.name}/{it.name}")
        kit.write_file(f"{folder}/{crate.name}/.cargo-checksum.json", f'{{"package":"{checksum}","files":{{}}}}')
    return folder


class Crate(OfPackage):
    """The tool's package: its layout, and that Debian's cargo builds it, too. `tools/tests` runs its tests by the cargo
    that is found first."""

    @frame.needs(DEBIAN["CARGO"], DEBIAN["RUSTC"])
    def test_by_debian(self) -> None:
        self.must([OFFLINE, "test", "--quiet"], env={**os.environ, **DEBIAN})

    def test_locked(self) -> None:
        """README's line for a network, over Debian's crates. With the feature for zstd it says which line adds that
        crate."""
        at = registry(f"{self.work}/registry")
        sources = 'source.crates-io.replace-with="made"', f'source.made.directory="{at}"'
        words = ["cargo", "run", "--quiet", "--release", "--locked", "--offline"]
        words += [word for it in sources for word in ("--config", it)]
        own = {**os.environ, "CARGO_TARGET_DIR": f"{kit.ROOT}/elf/target/locked"}
        self.must([*words, "--", "--version"], cwd=f"{kit.ROOT}/elf", env=own)
        ran = kit.run([*words, "--features", "zstd"], cwd=f"{kit.ROOT}/elf", env=own)
        said = "needs the crate zstd: `elf/offline build --release --features zstd` adds Debian's"
        self.assertNotEqual(ran.returncode, 0)
        self.assertIn(said, ran.stdout)

    @frame.needs("cargo-fmt")
    def test_layout(self) -> None:
        self.must(["cargo", "fmt", "--check"], cwd=f"{kit.ROOT}/elf")

    @frame.needs("cargo-clippy")
    def test_clippy(self) -> None:
        self.must([OFFLINE, "clippy", "--quiet", "--all-targets", "--", "-D", "warnings"])


CHECKS = [Files, Listings, Statuses, Zstd, Memory, Crate]


def main(words: list[str]) -> int:
    if any(it.startswith("-") for it in words):
        return frame.usage(__doc__)
    if words and all(map(os.path.isfile, words)):
        Given.paths = words
        return frame.check("compare-elf", [Given])
    return frame.check("compare-elf", CHECKS, words, section="compare-elf")
