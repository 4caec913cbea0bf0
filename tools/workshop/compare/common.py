"""What the commands of `tools/compare` share: errors, other programs, the program that compares, and sections."""
import filecmp
import os
import re
import shutil
import sys
import tempfile
from collections.abc import Sequence
from typing import Any, Optional

from workshop import kit
from workshop.code import products, proving

PACKAGE = f"{kit.ROOT}/compare"
CRATE = f"{kit.ROOT}/rust"
OUT = f"{PACKAGE}/out"
DEBIAN = "/usr/share/cargo/registry"
# How long cargo may try to reach crates.io.
FETCH_SECONDS = 120
# What keeps jumps off the borders of 32 bytes: of the assembler, which then adds instructions that do nothing, as the
# compiler of Rust does.
ALIGNED_CODE = ("-Wa,-mbranches-within-32B-boundaries,-malign-branch-prefix-size=0",)
ALIGNED_CRATES = "-C llvm-args=-x86-branches-within-32B-boundaries"
SECTIONS = (
    *("debug_info", "debug_types", "debug_abbrev"),
    *("debug_str", "debug_line_str", "debug_addr", "debug_str_offsets"),
)
# Those whose words are read in the byte order of the file.
BY_ORDER = ("debug_info", "debug_types", "debug_addr", "debug_str_offsets")


class Missing(Exception):
    """A tool that isn't installed, and how to install it."""


class Failed(Exception):
    """Why a step can't be done."""


def say(text: object) -> None:
    print(f"compare: {text}", file=sys.stderr, flush=True)


def run(words: Sequence[str], **how: Any) -> tuple[str, int]:
    """Runs a command, and returns what it prints and its status."""
    ran = kit.run(words, **how)
    return ran.stdout.strip(), ran.returncode


def must(words: Sequence[str], what: str, **how: Any) -> str:
    """Runs a command, and returns what it prints. If it fails, the error says what couldn't be done."""
    said, status = run(words, **how)
    if status:
        raise Failed(f"{what}:\n{said[-2000:]}")
    return said


def need(tool: str, package: str) -> None:
    """Ends the command if a tool isn't installed, which a package of Debian's has."""
    if not shutil.which(tool):
        raise Missing(f"there is no {tool}: `apt-get install {package}` installs it")


def check_files(paths: Sequence[str]) -> None:
    """Says which of these files can't be read, before anything is built for them."""
    for path in paths:
        try:
            with open(path, "rb") as file:
                is_elf = file.read(4) == b"\x7fELF"
        except OSError as error:
            raise Failed(f"{path} can't be read: {error.strerror}") from None
        if not is_elf:
            raise Failed(f"{path} is no ELF file")


def copy_if_new(source: str, target: str) -> None:
    """Copies a file, unless it is there already: its date decides what cargo builds again."""
    if not os.path.isfile(target) or not filecmp.cmp(source, target, shallow=False):
        os.makedirs(os.path.dirname(target), exist_ok=True)
        shutil.copyfile(source, target)


def put_library(folder: str, flags: Sequence[str] = ()) -> None:
    """Assembles the proved code of dwarf_compare with these flags, and puts its library into a folder for the linker.
    If the code isn't kept, it is proved and made."""
    crate, target = "dwarf_compare", "x86_64"
    of_sources = products.code_of(crate)
    code = products.place_of_copy(f"{target}.s", of_sources)
    # Commands that run side by side need the same library.
    with products.in_turn(crate):
        if not os.path.isfile(code):
            if not (shutil.which("rt") and shutil.which("rattle")):
                raise Missing("there is no rt: CONTRIBUTING.md names the kit that has it")
            with proving.libraries(crate, say) as copy:
                if not copy or not proving.put_assembler(crate, target, copy, of_sources, say):
                    raise Failed(f"the code of {crate} isn't made")
    with tempfile.TemporaryDirectory(prefix="compare-") as work:
        made, library = f"{work}/{crate}.o", f"{work}/lib{crate}.a"
        must([os.environ.get("CC", "cc"), "-c", *flags, "-x", "assembler", code, "-o", made], f"{code} isn't assembled")
        must(["ar", "rcsD", library, made], f"the library of {crate} isn't made")
        copy_if_new(library, f"{folder}/lib{crate}.a")


def copy_crate() -> None:
    """Copies the crate for Rust to where the copies of the package name it."""
    for part in ("", "src", "proved", "examples"):
        for name in os.listdir(f"{CRATE}/{part}"):
            if name.endswith((".rs", ".toml", ".s")):
                copy_if_new(f"{CRATE}/{part}/{name}", f"{OUT}/rust/{part}/{name}")


def copy_package(folder: str, is_locked: bool) -> None:
    """Copies the package to where its lock file and what cargo builds may be. A lock file that is there already stays,
    since cargo has added gimli's checksum to it, unless the package's own is newer."""
    for name in ("Cargo.toml", "build.rs"):
        copy_if_new(f"{PACKAGE}/{name}", f"{folder}/{name}")
    own = f"{PACKAGE}/Cargo.lock"
    there = f"{folder}/Cargo.lock"
    if is_locked and (not os.path.isfile(there) or os.path.getmtime(there) < os.path.getmtime(own)):
        copy_if_new(own, there)
    for it in kit.files_below(f"{PACKAGE}/src"):
        copy_if_new(it, f"{folder}/{os.path.relpath(it, PACKAGE)}")


def why_not_fetched(folder: str) -> Optional[str]:
    """Why cargo can't fetch what the package needs, or None if it can."""
    said, status = run(["timeout", str(FETCH_SECONDS), "cargo", "fetch", "--quiet"], cwd=folder)
    if status == 124:
        return f"it didn't come within {FETCH_SECONDS} seconds"
    if status == 0:
        return None
    return (said or f"status {status}").splitlines()[-1].strip()


def sources_of_gimli(is_debian: bool) -> tuple[str, list[str]]:
    """Where gimli is taken from: a folder of the package for it, and words for cargo."""
    if not is_debian:
        copy_package(f"{OUT}/crates-io", True)
        why = why_not_fetched(f"{OUT}/crates-io")
        if why is None:
            return f"{OUT}/crates-io", []
        say(f"cargo can't fetch gimli from crates.io ({why}), so Debian's is used")
    if not os.path.isdir(DEBIAN) or not any(it.startswith("gimli-") for it in os.listdir(DEBIAN)):
        raise Missing("there is no gimli: `apt-get install librust-gimli-dev` installs it")
    copy_package(f"{OUT}/debian", False)
    replaced = ['source.crates-io.replace-with="debian"', f'source.debian.directory="{DEBIAN}"']
    return f"{OUT}/debian", ["--offline", *(word for it in replaced for word in ("--config", it))]


def build(is_debian: bool, is_aligned: bool = False) -> str:
    """Builds the program that compares, and returns where it is: as a compiler builds it, or on both sides with jumps
    kept off the borders of 32 bytes."""
    need("cargo", "cargo")
    need(os.environ.get("CC", "cc"), "gcc")
    need("objcopy", "binutils")
    copy_crate()
    folder, words = sources_of_gimli(is_debian)
    library, target = (f"{OUT}/aligned", f"{folder}/aligned") if is_aligned else (f"{OUT}/lib", f"{folder}/target")
    put_library(library, ALIGNED_CODE if is_aligned else ())
    # The processor that the kit compiles for.
    flags = f"{os.environ.get('RUSTFLAGS', '')} -C target-cpu=x86-64-v2 {ALIGNED_CRATES if is_aligned else ''}"
    environment = {**os.environ, "COMPARE_LIB": library, "RUSTFLAGS": flags.strip()}
    words = ["cargo", "build", "--quiet", "--release", "--target-dir", target, *words]
    must(words, "the program that compares isn't built", cwd=folder, env=environment)
    return f"{target}/release/compare"


def files_by_default(program: str) -> list[str]:
    """The debug file of the C library, if it is installed, and a program."""
    libc = debug_file_of_libc()
    if not libc:
        say("the debug file of the C library is left out: `apt-get install libc6-dbg` installs it")
    return [libc, program] if libc else [program]


def debug_file_of_libc() -> Optional[str]:
    """The debug file of the C library of this Python, or None."""
    found = re.search(r"/\S*/libc\.so\.6$|/\S*/libc-[\d.]+\.so$", kit.text_of("/proc/self/maps"), re.M)
    if not found or not shutil.which("readelf"):
        return None
    build_id = re.search(r"Build ID: (\w\w)(\w+)", run(["readelf", "-n", found[0]])[0])
    if not build_id:
        return None
    path = f"/usr/lib/debug/.build-id/{build_id[1]}/{build_id[2]}.debug"
    return path if os.path.isfile(path) else None


def decompressed(path: str, whole: str) -> str:
    """Copies an ELF file with its debug sections inflated, and returns the tool that reads such files."""
    said = "there is no objcopy"
    # GNU's objcopy reads the machine's own files alone.
    for tool in ("objcopy", "llvm-objcopy"):
        if shutil.which(tool):
            said, status = run([tool, "--decompress-debug-sections", path, whole])
            if status == 0:
                return tool
    raise Failed(f"{path} can't be read as an ELF file: {' '.join(said.split())}")


def put_sections(path: str, folder: str, wanted: Sequence[str] = ()) -> tuple[list[str], bool]:
    """Puts the sections of an ELF file with these names, or all of debug information, into a new folder, inflated.
    Returns the names of those that are there, and whether the file has the highest byte first."""
    os.mkdir(folder)
    whole = f"{folder}/whole"
    copy = f"{folder}/copy"
    tool = decompressed(path, whole)
    with open(whole, "rb") as file:
        content = file.read()
    names = wanted or sorted({it.decode() for it in re.findall(rb"\0\.(debug_\w+)(?=\0)", content)})
    for name in names:
        run([tool, "--dump-section", f".{name}={folder}/{name}", whole, copy])
    for it in (whole, copy):
        if os.path.isfile(it):
            os.unlink(it)
    is_big = content[5:6] == b"\x02"
    return [it for it in names if os.path.isfile(f"{folder}/{it}")], is_big


def entries(path: str, folder: str, is_big: bool) -> list[str]:
    """The words for the program about the entries of an ELF file: both sections that they need, in one file."""
    both = f"{folder}/entries"
    with open(both, "wb") as to:
        for name in ("debug_abbrev", "debug_info"):
            with open(f"{folder}/{name}", "rb") as part:
                shutil.copyfileobj(part, to)
    size = os.path.getsize(f"{folder}/debug_abbrev")
    return ["--section", path, f"entries {size}{', big' if is_big else ''}", both]


def sections(path: str, folder: str) -> list[str]:
    """The words for the program about the sections of an ELF file, whose bytes are put into the folder."""
    names, is_big = put_sections(path, folder, SECTIONS)
    words = []
    for name in names:
        if os.path.getsize(f"{folder}/{name}"):
            kind = f"{name}, big" if is_big and name in BY_ORDER else name
            words += ["--section", path, kind, f"{folder}/{name}"]
    if {"debug_info", "debug_abbrev"} <= set(names):
        words += entries(path, folder, is_big)
    if not words:
        say(f"{path} has none of the sections {', '.join(SECTIONS)}")
    return words
