"""Keeps what is built of the sources, so that it isn't built again: programs, programs of tests, and code as
assembler files.

Each is kept outside the checkout, in ${XDG_CACHE_HOME:-~/.cache}, under a checksum of its sources and of the kit. So it
is current as long as they are, whatever the times of files say, and another checkout finds it too. A copy of
a program is in the folder `out` of its crate.
"""
import contextlib
import fcntl
import filecmp
import hashlib
import os
import shutil
import tempfile
from collections.abc import Iterator
from typing import Optional

from workshop import kit
from workshop.code import systems

# How many products are kept. Those that nothing took for the longest time go first.
MOST_KEPT = 60
# The kit's targets, each with the least of its processors, so that the code in these files runs on every one.
TARGETS = {"x86_64": "x86_64-unknown-linux-gnu", "aarch64": "aarch64-unknown-linux-gnu"}
PROCESSORS = {"x86_64": "x86-64", "aarch64": "generic"}
# The crates whose code is in assembler files of the repository, with the folders of these, and for which targets. Those
# of other systems are made of the module for the first target.
FILES = {"dwarf_read_c": f"{kit.ROOT}/rust/proved", "dwarf_list": f"{kit.ROOT}/program/proved"}
OTHERS = {"dwarf_read_c": [*systems.SYSTEMS], "dwarf_list": ["riscv64"]}
TRIPLES = {**TARGETS, **{name: system.triple for name, system in systems.SYSTEMS.items()}}
# The crates whose code is kept, each with its targets.
CODE = {**{it: [*TARGETS, *OTHERS[it]] for it in FILES}, "dwarf_compare": ["x86_64"]}
# Takes the place of the kit's clang. It compiles as asked, and keeps the module that it made the code of, as a text, and
# its words.
CLANG = """#!/bin/sh
PATH=/usr/bin:/bin
{clang} "$@" || exit
case " $* " in *" -c "*) ;; *) exit 0 ;; esac
printf '%s\\n' "$@" >{made}.words
for word; do
    shift
    case $word in *.o) set -- "$@" {made}.ll ;; -c) ;; *) set -- "$@" "$word" ;; esac
done
exec {clang} "$@" -S -emit-llvm -Xclang -emit-llvm-uselists -Xclang -disable-llvm-passes
"""


def cache() -> str:
    """The folder in which products are kept."""
    above = os.environ.get("XDG_CACHE_HOME") or os.path.expanduser("~/.cache")
    return f"{above}/dwarf_read_core"


def sum_of(path: str) -> str:
    with open(path, "rb") as file:
        return hashlib.sha256(file.read()).hexdigest()


def sums(crate: str) -> str:
    """The checksums of all that a product of a crate is made from: its sources, and those of the crates below it.

    They are those of the checkout: a copy in which `rt ci` proves has fewer lines of crates.txt."""
    folders = [f"{kit.ROOT}/crates/{it}/{part}" for it in [*kit.below(crate), crate] for part in kit.PARTS]
    files = [path for it in folders for path in kit.files_below(it)]
    paths = ["crates.txt", *sorted(os.path.relpath(it, kit.ROOT) for it in files)]
    return "".join(f"{sum_of(f'{kit.ROOT}/{it}')}  {it}\n" for it in paths)


def code_of(crate: str) -> str:
    """What decides the code of a crate: the checksums of its sources and of those below it, their lines of crates.txt,
    the processors, the script above, and the steps after it. The other lines of crates.txt change nothing."""
    rows = "".join(f"{it}: {' '.join(kit.CRATES[it])}\n" for it in [*kit.below(crate), crate])
    return rows + sums(crate).partition("\n")[2] + f"{PROCESSORS}\n{CLANG}\n{sum_of(systems.__file__)}\n"


def kept_code(name: str, of_code: str) -> Optional[str]:
    """Where the code for a target is kept, if it is."""
    kept = place_of_copy(f"{name}.s", of_code)
    return kept if os.path.isfile(kept) else None


def lacking(crate: str, of_code: str) -> list[str]:
    """The targets of the kit for which a crate has to be compiled, since code isn't kept."""
    names = [it for it in CODE[crate] if not kept_code(it, of_code)]
    return [it for it in TARGETS if it in names or it == "x86_64" and not TARGETS.keys() >= {*names}]


def place_of_copy(path: str, of_sources: str) -> str:
    """Where a product of these sources is kept."""
    version = kit.version() if shutil.which("rt") else kit.KITS[0]
    key = hashlib.sha256(f"{version}\n{of_sources}".encode()).hexdigest()
    return f"{cache()}/{os.path.basename(path)}-{key[:32]}"


def copy(source: str, target: str) -> None:
    """Copies a file. Whoever reads the target meanwhile finds the old file or the new one, whole."""
    os.makedirs(os.path.dirname(target), exist_ok=True)
    handle, made = tempfile.mkstemp(prefix="new-", dir=os.path.dirname(target))
    os.close(handle)
    try:
        shutil.copyfile(source, made)
        shutil.copymode(source, made)
        os.replace(made, target)
    finally:
        with contextlib.suppress(OSError):
            os.remove(made)


def take(kept: str, path: str) -> str:
    """Puts a kept product into its place. Returns where it is: where it is kept, if the checkout can't be written."""
    try:
        if not os.path.isfile(path) or not filecmp.cmp(kept, path, shallow=False):
            copy(kept, path)
        return path
    except OSError:
        return kept


def keep(made: str, path: str, of_sources: str) -> str:
    """Keeps a product that was just made, and puts it into its place. Returns where it is."""
    kept = place_of_copy(path, of_sources)
    copy(made, kept)
    forget_oldest()
    return take(kept, path)


def find(path: str, crate: str) -> Optional[str]:
    """Where the current product of a crate is, or None."""
    kept = place_of_copy(path, sums(crate))
    if not os.path.isfile(kept):
        return None
    with contextlib.suppress(OSError):
        # What is taken isn't the oldest.
        os.utime(kept)
    return take(kept, path)


def forget_oldest() -> None:
    """Removes the kept products that nothing took for the longest time."""
    with contextlib.suppress(OSError):
        there = sorted(os.scandir(cache()), key=lambda it: it.stat().st_mtime)
        for it in there[:-MOST_KEPT]:
            os.remove(it.path)


@contextlib.contextmanager
def in_turn(crate: str) -> Iterator[None]:
    """Waits while another command makes products of a crate in this checkout. It can take what that has made."""
    handle = os.open(f"{kit.ROOT}/crates/{crate}", os.O_RDONLY)
    try:
        with contextlib.suppress(OSError):
            fcntl.flock(handle, fcntl.LOCK_EX)
        yield
    finally:
        os.close(handle)
