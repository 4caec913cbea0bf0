"""Tries the library below a program that nobody here wrote: gimli 0.27 itself, in a scratch copy whose tables, strings,
lookups and LEB128 numbers come from the library's calls.

No text of gimli's is here: a body is found by the name of its function, and what takes its place is in `client/`.
"""
import argparse
import filecmp
import glob
import os
import re
import shutil
import subprocess
import tempfile
from collections.abc import Sequence

from workshop import frame, kit
from workshop.compare.common import CRATE, DEBIAN, OUT, PACKAGE, Failed, Missing, copy_if_new, files_by_default, must, need
from workshop.compare.common import put_library, put_sections, run

MANIFEST = """[package]
name = "gimli"
version = "0.27.0"
edition = "2018"

[dependencies.fallible-iterator]
path = "FALLIBLE"
default-features = false
optional = true

[dependencies.stable_deref_trait]
path = "STABLE"
default-features = false
optional = true

[features]
default = ["read", "std", "fallible-iterator", "endian-reader"]
endian-reader = ["read", "stable_deref_trait"]
read = ["read-core"]
read-core = []
std = ["fallible-iterator/std", "stable_deref_trait/std"]
write = []

[profile.release]
debug = 2

[workspace]
"""
BUILD = """fn main() {
    println!("cargo:rerun-if-changed=build.rs");
    println!("cargo:rustc-link-search=native=FOLDER");
    println!("cargo:rerun-if-changed=FOLDER/libdwarf_compare.a");
    println!("cargo:rustc-link-lib=static=dwarf_compare");
}
"""
MODULE = "#[allow(missing_docs, missing_debug_implementations, dead_code)]\npub mod {};\n"
TABLE = """
        crate::calls::table(&self.debug_abbrev_section, debug_abbrev_offset.0, |declarations, attributes| {
            let mut table = Abbreviations::empty();
            for it in declarations {
                let mut list = Attributes::new();
                for it in &attributes[it.first_attribute..][..it.attribute_count] {
                    let form = constants::DwForm(it.form);
                    let value = Some(it.implicit_const).filter(|_| form == constants::DW_FORM_implicit_const);
                    list.push(AttributeSpecification::new(constants::DwAt(it.name), form, value));
                }
                let (tag, children) = (constants::DwTag(it.tag), constants::DwChildren(it.has_children));
                let _ = table.insert(Abbreviation::new(it.code, tag, children, list));
            }
            table
        })"""
# The bodies that are replaced: the file, a text before the function, the function's head, and the new body.
BODIES = [
    ("leb128.rs", "pub mod read", "fn skip<", "crate::calls::skip(r)"),
    ("leb128.rs", "pub mod read", "fn unsigned<", "crate::calls::unsigned(r)"),
    ("leb128.rs", "pub mod read", "fn u16<", "crate::calls::short(r)"),
    ("leb128.rs", "pub mod read", "fn signed<", "crate::calls::signed(r)"),
    ("read/str.rs", "> DebugStr<", "fn get_str(", "crate::calls::string(&self.debug_str_section, offset.0)"),
    ("read/str.rs", "> DebugLineStr<", "fn get_str(", "crate::calls::string(&self.section, offset.0)"),
    (
        "read/str.rs",
        "> DebugStrOffsets<",
        "fn get_str_offset(",
        "crate::calls::str_offset(&self.section, format, base.0, index.0).map(DebugStrOffset)",
    ),
    (
        "read/addr.rs",
        "> DebugAddr<",
        "fn get_address(",
        "crate::calls::address(&self.section, address_size, base.0, index.0)",
    ),
    ("read/abbrev.rs", "> DebugAbbrev<", "fn abbreviations(", TABLE),
]
RESULT = re.compile(r"^test result: \w+\. (\d+) passed; (\d+) failed", re.M)
# What is planted, and whether the dumps or gimli's tests have to show it.
PLANTED = [("tag", "dumps"), ("string", "dumps"), ("number", "tests")]


def source(name: str) -> str:
    """The folder of a package that Debian installs for cargo."""
    found = sorted(glob.glob(f"{DEBIAN}/{name}-[0-9]*"))
    if not found:
        raise Missing(f"there is no {name}: `apt-get install librust-gimli-dev` installs it")
    return found[-1]


def with_body(text: str, after: str, function: str, body: str) -> str:
    """A text in which a function has another body."""
    at = text.find("{", text.find(function, text.find(after)))
    if after not in text or function not in text[text.find(after) :]:
        raise Failed(f"gimli has no `{function}` after `{after}`, so this version can't be patched")
    end = at + 1
    depth = 1
    while depth:
        depth += (text[end] == "{") - (text[end] == "}")
        end += 1
    return f"{text[:at]}{{ crate::calls::reached(); {body} }}{text[end:]}"


def patched(name: str, text: str) -> str:
    """A source file of gimli's that reads by the library."""
    if name == "lib.rs":
        modules = "".join(map(MODULE.format, ("calls", "heap", "proved", "room", "sys")))
        return text.replace("pub mod leb128;", f"pub mod leb128;\n{modules}", 1)
    for file, after, function, body in BODIES:
        if file == name:
            text = with_body(text, after, function, body)
    return text


def write(text: str, path: str) -> None:
    """Writes a file, unless it is there already."""
    with tempfile.NamedTemporaryFile("w", encoding="utf-8") as file:
        file.write(text)
        file.flush()
        copy_if_new(file.name, path)


def copy(gimli: str, folder: str, is_patched: bool) -> None:
    """Makes a copy of gimli, with the program that dumps."""
    for part in ("src", "tests", "fixtures"):
        for it in kit.files_below(f"{gimli}/{part}"):
            path = os.path.relpath(it, gimli)
            if path == "tests/convert_self.rs":
                continue
            if is_patched and part == "src" and it.endswith(".rs"):
                write(patched(path[len("src/") :], kit.text_of(it)), f"{folder}/{path}")
            else:
                copy_if_new(it, f"{folder}/{path}")
    text = MANIFEST.replace("FALLIBLE", source("fallible-iterator")).replace("STABLE", source("stable_deref_trait"))
    write(text, f"{folder}/Cargo.toml")
    copy_if_new(f"{PACKAGE}/client/dump.rs", f"{folder}/examples/dump.rs")
    # The documentation of gimli has examples that include its page.
    copy_if_new(f"{gimli}/README.md", f"{folder}/README.md")
    if is_patched:
        write(BUILD.replace("FOLDER", f"{OUT}/lib"), f"{folder}/build.rs")
        for path in (f"{PACKAGE}/client/calls.rs", f"{PACKAGE}/src/room.rs"):
            copy_if_new(path, f"{folder}/src/{os.path.basename(path)}")
        for it in ("heap", "proved", "sys"):
            # The crate's own tests aren't gimli's.
            write(kit.text_of(f"{CRATE}/src/{it}.rs").partition("\n#[cfg(test)]\n")[0], f"{folder}/src/{it}.rs")
        for path in kit.files_below(f"{CRATE}/proved"):
            copy_if_new(path, f"{folder}/proved/{os.path.basename(path)}")


def tests(folder: str, planted: str = "", kinds: Sequence[str] = ()) -> list[tuple[int, int]]:
    """How many of gimli's own tests pass and fail in a copy: of each kind, or of those kinds that are named."""
    words = ["cargo", "test", "--quiet", "--offline", "--no-fail-fast", *kinds]
    said, status = run(words, cwd=folder, env={**os.environ, "COMPARE_PLANTED": planted})
    found = [(int(passed), int(failed)) for passed, failed in RESULT.findall(said)]
    if not found or status and not sum(failed for _, failed in found):
        raise Failed(f"gimli's tests don't run:\n{said[-2000:]}")
    return found


def dump(copy_folder: str, sections: str, order: str, to: str, planted: str = "") -> str:
    """Writes the dump of a copy, and returns what it counted."""
    words = [f"{copy_folder}/target/release/examples/dump", sections, order]
    with open(to, "wb") as file:
        ran = subprocess.run(
            words,
            stdin=subprocess.DEVNULL,
            stdout=file,
            stderr=subprocess.PIPE,
            env={**os.environ, "COMPARE_PLANTED": planted},
            text=True,
            errors="replace",
            check=False,
        )
    if ran.returncode:
        return f"status {ran.returncode}: {ran.stderr.strip()[-200:]}"
    return ran.stderr.strip()


def first_difference(one: str, other: str) -> str:
    """The first line in which two files differ, and both."""
    with open(one, encoding="utf-8", errors="replace") as left:
        with open(other, encoding="utf-8", errors="replace") as right:
            for number, (a, b) in enumerate(zip(left, right), 1):
                if a != b:
                    return f"line {number}, gimli: {a.strip()}\n  by the library: {b.strip()}"
    return "one is the front of the other"


def compare_dumps(states: frame.States, files: Sequence[str], folders: Sequence[str], work: str) -> set[str]:
    """Compares the dumps of each file, and returns which planted errors they show."""
    gimli, library, planted = f"{work}/gimli", f"{work}/library", f"{work}/planted"
    shown = set()
    for i, path in enumerate(files):
        sections = f"{work}/{i}"
        names, is_big = put_sections(path, sections)
        if not names:
            raise Failed(f"{path} has no debug sections, so there is nothing to dump")
        order = "be" if is_big else "le"
        wanted = dump(folders[0], sections, order, gimli)
        said = dump(folders[1], sections, order, library)
        is_equal = said == wanted and filecmp.cmp(gimli, library, shallow=False)
        tell(states, f"dump of {path}", is_equal, said)
        if not is_equal:
            print(f"  gimli: {wanted}\n  {first_difference(gimli, library)}")
        for what, where in PLANTED:
            if where == "dumps" and what not in shown:
                dump(folders[1], sections, order, planted, what)
                if not filecmp.cmp(gimli, planted, shallow=False):
                    shown.add(what)
        shutil.rmtree(sections)
    return shown


def tell(states: frame.States, name: str, well: object, said: str) -> None:
    """Adds what came of a check, and prints a line."""
    states[name] = frame.State(frame.PASSED if well else frame.FAILED, said)
    print(f"compare: {name}: {said}: {'ok' if well else 'FAILED'}", flush=True)


def client(given: argparse.Namespace) -> int:
    """Runs gimli's tests and the dumps by the library, and returns the exit status."""
    need("cargo", "cargo")
    need("gcc", "gcc")
    need("objcopy", "binutils")
    gimli = source("gimli")
    if not gimli.endswith("gimli-0.27.0"):
        raise Missing(f"the patch is for gimli 0.27.0, and Debian's here is {os.path.basename(gimli)}")
    put_library(f"{OUT}/lib")
    folders = [f"{OUT}/client/gimli", f"{OUT}/client/patched"]
    for folder in folders:
        copy(gimli, folder, folder is folders[1])
        words = ["cargo", "build", "--quiet", "--offline", "--release", "--example", "dump"]
        must(words, f"the program that dumps isn't built in {folder}", cwd=folder)
    found = tests(folders[1])
    kinds = ", ".join(f"{passed} passed, {failed} failed" for passed, failed in found)
    wanted = tests(folders[0])
    with tempfile.TemporaryDirectory(prefix="compare-") as work:
        states: frame.States = {}
        is_well = found == wanted and not sum(it[1] for it in found)
        tell(states, "gimli's own tests by the library", is_well, kinds)
        # A test that passes without a call of the library says nothing of it.
        reached = [failed for _, failed in tests(folders[1], "reached")]
        tell(states, "of these reach the library", sum(reached), ", ".join(map(str, reached)))
        files = given.files or files_by_default(f"{folders[1]}/target/release/examples/dump")
        shown = compare_dumps(states, files, folders, work)
    # The tests of gimli's modules are enough.
    failures = sum(failed for _, failed in tests(folders[1], "number", ["--lib"]))
    if failures:
        shown.add("number")
    for what, where in PLANTED:
        seen = f"{failures} tests fail" if where == "tests" else "a dump differs"
        if what not in shown:
            seen = f"the {where} do not show it"
        tell(states, f"planted {what}", what in shown, seen)
    return frame.end("compare", states)
