"""Checks of the crate for Rust: how it is written and published, and programs over it. `tools/tests` runs its tests."""
import os
import re
import shlex
import subprocess

from workshop import frame, kit
from workshop.checks import rows
from workshop.checks.c import HEAP, LIBRARY, MINGW, WINE, wine

CRATE = f"{kit.ROOT}/rust"
TARGET = "x86_64-pc-windows-gnu"
# Debian's, which is of the oldest version that compiles the crate.
DEBIAN = {it.upper(): f"/usr/bin/{it}" for it in ("rustc", "rustdoc")}
# The files that the crate doesn't publish.
UNPUBLISHED = {"rustfmt.toml", "tests/layouts.rs"}
# What readelf says of a unit: its offset, version, table and address size, and the tag of its first entry.
UNIT = re.compile(
    r"Compilation Unit @ offset (?:0x)?(\w+):$.*?Version: +(\d+)$.*?Abbrev Offset: +(?:0x)?(\w+)$.*?"
    r"Pointer Size: +(\d+)$.*?^ <0><\w+>: Abbrev Number: \d+ \((\w+)\)$",
    re.M | re.S,
)
DEPENDENT = """\
[package]
name = "dependent"
version = "0.1.0"
edition = "2024"

[dependencies]
dwarf-read = {{ path = "{crate}" }}

[lib]
crate-type = ["cdylib"]

[workspace]
"""
SHARED = """\
#[unsafe(no_mangle)]
pub extern "C" fn table_len(byte: u8) -> usize {
    dwarf_read::Table::read(&[byte], 0).map_or(0, |it| it.len())
}
"""


def cargo(command: str, folder: str = CRATE, **environment: str) -> str:
    """Runs cargo in a folder, with these in the environment, and with the scratch folder for all that it makes. It has
    to end well. Returns what it says."""
    made = {"CARGO_TARGET_DIR": f"{frame.room()}/target", "CARGO_NET_OFFLINE": "true"}
    return frame.must(["cargo", *shlex.split(command)], cwd=folder, env={**os.environ, **made, **environment})


@frame.once
def example(name: str) -> str:
    """An example of the crate."""
    cargo(f"build --quiet --release --example {name}")
    return f"{frame.room()}/target/release/examples/{name}"


@frame.once
def package() -> str:
    """The crate as it would be published, unpacked in another place."""
    cargo("package --allow-dirty --no-verify")
    name = f"dwarf-read-{kit.VERSION}"
    folder = frame.new_folder()
    frame.must(["tar", "-xf", f"{frame.room()}/target/package/{name}.crate", "-C", folder])
    return f"{folder}/{name}"


@frame.needs("cargo")
class Crate(frame.Check):
    """The crate, as it is in this clone."""

    def test_example(self) -> None:
        rows.compare([example("dwarf_show")], without="uleb")

    @frame.needs("objcopy", "readelf", "cc")
    def test_units(self) -> None:
        """What dwarf_units.rs prints of a program is what readelf and dwarf_list print of it."""
        self.must(["cc", "-g", "-I", f"{kit.ROOT}/include", rows.SHOW, HEAP, LIBRARY, "-o", "units"])
        sections = ["--dump-section", ".debug_info=info", "--dump-section", ".debug_abbrev=abbrevs"]
        self.must(["objcopy", "--decompress-debug-sections", *sections, "units", os.devnull])
        with open(f"{self.work}/abbrevs", "rb") as file:
            abbrevs = file.read()
        wanted = ""
        said = self.must(["readelf", "-W", "--debug-dump=info", "units"])
        for offset, version, table, size, tag in UNIT.findall(said):
            listed, _ = frame.output([rows.LISTER, "abbrev", str(int(table, 16))], abbrevs)
            count = len(re.findall(rb"^\d", listed, re.M))
            wanted += f"unit at {int(offset, 16)}: version {version}, address size {size}, "
            wanted += f"{count} abbreviations, {tag}\n"
        self.assertTrue(wanted)
        self.assertEqual(self.must([example("dwarf_units"), "info", "abbrevs"]), wanted)

    def test_without_std(self) -> None:
        cargo("check --all-targets --no-default-features")

    def test_documentation(self) -> None:
        cargo("doc --no-deps", RUSTDOCFLAGS="-D warnings")

    @frame.needs("cargo-clippy")
    def test_clippy(self) -> None:
        cargo("clippy --all-targets -- -D warnings")

    @frame.needs("cargo-fmt")
    def test_layout(self) -> None:
        cargo("fmt --check")

    @frame.needs(f"/usr/lib/rustlib/{TARGET}", "/usr/bin/cargo", "/usr/bin/rustc", MINGW, WINE)
    def test_windows(self) -> None:
        """Its tests pass on Windows, by Debian's rustc and wine."""
        own = {"RUSTC": "/usr/bin/rustc", f"CARGO_TARGET_{TARGET.upper().replace('-', '_')}_RUNNER": WINE}
        own.update(CARGO_TARGET_DIR=f"{frame.room()}/target_of_windows", CARGO_NET_OFFLINE="true")
        words = ["/usr/bin/cargo", "test", "--target", TARGET, "--lib", "--test", "calls"]
        frame.must(words, cwd=CRATE, env={**wine(), **own})


@frame.needs("cargo", "git")
class Package(frame.Check):
    """The crate as it would be published: its files, and that these alone are built and tested, without a compiler of
    C."""

    def test_files(self) -> None:
        words = ["cargo", "package", "--list", "--allow-dirty"]
        said = kit.run(words, cwd=CRATE, stderr=subprocess.DEVNULL).stdout
        tracked = set(frame.must(["git", "ls-files"], cwd=CRATE).splitlines())
        self.assertTrue(tracked)
        self.assertEqual(set(said.splitlines()) - {"Cargo.toml.orig", ".cargo_vcs_info.json"}, tracked - UNPUBLISHED)

    @frame.each(("lto", "panic"))
    def test_profile(self, name: str) -> None:
        """The example prints the same with link-time optimization, and where a panic aborts."""
        how = {"lto": 'lto="fat"', "panic": 'panic="abort"'}[name]
        target = f"{self.work}/target"
        command = f"build --quiet --release --example dwarf_show --config 'profile.release.{how}'"
        cargo(command, package(), CC="false", CARGO_TARGET_DIR=target)
        rows.compare([f"{target}/release/examples/dwarf_show"], without="uleb")

    @frame.needs("/usr/bin/cargo", "/usr/bin/rustc", "/usr/bin/rustdoc")
    def test_by_debian(self) -> None:
        """Its tests pass by Debian's rustc, and give no warning."""
        own = {**DEBIAN, "CARGO_TARGET_DIR": f"{self.work}/target", "CARGO_NET_OFFLINE": "true", "CC": "false"}
        said = frame.must(["/usr/bin/cargo", "test"], cwd=package(), env={**os.environ, **own})
        # What cargo packages has a key that an older cargo doesn't know.
        warnings = re.findall(r"^warning(?!: unused manifest key: package\.autolib$)", said, re.M)
        self.assertEqual(warnings, [], said)


@frame.once
def dependent() -> str:
    """Builds a program and a shared library that depend on the crate, and returns their folder."""
    folder = frame.new_folder()
    kit.write_file(f"{folder}/Cargo.toml", DEPENDENT.format(crate=CRATE))
    kit.write_file(f"{folder}/src/main.rs", kit.text_of(f"{CRATE}/examples/dwarf_show.rs"))
    kit.write_file(f"{folder}/src/lib.rs", SHARED)
    cargo("build --quiet", folder)
    return f"{frame.room()}/target/debug"


@frame.needs("cargo")
class Dependent(frame.Check):
    """What depends on the crate."""

    def test_program(self) -> None:
        rows.compare([f"{dependent()}/dependent"], without="uleb")

    @frame.needs("nm")
    def test_cdylib(self) -> None:
        """A shared library exports only what is its own."""
        said = self.must(["nm", "-D", "--defined-only", f"{dependent()}/libdependent.so"])
        self.assertEqual(re.findall(r" [A-Z] (\w+)$", said, re.M), ["table_len"])
