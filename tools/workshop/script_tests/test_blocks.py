"""Runs the blocks of commands in README and docs/C.md as they are there, in a copy of what git has of this checkout."""
import os
import re
import shutil
import subprocess

from workshop import frame, kit

REGISTRY = "/usr/share/cargo/registry"
# What the blocks need, apart from the crates of the lock file.
NEEDED = ("git", "cc", "c++", "objcopy", "pkg-config", "cargo")
# A crate of the lock file of dwarf_elf with its checksum, and the checksum that Debian's copy says, if it says one.
LOCKED = re.compile(r'^name = "(.*)"\nversion = "(.*)"\nsource = .*\nchecksum = "(.*)"$', re.M)
SUM = re.compile(r'"package":\s*"([0-9a-f]{64})"')
# A block of commands; the output of the first block in README; and a line of dwarf_list with a code, its tag, and
# whether there are children.
BLOCK = re.compile(r"^```sh\n(.*?)^```$", re.M | re.S)
SHOWN = re.compile(r"^    (.*\n)", re.M)
HEAD = re.compile(r"^(\d+ \w+) \w+\n", re.M)


def locked() -> dict[str, str]:
    """The checksums of the lock file, each by the crate's folder in Debian's registry."""
    lock = kit.text_of(f"{kit.ROOT}/elf/Cargo.lock")
    return {f"{REGISTRY}/{name}-{version}": total for name, version, total in LOCKED.findall(lock)}


class Blocks(frame.Check):
    """The blocks of commands on two pages, and the checksums that one of them relies on."""

    def setUp(self) -> None:
        super().setUp()
        self.clone = f"{self.work}/clone"

    def make_clone(self) -> None:
        """Copies what git has or would add, with an example in the place of the user's programs."""
        files = kit.run(["git", "ls-files", "-z", "-co", "--exclude-standard"], cwd=kit.ROOT).stdout.split("\0")
        examples = {f"program.{end}": "examples/c/dwarf_tags.c" for end in ("c", "cc")}
        for to, it in {**{it: it for it in files}, **examples}.items():
            if os.path.isfile(f"{kit.ROOT}/{it}"):
                os.makedirs(os.path.dirname(f"{self.clone}/{to}"), exist_ok=True)
                shutil.copy2(f"{kit.ROOT}/{it}", f"{self.clone}/{to}")

    def make_registry(self) -> None:
        """Puts Debian's crates in the place of crates.io, with the checksums of the lock file."""
        for crate, total in locked().items():
            copy = f"{self.work}/registry/{os.path.basename(crate)}"
            shutil.copytree(crate, copy)
            os.remove(f"{copy}/.cargo-checksum.json")
            kit.write_file(f"{copy}/.cargo-checksum.json", f'{{"package":"{total}","files":{{}}}}')
        source = f'[source.crates-io]\nreplace-with = "made"\n[source.made]\ndirectory = "{self.work}/registry"\n'
        kit.write_file(f"{self.work}/cargo/config.toml", source)

    def run_block(self, block: str) -> str:
        """What a block prints, which has to end with status 0. The user's file is one that is made here, and so is the
        folder of what is installed. The tests of the clone aren't run, since this is one of them."""
        prefix = f"{self.work}/prefix"
        here = {"FILE": f"{self.work}/file", "/usr/local": prefix, "ldconfig": f"/sbin/ldconfig -n {prefix}/lib"}
        for old, new in {**here, "tools/tests": "tools/tests --help >&2"}.items():
            block = re.sub(rf"(?<![\w/]){old}(?![\w/])", new, block)
        paths = {"PKG_CONFIG_PATH": f"{prefix}/lib/pkgconfig", "LD_LIBRARY_PATH": f"{prefix}/lib"}
        environment = {**os.environ, **paths, "CARGO_HOME": f"{self.work}/cargo", "CARGO_NET_OFFLINE": "true"}
        with open(f"{self.work}/errors", "w+", encoding="utf-8") as errors:
            ran = kit.run(["sh", "-euc", block], cwd=self.clone, env=environment, stderr=errors)
            errors.seek(0)
            self.assertEqual(ran.returncode, 0, f"{block}{ran.stdout}{errors.read()}")
        return ran.stdout

    @frame.needs(*NEEDED, *locked())
    def test_blocks(self) -> None:
        """Each block ends well. README's first one prints what README shows; those that list a file agree."""
        if kit.run(["git", "rev-parse", "HEAD"], cwd=kit.ROOT).returncode:
            frame.skip("this is no checkout of git")
        if kit.run(["tools/assembler", "--sources"], cwd=kit.ROOT).returncode:
            frame.skip("the assembler files aren't of these sources")
        self.make_clone()
        self.make_registry()
        kit.write_file(f"{self.work}/file.c", "int main(void) { return 0; }\n")
        subprocess.run(["cc", "-g", "-o", "file", "file.c"], cwd=self.work, check=True)
        readme, page = (kit.text_of(f"{self.clone}/{it}") for it in ("README.md", "docs/C.md"))
        first, listed, built, *of_elf = map(self.run_block, BLOCK.findall(readme))
        self.assertEqual(first, "".join(SHOWN.findall(readme.partition("```sh\n")[2].partition("\n```sh\n")[0])))
        self.assertEqual((built, of_elf), ("", 2 * [f"table 0x0:\n{listed}"]))
        tags = "".join(f"{it}\n" for it in HEAD.findall(listed))
        for block in BLOCK.findall(page):
            said = self.run_block(block)
            if "tools/install" not in block:
                self.assertEqual(said, tags if "./a.out" in block else "", block)

    @frame.needs(*locked())
    def test_sums(self) -> None:
        """The checksums of the lock file are those that Debian's copies of the crates say. Some say none."""
        said = {it: SUM.findall(kit.text_of(f"{it}/.cargo-checksum.json")) for it in locked()}
        known = {it: found[0] for it, found in said.items() if found}
        self.assertEqual(known, {it: locked()[it] for it in known})
        self.assertGreaterEqual(len(known), 3)
