"""Makes Debian packages of what `tools/install` installs, a tar of the same files, and a tar for programs that contain
the library.

    tools/package [FOLDER]    writes them to a folder, or to the one where it runs
    tools/package --check     makes them in a scratch folder, and tries them; the names of checks may follow

The packages are libdwarf-read0.5, the shared library, whose name has the minor version; libdwarf-read-dev, what a
program is compiled and linked with; and dwarf-read, the programs. The tar is dwarf-read-VERSION-linux-amd64.tar.gz.
Nothing has to be proved, since `tools/install` takes the proved code from the assembler files. Besides what it installs,
the packages have docs/C.md without what is for a clone, the examples and tests in C, the changelog and PROVENANCE; and
in share/dwarf-read the crate for Rust and the sources for C. PROVENANCE names the commit, the kit and the crates with
their numbers of functions, and has the checksum of each other file. The tar has a README too, and its files
find each other in any folder. dwarf-read-VERSION-vendor.tar.gz has one folder with the sources of the library for C,
the code for each processor in one file, and the licences. The same programs and tools give the same bytes. While files
have changes that are in no commit, nothing is made, but `--check` works.

In the check, lintian may find no error and no warning, and all files have to be the same if they are made again. What
is unpacked has to work where it is, the tar in a folder with a space in its name: the programs without the kit, and the
library from C, C++ and Rust, shared and as an archive. A program is compiled in the folder for programs that contain the
library, with nothing else there. A line is printed for each check. What can't be tried here is named and counted as
skipped, and the last line is `N passed, M failed, K skipped`. The exit status is 0 if nothing failed, 1 if something
did, and 2 for a wrong command line.
"""
import filecmp
import functools
import glob
import os
import re
import shutil
import subprocess
import sys
import textwrap
from typing import Any, NoReturn

from workshop import frame, kit
from workshop.checks import consumers, rows

NAME = "dwarf-read"
LIBDIR = "lib/x86_64-linux-gnu"
DEBIAN = f"{kit.ROOT}/packaging/debian"
DEV = "libdwarf-read-dev"
DOC = f"share/doc/{NAME}"
# The sources that a program can be compiled with, in the folders that they have in the repository.
SOURCES = f"share/{NAME}"
# What the package for programs in other languages has. The programs' package has the rest, but the shared library.
OF_DOC = ("C.md", "examples/", "tests/")
OF_DEV = ("include/", f"{LIBDIR}/", f"{SOURCES}/include/", f"{SOURCES}/rust/", *(f"{DOC}/{it}" for it in OF_DOC))
# The folders below /usr of the packages, in their order.
FOLDERS = ({"lib", "share"}, {"include", "lib", "share"}, {"bin", "libexec", "share"})
# What each package has.
OF_EACH = (f"{DOC}/changelog.gz", f"{DOC}/copyright")
# What none has, since Debian's own files have these texts.
OF_TAR = (f"{DOC}/LICENSE-APACHE", f"{DOC}/LICENSE-MIT")
# The crates of what is installed.
CRATES = ("dwarf_list", "dwarf_read_c")
BINARIES = ("libexec/dwarf-read/dwarf_list", "bin/dwarf_elf")
OF_DEBIAN = ("dpkg-deb", "dpkg-shlibdeps", "dpkg-gencontrol")
NEEDED = ("git", "cargo", "cc", "ar", "strip", "tar", "gzip", "nm", "readelf", "sha256sum", *OF_DEBIAN)
# Where the pages are below what is unpacked.
DOCS = {"packages": f"share/doc/{DEV}", "tar": DOC}
# The parts of docs/C.md that are for a clone, and what the installed page names: files, and folders of a clone.
OF_CLONE = re.compile(
    r"^The library's proved code is in this repository.*?(?=^\[`dwarf_read\.h`\])"
    r"|^## (?:Install the library|Copy the library into a program|CMake|Platforms|The assembler files)\n.*?(?=^## )",
    re.M | re.S,
)
# A line of include/dwarf_read.S that brings in the code for a processor.
CODE = re.compile(r'^#include "(\.\./.*)"\n', re.M)
NAMED = re.compile(r"`((?:[\w.-]+/)*[\w-]+\.(?:c|h|a|md|rs|so[\d.]*)|(?:[\w.-]+/)+)`")


def fail(why: str) -> NoReturn:
    """Ends the run."""
    sys.exit(f"package: {why}")


def output(*words: str, cwd: str = kit.ROOT, **how: Any) -> str:
    """What a command prints, without the end of its last line. A command that fails ends the run."""
    ran = subprocess.run(words, cwd=cwd, stdout=subprocess.PIPE, text=True, check=False, **how)
    if ran.returncode:
        fail(f"{words[0]} ended with status {ran.returncode}")
    return str(ran.stdout).rstrip("\n")


is_same = functools.partial(filecmp.cmp, shallow=False)


class Package:
    """The packages and the tar, which are made in a new folder."""

    def __init__(self, work: str) -> None:
        self.work = work
        self.tree = f"{work}/tree"
        self.root = f"{work}/tree/usr"
        self.version = kit.VERSION
        self.commit, self.time, self.date = output("git", "log", "-1", "--format=%H%n%ct%n%cD").split("\n")
        self.changes = output("git", "status", "--porcelain")
        minor = self.version.rpartition(".")[0]
        self.folder = f"{NAME}-{self.version}"
        self.shared = f"libdwarf_read.so.{minor}"
        self.of_shared = f"libdwarf-read{minor}"
        self.packages = (self.of_shared, DEV, NAME)
        self.debs = [f"{it}_{self.version}_amd64.deb" for it in self.packages]
        self.tar = f"{self.folder}-linux-amd64.tar.gz"
        self.vendor = f"{self.folder}-vendor.tar.gz"
        self.files = [*self.debs, self.tar, self.vendor]
        self.environment = {**os.environ, "LIBDIR": LIBDIR, "SOURCE_DATE_EPOCH": self.time, "LC_ALL": "C.UTF-8"}

    def make(self) -> None:
        """Makes the packages and the tar."""
        output(f"{kit.ROOT}/tools/install", "/usr", self.tree, env=self.environment)
        notes = ["-R", ".comment", "-R", ".note"]
        binaries = [*BINARIES, f"{LIBDIR}/{self.shared}"]
        output("strip", "--strip-unneeded", *notes, *(f"{self.root}/{it}" for it in binaries))
        output("strip", "--strip-debug", *notes, f"{self.root}/{LIBDIR}/libdwarf_read.a")
        self.put_documentation()
        kit.write_file(f"{self.work}/changelog", self.changelog())
        control = kit.text_of(f"{DEBIAN}/control").replace("@SHARED@", self.of_shared)
        kit.write_file(f"{self.work}/source/debian/control", control)
        for it in self.packages:
            self.pack(it)
        self.pack_tar()
        self.pack_vendor()

    def put_documentation(self) -> None:
        """Puts all but PROVENANCE into share/doc, and compresses the manual pages."""
        kit.write_file(f"{self.root}/{DOC}/C.md", self.page())
        for it in output("git", "ls-files", "examples", "tests").splitlines():
            kit.write_file(f"{self.root}/{DOC}/{it}", kit.text_of(f"{kit.ROOT}/{it}"))
        # The licences are in the copyright.
        names = ("include/*.S", "include/*.c", "rust", ":!rust/LICENSE-*")
        for it in output("git", "ls-files", *names).splitlines():
            kit.write_file(f"{self.root}/{SOURCES}/{it}", kit.text_of(f"{kit.ROOT}/{it}"))
        kit.write_file(f"{self.root}/{DOC}/changelog", self.changelog())
        output("gzip", "-9n", f"{self.root}/{DOC}/changelog", *glob.glob(f"{self.root}/share/man/man1/*"))

    def page(self) -> str:
        """docs/C.md as it is installed, without what is for a clone, and without links to pages that aren't there."""
        page, count = OF_CLONE.subn("", kit.text_of(f"{kit.ROOT}/docs/C.md"))
        if count != 6:
            fail("docs/C.md hasn't the six parts for a clone")
        return re.sub(r"\[([^]]*)\]\((?!https?:)[^)]*\)", r"\1", page)

    def sums(self, command: str, top: str, root: str, without: str = "") -> str:
        """The checksums of the files below a folder, by their paths in another. One of them may be left out."""
        files = [os.path.relpath(it, top) for it in kit.files_below(root) if not os.path.islink(it) and it != without]
        return output(command, *sorted(files), cwd=top)

    def changelog(self) -> str:
        """The section of the version in CHANGELOG.md, in Debian's form."""
        _, _, rest = kit.text_of(f"{kit.ROOT}/CHANGELOG.md").partition(f"\n## {self.version}\n")
        section = rest.partition("\n## ")[0]
        # A paragraph, an item, or a heading such as `### Added`, which Debian's form has as `[ Added ]`.
        parts = [" ".join(it.split()) for it in re.split(r"\n(?=- |### )|\n\n", section)]
        lines = []
        for part in filter(None, parts):
            if part.startswith("### "):
                lines.append(f"  [ {part[4:]} ]")
            else:
                text = part.removeprefix("- ")
                lines.append(textwrap.fill(text, 78, initial_indent="  * ", subsequent_indent="    "))
        if not lines:
            fail(f"CHANGELOG.md has no section for {self.version}")
        maintainer = re.findall(r"^Maintainer: (.*)$", kit.text_of(f"{DEBIAN}/control"), re.M)[0]
        first = f"{NAME} ({self.version}) unstable; urgency=medium"
        last = f" -- {maintainer}  {self.date}"
        return "\n\n".join([first, "\n".join(lines), last]) + "\n"

    def provenance(self, top: str, root: str, package: str = NAME) -> str:
        """The page that says what is proved, with the checksums of the files below a folder, by their paths in
        another."""
        crates = [it for it in kit.CRATES if it in CRATES or any(it in kit.below(above) for above in CRATES)]
        used = sorted({it for crate in crates for it in kit.CRATES[crate]} - set(kit.CRATES))
        counts = {it: sum(len(kit.FN.findall(text)) for _, text in kit.sources(it, False)) for it in crates}
        unnamed = [it for it in used if it not in kit.text_of(f"{DEBIAN}/copyright")]
        if unnamed:
            fail(f"packaging/debian/copyright doesn't name {unnamed[0]}, a crate of the kit")
        return kit.text_of(f"{DEBIAN}/PROVENANCE").format(
            version=self.version,
            commit=self.commit + (" with changes that are in no commit" if self.changes else ""),
            kit=re.findall(r"^ \* Kit: (.*)$", kit.text_of(f"{kit.ROOT}/program/proved/x86_64.s"), re.M)[0],
            compiler=output(os.environ.get("CC", "cc"), "--version").partition("\n")[0],
            crates="\n".join(f"    {it:20} {count:3} functions" for it, count in counts.items()),
            used=", ".join(used),
            sums=self.sums("sha256sum", top, root, f"{root}/share/doc/{package}/PROVENANCE"),
        )

    def has(self, package: str, path: str) -> bool:
        """Whether a package has a file, which is named by its path below /usr."""
        if path in OF_EACH:
            return True
        if path in OF_TAR:
            return False
        if path == f"{LIBDIR}/{self.shared}":
            return package == self.of_shared
        return package == (DEV if path.startswith(OF_DEV) else NAME)

    def pack(self, package: str) -> None:
        """Makes a Debian package of its part of the files."""
        tree = f"{self.work}/{package}"
        for it in kit.files_below(self.root):
            path = os.path.relpath(it, self.root)
            if self.has(package, path):
                made = f"{tree}/usr/{path.replace(DOC, f'share/doc/{package}')}"
                os.makedirs(os.path.dirname(made), exist_ok=True)
                shutil.copy2(it, made, follow_symlinks=False)
        kit.write_file(f"{tree}/usr/share/doc/{package}/PROVENANCE", self.provenance(tree, f"{tree}/usr", package))
        sums = self.sums("md5sum", tree, f"{tree}/usr")
        kit.write_file(f"{tree}/DEBIAN/md5sums", f"{sums}\n")
        if package == self.of_shared:
            name, minor = self.shared.split(".so.")
            kit.write_file(f"{tree}/DEBIAN/shlibs", f"{name} {minor} {package} (>= {self.version})\n")
            kit.write_file(f"{tree}/DEBIAN/triggers", "activate-noawait ldconfig\n")
        self.control(package, tree)
        words = ["--root-owner-group", "--build", tree, f"{self.work}/{package}_{self.version}_amd64.deb"]
        output("dpkg-deb", *words, env=self.environment)

    def control(self, package: str, tree: str) -> None:
        """Writes the control file of a package, with what its programs or its library need."""
        binaries = [f"{tree}/usr/{it}" for it in (*BINARIES, f"{LIBDIR}/{self.shared}")]
        binaries = [it for it in binaries if os.path.isfile(it)]
        # Warns that the programs are outside of the folder where it runs.
        words = ["dpkg-shlibdeps", "-O", *binaries]
        needed = output(*words, cwd=f"{self.work}/source", stderr=subprocess.DEVNULL) if binaries else ""
        kit.write_file(f"{self.work}/variables", f"{needed}\n")
        words = [f"-p{package}", f"-c{self.work}/source/debian/control", f"-l{self.work}/changelog"]
        words += [f"-T{self.work}/variables", f"-P{tree}", f"-f{self.work}/files"]
        output("dpkg-gencontrol", *words, env=self.environment)

    def pack_tar(self) -> None:
        """Makes the tar, of the same files. pkg-config finds them by where its own file is."""
        path = f"{self.root}/{LIBDIR}/pkgconfig/dwarf_read.pc"
        up = os.path.relpath(self.root, os.path.dirname(path))
        kit.write_file(path, kit.text_of(path).replace("prefix=/usr\n", f"prefix=${{pcfiledir}}/{up}\n", 1))
        said = kit.text_of(f"{DEBIAN}/README").format(version=self.version, libdir=LIBDIR)
        kit.write_file(f"{self.root}/README", said)
        kit.write_file(f"{self.root}/{DOC}/PROVENANCE", self.provenance(self.root, self.root))
        self.tar_up(self.tar, self.tree, "usr", "--transform", f"s,^usr,{self.folder},")

    def pack_vendor(self) -> None:
        """Makes the tar for programs that contain the library."""
        folder = self.vendor.removesuffix(".tar.gz")
        for it in output("git", "ls-files", "*.h", "*.c", cwd=f"{kit.ROOT}/include").splitlines():
            kit.write_file(f"{self.work}/{folder}/{it}", kit.text_of(f"{kit.ROOT}/include/{it}"))
        for it in ("LICENSE-APACHE", "LICENSE-MIT"):
            kit.write_file(f"{self.work}/{folder}/{it}", kit.text_of(f"{kit.ROOT}/{it}"))
        text = kit.text_of(f"{kit.ROOT}/include/dwarf_read.S").replace("-I include ", "").replace(" include/", " ")
        text = CODE.sub(lambda found: kit.text_of(f"{kit.ROOT}/include/{found[1]}"), text)
        kit.write_file(f"{self.work}/{folder}/dwarf_read.S", text)
        self.tar_up(self.vendor, self.work, folder)

    def tar_up(self, name: str, above: str, folder: str, *words: str) -> None:
        """Makes a tar of a folder, with the same bytes each time."""
        same = ["--sort=name", f"--mtime=@{self.time}", "--owner=0", "--group=0", "--numeric-owner", "--format=gnu"]
        output("tar", *same, *words, "-I", "gzip -9n", "-C", above, "-cf", f"{self.work}/{name}", folder)


@frame.once
def made() -> Package:
    """The packages and tars of this clone."""
    frame.need(*NEEDED)
    if kit.run(["git", "rev-parse", "HEAD"], cwd=kit.ROOT).returncode:
        frame.skip("git knows of no commit")
    package = Package(frame.new_folder())
    package.make()
    return package


@frame.once
def unpacked(kind: str) -> str:
    """The folder that is like /usr, once the packages or the tar are unpacked: the tar in a folder with a space."""
    if kind == "packages":
        folder = f"{frame.new_folder()}/deb"
        for it in made().debs:
            frame.must(["dpkg-deb", "-x", f"{made().work}/{it}", folder])
        return f"{folder}/usr"
    folder = f"{frame.new_folder()}/a tar"
    os.mkdir(folder)
    frame.must(["tar", "-xzf", f"{made().work}/{made().tar}", "-C", folder])
    return f"{folder}/{made().folder}"


def root(kind: str) -> consumers.Root:
    """The same, as programs find it. The package's own files say where they are once they are installed."""
    at = unpacked(kind)
    source = f"{at}/{DOCS[kind]}/examples/c/dwarf_show.c"
    if kind == "tar":
        return consumers.Root(at, LIBDIR, source)
    more = {f"PKG_CONFIG_ALLOW_SYSTEM_{it}": "1" for it in ("CFLAGS", "LIBS")}
    return consumers.Root(at, LIBDIR, source, {"PKG_CONFIG_SYSROOT_DIR": os.path.dirname(at), **more})


class Files(frame.Check):
    """What is in the packages and in the tars."""

    @frame.needs("lintian")
    def test_lintian(self) -> None:
        self.must(["lintian", "--fail-on", "error,warning", *made().debs], cwd=made().work)

    def test_same_again(self) -> None:
        """The same programs and tools give the same bytes."""
        again = Package(f"{self.work}/again")
        again.make()
        self.assertEqual([it for it in made().files if not is_same(f"{made().work}/{it}", f"{again.work}/{it}")], [])
        self.count = len(made().files)

    @frame.each(DOCS)
    def test_checksums(self, kind: str) -> None:
        """PROVENANCE has the checksums of the files."""
        at = unpacked(kind)
        pages = [DOC] if kind == "tar" else [f"usr/share/doc/{it}" for it in made().packages]
        for page in pages:
            sums = f"grep -E '^[0-9a-f]{{64}}  ' {page}/PROVENANCE | sha256sum --check --quiet --strict"
            self.must(["sh", "-c", sums], cwd=at if kind == "tar" else os.path.dirname(at))
        self.count = len(pages)

    def test_folders(self) -> None:
        found = [{*os.listdir(f"{made().work}/{it}/usr")} for it in made().packages]
        self.assertEqual(found, [*FOLDERS])

    def test_dependencies(self) -> None:
        for it in made().packages:
            said = output("dpkg-deb", "-f", f"{made().work}/{it}_{made().version}_amd64.deb", "Depends")
            for one in said.split(", "):
                self.assertRegex(one, r"^\S+ \((?:>=|=) \S+\)$", it)
            self.assertNotIn("python", said)
            if it == DEV:
                self.assertEqual(said, f"{made().of_shared} (= {made().version})")

    @frame.each(DOCS)
    def test_page(self, kind: str) -> None:
        """The installed page names files that are installed, and nothing of a clone."""
        page = kit.text_of(f"{unpacked(kind)}/{DOCS[kind]}/C.md")
        there = kit.files_below(unpacked(kind))
        unknown = [it for it in NAMED.findall(page) if not any(path.endswith(f"/{it}") for path in there)]
        self.assertEqual(unknown + re.findall(r"\b(?:tools|crates)/|\bclone\b|\bPROVED\b", page), [])
        self.assertTrue(NAMED.search(page))

    @frame.each(DOCS)
    def test_exports(self, kind: str) -> None:
        """The shared library exports the calls that the header declares, with the version."""
        version = kit.VERSION.rpartition(".")[0]
        shared = f"{unpacked(kind)}/{LIBDIR}/libdwarf_read.so.{version}"
        header = kit.text_of(f"{unpacked(kind)}/include/dwarf_read.h")
        calls = re.findall(r"^uint32_t (dwarf_\w+)\(", header, re.M)
        symbols = dict(re.findall(r"^#define (dwarf_\w+) (\1_\d+_\d+)$", header, re.M))
        said = output("nm", "-D", "--defined-only", "--with-symbol-versions", shared)
        wanted = {f"{symbols.get(it, it)}@@DWARF_READ_{version}" for it in calls} | {f"DWARF_READ_{version}"}
        self.assertTrue(calls)
        self.assertEqual(set(re.findall(r" [A-Z] (\S+)$", said, re.M)), wanted)
        soname = re.findall(r"SONAME.*\[(.*)\]", output("readelf", "-d", shared))
        self.assertEqual(soname, [os.path.basename(shared)])
        config = kit.text_of(f"{unpacked(kind)}/{LIBDIR}/cmake/dwarf_read/dwarf_read-config.cmake")
        self.assertEqual(re.findall(r'IMPORTED_SONAME "(.*)"', config), soname)


    @frame.each(DOCS)
    def test_hardening(self, kind: str) -> None:
        """The loader binds the shared library's functions at once, and then protects their addresses."""
        shared = f"{unpacked(kind)}/{LIBDIR}/{made().shared}"
        self.assertRegex(output("readelf", "-W", "-l", shared), "GNU_RELRO")
        self.assertRegex(output("readelf", "-W", "-d", shared), "BIND_NOW")

    def test_shlibs(self) -> None:
        """What is linked with the shared library depends on its package, from this version on."""
        said = output("dpkg-deb", "-I", f"{made().work}/{made().debs[0]}", "shlibs")
        minor = kit.VERSION.rpartition(".")[0]
        self.assertEqual(said, f"libdwarf_read {minor} {made().of_shared} (>= {kit.VERSION})")

    def test_readme(self) -> None:
        """The README of the tar names what is there, and the folder of the shared library."""
        text = kit.text_of(f"{unpacked('tar')}/README")
        named = re.findall(r"\bFOLDER/([\w./-]*\w)", text)
        self.assertGreater(len(named), 5)
        self.assertEqual([it for it in named if not os.path.exists(f"{unpacked('tar')}/{it}")], [])
        folder = re.findall(r"LD_LIBRARY_PATH name FOLDER/([\w./-]*\w)", text)
        self.assertEqual(folder, [LIBDIR])

    @frame.each(DOCS)
    def test_provenance(self, kind: str) -> None:
        """PROVENANCE names folders that are there, and calls proved what is."""
        text = kit.text_of(f"{unpacked(kind)}/{DOCS[kind]}/PROVENANCE").partition("SHA-256")[0]
        proved, _, tested = text.partition("\nThese parts are tested, and not proved: ")
        programs = [set(re.findall(r"dwarf_(?:list|elf|read_c)\b", it)) for it in (proved, tested)]
        self.assertEqual(programs, [{"dwarf_list", "dwarf_read_c"}, {"dwarf_elf", "dwarf_list"}])
        named = re.findall(r"\bshare/[\w./-]*\w", text)
        self.assertTrue(named)
        self.assertEqual([it for it in named if not os.path.exists(f"{unpacked(kind)}/{it}")], [])


class Unpacked(frame.Check):
    """What is unpacked works where it is, without the kit."""

    @frame.each(DOCS)
    def test_dwarf_list(self, kind: str) -> None:
        start = f"{unpacked(kind)}/bin/dwarf_list"
        rows.compare([start], env=consumers.ALONE)
        for word, said in (("--help", "usage: dwarf_list "), ("--version", f"dwarf_list {kit.VERSION}, proved, ")):
            found, status = frame.output([start, word], env=consumers.ALONE)
            self.assertEqual((found[: len(said)].decode(), status), (said, 0))

    @frame.each(DOCS)
    def test_dwarf_elf(self, kind: str) -> None:
        source = f"{kit.ROOT}/examples/c/dwarf_show.c"
        self.must(["cc", "-g", "-c", f"-I{unpacked(kind)}/include", source, "-o", "object.o"])
        words = [f"{unpacked(kind)}/bin/dwarf_elf", f"{self.work}/object.o", "abbrev"]
        listed, status = frame.output(words, env=consumers.ALONE)
        self.assertEqual(status, 0)
        self.assertIn(b" DW_TAG_compile_unit yes\n", listed)

    @frame.each(f"{way} over {kind}" for kind in DOCS for way in consumers.WAYS)
    def test_program(self, row: str) -> None:
        way, _, kind = row.rpartition(" over ")
        consumers.consume(self, root(kind), way)

    @frame.each(DOCS)
    @frame.needs("cargo")
    def test_crate(self, kind: str) -> None:
        """The crate for Rust is built where it is."""
        manifest = f"{unpacked(kind)}/{SOURCES}/rust/Cargo.toml"
        words = ["cargo", "build", "--quiet", "--offline", "--manifest-path", manifest, "--example", "dwarf_show"]
        self.must([*words, "--target-dir", f"{self.work}/cargo"])
        rows.compare([f"{self.work}/cargo/debug/examples/dwarf_show"], without="uleb")

    @frame.each(DOCS)
    def test_sources(self, kind: str) -> None:
        """A program contains the sources of the library."""
        at = unpacked(kind)
        sources = [f"{at}/{SOURCES}/include/{it}" for it in ("dwarf_read_heap.c", "dwarf_read.S")]
        self.must(["cc", "-I", f"{at}/include", root(kind).source, *sources, "-o", "show"])
        rows.compare([f"{self.work}/show"])

    @frame.each(DOCS)
    @frame.needs("cmake")
    def test_other_versions(self, kind: str) -> None:
        """A program is compiled for one minor version, so CMake finds no other."""
        major, minor, _ = map(int, kit.VERSION.split("."))
        for it in (minor - 1, minor + 1):
            find = consumers.FIND.format(version=f"{major}.{it}")
            text = consumers.CMAKE_LISTS.format(find=find, source=root(kind).source)
            kit.write_file(f"{self.work}/{it}/CMakeLists.txt", text)
            words = ["cmake", "-S", ".", "-B", "out", f"-DCMAKE_PREFIX_PATH={unpacked(kind)}"]
            ran = kit.run(words, cwd=f"{self.work}/{it}")
            self.assertTrue(ran.returncode and "considered but" in ran.stdout, ran.stdout)

    def test_vendor(self) -> None:
        """A program is compiled in the folder for such programs, with nothing else there, by its line."""
        self.must(["tar", "-xzf", f"{made().work}/{made().vendor}", "-C", self.work, "--strip-components=1"])
        shutil.copy(f"{kit.ROOT}/examples/c/dwarf_show.c", f"{self.work}/program.c")
        line = re.findall(r"^ \* +(cc .*)$", kit.text_of(f"{self.work}/dwarf_read.S"), re.M)[0]
        self.must(["sh", "-c", line])
        rows.compare([f"{self.work}/a.out"])


CHECKS = [Files, Unpacked]


def main(words: list[str]) -> int:
    is_check = words[:1] == ["--check"]
    if not is_check and (len(words) > 1 or any(it.startswith("-") for it in words)):
        return frame.usage(__doc__)
    os.umask(0o022)
    if is_check:
        return frame.check("package", CHECKS, words[1:], section="package")
    lacking = [it for it in NEEDED if not shutil.which(it)]
    if lacking:
        fail(f"there is no {lacking[0]}")
    folder = words[0] if words else "."
    package = Package(frame.new_folder())
    if package.changes:
        fail("files have changes that are in no commit")
    package.make()
    os.makedirs(folder, exist_ok=True)
    for it in package.files:
        shutil.copy(f"{package.work}/{it}", folder)
        print(f"package: {folder}/{it}")
    return 0
