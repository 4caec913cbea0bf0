"""Programs over an installed library, in whatever folder it is and by whatever finds it there: each prints what
dwarf_list prints. `examples` tries what `tools/install` and CMake install, and `package` what it unpacks."""
import os
import re
import shlex
from collections.abc import Callable, Mapping
from dataclasses import dataclass, field

from workshop import frame, kit
from workshop.checks import rows
from workshop.checks.c import TESTS

INSTALL = f"{kit.ROOT}/tools/install"
# Where programs run without the kit, and without what this user has installed.
ALONE = {"PATH": "/usr/bin:/bin"}
FIND = "find_package(dwarf_read {version} REQUIRED)"
CMAKE_LISTS = """\
cmake_minimum_required(VERSION 3.13)
project(show C)
{find}
foreach(target dwarf_read dwarf_read_shared)
  add_executable(show_${{target}} "{source}")
  target_link_libraries(show_${{target}} dwarf_read::${{target}})
endforeach()
"""


@dataclass(frozen=True)
class Root:
    """A folder that has what is installed: where the library is below it, where the example in C is, and what
    pkg-config has to know besides."""

    path: str
    libdir: str = "lib"
    source: str = rows.SHOW
    more: Mapping[str, str] = field(default_factory=dict, hash=False)

    def environment(self) -> dict[str, str]:
        """The environment in which programs over this library are built and run."""
        at = f"{self.path}/{self.libdir}"
        return {**os.environ, "PKG_CONFIG_LIBDIR": f"{at}/pkgconfig", "LD_LIBRARY_PATH": at, **self.more}

    def flags(self) -> list[str]:
        """What pkg-config says of the library."""
        frame.need("pkg-config")
        return shlex.split(frame.must(["pkg-config", "--cflags", "--libs", "dwarf_read"], env=self.environment()))


def by_compiler(check: frame.Check, root: Root, *words: str, is_shared: bool = True) -> list[str]:
    """Builds the example by a compiler, with the shared library or the archive."""
    frame.need(words[0])
    flags = [it if is_shared else it.replace("-ldwarf_read", "-l:libdwarf_read.a") for it in root.flags()]
    check.must([*words, root.source, "-x", "none", *flags, "-o", "show"])
    return [f"{check.work}/show"]


def by_cmake(check: frame.Check, source: str, target: str, find: str, *words: str) -> list[str]:
    """Builds the example over a target that CMake finds."""
    frame.need("cmake")
    kit.write_file(f"{check.work}/CMakeLists.txt", CMAKE_LISTS.format(find=find, source=source))
    check.must(["cmake", "-S", ".", "-B", "out", *words])
    check.must(["cmake", "--build", "out", "--target", f"show_{target}"])
    return [f"{check.work}/out/show_{target}"]


def by_cmake_of_root(check: frame.Check, root: Root, target: str) -> list[str]:
    """The same over what is below a folder, which a project may look for twice."""
    find = FIND.format(version=kit.VERSION)
    return by_cmake(check, root.source, target, f"{find}\n{find}", f"-DCMAKE_PREFIX_PATH={root.path}")


# How a program is built over a folder: the words that run it.
WAYS: dict[str, Callable[[frame.Check, Root], list[str]]] = {
    "cc": lambda check, root: by_compiler(check, root, "cc", "-x", "c"),
    "c++": lambda check, root: by_compiler(check, root, "c++", "-x", "c++"),
    "archive": lambda check, root: by_compiler(check, root, "cc", "-x", "c", is_shared=False),
    "CMake": lambda check, root: by_cmake_of_root(check, root, "dwarf_read"),
    "CMake shared": lambda check, root: by_cmake_of_root(check, root, "dwarf_read_shared"),
}


def consume(check: frame.Check, root: Root, way: str) -> None:
    """Builds a program over a folder, and compares what it prints. The archive needs no library when it runs."""
    words = WAYS[way](check, root)
    rows.compare(words, env=ALONE if way in ("archive", "CMake") else root.environment())


def listed_files() -> set[str]:
    """The files below a prefix that tools/install says it installs."""
    lines = re.findall(r"^#     ((?:\w+/[\w./-]+(?:, )?)+)  ", kit.text_of(INSTALL), re.M)
    return {it for line in lines for it in line.split(", ")}


def files_of(prefix: str) -> set[str]:
    """The files below a prefix."""
    return {os.path.relpath(it, prefix) for it in kit.files_below(prefix)}


@frame.once
def installed() -> Root:
    """What `tools/install` installs."""
    prefix = f"{frame.new_folder()}/usr"
    frame.must([INSTALL, prefix])
    return Root(prefix)


@frame.needs("cc")
class Installed(frame.Check):
    """What `tools/install` and CMake install."""

    def test_files(self) -> None:
        self.assertEqual(files_of(installed().path), listed_files())

    def test_dwarf_list(self) -> None:
        rows.compare([f"{installed().path}/bin/dwarf_list"], env=ALONE)

    @frame.each(WAYS)
    def test_program(self, way: str) -> None:
        consume(self, installed(), way)

    def test_prefix_of_package(self) -> None:
        self.must([INSTALL, "/usr/dwarf", f"{self.work}/staged"])
        said = kit.text_of(f"{self.work}/staged/usr/dwarf/lib/pkgconfig/dwarf_read.pc")
        self.assertTrue(said.startswith("prefix=/usr/dwarf\n"), said)

    @frame.needs("pkg-config")
    def test_space_in_prefix(self) -> None:
        root = Root(f"{self.work}/a prefix")
        self.must([INSTALL, root.path])
        rows.like_clone(self.work)
        line = "eval cc program.c $(pkg-config --cflags --libs dwarf_read)"
        self.must(["sh", "-c", line], env=root.environment())
        rows.compare([f"{self.work}/a.out"], env=root.environment())

    def test_own_allocation(self) -> None:
        """A program with allocation functions of its own is linked without those of the archive."""
        words = ["cc", "-std=c11", f"{TESTS}/dwarf_guarded.c", "-I", f"{installed().path}/include"]
        self.must([*words, "-L", f"{installed().path}/lib", "-l:libdwarf_read.a", "-o", "own"])
        self.must([f"{self.work}/own", *rows.put_sections(self.work)])

    @frame.each(("dwarf_read", "dwarf_read_shared"))
    def test_clone_in_cmake(self, target: str) -> None:
        """A project that contains the library takes it from this clone."""
        find = f'add_subdirectory("{kit.ROOT}" dwarf_read)'
        rows.compare(by_cmake(self, rows.SHOW, target, find))

    @frame.needs("cmake")
    def test_installed_by_cmake(self) -> None:
        prefix = f"{self.work}/usr"
        words = [f"-DCMAKE_INSTALL_PREFIX={prefix}", "-DCMAKE_INSTALL_LIBDIR=lib"]
        self.must(["cmake", "-S", kit.ROOT, "-B", "made", *words])
        self.must(["cmake", "--build", "made"])
        self.must(["cmake", "--install", "made"])
        programs = {it for it in listed_files() if it.startswith(("bin/", "libexec/", "share/man/"))}
        self.assertEqual(files_of(prefix), listed_files() - programs)
