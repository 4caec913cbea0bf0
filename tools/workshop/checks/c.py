"""Checks of the library for C, by programs in C and C++ over its assembler files."""
import os
import re
import shutil
import subprocess
from collections.abc import Iterable, Sequence

from workshop import frame, kit
from workshop.checks import cases, rows
from workshop.checks.rows import LISTER, SHOW

INCLUDE = f"{kit.ROOT}/include"
HEAP = f"{INCLUDE}/dwarf_read_heap.c"
ARENA = f"{INCLUDE}/dwarf_read_arena.c"
LIBRARY = f"{INCLUDE}/dwarf_read.S"
# What the program dwarf_list is made of.
PROGRAM = (f"{kit.ROOT}/program/dwarf_list.S", f"{kit.ROOT}/program/system.c", HEAP)
CRATE = f"{kit.ROOT}/rust"
TAGS = f"{kit.ROOT}/examples/c/dwarf_tags.c"
TESTS = f"{kit.ROOT}/tests/c"
COMPILERS = ("cc", "c++", "clang", "clang++")
STRICT = ("-Wall", "-Wextra", "-Wpedantic", "-Wconversion", "-Wshadow", "-Werror", "-O2", "-I", INCLUDE)
SANITIZE = ("-g", "-O1", "-fsanitize=address,undefined", "-fno-sanitize-recover=all", "-I", INCLUDE)
VALGRIND = ("valgrind", "-q", "--error-exitcode=99", "--leak-check=full")
MINGW, WINE = "x86_64-w64-mingw32-gcc", "wine"
WINDOWS = ("-D__USE_MINGW_ANSI_STDIO=1", "-I", f"{TESTS}/windows", f"{TESTS}/windows/binary.c")
# What compiles and runs programs for other processors.
CROSS = {"AArch64": ("aarch64-linux-gnu-gcc", "qemu-aarch64"), "RISC-V": ("riscv64-linux-gnu-gcc", "qemu-riscv64")}
# How the example and the tests are built and run: a compiler, its flags, and what runs the program.
Build = tuple[str, Sequence[str], Sequence[str]]
BUILDS: dict[str, Build] = {
    **{it: (it, STRICT, ()) for it in COMPILERS},
    "cc with sanitizers": ("cc", SANITIZE, ()),
    "clang with sanitizers": ("clang", SANITIZE, ()),
    "valgrind": ("cc", ("-g", "-I", INCLUDE), VALGRIND),
    **{name: (compiler, (*STRICT, "-static"), (qemu,)) for name, (compiler, qemu) in CROSS.items()},
    "Windows": (MINGW, (*STRICT, *WINDOWS), (WINE,)),
}
# These only compile the tests, which show no more than by cc if they run.
COMPILED = ("c++", "clang", "clang++")
TESTED = [it for it in BUILDS if it not in COMPILED]
# Where programs run that need no headers of another system.
HERE: dict[str, Build] = {"cc": BUILDS["cc"], **{it: BUILDS[it] for it in CROSS}}
# Each system of a file, and the linker of its form.
SYSTEMS = {
    "x86_64-unknown-linux-gnu": "ld.lld",
    "x86_64-unknown-freebsd": "ld.lld",
    "aarch64-unknown-linux-gnu": "ld.lld",
    "aarch64-unknown-freebsd": "ld.lld",
    "riscv64-unknown-linux-gnu": "ld.lld",
    "riscv64-unknown-freebsd": "ld.lld",
    "x86_64-pc-windows-gnu": "lld-link",
    "x86_64-pc-windows-msvc": "lld-link",
    "aarch64-pc-windows-msvc": "lld-link",
    "x86_64-apple-macosx10.12": "ld64.lld",
    "arm64-apple-macosx11": "ld64.lld",
    "arm64-apple-ios14": "ld64.lld",
}
# Systems that there is no code for.
OTHERS = {
    "i386": ["cc", "-m32"],
    "x32": ["clang", "--target=x86_64-unknown-linux-gnux32"],
    "aarch64_be": ["clang", "--target=aarch64_be-unknown-linux-gnu"],
    "riscv32": ["clang", "--target=riscv32-unknown-linux-gnu"],
}
LINK = {
    "ld.lld": ["-shared", "-z", "defs", "-o", "linked"],
    "lld-link": ["-dll", "-noentry", "-out:linked"],
    "ld64.lld": ["-dylib", "-o", "linked"],
}
PAGE = f"{kit.ROOT}/docs/C.md"
# A program that has GNU's dwarf2.h too, which declares enumerations of these names.
BESIDE = """\
enum dwarf_tag { DW_TAG_label = 0x0a };
enum dwarf_form { DW_FORM_string = 0x08 };
enum dwarf_attribute { DW_AT_name = 0x03 };
#include "dwarf_read.h"

bool has_name(const struct dwarf_attribute_spec *it, enum dwarf_attribute name);

bool has_name(const struct dwarf_attribute_spec *it, enum dwarf_attribute name) {
    return it->name == name;
}
"""
# What makes dwarf_show.c load its tables into an arena.
IN_ARENA = """\
#include "dwarf_read_arena.h"

static unsigned char block[1 << 20];
static struct dwarf_arena arena = {block, sizeof block, 0, 0, 0, 0};

__attribute__((constructor)) static void use_arena(void) {
    dwarf_arena_use(&arena);
}

#define dwarf_table_load(section, len, offset, table, fault) dwarf_arena_load(&arena, section, len, offset, table, fault)
#define dwarf_table_free(table) ((void)(table))
#include "examples/c/dwarf_show.c"
"""
# A program that calls all functions of the library, and defines all that it calls.
WHOLE_PROGRAM = """\
#include "dwarf_read.h"
#include "dwarf_read_heap.h"

struct rattle_tried rattle_alloc(size_t size, size_t align) {{
    struct rattle_tried none = {{size == align, (void *)size}};
    return none;
}}

struct rattle_tried rattle_realloc(void *block, size_t kept, size_t size, size_t align) {{
    struct rattle_tried same = {{kept == align, (char *)block + size}};
    return same;
}}

void rattle_dealloc(void *block) {{ (void)block; }}
void *memcpy(void *to, const void *from, size_t len) {{ return len != 0 ? to : (void *)(size_t)from; }}
void *memmove(void *to, const void *from, size_t len) {{ return len != 0 ? to : (void *)(size_t)from; }}
void *memset(void *to, int byte, size_t len) {{ return len != 0 ? to : (void *)(size_t)byte; }}
#ifdef __APPLE__
void bzero(void *to, size_t len) {{ (void)memset(to, 0, len); }}
void __bzero(void *to, size_t len) {{ (void)memset(to, 0, len); }}
#endif

typedef void (*function)(void);
extern const function functions[];
const function functions[] = {{{calls}}};
"""
# A plug-in, whose own function is to be the only one that it exports.
PLUGIN = """\
#include "dwarf_read.h"

__attribute__((visibility("default"))) size_t plugin_rows(const uint8_t *section, size_t len);

size_t plugin_rows(const uint8_t *section, size_t len) {
    struct dwarf_measure measure;
    struct dwarf_fault fault;
    return dwarf_table_measure(section, len, 0, &measure, &fault) == DWARF_OK ? measure.abbreviations : 0;
}
"""
# What hides the library in a plug-in, and what doesn't.
HIDING = {
    "exclude-libs": ("-Wl,--exclude-libs,libdwarf_read.a", True),
    "version-script": ("-Wl,--version-script=plugin.map", True),
    "visibility": ("-fvisibility=hidden", False),
}


def as_language(compiler: str) -> list[str]:
    """The words for the oldest standard that the headers can be used with."""
    return ["-x", "c++", "-std=c++11"] if "++" in compiler else ["-std=c99"]


@frame.once
def wine() -> dict[str, str]:
    """The environment in which Windows' programs run."""
    env = {**os.environ, "WINEPREFIX": f"{frame.room()}/wine", "WINEDEBUG": "-all"}
    # The first run says that it makes its folder.
    kit.run([WINE, "cmd", "/c", "exit"], env=env)
    return env


@frame.once
def sanitizers(compiler: str) -> None:
    """Skips the check if a compiler has no sanitizers."""
    work = frame.new_folder()
    kit.write_file(f"{work}/nothing.c", "int main(void) { return 0; }\n")
    if kit.run([compiler, *SANITIZE, "nothing.c", "-o", "nothing"], cwd=work).returncode:
        frame.skip(f"{compiler} has no sanitizers")


class OfLibrary(frame.Check):
    """What programs over the library share."""

    def needed_by(self, build: Build) -> dict[str, str]:
        """Skips the check if a compiler, or what runs its programs, isn't there. Returns their environment."""
        compiler, flags, by = build
        frame.need(compiler, *by[:1])
        if flags is SANITIZE:
            sanitizers(compiler)
        return wine() if by[:1] == (WINE,) else {**os.environ}

    def built(self, build: Build, source: str) -> list[str]:
        """Builds a program over the library. Returns the words that run it. One has its own allocation."""
        compiler, flags, by = build
        name = f"{self.work}/program{'.exe' if compiler == MINGW else ''}"
        heap = [] if source.endswith("dwarf_guarded.c") else [HEAP]
        self.must([compiler, *flags, *as_language(compiler), source, *heap, "-x", "none", LIBRARY, "-o", name])
        return [*by, name]

    def run_test(self, build: Build, name: str, *words: str, faults: Iterable[str] = ()) -> str:
        """Builds and runs a test, and returns what it prints. With each of these words it has to fail."""
        env = self.needed_by(build)
        program = self.built(build, f"{TESTS}/{name}.c")
        for it in faults:
            said, status = frame.output([*program, it], cwd=self.work, env=env)
            self.assertRegex(said, b"^failed: ", it)
            self.assertEqual(status, 1, it)
        return self.must([*program, *words], env=env)

    def freestanding(self, build: Build) -> None:
        """Builds and runs a program without a C library."""
        compiler, _, by = build
        self.needed_by(build)
        words = [compiler, *STRICT, "-std=c11", "-ffreestanding", "-nostdlib", "-static"]
        self.must([*words, f"{TESTS}/dwarf_freestanding.c", LIBRARY, "-o", "freestanding"])
        self.must([*by, f"{self.work}/freestanding"])


class Programs(OfLibrary):
    """The example prints what dwarf_list prints, and the tests in C pass: by each compiler, sanitizer and system."""

    @frame.each(BUILDS)
    def test_example(self, name: str) -> None:
        env = self.needed_by(BUILDS[name])
        rows.compare(self.built(BUILDS[name], SHOW), env=env)

    @frame.each(COMPILED)
    def test_compiled(self, name: str) -> None:
        frame.need(name)
        tests = [f"{TESTS}/{it}.c" for it in ("dwarf_bounds", "dwarf_guarded")]
        tests.append(f"{TESTS}/dwarf_loads.c")
        self.must([name, *STRICT, *as_language(name), "-c", *tests])

    @frame.each(TESTED)
    def test_bad_input(self, name: str) -> None:
        self.run_test(BUILDS[name], "dwarf_bounds", faults=["--fail"])

    @frame.each(it for it in TESTED if it != "valgrind")
    def test_pages_without_access(self, name: str) -> None:
        words = rows.put_sections(self.work)
        said = self.run_test(BUILDS[name], "dwarf_guarded", *words, faults=["--before", "--after"])
        # Both times, with the page before the first byte and after the last one.
        before, after = re.findall(r"^(\d+) and (\d+) calls", said, re.M)[-1]
        self.assertEqual(before, after)
        self.assertGreater(int(before), 100 * len(words))

    @frame.each(HERE)
    def test_loads(self, name: str) -> None:
        """What memory a loaded table keeps, and what is left if it runs out."""
        compiler, _, by = HERE[name]
        self.needed_by(HERE[name])
        self.must([compiler, *STRICT, "-std=c99", "-static", f"{TESTS}/dwarf_loads.c", LIBRARY, "-o", "loads"])
        self.must([*by, f"{self.work}/loads"])

    @frame.each(HERE)
    def test_without_c_library(self, name: str) -> None:
        self.freestanding(HERE[name])

    @frame.each(HERE)
    def test_walk(self, name: str) -> None:
        """The stack is walked from the functions that allocate memory, through the library, by its unwind tables."""
        compiler, _, by = HERE[name]
        self.needed_by(HERE[name])
        words = [compiler, *STRICT, "-std=c99", "-fasynchronous-unwind-tables", "-static", f"{TESTS}/dwarf_walk.c"]
        self.must([*words, LIBRARY, "-o", "walk"])
        self.must([*by, f"{self.work}/walk"])

    @frame.each(HERE)
    def test_arenas(self, name: str) -> None:
        compiler, _, by = HERE[name]
        self.needed_by(HERE[name])
        words = [compiler, *STRICT, "-std=c99", "-static", "-pthread", f"{TESTS}/dwarf_arena.c", ARENA, LIBRARY]
        self.must([*words, "-o", "arena"])
        self.must([*by, f"{self.work}/arena"])

    @frame.each(CROSS)
    def test_dwarf_list(self, name: str) -> None:
        """dwarf_list prints the worked cases on other processors."""
        compiler, qemu = CROSS[name]
        frame.need(compiler, qemu)
        self.must([compiler, *STRICT, "-static", *PROGRAM, "-o", "dwarf_list"])
        ran = [(it, cases.run(it, qemu, f"{self.work}/dwarf_list")) for it in cases.all_cases()]
        self.assertTrue(ran)
        self.assertEqual([it.place for it, came in ran if not it.is_met(*came)], [])

    def test_usage(self) -> None:
        """The example says how it is called."""
        said, status = frame.output(self.built(BUILDS["cc"], SHOW))
        self.assertRegex(said, rb"^usage: dwarf_show abbrev OFFSET \|")
        self.assertEqual(status, 2)

    def test_example_in_arena(self) -> None:
        """The example with arenas requests nothing from malloc."""
        rows.like_clone(self.work)
        kit.write_file(f"{self.work}/in_arena.c", IN_ARENA)
        self.must(["cc", *STRICT, "-std=c99", "in_arena.c", ARENA, LIBRARY, "-o", "show"])
        rows.compare([f"{self.work}/show"])


# The example and the tests in C alone, by cc, which take seconds.
SHORT = [Programs(f"test_{it}/cc") for it in ("example", "bad_input", "pages_without_access", "without_c_library")]


class Headers(frame.Check):
    """The headers are C99 and C++11 without a warning, and can be used next to GNU's dwarf2.h."""

    @frame.each(COMPILERS)
    def test_headers(self, compiler: str) -> None:
        frame.need(compiler)
        old = ["-Wold-style-cast"] if "++" in compiler else []
        headers = [f"-include{it}.h" for it in ("dwarf_read", "dwarf_constants", "dwarf_read_heap", "dwarf_read_arena")]
        self.must([compiler, *STRICT, *old, *as_language(compiler), *headers, "-fsyntax-only", HEAP, ARENA])

    @frame.each(COMPILERS)
    def test_with_dwarf2(self, compiler: str) -> None:
        frame.need(compiler)
        kit.write_file(f"{self.work}/beside.c", BESIDE)
        more = ["-Wold-style-cast", "-Wzero-as-null-pointer-constant"] if "++" in compiler else []
        self.must([compiler, *STRICT, *more, *as_language(compiler), "-fsyntax-only", "beside.c"])


class Versions(frame.Check):
    """The version is the same wherever it is written."""

    def test_header(self) -> None:
        header = kit.text_of(f"{INCLUDE}/dwarf_read.h")
        parts = dict(re.findall(r"^#define DWARF_READ_VERSION_(\w+) (\d+)$", header, re.M))
        self.assertEqual([parts.get(it) for it in ("MAJOR", "MINOR", "PATCH")], kit.VERSION.split("."))
        self.assertIn(f'#define DWARF_READ_VERSION "{kit.VERSION}"\n', header)

    def test_crate(self) -> None:
        self.assertIn(f'version = "{kit.VERSION}"\n', kit.text_of(f"{CRATE}/Cargo.toml"))

    def test_call(self) -> None:
        text = kit.text_of(f"{kit.ROOT}/crates/dwarf_read_c/specs/Version.antt")
        self.assertIn(f'codes "{kit.VERSION}"\n', text)

    @frame.each(f"{name} of {it}" for it in ("program", "rust") for name in sorted(os.listdir(f"{kit.ROOT}/{it}/proved")))
    def test_code(self, row: str) -> None:
        name, _, folder = row.split()
        self.assertIn(f" dwarf_read {kit.VERSION} for ", kit.text_of(f"{kit.ROOT}/{folder}/proved/{name}"))


class Launcher(frame.Check):
    """./dwarf_list runs from anywhere."""

    def ran(self, *words: str) -> kit.Finished:
        """What the launcher does in another folder, where it is called by a link."""
        if not os.path.lexists(f"{self.work}/linked"):
            os.symlink(os.path.relpath(LISTER, os.path.realpath(self.work)), f"{self.work}/linked")
        return subprocess.run(words, cwd=self.work, stdin=subprocess.DEVNULL, capture_output=True, text=True, check=False)

    def program(self) -> str:
        """Where the program is, as a link to the launcher says."""
        path = self.ran("./linked", "--path")
        self.assertEqual((path.returncode, path.stdout), (0, f"{kit.ROOT}/program/out/dwarf_list\n"))
        return path.stdout.strip()

    def test_path(self) -> None:
        self.program()

    def test_usage(self) -> None:
        for ran in (self.ran(self.program()), self.ran(LISTER)):
            self.assertEqual((ran.returncode, ran.stdout), (2, ""))
            self.assertRegex(ran.stderr, "usage: dwarf_list ")

    def test_version(self) -> None:
        self.assertRegex(self.ran("./linked", "--version").stdout, f"^dwarf_list {kit.VERSION}, proved, ")


@frame.once
def compiled() -> str:
    """The library as an object."""
    made = f"{frame.new_folder()}/dwarf_read.o"
    frame.must(["cc", "-c", LIBRARY, "-o", made])
    return made


@frame.needs("cc")
class Linked(frame.Check):
    """What a linker finds in the library, and what is visible of it."""

    def test_functions_it_calls(self) -> None:
        """docs/C.md names the functions that the library calls."""
        found = re.search(r"^Apart from .*?\.\s", kit.text_of(PAGE), re.M | re.S)
        named = set(re.findall(r"`(\w+)`", found[0] if found else ""))
        said = kit.run(["cc", "-nostdlib", "-static", compiled(), "-o", "none"], cwd=self.work).stdout
        self.assertEqual(set(re.findall(r"undefined reference to `(\w+)'", said)), named)
        self.assertTrue(named)

    @frame.needs("readelf")
    def test_properties(self) -> None:
        """It has the properties that a linker looks for in each object, which protect branches."""
        self.assertRegex(self.must(["readelf", "-n", "-W", compiled()]), "IBT, SHSTK|BTI")

    def exported(self, *words: str) -> set[str]:
        """What a plug-in exports that is built with these words."""
        kit.write_file(f"{self.work}/plugin.c", PLUGIN)
        self.must(["cc", *STRICT, "-std=c99", "-shared", "-fPIC", "plugin.c", *words, "-o", "plugin.so"])
        return set(re.findall(r" [A-Z] (\w+)$", self.must(["nm", "-D", "--defined-only", "plugin.so"]), re.M))

    @frame.each(HIDING)
    @frame.needs("ar", "nm")
    def test_plugin(self, name: str) -> None:
        """What a plug-in exports that links the whole library as an archive, as tools/install makes it."""
        kit.write_file(f"{self.work}/plugin.map", "{ global: plugin_rows; local: *; };\n")
        self.must(["cc", "-O2", "-fPIC", "-c", HEAP, "-o", "heap.o"])
        self.must(["ar", "rc", "libdwarf_read.a", compiled(), "heap.o"])
        flag, hides = HIDING[name]
        names = self.exported(flag, "-L.", "-ldwarf_read")
        if hides:
            self.assertEqual(names, {"plugin_rows"})
        else:
            self.assertGreater(names, {"plugin_rows", "dwarf_table_measure_0_3"})

    @frame.needs("nm")
    def test_plugin_of_sources(self) -> None:
        """What a plug-in exports that contains the sources of the library, compiled to be hidden."""
        names = self.exported("-fvisibility=hidden", "-DDWARF_READ_HIDDEN", HEAP, LIBRARY)
        self.assertEqual(names, {"plugin_rows"})


class Systems(frame.Check):
    """The library is assembled by clang for each system, and linked with a program of the same names in C."""

    @frame.each(SYSTEMS)
    @frame.needs("clang")
    def test_link(self, triple: str) -> None:
        # Debian's linker for Apple's systems has its version in the name.
        linker = SYSTEMS[triple]
        found = next(filter(shutil.which, (linker, f"{linker}-14")), linker)
        frame.need(found)
        header = kit.text_of(f"{INCLUDE}/dwarf_read.h")
        calls = ", ".join(f"(function){it}" for it in re.findall(r"^uint32_t (dwarf_\w+)\(", header, re.M))
        kit.write_file(f"{self.work}/whole.c", WHOLE_PROGRAM.format(calls=calls))
        clang = ["clang", f"--target={triple}", "-O2", "-ffreestanding", "-I", INCLUDE, "-c"]
        clang += [] if "windows" in triple else ["-fPIC"]
        link = [found, *LINK[linker], "whole.o", "library.o"]
        if linker == "ld64.lld":
            name, number = re.findall(r"apple-([a-z]+?)x?([\d.]+)", triple)[0]
            link += ["-arch", triple.partition("-")[0], "-platform_version", name, number, number]
        self.must([*clang, "whole.c", "-o", "whole.o"])
        self.must([*clang, LIBRARY, "-o", "library.o"])
        self.must(link)

    @frame.each(OTHERS)
    def test_refused(self, name: str) -> None:
        """On a processor that there is no code for, the file for C says so in one line."""
        frame.need(OTHERS[name][0])
        ran = kit.run([*OTHERS[name], "-c", LIBRARY, "-o", "other.o"], cwd=self.work)
        errors = re.findall(r"error: (.*)", ran.stdout)
        self.assertNotEqual(ran.returncode, 0)
        self.assertEqual(len(errors), 1, ran.stdout)
        self.assertIn("dwarf_read has code for Linux and FreeBSD on x86-64", errors[0])
