"""Tests of what tools/assembler says of the files in the repository."""
import contextlib
import io
import tempfile
import unittest
from unittest import mock

from workshop import kit
from workshop.code import assembler, products, systems
from workshop.frame import FAILED, PASSED, SKIPPED
from workshop.script_tests import came_of, state_of

CRATE = "dwarf_read_c"
NAME = "aarch64"
SOURCES = "0123  a source\n"
# What says that a file of Windows may be linked with protected ones.
FEATURE = '\t.def\t"@feat.00";\n\t.scl\t3;\n\t.type\t0;\n\t.endef\n\t.globl\t"@feat.00"\n"@feat.00" = 0\n'
CODE = "\t.file\t\"rattle\"\n\tnop\n"


class Judging(unittest.TestCase):
    """A file is current if each byte is what is made of the sources, by this kit or by the one that it names."""

    def judge(self, text: str, made: str, version: str) -> str:
        """The state of a file with this text where this kit makes this code."""
        with tempfile.TemporaryDirectory() as folder:
            kept = f"{folder}/kept"
            kit.write_file(kept, made)
            if text:
                kit.write_file(f"{folder}/{NAME}.s", text)
            with mock.patch.multiple(products, FILES={CRATE: folder}, place_of_copy=lambda *_: kept):
                with mock.patch.object(kit, "version", lambda: version):
                    return state_of(lambda: assembler.judge(CRATE, NAME, SOURCES))

    def test_files(self) -> None:
        this, another = kit.KITS
        head = assembler.head(CRATE, NAME, SOURCES, this)
        stale = assembler.head(CRATE, NAME, "4567  a source\n", this)
        unknown = assembler.head(CRATE, NAME, SOURCES, "rattle-kit-99z")
        other = CODE.replace("nop", "ret")
        # What the file is, what this kit makes, what it is called, and the state.
        rows = [
            (head + CODE, CODE, this, PASSED),
            (head + other, CODE, this, FAILED),
            (head.replace("proved", "Proved") + CODE, CODE, this, FAILED),
            (head + CODE + "\n", CODE, this, FAILED),
            (stale + CODE, CODE, this, FAILED),
            ("", CODE, this, FAILED),
            (head + CODE, CODE, another, PASSED),
            (head + CODE, other, another, SKIPPED),
            (stale + CODE, other, another, FAILED),
            (unknown + CODE, CODE, this, FAILED),
            (unknown + CODE, other, this, FAILED),
            (CODE, CODE, this, FAILED),
        ]
        for text, made, version, wanted in rows:
            self.assertEqual(self.judge(text, made, version), wanted, (text, made, version))


    def test_check(self) -> None:
        """Each file is judged, and fails if its code isn't made."""
        every = [f"{name} of {crate}" for crate in products.FILES for name in products.CODE[crate]]
        judged: list[str] = []

        def judge(crate: str, name: str, of_sources: str) -> None:
            judged.append(f"{name} of {crate}")
            assert name != NAME

        for is_made in (True, False):
            made = mock.Mock(side_effect=None if is_made else AssertionError)
            with mock.patch.multiple(assembler, judge=judge, make_once=made, are_of=lambda *_: True):
                states = came_of(assembler.Files)
            wanted = {it: FAILED if not is_made or it.startswith(NAME + " ") else PASSED for it in every}
            self.assertEqual(states, {f"assembler.Files.file/{it}": state for it, state in wanted.items()})
        self.assertEqual(sorted(judged), sorted(every))


    def test_sources(self) -> None:
        """`--sources` ends with status 1 if one file of a crate is of other sources."""
        with tempfile.TemporaryDirectory() as folder, mock.patch.multiple(products, FILES={CRATE: folder}):
            with mock.patch.object(products, "code_of", lambda _: SOURCES), contextlib.redirect_stdout(io.StringIO()):
                for name in products.CODE[CRATE]:
                    kit.write_file(f"{folder}/{name}.s", assembler.head(CRATE, name, SOURCES, kit.KITS[0]))
                self.assertEqual(assembler.main(["--sources"]), 0)
                self.assertEqual(assembler.main(["--sources", CRATE]), 0)
                kit.write_file(f"{folder}/{NAME}.s", assembler.head(CRATE, NAME, "others", kit.KITS[0]))
                self.assertEqual(assembler.main(["--sources"]), 1)


class Lines(unittest.TestCase):
    """The lines of a file are those that each assembler takes, and labels of the compiler get a prefix."""

    def test_linux(self) -> None:
        rows = {
            ".LBB2_3:\n": ".Ldwarf_read_BB2_3:\n",
            "\tjne\t.LBB2_3\n": "\tjne\t.Ldwarf_read_BB2_3\n",
            '\t.size\t"a::b", .Lfunc_end0-"a::b"\n': '\t.size\t"a::b", .Ldwarf_read_func_end0-"a::b"\n',
            "\tleaq\t.LCPI4_0(%rip), %rax\n": "\tleaq\t.Ldwarf_read_CPI4_0(%rip), %rax\n",
            "\tadd\tx8, x8, :lo12:.LJTI1_0\n": "\tadd\tx8, x8, :lo12:.Ldwarf_read_JTI1_0\n",
            '\t.section\t.rodata..Lstatic.7,"a",@progbits\n': '\t.section\t.rodata..Lstatic.7,"a",@progbits\n',
            '\t.asciz\t" .LBB2_3"\n': '\t.asciz\t" .LBB2_3"\n',
            "\tcallq\trattle_alloc@PLT\n": "\tcallq\trattle_alloc@PLT\n",
            '\t.section\t.note.gnu.property,"a",@note\n\t.long\t4\n\t.text\n': "",
        }
        self.assertEqual(systems.code_for("".join(rows), "x86_64"), "".join(rows.values()))

    def test_systems(self) -> None:
        # The system, lines of the compiler, and what stays of them.
        rows = [
            ("riscv64", '\t.attribute\t5, "rv64i2p1"\n', ""),
            ("riscv64", '\tcall\t"a::b"\n', "\tcall\ta..b\n"),
            ("riscv64", '\t.asciz\t"a::b"\n', '\t.asciz\t"a::b"\n'),
            ("riscv64", "\tbeqz\ta0, .LBB0_2\n", "\tbeqz\ta0, .Ldwarf_read_BB0_2\n"),
            ("x86_64_windows", "\t.seh_startepilogue\n\tretq\n\t.seh_endepilogue\n", "\tretq\n"),
            ("aarch64_windows", "\t.seh_startepilogue\n", "\t.seh_startepilogue\n"),
            ("aarch64_windows", FEATURE, ""),
            ("x86_64_apple", "\t.build_version macos, 10, 12\n", ""),
            ("x86_64_apple", "LBB0_2:\n\tjne\tLBB0_2\n", "Ldwarf_read_BB0_2:\n\tjne\tLdwarf_read_BB0_2\n"),
            ("aarch64_apple", "Lloh0:\n\tbl\t_rattle_alloc\n", "Lloh0:\n\tbl\t_rattle_alloc\n"),
        ]
        for name, code, wanted in rows:
            self.assertEqual(systems.code_for(code, name), wanted, code)


class Modules(unittest.TestCase):
    """A module says of its system what clang says, marks its functions, and follows the system's rules for C."""

    MODULE = """\
target datalayout = "e-m:e"
target triple = "x86_64-unknown-linux-gnu"
define noundef i32 @dwarf_string(i32 %a) #0 {
  %tried = call { i64, i64 } @rattle_alloc(i64 8, i64 8)
}
define internal noundef i32 @"a::b"(i32 %a) #0 {
}
declare { i64, i64 } @rattle_alloc(i64, i64) #1
declare i64 @read(i32 noundef, ptr, i64) #1
declare void @llvm.trap() #1
attributes #0 = { nounwind "probe-stack"="inline-asm" "target-cpu"="x86-64" }
"""
    # What the text for a system has, and what it hasn't.
    ROWS = {
        "riscv64": (
            [
                'target triple = "another"\ndefine noundef signext i32 @dwarf_string(i32 %a) #0 uwtable ',
                'define internal noundef i32 @"a::b"(i32 %a) #0 uwtable "branch-target-enforcement" {\n',
                "declare i64 @read(i32 signext noundef, ptr, i64) #1\ndeclare void @llvm.trap() #1\n",
                'attributes #0 = { nounwind "probe-stack"="inline-asm" }\n',
            ],
            ["x86", "e-m:e"],
        ),
        "x86_64_windows": (
            [
                'call { i64, i64 } @"dwarf_read::alloc"(i64 8, i64 8)\n',
                "declare void @rattle_alloc(ptr sret({ i64, i64 }) align 8, i64, i64)\n",
                "define noundef i32 @dwarf_string(i32 %a) #0 uwtable ",
            ],
            ["declare { i64, i64 } @rattle_alloc", "signext", "probe-stack"],
        ),
    }

    def test_modules(self) -> None:
        for name, (wanted, others) in self.ROWS.items():
            text = systems.module_for(systems.marked(self.MODULE), name, 'target triple = "another"\n')
            for it in wanted:
                self.assertIn(it, text)
            for it in others:
                self.assertNotIn(it, text)
