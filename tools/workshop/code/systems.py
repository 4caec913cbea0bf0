"""Makes assembler files of the module that the kit's compiler hands to its clang: for the kit's targets, and for others.

A module is marked first, so that the code has what debuggers and linkers look for: unwind tables, and landing pads for
indirect jumps, which an attribute asks for on AArch64 and a flag of the module on x86-64. Rattle's compiler asks for
neither.

The kit compiles for Linux on x86-64 and AArch64. The module for the first is also compiled for the other SYSTEMS. What
it says of its target is replaced in its text: the layout of data, the triple, the processor, and on Windows how the
stack is probed. Its parameters are pointers and integers, of which each function takes the low bits. Two rules of C need
more:

- On RISC-V, who passes or returns an integer of 32 bits extends its sign, so those are marked `signext`.
- On Windows for x86-64, a function that returns a struct of 16 bytes writes it to memory, and the two that allocate
  return one. So a function of the module calls each of them, and returns the struct in registers.

No proof covers this, nor clang. `check` shows that for x86-64 Linux the same steps make the file of the kit's own
target, byte for byte. A few lines of a file are for one assembler only. They go, so that those of GNU and LLVM and
Rust's compiler take the rest.
"""
import os
import re
from dataclasses import dataclass
from typing import Optional

from workshop import kit


@dataclass(frozen=True)
class System:
    """A system: the triple that clang compiles for, its words for the processor, and whether code is in the form ELF."""

    triple: str
    processor: str = ""
    form: str = "elf"


# FreeBSD takes the files of Linux. No code for AArch64 on Windows or Apple's systems uses x18, which these keep for
# themselves.
LINUX = System("x86_64-unknown-linux-gnu", "-march=x86-64")
SYSTEMS = {
    "riscv64": System("riscv64-unknown-linux-gnu", "-march=rv64gc"),
    "x86_64_windows": System("x86_64-pc-windows-gnu", "-march=x86-64", "coff"),
    "aarch64_windows": System("aarch64-pc-windows-gnu", form="coff"),
    "x86_64_apple": System("x86_64-apple-macosx10.12.0", "-march=x86-64", "macho"),
    "aarch64_apple": System("arm64-apple-macosx11.0.0", form="macho"),
}
DEFINED = re.compile(r"^(define .*) \{$", re.M)
PADS = '!llvm.module.flags = !{!4000000}\n!4000000 = !{i32 8, !"cf-protection-branch", i32 1}\n'
# The lines of a module that are about its target, and such attributes of functions. Windows has a function that probes
# the stack for large frames, of which the library has none.
TARGET = re.compile(r"^target (?:datalayout|triple) = .*\n", re.M)
PROCESSOR = re.compile(r' "target-(?:cpu|features)"="[^"]*"')
PROBES = re.compile(r' "(?:probe-stack|stack-probe-size)"="[^"]*"')
# The results of what C calls, and all that C gets and gives.
RESULT = re.compile(r"^(define (?!internal|private)(?:noundef )?)(?=i32 @)", re.M)
DECLARED = re.compile(r"^declare (?!.*@llvm\.).*$", re.M)
HEAP = re.compile(r"^declare .* @rattle_(?:re)?alloc\(.*\n", re.M)
CALL = re.compile(r"(?<=call \{ i64, i64 \} )@rattle_(alloc|realloc)(?=\()")
IN_MEMORY = """
declare void @rattle_{name}(ptr sret({{ i64, i64 }}) align 8, {types})

define internal {{ i64, i64 }} @"dwarf_read::{name}"({given}) nounwind uwtable {{
  %place = alloca {{ i64, i64 }}, align 8
  call void @rattle_{name}(ptr sret({{ i64, i64 }}) align 8 %place, {given})
  %tried = load {{ i64, i64 }}, ptr %place, align 8
  ret {{ i64, i64 }} %tried
}}
"""
BLOCKS = {"alloc": ["i64", "i64"], "realloc": ["ptr", "i64", "i64", "i64"]}
# The words of the kit that are about its target, or about what is written.
REPLACED = re.compile(r"--target=.*|-march=.*|-mcpu=.*|--sysroot=.*|-c|-o|-fPI[CE]|-S|.*\.(?:o|bc|ll)")
# The assembler of GNU for Windows takes no section for each function.
WINDOWS = ["-fno-function-sections", "-fno-data-sections"]
# A label that the compiler has made up. In a crate for Rust it may not be one of those of that compiler.
LABEL = {
    "elf": re.compile(r'(?<![\w".])\.L(?=\w)'),
    "macho": re.compile(r'(?<![\w".$])L(?=(?:BB|CPI|JTI|lC|_|static|tmp|func)[\w.]*)'),
}
LABEL["coff"] = LABEL["elf"]
TEXT = ("\t.ascii", "\t.asciz", "\t.string")
# The note of an object's properties is of a whole object, and one of Rust's has code of that compiler, too. So
# include/dwarf_read.S has it.
NOTE = re.compile(r"\t\.section\t\.note\.gnu\.property,.*?\n\t\.text\n", re.S)
# Lines that another assembler, or Rust's compiler, doesn't take or makes itself: extensions of RISC-V and versions of
# systems that they know, and what is for another form of Windows' unwind tables.
LEFT_OUT = re.compile(
    r'^\t\.attribute\t.*\n|^\t\.build_version .*\n|^\t\.def\t"?@feat\.00"?;\n(?:.*\n){4}"?@feat\.00"? = .*\n', re.M
)
EPILOGUES = re.compile(r"^\t\.seh_(?:start|end)epilogue\n", re.M)
# A name in quotes, which the assembler of LLVM doesn't take after a call on RISC-V, nor that of GNU in a section's name.
QUOTED = re.compile(r'"([^"\n]+)"')
KEPT = (*TEXT, "\t.file", "\t.ident", '\t.section\t".note')


def marked(module: str) -> str:
    """The text of a module, with the marks."""
    return DEFINED.sub(r'\1 uwtable "branch-target-enforcement" {', module) + PADS


def lines_of_target(clang: str, triple: str) -> str:
    """The lines of each module for a target."""
    said = kit.run([clang, f"--target={triple}", "-x", "c", "-S", "-emit-llvm", "-o", "-", os.devnull]).stdout
    return "".join(TARGET.findall(said))


def signed(declared: "re.Match[str]") -> str:
    """A declaration of a function of C that is given its integers with their signs extended."""
    name, given, rest = re.split(r"(?<=\w)(\(.*\))", declared[0], maxsplit=1)
    return name + re.sub(r"\bi32\b", "i32 signext", given) + rest


def module_for(module: str, name: str, lines: str) -> str:
    """The text of a marked module, for a system. The lines are those of its target."""
    head, _, rest = TARGET.sub("\0", module).partition("\0")
    text = PROCESSOR.sub("", head + lines + rest.replace("\0", ""))
    if "windows" in name:
        text = PROBES.sub("", text)
    if name == "riscv64":
        text = DECLARED.sub(signed, RESULT.sub(r"\1signext ", text))
    if name == "x86_64_windows":
        text = CALL.sub(r'@"dwarf_read::\1"', HEAP.sub("", text))
        for it, types in BLOCKS.items():
            given = ", ".join(f"{kind} %a{at}" for at, kind in enumerate(types))
            text += IN_MEMORY.format(name=it, types=", ".join(types), given=given)
    return text


def bare(found: "re.Match[str]") -> str:
    """A name without quotes. Names stay different, since what is between `<#` and `>` is a checksum."""
    return re.sub(r"[^\w.]", ".", found[1]) if "::" in found[1] else found[0]


def code_for(code: str, name: str) -> str:
    """An assembler file with labels of its own, which each assembler takes."""
    form = SYSTEMS[name].form if name in SYSTEMS else "elf"
    own = "Ldwarf_read_" if form == "macho" else ".Ldwarf_read_"
    code = LEFT_OUT.sub("", NOTE.sub("", code, count=1))
    lines = (EPILOGUES.sub("", code) if name == "x86_64_windows" else code).splitlines(True)
    if name not in SYSTEMS:
        return "".join(it if it.startswith(TEXT) else LABEL[form].sub(own, it) for it in lines)
    return "".join(it if it.startswith(KEPT) else QUOTED.sub(bare, LABEL[form].sub(own, it)) for it in lines)


def compiled(clang: str, words: list[str], module: str, path: str) -> str:
    """What clang makes of a module's text. What goes wrong is raised."""
    kit.write_file(f"{path}.ll", module)
    said = [*words, "-S", "-fno-addrsig", "-fno-verbose-asm", "-o", f"{path}.s", f"{path}.ll"]
    ran = kit.run([clang, *said])
    if ran.returncode:
        raise OSError(ran.stdout[-2000:])
    return kit.text_of(f"{path}.s")


def own_words(words: list[str]) -> list[str]:
    """The kit's words for clang, without those of what is read and written."""
    return [it for it in words if not re.fullmatch(r"-c|-o|-S|.*\.(?:o|bc|ll)", it)]


def make(clang: str, words: list[str], module: str, name: Optional[str], folder: str) -> str:
    """The assembler file of a system, from the text of a module and the kit's words for clang, or of the kit's own target
    if there is no name."""
    if name is None:
        return compiled(clang, own_words(words), marked(module), f"{folder}/of_kit")
    system = SYSTEMS.get(name, LINUX)
    taken = [it for it in words if not REPLACED.fullmatch(it)]
    taken += WINDOWS if system.form == "coff" else [it for it in words if it in ("-fPIC", "-fPIE")]
    text = module_for(marked(module), name, lines_of_target(clang, system.triple))
    by = [f"--target={system.triple}", *filter(None, [system.processor])]
    return compiled(clang, [*by, *taken], text, f"{folder}/of_{name}")
