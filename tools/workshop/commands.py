"""The commands of the scripts: each is a file of this name in the folder above, and a module here."""
import importlib
import os
import sys

from workshop import frame

# Each command with its module, which has what `--help` prints at its front, and with what it is for.
COMMANDS = {
    "gate": ("gate", "makes all checks that have to pass before a merge"),
    "tests": ("tests", "makes all tests and worked cases, unproved"),
    "cases": ("checks.cases", "runs the worked cases of dwarf_list"),
    "constants": ("lists.constants", "writes the lists of constants"),
    "api": ("lists.api", "writes the contracts that pages quote, and prints those of a crate"),
    "assembler": ("code.assembler", "writes the assembler files of the proved code, and compares them"),
    "examples": ("checks.examples", "builds and runs programs in C, C++ and Rust over the library"),
    "compare-elf": ("checks.elf", "compares listings of ELF files with those of other tools"),
    "compare": ("compare.command", "compares the library with gimli, and measures both"),
    "package": ("checks.package", "makes Debian packages, and tries them"),
    "fail-alloc": ("checks.memory", "refuses each request for memory"),
}


def main() -> None:
    """Runs the command that this process is called by."""
    name, _ = COMMANDS[os.path.basename(sys.argv[0])]
    module = importlib.import_module(f"workshop.{name}")
    if sys.argv[1:] in (["-h"], ["--help"]):
        print(f"{(module.__doc__ or '').strip()}\n\nEach command of tools/ has --help:\n")
        for it, (_, what) in [*COMMANDS.items(), ("install", ("", "installs the library and the programs"))]:
            print(f"    {it:12} {what}")
    else:
        frame.run(module.main, sys.argv[1:])
