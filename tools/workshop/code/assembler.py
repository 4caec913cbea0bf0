"""Writes the proved code into the repository: that of the library for C and of dwarf_list, as assembler files for each
system.

    tools/assembler                      makes the files of rust/proved and program/proved again
    tools/assembler --check              compares them with the proved code
    tools/assembler --sources [CRATE]    says whether those of a crate, or all, name the sources that are here; it
                                         proves nothing, and needs no kit

`rattle build` proves the crate for each target of the kit, and compiles it with the kit's clang, which is called once
more for an assembler file, and once for each other system (`systems.py`). That takes one to four minutes of
processor time for each target, and is done once for the same sources: what is made is kept (`products.py`). The
libraries below have to be proved first. Those that `rt check` or `rt ci` has left in this checkout are taken, and
brought up to date; without them, those that `rt ci` keeps on this machine are; or else it proves them.

The first lines of a file name the kit and the checksum of the sources that it was made from. In the check a file fails
if the sources have another checksum, or if one byte differs from what is made of them. If the other kit that these
scripts work with made the file, and this one makes other code, the file can't be compared, which counts as skipped.

All that links the library assembles these files: include/dwarf_read.S, the crate for Rust, and `tools/install`. So
does `./dwarf_list`, which is linked with program/system.c.

The last line is `N passed, M failed, K skipped`. The exit status is 0 if the files are current, 1 if one isn't, and 2
for a wrong command line.
"""
import hashlib
import os
import re
from typing import Optional

from workshop import frame, kit
from workshop.code import products, proving

# What the code of each crate is.
WHAT = {"dwarf_read_c": "functions of dwarf_read.h", "dwarf_list": "program dwarf_list"}
HEAD = """\
/*
 * dwarf_read {version} for {target}: the proved {what}.
 *
 * Generated, so edit nothing here: `tools/assembler` of the repository makes this file of its sources, and compares it.
 *
 * Kit: {kit}
 * Sources: {sources}
 *
 * Copyright 2026 the authors of this repository. Licence: MIT or Apache-2.0.
 * The file also has code of the Rattle kit, of its standard library and of its ports of {crates}.
 * Copyright 2015 and 2018-2019 Andrew Gallant, 2018 The Servo Project Developers. Licence: MIT.
 */
"""
KIT = re.compile(r"^ \* Kit: (.*)$", re.M)


def say(text: str) -> None:
    print(f"assembler: {text}", flush=True)


def head(crate: str, name: str, of_sources: str, version: str) -> str:
    """The first lines of a file, which this version of the kit has made."""
    crates = [*kit.below(crate), crate]
    return HEAD.format(
        version=kit.VERSION,
        what=WHAT[crate],
        target=products.TRIPLES[name],
        kit=version,
        sources=hashlib.sha256(of_sources.encode()).hexdigest(),
        crates=", ".join(sorted({it for one in crates for it in kit.CRATES[one]} - {*kit.CRATES})),
    )


def make(crate: str, of_sources: str) -> bool:
    """Makes the code of a crate for each target, and keeps it. Returns whether all went well."""
    below = kit.below(crate)
    if all(os.path.isdir(f"{kit.ROOT}/crates/{it}/out/rlib") for it in below):
        for it in below:
            ran = kit.run(["rt", "lib"], cwd=f"{kit.ROOT}/crates/{it}")
            if ran.returncode:
                say(f"{it} isn't proved:\n{ran.stdout[-2000:]}")
                return False
        return make_over(crate, kit.ROOT, of_sources)
    with proving.libraries(crate, say) as copy:
        return bool(copy) and make_over(crate, str(copy), of_sources)


def make_over(crate: str, root: str, of_sources: str) -> bool:
    """Makes the code that isn't kept, over the libraries of a checkout or a copy. Returns whether all went well."""
    calls = [(proving.put_assembler, crate, it, root, of_sources, say) for it in products.lacking(crate, of_sources)]
    return all([*kit.side_by_side(len(products.TARGETS), calls)])


def made_before(name: str, of_sources: str) -> Optional[str]:
    """The code of these sources for a target, if it is kept."""
    kept = products.kept_code(name, of_sources)
    return kit.text_of(kept) if kept else None


def judge(crate: str, name: str, of_sources: str) -> None:
    """Compares a file with what is made of the sources. Fails if it is another one, and skips the check if it can't be
    compared."""
    path = f"{products.FILES[crate]}/{name}.s"
    text = kit.text_of(path) if os.path.isfile(path) else ""
    found = KIT.search(text)
    made_by = found[1] if found and found[1] in kit.KITS else "no kit that is known here"
    wanted = head(crate, name, of_sources, made_by)
    if text == wanted + str(made_before(name, of_sources)):
        return
    if text.startswith(wanted) and made_by != kit.version():
        frame.skip(f"{made_by} made it, and {kit.version()} makes other code")
    raise AssertionError(f"{os.path.relpath(path, kit.ROOT)} hasn't the proved code: `tools/assembler` makes it again")


def are_of(crate: str, of_sources: str) -> bool:
    """Whether the files of a crate name these sources."""
    line = f" * Sources: {hashlib.sha256(of_sources.encode()).hexdigest()}\n"
    files = [f"{products.FILES[crate]}/{it}.s" for it in products.CODE[crate]]
    return all(os.path.isfile(it) and line in kit.text_of(it) for it in files)


def is_made(crate: str, of_sources: str) -> bool:
    """Whether the code for each target is there, which is made if it isn't."""
    return not products.lacking(crate, of_sources) or make(crate, of_sources)


def write(crate: str, of_sources: str) -> bool:
    """Makes the files of a crate again. Returns whether all went well."""
    if not is_made(crate, of_sources):
        say(f"FAILED: the code of {crate} isn't made")
        return False
    for it in products.CODE[crate]:
        text = head(crate, it, of_sources, kit.version()) + str(made_before(it, of_sources))
        kit.write_file(f"{products.FILES[crate]}/{it}.s", text)
    return True


@frame.once
def make_once(crate: str, of_sources: str) -> None:
    """Makes the code of a crate for each target, where it isn't kept."""
    with products.in_turn(crate):
        assert is_made(crate, of_sources), f"the code of {crate} isn't made"


class Files(frame.Check):
    """Each file has the proved code."""

    @frame.each([f"{it} of {crate}" for crate in products.FILES for it in products.CODE[crate]])
    def test_file(self, row: str) -> None:
        name, _, crate = row.split()
        of_sources = products.code_of(crate)
        # If the sources are others, nothing has to be made.
        if are_of(crate, of_sources):
            make_once(crate, of_sources)
        judge(crate, name, of_sources)


CHECKS = [Files]


def main(words: list[str]) -> int:
    if words not in ([], ["--check"], ["--sources"], *(["--sources", it] for it in products.FILES)):
        return frame.usage(__doc__)
    sources = {it: products.code_of(it) for it in words[1:] or products.FILES}
    if words[:1] == ["--sources"]:
        is_well = all(are_of(*it) for it in sources.items())
        say("the files are of these sources" if is_well else "the sources changed: `tools/assembler` makes the files again")
        return 0 if is_well else 1
    kit.of_path("rattle")
    if not words:
        for it, of_sources in sources.items():
            with products.in_turn(it):
                if not write(it, of_sources):
                    return 1
    return frame.check("assembler", CHECKS, section="assembler")
