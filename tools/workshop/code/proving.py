"""Proves crates, and makes the code of one over the libraries below it: those that `rt ci` has kept on this machine, or
those that it proves in a copy of the sources."""
import contextlib
import os
import re
import shlex
import shutil
import sys
import tempfile
from collections.abc import Callable, Iterator, Sequence
from typing import Optional

from workshop import kit
from workshop.code import products, systems


def build(crate: str, root: str, of_sources: str, words: Sequence[str], tell: Callable[[str], object]) -> bool:
    """Proves a crate, and compiles it over the libraries that `rt ci` has left in a checkout or a copy. Returns whether
    that went well. What goes wrong goes to `tell`."""
    rt = kit.load_rt()
    folder = f"{root}/crates/{crate}"
    said = rt.rtlib.Crate(folder, root, {}).words(["--jobs", "2"], keeps=False)
    ran = kit.run(["rattle", "build", *said, "--backend", "llvm", *words], cwd=folder)
    if ran.returncode:
        tell(ran.stdout.strip()[-2000:])
        return False
    if of_sources not in (products.sums(crate), products.code_of(crate)):
        tell("the sources changed meanwhile: run this again")
        return False
    return True


def toolchain_with(script: str, folder: str) -> str:
    """Makes a folder of links to the files of the kit's toolchain, with a script instead of its clang. Returns where
    it is."""
    real = f"{kit.load_rt().KIT}/toolchain"
    kit.write_file(f"{folder}/bin/clang", script)
    os.chmod(f"{folder}/bin/clang", 0o755)
    for part in ("", "/bin"):
        for name in os.listdir(real + part):
            if not os.path.exists(f"{folder}{part}/{name}"):
                os.symlink(f"{real}{part}/{name}", f"{folder}{part}/{name}")
    return folder


def put_assembler(crate: str, name: str, root: str, of_sources: str, tell: Callable[[str], object]) -> bool:
    """Proves a crate for a target of the kit, and keeps its code as assembler; with the first target, also the code for
    other systems. Returns whether all went well."""
    tell(f"proving {crate} for {products.TARGETS[name]}")
    with tempfile.TemporaryDirectory(prefix="assembler-") as room:
        made = f"{room}/{name}"
        clang = f"{kit.load_rt().KIT}/toolchain/bin/clang"
        script = products.CLANG.format(clang=shlex.quote(clang), made=shlex.quote(made))
        toolchain = toolchain_with(script, f"{room}/toolchain")
        words = ["--target", products.TARGETS[name], "-o", f"{room}/compiled", "--toolchain", toolchain]
        if crate in products.FILES:
            words += ["--cpu", products.PROCESSORS[name]]
        if not build(crate, root, of_sources, words, tell):
            return False
        given, module = kit.text_of(f"{made}.words").splitlines(), kit.text_of(f"{made}.ll")
        others = products.OTHERS.get(crate, []) if name == "x86_64" else []
        try:
            code = {name: systems.make(clang, given, module, None, room)}
            if others and systems.make(clang, given, module, name, room) != code[name]:
                raise OSError(f"the steps for other systems make other code for {products.TARGETS[name]}")
            code.update((it, systems.make(clang, given, module, it, room)) for it in others)
        except OSError as fault:
            tell(str(fault))
            return False
        for it, text in code.items():
            kit.write_file(f"{room}/code", systems.code_for(text, it))
            products.copy(f"{room}/code", products.place_of_copy(f"{it}.s", of_sources))
        products.forget_oldest()
        return True


def copy_crates(crates: Sequence[str], folder: str) -> None:
    """Copies the sources of these crates that a folder lacks, with their lines of crates.txt."""
    for it in crates:
        if not os.path.exists(f"{folder}/crates/{it}"):
            # Wrong bodies say nothing of a product.
            ignored = shutil.ignore_patterns("out", "must-fail")
            shutil.copytree(f"{kit.ROOT}/crates/{it}", f"{folder}/crates/{it}", ignore=ignored)
    lines = kit.text_of(f"{kit.ROOT}/crates.txt").splitlines(True)
    kit.write_file(f"{folder}/crates.txt", "".join(it for it in lines if re.split(r"\W", it)[0] in crates))


def take_libraries(crates: Sequence[str], folder: str) -> bool:
    """Puts the libraries that `rt ci` has kept of these crates, lowest first, into a copy of their sources. Returns
    whether it has kept all of them."""
    rt = kit.load_rt()
    if not hasattr(rt, "Kept"):
        # An older kit keeps none.
        return False
    known: dict[str, object] = {}
    copies = [rt.Crate(f"{folder}/crates/{it}", folder, known) for it in crates]
    kept = rt.Kept(copies)
    for it in copies:
        os.makedirs(f"{it.folder}/out", exist_ok=True)
        if not kept.give(it, False, kept.key(it)):
            return False
        # The keys of those above are made from what is there.
        kept.is_built(it)
    return True


@contextlib.contextmanager
def libraries(crate: str, tell: Callable[[str], object]) -> Iterator[Optional[str]]:
    """A copy of the sources of a crate and of those below it, with the proved libraries of these. If `rt ci` has kept
    all of them on this machine, they are taken, and nothing is proved or run. Otherwise `rt ci` passes first, with
    their tests. If one isn't proved, there is no copy, but None."""
    below = kit.below(crate)
    with tempfile.TemporaryDirectory(prefix="libraries-") as folder:
        copy_crates([*below, crate], folder)
        if take_libraries(below, folder):
            tell(f"{', '.join(below)}: an earlier rt ci has kept their libraries")
            yield folder
            return
    with proved(below, tell) as copy:
        if copy:
            copy_crates([*below, crate], copy)
        yield copy


@contextlib.contextmanager
def proved(crates: Sequence[str], tell: Callable[[str], object]) -> Iterator[Optional[str]]:
    """A copy of the sources of these crates and of those below them, in which the kit's `rt ci` has passed. It proves
    what it hasn't kept of an earlier run on this machine, and leaves the libraries and programs in the copy.

    `rt ci` doesn't run in the checkout, since it gives that the libraries back that its own checks have left. Each line
    that it says of itself goes to `tell`. If a crate isn't proved, there is no copy, but None."""

    def see(line: str) -> None:
        if line.startswith("rt: "):
            tell(line[4:].rstrip())

    needed = [it for it in kit.CRATES if it in crates or any(it in kit.below(above) for above in crates)]
    with tempfile.TemporaryDirectory(prefix="proved-") as folder:
        copy_crates(needed, folder)
        shutil.copyfile(f"{kit.ROOT}/HANDLES", f"{folder}/HANDLES")
        ran = kit.run([kit.of_path("rt"), "ci"], see, cwd=folder)
        if ran.returncode:
            print("".join(ran.stdout.splitlines(True)[-20:]), end="", file=sys.stderr)
        yield None if ran.returncode else folder
