"""Makes all checks that have to pass before a merge.

    tools/gate [--or-skip]
    tools/gate --layout       only compares the layout of the sources with the kit's

The layout of the sources, the lists, and the tests and worked cases, unproved, come first: they take two minutes. Then
the kit's `rt ci` proves every crate and its tests, and tries the wrong bodies. It keeps on this machine what passed,
and a later run proves only what a change touched. The checks that use the proved library are made each time.
CONTRIBUTING.md says what each step shows.

The gate stops if one of the first checks fails, or if `rt ci` does. Each step reports its checks by name, and a step
fails if these aren't the ones of its section of `tools/checks.txt`, or if it ends otherwise than it reports. A check
that can't be made, such as one of C++ without a compiler, is named and counted as skipped, and fails the gate, unless
`tools/checks.txt` has it with a `?`. On a machine that lacks packages which CONTRIBUTING.md lists, or with --or-skip,
no skipped check does, but a step that skips all of its checks.

The last line is `N passed, M failed, K skipped`. The exit status is 0 if nothing failed, 1 if something did, and 2 for
a wrong command line.
"""
import glob
import os
import re
import resource
import shutil
import sys
import time
from collections import Counter
from typing import Any, Optional

from workshop import floor, frame, kit, wrong_bodies
from workshop.code import products, proving
from workshop.frame import FAILED, PASSED, SKIPPED, State, States

# What the run needs of disk: the libraries, what their proofs keep, and what the wrong bodies begin with.
DISK_BYTES = 12_000_000_000
# Room for a check of a crate on one processor. The most that one took is 3.9 GB.
CHECK_BYTES = 5_000_000_000
# A crate that is proved, a wrong body that a contract refuses, with the first error, and a proved test that passed.
PROVED = re.compile(r"^rt: (\w+) (?:proved$|is kept\b)", re.M)
REFUSED = re.compile(r"^rt: must-fail (\S+): refused, as it must be(?! \(only)(?:: )?(.*)$", re.M)
RAN = re.compile(r"^test (\S+) \.\.\. ok$", re.M)
# The steps before the proofs, and those after them, which run side by side: sections of `tools/checks.txt`, each with
# its command.
FIRST = {
    "gate": ["tools/gate", "--layout"],
    "constants": ["tools/constants", "--check"],
    "published": ["tools/compare", "constants"],
    "api": ["tools/api", "--check"],
    "tests": ["tools/tests"],
}
LAST = {
    "cases": ["tools/cases", "--built"],
    "compare-elf": ["tools/compare-elf"],
    "examples": ["tools/examples"],
    "compare": ["tools/compare", "--all", "--plants", "--seconds", "20", "--or-skip"],
    "assembler": ["tools/assembler", "--check"],
    "package": ["tools/package", "--check"],
    "fail-alloc": ["tools/fail-alloc"],
}
# The packages that CONTRIBUTING.md lists.
PACKAGES = re.compile(r"^apt-get install ((?:.*\\\n)*.*)$", re.M)


def lacking(page: str) -> list[str]:
    """The packages that a page with this text lists and that aren't installed."""
    found = PACKAGES.search(page)
    listed = found[1].replace("\\\n", " ").split() if found else []
    installed = kit.run(["dpkg-query", "-W", "-f", "${db:Status-Status} ${Package}\n"]) if shutil.which("dpkg-query") else None
    there = installed.stdout.splitlines() if installed else []
    return [it for it in listed if f"installed {it}" not in there]


class Gate:
    """A run of the gate, and what came of its checks."""

    def __init__(self, may_skip: bool = False) -> None:
        self.may_skip = may_skip
        self.states: States = {}
        self.started = time.monotonic()

    def say(self, text: str) -> None:
        """Prints a line, after the time that this run has taken so far."""
        used = resource.getrusage(resource.RUSAGE_CHILDREN)
        clock = time.monotonic() - self.started
        processors = used.ru_utime + used.ru_stime
        print(f"gate: {clock / 60:.1f} minutes, {processors / 60:.0f} of processor time: {text}", flush=True)

    def fail(self, why: str) -> None:
        """Counts a check that failed, and prints a line that says why."""
        self.states[why] = State(FAILED, why)
        self.say(f"FAILED: {why}")

    def has_failed(self) -> bool:
        return any(it.state == FAILED for it in self.states.values())

    def judge(self, section: str, states: Optional[States], status: int) -> None:
        """Adds what came of the checks of a step. They have to be those of its section, and only what may be skipped
        may be."""
        if not states:
            self.fail(f"{section} ended without its checks")
            return
        self.states.update((f"{section}: {name}", it) for name, it in states.items())
        counts = Counter(it.state for it in states.values())
        differences = floor.differences(section, frame.counts_of(states))
        if counts[FAILED] and not status or status and not counts[FAILED] and not differences:
            self.fail(f"{section} ended with status {status}, and {counts[FAILED]} of its checks failed")
        for why in differences:
            self.fail(f"{section}: {why}")
        skipped = {name for name, it in states.items() if it.state == SKIPPED} - floor.skippable(section)
        if self.may_skip and skipped and not counts[PASSED]:
            self.fail(f"{section} skipped all of its checks")
        for name in sorted(skipped) if not self.may_skip else ():
            self.fail(f"{section}: {name} was skipped, since {states[name].why}, and isn't one that may be")

    def step(self, section: str, words: list[str], each: Any = None) -> None:
        """Runs a step, and prints what it prints, at once or once it has ended."""
        report = f"{frame.new_folder()}/report"
        ran = kit.run([f"{kit.ROOT}/{words[0]}", *words[1:], "--report", report], each, cwd=kit.ROOT)
        if not each:
            self.say(f"{section} is done")
            print(ran.stdout, end="", flush=True)
        self.judge(section, frame.read_report(report), ran.returncode)


class Layout(frame.Check):
    """All sources are laid out as the kit does it."""

    def test_sources(self) -> None:
        folders = [f"{kit.ROOT}/crates/{it}/{part}" for it in kit.CRATES for part in kit.PARTS]
        files = [path for it in folders for path in kit.files_below(it)]
        sources = [os.path.relpath(it, kit.ROOT) for it in files if it.endswith((".rt", ".antt"))]
        frame.must(["rattle", "fmt", "--check", *sources], cwd=kit.ROOT)


def show(line: str) -> None:
    print(line, end="", flush=True)


def bodies() -> list[str]:
    """The wrong bodies, each as a crate and a file."""
    paths = [os.path.relpath(it, f"{kit.ROOT}/crates") for it in glob.glob(f"{kit.ROOT}/crates/*/must-fail/*.edit")]
    return sorted(it.replace("/must-fail/", "/") for it in paths)


def states_of_proofs(said: str) -> States:
    """What `rt ci` says of each crate and of each wrong body that is here. A wrong body that is refused only for a name
    in a proof, or by a limit of the prover, shows nothing of a contract; and one that is refused elsewhere than its
    first line says shows something else."""
    states = {f"crate/{it}": State(PASSED) for it in PROVED.findall(said)}
    refused = dict(REFUSED.findall(said))
    for it in bodies():
        why = wrong_bodies.judge(it, refused[it]) if it in refused else "isn't refused by a contract"
        state = State(FAILED, f"the wrong body {it} {why}") if why else State(PASSED)
        states[f"body/{it.removesuffix('.edit')}"] = state
    return states


def judge_proofs(now: Gate, said: str, status: int) -> None:
    """Judges what `rt ci` said: each crate, each wrong body, and each test that `tools/tests` has run unproved."""
    states = states_of_proofs(said)
    for why in (it.why for it in states.values() if it.state == FAILED):
        now.say(f"FAILED: {why}")
    now.judge("proofs", states, max(status, any(it.state == FAILED for it in states.values())))
    fronts = tuple(f"tests.Rattle.crate/{it}/" for it in kit.CRATES)
    wanted = Counter(it.rpartition("/")[2] for it in floor.sections()["tests"] if it.startswith(fronts))
    ran = Counter(RAN.findall(said))
    for it in (wanted - ran) + (ran - wanted):
        now.fail(f"the test {it} was proved and run {ran[it]} times, and tools/checks.txt has it {wanted[it]} times")


def keep_programs(now: Gate, before: dict[str, str]) -> None:
    """Keeps the programs that `rt ci` made of these sources, those of tests too."""
    for crate, of_sources in before.items():
        program = kit.program(crate)
        if products.sums(crate) != of_sources:
            now.fail(f"sources of {crate} changed during the proofs: run the gate again")
            continue
        for it in (program, f"{program}_tests"):
            if os.path.isfile(it):
                products.keep(it, it, of_sources)


def has_library(crate: str) -> bool:
    """Whether a library of a crate is in the checkout, for the crates above it."""
    return os.path.isdir(f"{kit.ROOT}/crates/{crate}/out/rlib")


def keep_code(now: Gate) -> None:
    """Makes and keeps the code that isn't kept, over the libraries of `rt ci`."""
    calls = []
    for crate in products.CODE:
        of_code = products.code_of(crate)
        lacking = products.lacking(crate, of_code)
        calls += [(proving.put_assembler, crate, it, kit.ROOT, of_code, now.say) for it in lacking]
    for is_made in kit.side_by_side(max(1, len(calls)), calls):
        if not is_made:
            now.fail("code isn't made")


def one_processor_each() -> dict[str, str]:
    """The environment in which `rt ci` gives each check one processor, and makes as many at a time as there are
    processors and memory for. By itself it reserves twice the memory that a check takes, so that processors are idle.
    RT_JOBS stays as it is if it is set."""
    return {"RT_JOBS": str(kit.lanes(CHECK_BYTES)), **os.environ}


def prove(now: Gate) -> bool:
    """Runs `rt ci`, and judges what it said. Returns whether it is worth going on."""
    before = {it: products.sums(it) for it in kit.CRATES}
    # If checks have left libraries here, `rt ci` puts these back in place of its own.
    is_fresh = not any(has_library(it) for it in kit.CRATES)
    now.say("the proofs begin")
    ran = kit.run(["rt", "ci"], show, cwd=kit.ROOT, env=one_processor_each())
    judge_proofs(now, ran.stdout, ran.returncode)
    if ran.returncode:
        now.fail(f"rt ci ended with status {ran.returncode}")
        return False
    keep_programs(now, before)
    if is_fresh and all(has_library(it) for crate in products.CODE for it in kit.below(crate)):
        keep_code(now)
    return True


def gate(now: Gate) -> int:
    """Runs all steps, and returns the exit status."""
    free = shutil.disk_usage(frame.room()).free
    if free < DISK_BYTES:
        now.fail(f"less than {DISK_BYTES // 10**9} GB of disk are free")
    else:
        for section, words in FIRST.items():
            now.say(f"{section} begins")
            now.step(section, words, show)
        if not now.has_failed() and prove(now):
            now.say(f"{', '.join(LAST)} begin")
            for _ in kit.side_by_side(len(LAST), [(now.step, *it) for it in LAST.items()]):
                pass
    now.say("the end")
    return frame.end("gate", now.states)


def main(words: list[str]) -> int:
    if words == ["--layout"]:
        return frame.check("gate", [Layout], section="gate")
    if words not in ([], ["--or-skip"]):
        return frame.usage(__doc__)
    absent = lacking(kit.text_of(f"{kit.ROOT}/CONTRIBUTING.md"))
    if absent:
        print(f"gate: what these packages are for is skipped, since they aren't installed: {' '.join(absent)}", flush=True)
    try:
        return gate(Gate(may_skip=bool(words or absent)))
    except OSError as fault:
        # A disk is full, or a script is missing.
        sys.exit(f"gate: FAILED, since it can't go on: {fault}")
