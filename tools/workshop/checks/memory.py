"""Shows what happens if memory runs out: each request for memory is refused once, those of the tests that are named
`refused_memory`, and then those of `./dwarf_list`.

    tools/fail-alloc

Such a test ends by making one request more, and prints a line if that one is refused. So this script lets the
first request of every test fail, then the second, and so on, until each of these tests has printed its line. Then
each request before it was refused once, and the test passed each time. A test may also print lines that begin with
`wanted: `. What follows has to follow `reached: ` in a line of one of its runs.

The program of a crate's tests is the one that `tools/gate` leaves, built from these sources.
`fail_alloc.c`, which has to be compiled, takes the place of the C library's `malloc` there. One request of unproved
tests is refused by the kit's `rt try --test --fail-alloc N`.

`./dwarf_list` is run in the same way, on the file of arguments next to its sources. With a request refused it has to
write what it writes otherwise, or beginnings of that output and of its errors and the line `error: out of memory`, with
status 1. That it then writes nothing is proved. The example in C, `examples/c/dwarf_show.c`, is run over the assembler
file, on a table and on an error: this shows that `dwarf_read_heap.c` tells the library of each refusal. Tests that
aren't built from these sources are named, and counted as skipped.

The last line is `N passed, M failed, K skipped`. The exit status is 0 if none failed, 1 if one did, and 2 for a wrong
command line.
"""
import os
import re
import subprocess
from collections.abc import Callable

from workshop import frame, kit
from workshop.code import products

PROGRAM = "dwarf_list"
# No test and no program makes that many requests.
LIMIT = 400
# The line of a program that ran out of memory.
MEMORY = b"error: out of memory\n"
# What a test prints whose last request was refused.
LAST = "every request was refused"
# What a test reached when memory ran out, and what it has to reach in one of the runs.
REACHED = re.compile(r"^    reached: (.*)", re.M)
WANTED = re.compile(r"^    wanted: (.*)", re.M)
# A test of refused memory, its verdict, and what it printed.
TEST = re.compile(r"^test (\S*\brefused_memory\w*) \.\.\. (.*)\n((?:    .*\n)*)", re.M)


# What the example in C lists: a table whose codes don't rise, so that both forms of a table are used, and one that is cut.
SHOWN = {
    "table": bytes.fromhex("03110103080000 022e0049130000 013400032156 0000 00"),
    "error": bytes.fromhex("0311010308"),
}
# What a program writes, its status, and what it says.
Ran = tuple[bytes, int, bytes]
CRATES = [it for it in kit.CRATES if any("fn refused_memory_" in text for _, text in kit.sources(it))]


@frame.once
def library() -> str:
    """The library that refuses memory."""
    made = f"{frame.new_folder()}/fail_alloc.so"
    source = f"{os.path.dirname(__file__)}/fail_alloc.c"
    frame.must(["cc", "-Wall", "-Wextra", "-Werror", "-O2", "-shared", "-fPIC", source, "-o", made])
    return made


def program_of(crate: str) -> str:
    """The program of a crate's proved tests."""
    return f"{kit.ROOT}/crates/{crate}/out/{crate}_tests"


def failing(number: int, program: str) -> dict[str, str]:
    """The environment in which this request of a program is refused."""
    return {**os.environ, "LD_PRELOAD": library(), "REFUSED": str(number), "REFUSED_IN": os.path.basename(program)}


def tests_with(crate: str, number: int) -> list[tuple[str, str, str]]:
    """The tests of refused memory with a refused request: names, verdicts and what was printed."""
    words = [f"{kit.load_rt().KIT}/bin/rattle-test", "--filter", "refused_memory", program_of(crate)]
    said = kit.run(words, cwd=f"{kit.ROOT}/crates/{crate}", env=failing(number, program_of(crate))).stdout
    tests = TEST.findall(said)
    assert tests, said.strip()
    return tests


def faults_of(run: Callable[[int], list[tuple[str, str, str]]]) -> dict[str, list[str]]:
    """What went wrong in each test, if each of its requests is refused in turn, until it says that all were."""
    done: set[str] = set()
    reached: dict[str, set[str]] = {}
    faults: dict[str, list[str]] = {}
    for number in range(1, LIMIT):
        tests = run(number)
        for name, verdict, printed in tests:
            fault = faults.setdefault(name, [])
            if verdict != "ok":
                fault.append(f"request {number}: {verdict}\n{printed}")
            reached.setdefault(name, set()).update(REACHED.findall(printed))
            if LAST in printed:
                done.add(name)
                if not reached[name].issuperset(WANTED.findall(printed)):
                    fault.append(f"not all that is wanted was reached: {sorted(reached[name])}")
        if all(name in done or faults[name] for name, _, _ in tests):
            break
    for name, fault in faults.items():
        if name not in done and not fault:
            fault.append(f"it makes more than {LIMIT} requests")
    return faults


def try_requests(run: Callable[[int], Ran]) -> None:
    """A program writes what it writes otherwise, or the beginnings of that and the line of memory that ran out,
    whichever of its requests is refused."""
    whole = run(0)
    last = 0
    for number in range(1, LIMIT):
        found = run(number)
        output, status, errors = found
        is_begun = whole[0].startswith(output) and whole[2].startswith(errors[: -len(MEMORY)])
        if status == 1 and errors.endswith(MEMORY) and is_begun:
            last = number
        else:
            said = found[2].decode(errors="replace").strip()
            assert found == whole, f"request {number}: status {found[1]}, {said}"
    assert last not in (0, LIMIT - 1), f"it makes no request, or more than {LIMIT}"


def ran(words: list[str], number: int, given: bytes) -> Ran:
    """What a program does with this input and this request refused."""
    env = failing(number, words[0])
    done = subprocess.run(words, input=given, capture_output=True, env=env, timeout=60, check=False)
    return done.stdout, done.returncode, done.stderr


@frame.once
def example() -> str:
    """The example in C, which gets its memory by dwarf_read_heap.c."""
    include, made = f"{kit.ROOT}/include", f"{frame.new_folder()}/dwarf_show"
    sources = [f"{kit.ROOT}/examples/c/dwarf_show.c", f"{include}/dwarf_read_heap.c", f"{include}/dwarf_read.S"]
    frame.must(["cc", "-O2", "-I", include, *sources, "-o", made])
    return made


@frame.needs("cc")
class Memory(frame.Check):
    """What happens if any one request for memory is refused."""

    @frame.each(CRATES)
    def test_tests(self, crate: str) -> None:
        if not products.find(program_of(crate), crate):
            frame.skip(f"the tests of {crate} aren't built from these sources")
        for name, faults in faults_of(lambda number: tests_with(crate, number)).items():
            self.part(name, not faults, f"{crate} {name}: " + "\n".join(faults))

    def test_dwarf_list(self) -> None:
        folder = f"{kit.ROOT}/crates/{PROGRAM}"
        program = frame.must([f"{kit.ROOT}/{PROGRAM}", "--path"], stderr=None).strip()
        words = [program, *kit.text_of(f"{folder}/args").splitlines()]
        with open(f"{folder}/stdin", "rb") as file:
            given = file.read()
        try_requests(lambda number: ran(words, number, given))

    @frame.each(SHOWN)
    def test_example(self, what: str) -> None:
        try_requests(lambda number: ran([example(), "abbrev", "0"], number, SHOWN[what]))


CHECKS = [Memory]


def main(words: list[str]) -> int:
    if words:
        return frame.usage(__doc__)
    return frame.check("fail-alloc", CHECKS, section="fail-alloc")
