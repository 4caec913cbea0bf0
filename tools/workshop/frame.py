"""The frame of all checks. They are tests of `unittest`, with names and states, and run side by side.

A check is a method `test_...` of a `Check`, and fails by an exception. Its name is `MODULE.CLASS.METHOD`, with `/ROW`
after it if `each` makes one check of each row. A check that runs tests of another program reports each of these as
a part, by `/PART`. What can't be made here is skipped, by `needs`, `need` or `skipTest`, and always says why.

`check` runs the checks of a command. Those that were made or skipped have to be the ones of `tools/checks.txt`. With
`--report FILE` a command also writes their names and states to a file, which the gate reads.
"""
import atexit
import functools
import json
import os
import re
import shutil
import signal
import subprocess
import sys
import tempfile
import threading
import time
import unittest
from collections.abc import Callable, Iterable, Mapping, Sequence
from dataclasses import asdict, dataclass
from typing import Any, NoReturn, Optional, TypeVar

from workshop import floor, kit

# What one check takes of memory, if it builds something.
LANE_BYTES = 1_500_000_000
# How much of what a program printed is shown if it fails.
SHOWN = 4000
PASSED, FAILED, SKIPPED = "passed", "failed", "skipped"
Made = TypeVar("Made")
Method = TypeVar("Method", bound=Callable[..., Any])
# A check, or a class of them.
Thing = TypeVar("Thing")


@dataclass
class State:
    """What came of a check: its state, why it failed or was skipped, or what it notes, and how many comparisons it made
    if it counts them."""

    state: str
    why: str = ""
    count: int = 0


# What came of each check, by its name.
States = dict[str, State]


def checked(name: str) -> str:
    """A row or a part, whose name can be in `tools/checks.txt`."""
    assert name and not re.search(r"[,/\n]|: |^\?|\*\d+$|^ | $", name), name
    return name


def skip(why: str) -> NoReturn:
    """Skips the check that calls this."""
    raise unittest.SkipTest(why)


def need(*tools: str) -> None:
    """Skips the check that calls this, unless all these programs are on PATH, and all these files are there."""
    for it in tools:
        if not (os.path.exists(it) if "/" in it else shutil.which(it)):
            skip(f"there is no {it}")


def needs(*tools: str) -> Callable[[Thing], Thing]:
    """Skips a check, or all of a class, unless all these programs and files are there."""

    def with_tools(thing: Thing) -> Thing:
        thing.needed = tools  # type: ignore[attr-defined]
        return thing

    return with_tools


def each(rows: Iterable[str]) -> Callable[[Method], Method]:
    """Makes one check of each row, which the method gets."""

    def with_rows(method: Method) -> Method:
        method.rows = [*map(checked, rows)]  # type: ignore[attr-defined]
        return method

    return with_rows


def of_row(method: Callable[..., None], row: str) -> Callable[[Any], None]:
    """The check of a row."""

    @functools.wraps(method)
    def made(self: Any) -> None:
        method(self, row)

    return made


@dataclass
class Once:
    """What was made, or why it couldn't be."""

    lock: Any
    made: Any = None
    why: Optional[BaseException] = None
    is_done: bool = False


def once(make: Callable[..., Made]) -> Callable[..., Made]:
    """Makes something at the first call with these words, for all checks that need it. If that fails, so do they."""
    found: dict[Sequence[Any], Once] = {}
    lock = threading.Lock()

    @functools.wraps(make)
    def get(*words: Any) -> Made:
        with lock:
            it = found.setdefault(words, Once(threading.RLock()))
        with it.lock:
            if not it.is_done:
                try:
                    it.made = make(*words)
                except BaseException as why:
                    it.why = why
                it.is_done = True
        if it.why:
            raise it.why
        return it.made  # type: ignore[no-any-return]

    return get


@once
def room() -> str:
    """The scratch folder of this run."""
    folder = tempfile.TemporaryDirectory(prefix="checks-")
    atexit.register(folder.cleanup)
    return folder.name


def new_folder() -> str:
    """A new folder in that folder."""
    return tempfile.mkdtemp(prefix="check-", dir=room())


def must(words: Sequence[str], **how: Any) -> str:
    """Runs a command, which has to end with status 0, and returns what it writes."""
    ran = kit.run(words, **how)
    assert ran.returncode == 0, f"{' '.join(words):.1000}\nends with status {ran.returncode}:\n{ran.stdout[-SHOWN:]}"
    return ran.stdout


def output(words: Sequence[str], given: bytes = b"", **how: Any) -> tuple[bytes, int]:
    """What a program writes if these bytes are its input, and its status."""
    how = {"stdout": subprocess.PIPE, "stderr": subprocess.STDOUT, **how}
    with tempfile.TemporaryFile(dir=room()) as file:
        file.write(given)
        file.seek(0)
        ran = subprocess.run(words, stdin=file, **how, check=False)
    return ran.stdout, ran.returncode


class Check(unittest.TestCase):
    """A check, with a scratch folder of its own."""

    maxDiff = SHOWN
    needed: tuple[str, ...] = ()

    def __init_subclass__(cls, **how: Any) -> None:
        super().__init_subclass__(**how)
        for name, method in [*vars(cls).items()]:
            if hasattr(method, "rows"):
                delattr(cls, name)
                for row in method.rows:
                    setattr(cls, f"{name}/{row}", of_row(method, row))

    def setUp(self) -> None:
        need(*self.needed, *getattr(getattr(self, self._testMethodName), "needed", ()))
        self.work = new_folder()
        self.addCleanup(shutil.rmtree, self.work, ignore_errors=True)
        # What came of the parts of this check, how many comparisons it made, if it counts them, and what is said then.
        self.parts: States = {}
        self.count = 0
        self.note = ""

    def must(self, words: Sequence[str], **how: Any) -> str:
        """Runs a command in the folder. It has to end with status 0."""
        return must(words, **{"cwd": self.work, **how})

    def part(self, name: str, well: object, why: object = "") -> None:
        """Reports a part of this check. One that fails doesn't end the check."""
        assert name not in self.parts, f"two parts have the name {name}"
        self.parts[checked(name)] = State(PASSED) if well else State(FAILED, str(why))


def name_of(test: unittest.TestCase) -> str:
    """The name of a check."""
    _, method = test.id().rsplit(f"{type(test).__name__}.", 1)
    return f"{type(test).__module__.rpartition('.')[2]}.{type(test).__name__}.{method.removeprefix('test_')}"


def tests_of(things: Iterable[Any]) -> list[unittest.TestCase]:
    """These checks, and those of these classes and modules."""
    found: list[unittest.TestCase] = []
    for it in things:
        if isinstance(it, unittest.TestCase):
            found.append(it)
        elif isinstance(it, type):
            names = unittest.defaultTestLoader.getTestCaseNames(it) if issubclass(it, unittest.TestCase) else ()
            found += map(it, names)
        else:
            own = [one for one in vars(it).values() if isinstance(one, type)]
            found += tests_of(one for one in own if one.__module__ == it.__name__)
    return found


def made(test: unittest.TestCase) -> tuple[str, States, float]:
    """Makes a check. Returns its name, what came of it or of its parts, and how many seconds it took."""
    started = time.monotonic()
    result = unittest.TestResult()
    test.run(result)
    name = name_of(test)
    parts: States = getattr(test, "parts", {})
    states = {f"{name}/{it}": state for it, state in parts.items()}
    faults = [*result.failures, *result.errors]
    if faults:
        states[name] = State(FAILED, "\n".join(text for _, text in faults))
    elif result.skipped:
        states[name] = State(SKIPPED, result.skipped[0][1])
    elif not parts:
        states[name] = State(PASSED, getattr(test, "note", ""), getattr(test, "count", 0))
    return name, states, time.monotonic() - started


def tell(command: str, name: str, states: States, seconds: float) -> None:
    """Prints what came of a check: a line, or one for each part that failed or was skipped, and for the others
    together."""
    took = f", in {seconds:.0f} seconds" if seconds > 5 else ""
    well = [it for it in states.values() if it.state == PASSED]
    for it, state in states.items():
        if state.state == FAILED:
            print(f"{state.why.rstrip()}\n{command}: {it}: FAILED{took}")
        elif state.state == SKIPPED:
            print(f"{command}: {it}: skipped, since {state.why}")
    if [*states] == [name] and well:
        print(f"{command}: {name}: ok{took}{well[0].why and f': {well[0].why}'}")
    elif well:
        print(f"{command}: {name}: {len(well)} passed{took}")
    sys.stdout.flush()


def end(command: str, states: States, more: int = 0) -> int:
    """Prints the counts of what came of the checks, with more that failed, and reports it if that was requested. Returns
    the exit status."""
    counts = [sum(it.state == state for it in states.values()) for state in (PASSED, FAILED, SKIPPED)]
    counts[1] += more
    if not states:
        print(f"{command}: no check was made or skipped: FAILED")
    if Requested.report:
        kit.write_file(Requested.report, json.dumps({name: asdict(it) for name, it in states.items()}))
    print("{} passed, {} failed, {} skipped".format(*counts))
    return 1 if counts[1] or not states else 0


class Requested:
    """Where the names and states of a run are to be written, if the gate requested it by `--report FILE`."""

    report = ""


def read_report(path: str) -> Optional[States]:
    """The names and states of a run, or None if it didn't write them."""
    if not os.path.isfile(path):
        return None
    return {name: State(**it) for name, it in json.loads(kit.text_of(path)).items()}


def counts_of(states: Mapping[str, State]) -> dict[str, Optional[int]]:
    """The names of checks, each with its count, or with None if it was skipped or failed, so that there is none."""
    return {name: it.count if it.state == PASSED else None for name, it in states.items()}


def is_chosen(name: str, words: Sequence[str]) -> bool:
    """Whether one of these words is the name of a check or of its class, or the front of one."""
    names = (name, name.partition(".")[2])
    return any(it == word or it.startswith((f"{word}.", f"{word}/")) for it in names for word in words)


def check(
    command: str, things: Iterable[Any], words: Sequence[str] = (), section: str = "", lanes: Optional[int] = None
) -> int:
    """Makes the checks of these classes and modules, or those whose names begin with one of these words. Returns the
    exit status. If all are made, they have to be those of a section of `tools/checks.txt`."""
    tests = tests_of(things)
    if words:
        # A module may be left out.
        tests = [it for it in tests if is_chosen(name_of(it), words)]
    states: States = {}
    at_once = kit.side_by_side(lanes or kit.lanes(LANE_BYTES), [(made, it) for it in tests])
    # One after another, no check sees another thread: those of scripts take what is printed.
    for name, found, seconds in map(made, tests) if lanes == 1 else at_once:
        tell(command, name, found, seconds)
        states.update(found)
    differences = floor.differences(section, counts_of(states)) if section and not words else []
    for why in differences:
        print(f"{command}: {why}: FAILED")
    return end(command, states, len(differences))


def usage(text: Optional[str], why: str = "") -> int:
    """Says what a command does, because its command line is wrong. Returns the exit status."""
    print(f"{why}\n\n{(text or '').strip()}".strip(), file=sys.stderr)
    return 2


def end_by_pipe() -> None:
    """Ends this run by SIGPIPE, as a run of `cat` ends if the reader of its output closes it."""
    signal.signal(signal.SIGPIPE, signal.SIG_DFL)
    os.kill(os.getpid(), signal.SIGPIPE)


def run(main: Callable[[list[str]], int], words: list[str]) -> None:
    """Runs a command, and ends with its exit status. If it is interrupted, its scratch folder goes first."""
    if not __debug__:
        sys.exit("PYTHONOPTIMIZE turns assertions off, and so would turn off the checks")
    if "--report" in words[:-1]:
        at = words.index("--report")
        Requested.report = os.path.abspath(words[at + 1])
        words = words[:at] + words[at + 2 :]
    for it in (signal.SIGINT, signal.SIGTERM, signal.SIGHUP):
        signal.signal(it, lambda number, _: sys.exit(128 + number))
    try:
        status = main(words)
        if sys.stdout:
            sys.stdout.flush()
    except BrokenPipeError:
        end_by_pipe()
    sys.exit(status)
