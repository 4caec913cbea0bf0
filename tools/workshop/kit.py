"""The crates of this repository, and the kit's commands: what the scripts share."""
import contextlib
import functools
import glob
import importlib.machinery
import importlib.util
import os
import re
import shutil
import signal
import subprocess
import sys
import threading
from collections.abc import Callable, Iterable, Iterator, Sequence
from concurrent.futures import ThreadPoolExecutor, as_completed
from typing import Any, Optional, Union

ROOT = os.path.dirname(os.path.dirname(os.path.dirname(os.path.realpath(__file__))))
PARTS = ("src", "specs", "proofs")
# The kits that these scripts work with. They were written for the first.
KITS = tuple(f"{it} logic dac8208d650f15bf" for it in ("rattle-kit-13f", "rattle-kit-13b"))
# A command that has ended, with all that it wrote.
Finished = subprocess.CompletedProcess[str]
# The commands that run, and whether no more may begin.
RUNNING: set[subprocess.Popen[str]] = set()
IS_STOPPED = threading.Event()
TEST = re.compile(r"^ *#\[test\]", re.M)
FN = re.compile(r"^ *(?:pub(?:\([^)]*\))? )?(?:const )?(?:unsafe )?(?:extern \"C\" )?fn (\w+)", re.M)


def text_of(path: str) -> str:
    with open(path, encoding="utf-8", errors="replace") as file:
        return file.read()


def write_file(path: str, content: Union[str, bytes]) -> None:
    """Writes a text or bytes to a file, in a folder that is made if there is none."""
    os.makedirs(os.path.dirname(path), exist_ok=True)
    with open(path, "wb") as file:
        file.write(content if isinstance(content, bytes) else content.encode())


def files_below(folder: str) -> list[str]:
    """Where the files below a folder are."""
    return [f"{at}/{name}" for at, _, names in os.walk(folder) for name in names]


def run(words: Sequence[str], each: Optional[Callable[[str], object]] = None, **how: Any) -> Finished:
    """Runs a command without input, in a session of its own, and returns the finished process with what it wrote to
    both outputs. `each` is called with each line as it is read. If this run ends early, so does the command."""
    how = {"stdin": subprocess.DEVNULL, "stdout": subprocess.PIPE, "stderr": subprocess.STDOUT, **how}
    if IS_STOPPED.is_set():
        raise InterruptedError
    said: list[str] = []
    with subprocess.Popen(words, text=True, errors="replace", start_new_session=True, **how) as child:
        RUNNING.add(child)
        try:
            for line in child.stdout or child.stderr or ():
                said.append(line)
                if each:
                    each(line)
            child.wait()
        finally:
            RUNNING.discard(child)
            end(child)
    return subprocess.CompletedProcess(words, child.returncode, "".join(said))


def end(child: subprocess.Popen[str]) -> None:
    """Ends a command that still runs, and what it has begun."""
    if child.poll() is None:
        with contextlib.suppress(ProcessLookupError):
            os.killpg(child.pid, signal.SIGTERM)


def side_by_side(lanes: int, calls: Iterable[Sequence[Any]]) -> Iterator[Any]:
    """Makes these calls, each a function and its arguments, `lanes` at a time, and yields what each returns. If one
    fails or this run is interrupted, what `run` has begun ends first, since the pool waits for it."""
    with ThreadPoolExecutor(lanes) as pool:
        begun = [pool.submit(*it) for it in calls]
        try:
            for it in as_completed(begun):
                yield it.result()
        except BaseException:
            IS_STOPPED.set()
            for child in list(RUNNING):
                end(child)
            raise


def of_path(command: str) -> str:
    """Where a command of the kit is. If it isn't on PATH, a line says so, and the run ends with status 2."""
    found = shutil.which(command)
    if not found:
        who = os.path.basename(sys.argv[0])
        print(f"{who}: the command {command} of the Rattle kit isn't on PATH", file=sys.stderr, flush=True)
        sys.exit(2)
    return os.path.realpath(found)


def load(name: str, path: str) -> Any:
    """A command that is written in Python, as a module of this name."""
    loader = importlib.machinery.SourceFileLoader(name, path)
    spec = importlib.util.spec_from_loader(name, loader)
    assert spec
    made = importlib.util.module_from_spec(spec)
    sys.modules[name] = made
    loader.exec_module(made)
    return made


@functools.cache
def load_rt() -> Any:
    """The kit's command `rt`, as a module. No script replaces a part of it."""
    return load("rt", of_path("rt"))


@functools.cache
def version() -> str:
    """What the kit here says that it is."""
    return run([of_path("rt"), "version"], stderr=subprocess.DEVNULL).stdout.strip()


# The version of what is here. That of the kit is `version`.
VERSION = text_of(f"{ROOT}/VERSION").strip()
# The lines of crates.txt: a crate, lowest first, and the libraries that it names.
ROWS = re.findall(r"^(\w+)(?: staticlib)?:(.*?)(?:#.*)?$", text_of(f"{ROOT}/crates.txt"), re.M)
CRATES = {name: libraries.split() for name, libraries in ROWS}


def below(crate: str) -> list[str]:
    """The crates of this repository below a crate, lowest first."""
    found: list[str] = []
    for library in CRATES[crate]:
        if library in CRATES:
            found += [it for it in [*below(library), library] if it not in found]
    return found


def sources(crate: str, of_tests: Optional[bool] = None) -> Iterator[tuple[str, str]]:
    """The texts of a crate's source files, each after its path: all of them, or those of its tests or the others."""
    for path in sorted(glob.glob(f"{ROOT}/crates/{crate}/src/**/*.rt", recursive=True)):
        name = os.path.relpath(path, ROOT)
        if of_tests in (None, bool(re.search(r"/tests(\.rt|/)", name))):
            yield name, text_of(path)


def tests_in(crate: str) -> int:
    """How many tests the sources of a crate have."""
    return sum(len(TEST.findall(text)) for _, text in sources(crate))


def lanes(memory: int) -> int:
    """How many commands that take this much memory the machine has processors and room for, at least one."""
    processors = len(os.sched_getaffinity(0))
    free = int(re.findall(r"MemAvailable:\s+(\d+) kB", text_of("/proc/meminfo"))[0]) * 1024
    return max(1, min(processors, free // memory))


def program(crate: str) -> str:
    """Where `rt ci` leaves the program of a crate."""
    return f"{ROOT}/crates/{crate}/out/{crate}"
