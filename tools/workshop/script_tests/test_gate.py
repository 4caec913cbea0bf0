"""Tests of how the gate judges what its steps report, and what `rt ci` says."""
import contextlib
import glob
import io
import os
import re
import shutil
import subprocess
import tempfile
import unittest
from typing import Optional
from unittest import mock

from workshop import floor, frame, gate, kit, tests, wrong_bodies
from workshop.code import products, proving
from workshop.frame import FAILED, PASSED, SKIPPED, State, States
from workshop.script_tests import came_of

PROVED = "".join(f"rt: {it} proved\n" for it in kit.CRATES)
RAN = "test tests::a ... ok\ntest tests::b ... ok\ntest tests::a ... ok\n"
# A section with a check that may be skipped.
KNOWN = {"some": {"one": (0, False), "two": (3, False), "three": (0, True)}}
WELL = {"one": State(PASSED), "two": State(PASSED, count=3), "three": State(PASSED)}


class Judging(unittest.TestCase):
    """What a step reports, how it ends, and what the gate says of it."""

    def failed(self, section: str, states: Optional[States], status: int, may_skip: bool = False) -> list[str]:
        """What the gate says that failed besides the checks of a step."""
        now = gate.Gate(may_skip)
        with contextlib.redirect_stdout(io.StringIO()), mock.patch.object(floor, "sections", lambda: KNOWN):
            now.judge(section, states, status)
        wanted = {f"some: {name}": it for name, it in (states or {}).items()}
        self.assertEqual({name: it for name, it in now.states.items() if name in wanted}, wanted)
        return [name for name in now.states if name not in wanted]

    def test_steps(self) -> None:
        skipped = State(SKIPPED, "there is no cc")
        lacking = "some: one was neither made nor skipped"
        allowed = "some: two was skipped, since there is no cc, and isn't one that may be"
        fewer = "some: two made 2 comparisons, and tools/checks.txt has 3"
        # What a step reports, its status, and what the gate says of it: always, and without --or-skip.
        rows: list[tuple[Optional[States], int, list[str], list[str]]] = [
            (WELL, 0, [], []),
            ({**WELL, "three": skipped}, 0, [], []),
            ({**WELL, "two": skipped}, 0, [], [allowed]),
            ({**WELL, "two": State(PASSED, count=2)}, 0, [fewer], []),
            ({**WELL, "two": State(FAILED, "no")}, 1, [], []),
            ({**WELL, "two": State(FAILED, "no")}, 0, ["some ended with status 0, and 1 of its checks failed"], []),
            (WELL, 1, ["some ended with status 1, and 0 of its checks failed"], []),
            ({it: WELL[it] for it in ("two", "three")}, 0, [lacking], []),
            ({**WELL, "four": State(PASSED)}, 0, ["some: tools/checks.txt lacks, in its section some: four"], []),
            (None, 0, ["some ended without its checks"], []),
            ({}, 0, ["some ended without its checks"], []),
        ]
        for states, status, wanted, strictly in rows:
            with self.subTest(states=states, status=status):
                self.assertEqual(self.failed("some", states, status, may_skip=True), wanted)
                self.assertEqual(self.failed("some", states, status), wanted + strictly)

    def test_all_skipped(self) -> None:
        states = {it: State(SKIPPED, "there is no cc") for it in WELL}
        self.assertEqual(self.failed("some", states, 0, may_skip=True), ["some skipped all of its checks"])

    def test_reports(self) -> None:
        """A step that ends well and reports nothing has failed, as one that only prints its help."""
        for words in (["tools/constants", "--help"], ["tools/api", "--help"]):
            now = gate.Gate()
            with contextlib.redirect_stdout(io.StringIO()):
                now.step("constants", words)
            self.assertEqual([*now.states], ["constants ended without its checks"])

    def test_end(self) -> None:
        """The last line counts all checks, and the status is 1 if one failed."""
        for last, status in ((PASSED, 0), (SKIPPED, 0), (FAILED, 1)):
            now = gate.Gate()
            now.states = {**WELL, "four": State(last)}
            with contextlib.redirect_stdout(io.StringIO()) as said, mock.patch.multiple(
                gate, FIRST={}, prove=lambda _: True, DISK_BYTES=0
            ), mock.patch.object(kit, "side_by_side", lambda *_: []):
                self.assertEqual(gate.gate(now), status)
            line = f"{4 if last == PASSED else 3} passed, {int(last == FAILED)} failed, {int(last == SKIPPED)} skipped"
            self.assertEqual(said.getvalue().splitlines()[-1], line)

    def test_first_steps(self) -> None:
        """Nothing is proved if a step before the proofs fails, and nothing more is made if they do."""
        for fails, proves, begun in (("tests", True, [*gate.FIRST]), ("none", False, [*gate.FIRST, "proofs"])):
            made: list[str] = []
            now = gate.Gate()

            def step(section: str, *_: object, made: list[str] = made, now: gate.Gate = now, fails: str = fails) -> None:
                made.append(section)
                if section == fails:
                    now.fail("no")

            def prove(_: object, made: list[str] = made, proves: bool = proves) -> bool:
                made.append("proofs")
                return proves

            with mock.patch.multiple(gate, prove=prove, DISK_BYTES=0), mock.patch.object(now, "step", step):
                with contextlib.redirect_stdout(io.StringIO()):
                    gate.gate(now)
            self.assertEqual(made, begun)

    def test_layout(self) -> None:
        """All sources, specs and proofs are laid out."""
        run = mock.Mock(return_value="")
        with mock.patch.object(frame, "must", run):
            self.assertEqual([*came_of(gate.Layout).values()], [PASSED])
        tracked = kit.run(["git", "ls-files", "crates"], cwd=kit.ROOT).stdout.splitlines()
        wanted = {it for it in tracked if re.search(r"/(?:src|specs|proofs)/.*\.(?:rt|antt)$", it)}
        self.assertEqual(wanted - {*run.call_args.args[0]}, set())
        self.assertEqual(run.call_args.args[0][:3], ["rattle", "fmt", "--check"])

    def test_ci(self) -> None:
        self.assertEqual(kit.text_of(f"{kit.ROOT}/.ci/run"), "#!/bin/sh\ntools/gate\n")

    def test_runs(self) -> None:
        """A run of tests fails by its status, by a test, and without tests."""
        well = "test tests::a ... ok\n"
        # What a runner says, its status, and the state of the check.
        rows = [(well, 0, PASSED), (well, 1, FAILED), ("", 0, FAILED), (well + "test tests::b ... FAILED\n", 0, FAILED)]
        for said, status, state in rows:

            class One(tests.OfProgram):
                """A run."""

                def test_run(self, said: str = said, status: int = status) -> None:
                    self.judge(subprocess.CompletedProcess([], status, said))

            self.assertEqual(FAILED if FAILED in came_of(One).values() else PASSED, state, (said, status))

    def test_tests(self) -> None:
        """The tests that a runner names are found, with whether each passed."""
        said = "     Running unittests src/lib.rs (target/x)\ntest a::b ... ok\ntest a::c ... FAILED\n"
        said += "   Doc-tests dwarf_read\ntest src/lib.rs - Table (line 3) ... ok\ntest src/lib.rs - Table (line 9) - compile ... ok\n"
        wanted = [
            ("lib.rs a::b", True),
            ("lib.rs a::c", False),
            ("dwarf_read src.lib.rs - Table", True),
            ("dwarf_read src.lib.rs - Table again 2", True),
        ]
        self.assertEqual(tests.tested(said), wanted)
        self.assertEqual(tests.tested("test tests::a ... ok\n"), [("tests::a", True)])

    def test_proofs(self) -> None:
        first = [*kit.CRATES][0]
        refused = "rt: must-fail a/b.edit: refused, as it must be: src/lib.rt:1:1: error\n"
        kept = PROVED.replace(f"rt: {first} proved", f"rt: {first} is kept: an earlier run")
        by_name = refused.replace("be: ", "be (only because a proof file names what the edit took away): ")
        body = "the wrong body a/b.edit"
        twice = "the test tests::b was proved and run 0 times, and tools/checks.txt has it 1 times"
        # What `rt ci` says, and what the gate says of it.
        rows = [
            (PROVED + refused + RAN, []),
            (kept + refused + RAN, []),
            (PROVED.partition("\n")[2] + refused + RAN, [f"proofs: crate/{first} was neither made nor skipped"]),
            (PROVED + by_name + RAN, [f"{body} isn't refused by a contract"]),
            (PROVED + refused.replace("lib.rt:1:1", "lib.rt:2:1") + RAN, [f"{body} is refused elsewhere"]),
            (PROVED + RAN, [f"{body} isn't refused by a contract"]),
            (PROVED + refused + RAN.replace("test tests::b ... ok\n", ""), [twice]),
            (PROVED + refused + RAN.replace("test tests::b ... ok\n", "test tests::b ... FAILED\n"), [twice]),
        ]
        known = {f"crate/{it}": (0, False) for it in kit.CRATES} | {"body/a/b": (0, False)}
        names = (f"{first}/tests::a", f"{first}/tests::b", f"{[*kit.CRATES][1]}/tests::a")
        tests_known = {f"tests.Rattle.crate/{it}": (0, False) for it in names}
        for said, wanted in rows:
            now = gate.Gate()
            with contextlib.redirect_stdout(io.StringIO()), mock.patch.object(wrong_bodies, "judge", self.judge), \
                mock.patch.object(floor, "sections", lambda: {"proofs": known, "tests": tests_known}), \
                mock.patch.object(gate, "bodies", lambda: ["a/b.edit"]):
                gate.judge_proofs(now, said, 0)
            found = [it.why for it in now.states.values() if it.state == FAILED]
            self.assertEqual(found, wanted, said)

    @staticmethod
    def judge(body: str, line: str) -> Optional[str]:
        """What `judge` says if this one line agrees with what the wrong body says."""
        return None if (body, line) == ("a/b.edit", "src/lib.rt:1:1: error") else "is refused elsewhere"

    def test_libraries(self) -> None:
        """The code of the static libraries is made in the checkout if `rt ci` left its own libraries there, and none is
        missing."""
        every = [*kit.CRATES]
        # The crates with a library before `rt ci` and after it, and whether the code is then made.
        rows = [([], every, True), (every[:1], every, False), ([], every[1:], False), ([], [], False)]
        for before, after, is_built in rows:
            now = gate.Gate()
            with tempfile.TemporaryDirectory() as root, mock.patch.object(kit, "ROOT", root), mock.patch.multiple(
                gate, judge_proofs=mock.DEFAULT, keep_programs=mock.DEFAULT
            ), mock.patch.multiple(products, sums=str, code_of=str, lacking=lambda *_: ["a target"]), mock.patch.object(
                proving, "put_assembler"
            ) as made:
                for it in before:
                    os.makedirs(f"{root}/crates/{it}/out/rlib")

                def prove(*_: object, root: str = root, after: list[str] = after, **__: object) -> kit.Finished:
                    for it in after:
                        os.makedirs(f"{root}/crates/{it}/out/rlib", exist_ok=True)
                    return subprocess.CompletedProcess([], 0, "")

                with mock.patch.object(kit, "run", prove), contextlib.redirect_stdout(io.StringIO()):
                    self.assertTrue(gate.prove(now))
            built = [it.args[:2] for it in made.call_args_list]
            wanted = [(crate, "a target") for crate in products.CODE] if is_built else []
            self.assertEqual((built, now.states), (wanted, {}), (before, after))

    def test_lacking(self) -> None:
        """The packages of the list that aren't installed are known, whichever line they are on."""
        page = "```sh\napt-get install one \\\n    two three\n```\n"
        said = "installed one\nconfig-files two\n"
        with mock.patch("workshop.kit.run", lambda *_: subprocess.CompletedProcess([], 0, said)):
            for place, wanted in (("/usr/bin/dpkg-query", ["two", "three"]), (None, ["one", "two", "three"])):
                with mock.patch("shutil.which", lambda _, it=place: it):
                    self.assertEqual(gate.lacking(page), wanted)
        [listed] = gate.PACKAGES.findall(kit.text_of(f"{kit.ROOT}/CONTRIBUTING.md"))
        self.assertGreater(len(listed.split()), 30)

    def test_steps_of_the_page(self) -> None:
        """The gate runs the steps of the page's table, each once, and each is a section of `tools/checks.txt`."""
        text = kit.text_of(f"{kit.ROOT}/CONTRIBUTING.md").partition("\n## The gate\n")[2].partition("\n## ")[0]
        listed = [it for row in re.findall(r"^\| (`.*?) \| ", text, re.M) for it in re.findall(r"`([^`]+)`", row)]
        listed = [it for it in listed if not it.startswith("tools/")]
        begun = [*gate.FIRST.values(), ["rt", "ci"], *gate.LAST.values()]
        commands = [" ".join(it).removeprefix("tools/") for it in begun]
        commands = [it.replace("gate --layout", "rattle fmt --check") for it in commands]
        self.assertEqual(len(commands), len(listed), commands)
        for name in listed:
            self.assertEqual(sum(f"{it} ".startswith(f"{name} ") for it in commands), 1, (name, commands))
        self.assertEqual({*floor.sections()}, {*gate.FIRST, "proofs", *gate.LAST})

    def test_jobs(self) -> None:
        """`rt ci` makes as many checks at a time as there is room for, unless RT_JOBS says how many."""
        for before, jobs in (({}, "3"), ({"RT_JOBS": "1"}, "1")):
            with mock.patch.object(kit, "lanes", lambda _: 3), mock.patch.dict(os.environ, before, clear=True):
                self.assertEqual(gate.one_processor_each()["RT_JOBS"], jobs)


class Refusals(unittest.TestCase):
    """What a wrong body says of the function that refuses it, and what `rt` prints."""

    SOURCE = """\
// A comment about fn comment() { and a text "fn text() {".
pub trait Reads<T>: Drop {
    /// Reads.
    fn read(&self) -> u8
        ensures ok { true }
    { 0 }
}
impl<R: Reads<Vec<u8>>> fmt::Display for Pair<'_, R> {
    ghost output = { text };

    #[inline]
    fn fmt(&self, rt: &impl Abort) -> Result<()> {
        Ok(())
    }
}
fn planted() -> u8 { 1 } impl Pair {
    fn first(&self) -> u8 { self.0 }
}
fn free() {}
"""
    GOAL = "it is not proved that what the function ensures holds when it returns (`returns-in-Some-clause-ok`)"

    def test_places(self) -> None:
        # The row and the column of a place, and the function there.
        rows = [
            ((4, 5), "Reads::read"),
            ((6, 7), "Reads::read"),
            ((11, 5), "PairDisplay::fmt"),
            ((12, 5), "PairDisplay::fmt"),
            ((13, 9), "PairDisplay::fmt"),
            ((16, 1), "planted"),
            ((16, 22), "planted"),
            ((17, 5), "Pair::first"),
            ((19, 1), "free"),
        ]
        self.assertEqual(wrong_bodies.function_of("src/lib.rt:1:1: error: no", lambda _: "struct S;"), "no function")
        for (row, column), function in rows:
            line = f"note: src/lib.rt:{row}:{column}: {self.GOAL}"
            self.assertEqual(wrong_bodies.function_of(line, lambda _: self.SOURCE), function, line)

    def test_disagreements(self) -> None:
        at = "note: src/lib.rt:17:5: "
        proof = "proofs/read/Pair/first/Answers.antt:3:1: error: "
        # What is printed of an error that goes on in the next line: "has no field `call`", or "has no `returns`".
        of_record = f"{proof}`returns-clause-ok`: record `Rattle.low.proofs.Pair.first.Lts.After` (nearest: .other)"
        of_goals = f"{proof}`returns-clause-ok`: `goal.returns-clause-ok`: module `Rattle.low.proofs.Pair.first.Goals`"
        # The first line of a wrong body, what `rt` prints, and whether they agree.
        rows = [
            ("# refused by Pair::first", f"{at}an index", True),
            ("# refused by Pair::first, clause ok", f"{at}{self.GOAL}", True),
            ("# refused by Pair::first, clauses err, end and ok", f"{at}{self.GOAL}", True),
            ("# refused by Pair::first, clause ok", f"{at}{self.GOAL[:-5]}", True),
            ("# refused by Pair::first, clause ok", f"{proof}`returns-clause-ok`: no", True),
            ("# refused by free", "src/lib.rt:19:1: error: no", True),
            ("# refused by first", "proofs/first/Answers.antt:1:1: error: no", True),
            ("# refused by Pair::first, clause ok", f"{proof}`returns-clause-ok`: expected type `record`", True),
            ("# refused by Pair::first, clause ok", of_record, False),
            ("# refused by Pair::first, clause ok", of_goals, False),
            ("# refused by Pair::first, clause ok", of_goals.partition(": module")[0][:-3], False),
            ("# refused by Pair::first", f"{at}{self.GOAL}", False),
            ("# refused by Pair::first, clause okay", f"{at}{self.GOAL}", False),
            ("# refused by Pair::first, clause err", f"{proof}`returns-clause-ok`: no", False),
            ("# refused by Pair::second, clause ok", f"{at}{self.GOAL}", False),
            ("# refused by first, clause ok", f"{at}{self.GOAL}", False),
            ("# refused by free", f"{proof}no", False),
            ("# refused by free", "proofs/tables/Free.antt:1:1: error: no", False),
            ("# refused by free", "", False),
            ("# refused by Pair::first, which reads", f"{at}an index", False),
            ("file: src/lib.rt", f"{at}an index", False),
        ]
        for note, line, agree in rows:
            why = wrong_bodies.disagreement(note, line, lambda _: self.SOURCE)
            self.assertEqual(why is None, agree, (note, line, why))

    def test_limits(self) -> None:
        """Where a search ended at a limit, a body has to say with which value all is proved."""
        search, grind = (f"note: {self.GOAL}; `{it}` gave up at one of its limits" for it in ("search", "grind"))
        stopped = "./proofs/first/Answers.antt:8:4: error: `goal`: `grind` stopped at its own limit of 20000 steps"
        false = f"{self.GOAL}; the facts known there allow values at which this goal is false"
        for line, is_limit in (
            (search, True),
            (grind, True),
            (stopped, True),
            (stopped[: stopped.index("at its")], True),
            (stopped.replace("stopped at its own limit of 20000 steps", "found no proof"), False),
            (search[: search.index("gave")], True),
            (search[: search.index("; `") + 3], True),
            (f"note: {self.GOAL}", False),
            (false, False),
            (false[: false.index("facts")], False),
        ):
            note = "# refused by first\n# A value is dropped."
            for notes, is_shown in ((note, False), (f"{note} With `x` as VALUE, all\n# is proved.", True)):
                why = wrong_bodies.unshown(f"{notes}\nfile: src/lib.rt\nnew: // all is proved\n", line)
                self.assertEqual(why is None, is_shown or not is_limit, (notes, line))

    @unittest.skipUnless(shutil.which("rt"), "there is no Rattle kit")
    def test_notes(self) -> None:
        """The first line of each wrong body names a function that the sources have, and no line is too long."""
        for path in sorted(glob.glob(f"{kit.ROOT}/crates/*/must-fail/*.edit")):
            folder = os.path.dirname(os.path.dirname(path))
            note = kit.text_of(path).partition("\n")[0]
            found = wrong_bodies.NOTE.fullmatch(note)
            assert found, (path, note)
            texts = kit.load_rt().read_edit(path, folder)[0]
            texts = [*texts.values(), *(text for _, text in kit.sources(os.path.basename(folder)))]
            self.assertIn(found[1], [name for it in texts for _, name in wrong_bodies.functions(it)], path)
            self.assertLessEqual(max(map(len, kit.text_of(path).splitlines())), 160, path)
