"""Tests of what `tools/api` prints and writes, and of what `tools/api --check` finds on the pages."""
import contextlib
import io
import os
import re
import tempfile
import unittest
from unittest import mock

from workshop import frame, kit
from workshop.lists import api
from workshop.script_tests import failed


class Pages(unittest.TestCase):
    """Each test changes one place of a page, and looks for the one line that reports it."""

    def put(self, name: str, value: object) -> None:
        """Gives a name of the script another value until the test ends."""
        self.addCleanup(setattr, api, name, getattr(api, name))
        setattr(api, name, value)

    def changed(self, name: str, old: str, new: str) -> None:
        """Puts a copy of a page, changed in one place, in place of the page."""
        text = kit.text_of(getattr(api, name))
        self.assertEqual(text.count(old), 1, old)
        with tempfile.NamedTemporaryFile("w", encoding="utf-8", suffix=".md", delete=False) as file:
            file.write(text.replace(old, new))
        self.addCleanup(os.remove, file.name)
        self.put(name, file.name)

    def test_check(self) -> None:
        """The check fails for a line of any of these, and for a page that isn't what would be written."""
        names = {
            "misnamed": "names_of_quoted",
            "without_row": "rows_of_calls",
            "absent": "names_of_proved",
            "misplaced": "preconditions",
            "without_caller": "examples",
            "private": "lemmas_of_other_crates",
            "unlisted": "lists_of_lemmas",
            "uncited": "citations",
            "text_of": "quoted/dwarf_read_core",
        }
        self.assertEqual(len(names) + len(api.QUOTED) - 1, len(frame.tests_of([api.Pages])))
        for faulty, name in names.items():
            self.put("text_of", lambda crate, text: text)
            for it in [*names][:-1]:
                self.put(it, lambda *_: [])
            if faulty == "text_of":
                self.put(faulty, lambda crate, text: text + "more" * (crate == "dwarf_read_core"))
            else:
                self.put(faulty, lambda *_: ["a fault"])
            self.assertEqual(failed(api.Pages), [f"api.Pages.{name}"])
            self.doCleanups()

    def test_call_without_row(self) -> None:
        self.changed("PROVED", "| `get_str_offset`, `get_address` |", "| `get_address` |")
        wanted = ["docs/PROVED.md has no row for dwarf_read_core: DebugStrOffsets::get_str_offset"]
        self.assertEqual([*api.without_row()], wanted)

    def test_requires_that_is_not_listed(self) -> None:
        self.changed("USING", "- `Section::load`:", "- load:")
        self.assertEqual([*api.misplaced()], ["docs/USING.md doesn't list what Section::load requires"])

    def test_listed_call_that_requires_nothing(self) -> None:
        self.changed("USING", "- `Section::load`:", "- `Section::id`: nothing\n- `Section::load`:")
        wanted = ["docs/USING.md lists Section::id, which requires nothing, or lists it twice"]
        self.assertEqual([*api.misplaced()], wanted)

    def test_names_that_are_not_there(self) -> None:
        planted = (
            # Another call has this clause, and that of the row has it not.
            ("where the table ends (`end`)", "where the table ends (`stable`)", "stable"),
            ("each attribute two (`bound`)", "each attribute two (`bounds`)", "bounds"),
            # Only another crate defines this.
            ("each attribute two (`bound`)", "each attribute two (`unit_fields`)", "unit_fields"),
            ("`laws::codes_are_keys`", "`laws::codes_are_key`", "laws::codes_are_key"),
            ("change_no_string`, `_word`", "change_no_string`, `_words`", "laws::appended_bytes_change_no_words"),
            ("(`StringAt`)", "(`StringFrom`)", "StringFrom"),
            ("the output (`closed`, `kept`)", "the output (`closed`, `keeps`)", "keeps"),
        )
        for old, new, name in planted:
            with self.subTest(name):
                self.changed("PROVED", old, new)
                found = [it.partition(", which nothing there has: ")[0] for it in api.absent()]
                self.assertEqual(found, [f"docs/PROVED.md names {name}"])
                self.doCleanups()

    def test_quoted_name_of_no_call(self) -> None:
        for name in ("DebugAbbrev::abbreviation", "abbreviations", "laws::codes_are_keys", "Endianity::read_u32"):
            with self.subTest(name):
                self.put("QUOTED", {**api.QUOTED, "dwarf_read_core": f"DebugAbbrev::new {name}"})
                wanted = f"QUOTED in tools/api has {name}, which is no public call of dwarf_read_core"
                self.assertEqual([*api.misnamed()], [wanted])
                self.doCleanups()

    def test_name_that_is_quoted_twice(self) -> None:
        self.put("QUOTED", {**api.QUOTED, "dwarf_read_core": "DebugStr::get_str DebugStr::get_str"})
        self.assertEqual([*api.misnamed()], ["QUOTED in tools/api has DebugStr::get_str of dwarf_read_core twice"])

    def test_page_with_a_wrong_name_is_not_written(self) -> None:
        self.put("QUOTED", {**api.QUOTED, "dwarf_read_core": "DebugStr::get"})
        said = io.StringIO()
        with mock.patch.object(kit, "write_file") as put, contextlib.redirect_stderr(said):
            self.assertEqual(api.main([]), 1)
        put.assert_not_called()
        wanted = "QUOTED in tools/api has DebugStr::get, which is no public call of dwarf_read_core\n"
        self.assertEqual(said.getvalue(), wanted)

    def test_clause_that_is_not_there(self) -> None:
        page = kit.text_of(f"{kit.ROOT}/crates/dwarf_read_core/CALLING.md")
        old = "  ensures kept: (key : ℕ) → StillKept (finite.get S key) (finite.get S' key)\n"
        self.assertEqual(page.count(old), 1)
        for new in ("", old + old, old.replace("StillKept", "Kept")):
            self.assertNotEqual(api.text_of("dwarf_read_core", page.replace(old, new)), page.replace(old, new))

    def test_contracts_that_no_page_quotes(self) -> None:
        page = kit.text_of(f"{kit.ROOT}/crates/dwarf_read_core/CALLING.md")
        ran = kit.run([f"{kit.ROOT}/tools/api", "dwarf_read_core"])
        self.assertEqual((ran.returncode, ran.stdout), (0, "\n".join([*api.contracts("dwarf_read_core"), ""])))
        for line in ("  ensures none: result.by_code ≡ finite.empty\n", "  ghost section_id = debug_abbrev\n"):
            self.assertEqual((ran.stdout.count(line), page.count(line)), (1, 0), line)
        # Neither of these has a trait, so each public function is a call.
        for crate in ("dwarf_read_c", "dwarf_listing_core"):
            wanted = sum(len(re.findall(r"^ *pub .*\bfn \w", it, re.M)) for _, it in kit.sources(crate, False))
            self.assertEqual(len([it for it in api.contracts(crate) if it.startswith("fn ")]), wanted, crate)

    def test_crate_without_a_page(self) -> None:
        ran = kit.run([f"{kit.ROOT}/tools/api", "dwarf_uses"])
        self.assertEqual((ran.returncode, ran.stdout.split("\n")[0]), (2, "api: no library crate: dwarf_uses"))

    def test_example_without_a_caller(self) -> None:
        found = [*api.examples()]
        self.assertEqual([*api.without_caller(found)], [])
        _, begun, block = found[0]
        planted = ("planted.md", begun, [*block, "let more = 1;"])
        self.assertEqual([*api.without_caller([planted])], [f"planted.md:{begun}: this example is in no caller"])

    def test_clauses_in_the_short_form(self) -> None:
        lines = ["ensures ok { OnOk result", "    (self.new ≡ self.old) }"]
        self.assertEqual(api.clause(lines), ["  ensures ok: OnOk result", "      (S' ≡ S)"])

    def test_lemmas_that_a_page_lists(self) -> None:
        page = kit.text_of(f"{kit.ROOT}/crates/dwarf_read_core/CALLING.md")
        for old, new in (("`proofs.public.Items`", "`proofs.public.Item`"), ("`proofs.public.Readings`", "readings")):
            self.assertEqual(page.count(old), 1)
            names = sorted({old, new} - {"readings"})
            wanted = [f"crates/dwarf_read_core/CALLING.md and proofs/public.antt differ in {it[1:-1]}" for it in names]
            self.assertEqual([*api.unlisted([("dwarf_read_core", page.replace(old, new))])], wanted)

    def test_lemma_that_is_not_offered(self) -> None:
        own = "use Rattle.dwarf_read_core.proofs.contributions.Contributions.{set_more}\n"
        offered = "use Rattle.dwarf_reader_core.proofs.public.Once.{one_unless}\n"
        other = "pub use Rattle.dwarf_reader_core.proofs.leb.Bits\n"
        planted = ("dwarf_read_core", "planted.antt", own + offered + other)
        wanted = ["planted.antt cites proofs.leb.Bits, which dwarf_reader_core doesn't offer"]
        self.assertEqual([*api.private([planted])], wanted)

    def test_lemma_that_nothing_cites(self) -> None:
        own = "use Rattle.low.proofs.Sums.{zero-add}\n-- zero-add\npub zero-add : (n : ℕ) → n ≡ n\nzero-add n = refl\n"
        again = "pub twice : (n : ℕ) → n ≡ n\ntwice zero = refl\ntwice (suc n) =\n    twice n\n"
        files = [("low", "crates/low/proofs/Sums.antt", own + again)]
        law = ("low", "crates/low/src/laws.rt", "using(crate::proofs::Sums::zero-add)")
        rows: list[tuple[list[tuple[str, str, str]], list[str], list[str]]] = [
            (files, [], ["zero-add"]),
            (files, ["`zero-add`"], []),
            ([*files, law], [], []),
        ]
        for there, pages, wanted in rows:
            self.assertEqual([*api.uncited(there, pages)], [f"{files[0][1]}: nothing cites {it}" for it in wanted])
