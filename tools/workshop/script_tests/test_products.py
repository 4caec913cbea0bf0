"""Tests of where products are kept, and of the libraries that `rt ci` has kept."""
import contextlib
import os
import tempfile
import unittest
from collections.abc import Iterator
from types import SimpleNamespace
from unittest import mock

from workshop import kit
from workshop.code import products, proving


class Keeping(unittest.TestCase):
    """A product is found if its sources are those that it was put for, also once its place is empty."""

    def test_found(self) -> None:
        crate, other = [*kit.CRATES][:2]
        with tempfile.TemporaryDirectory() as folder, mock.patch.dict(os.environ, XDG_CACHE_HOME=f"{folder}/cache"):
            made = f"{folder}/made"
            place = f"{folder}/out/program"
            kit.write_file(made, "the program")
            self.assertIsNone(products.find(place, crate))
            self.assertEqual(products.keep(made, place, products.sums(crate)), place)
            os.remove(place)
            self.assertEqual(products.find(place, crate), place)
            self.assertEqual(kit.text_of(place), "the program")
            self.assertIsNone(products.find(place, other))


class Sources(unittest.TestCase):
    """The code of a crate is decided by its sources and its lines of crates.txt, and by those below it."""

    def test_rows(self) -> None:
        crate = [*kit.CRATES][1]
        with mock.patch.object(products, "sums", lambda _: "12  crates.txt\n34  a source\n"):
            before = products.code_of(crate)
            self.assertNotIn("crates.txt", before)
            self.assertIn("34  a source\n", before)
            with mock.patch.dict(kit.CRATES, other=[]):
                self.assertEqual(products.code_of(crate), before)
            with mock.patch.dict(kit.CRATES, {crate: []}):
                self.assertNotEqual(products.code_of(crate), before)


    def test_files(self) -> None:
        """Sources, specs and proofs count, those of the crates below, too."""
        named = {line.partition("  ")[2] for line in products.sums("dwarf_unit_core").splitlines()}
        for crate in ("dwarf_unit_core", "dwarf_reader_core", "dwarf_base_core"):
            for part in ("src", "specs", "proofs"):
                files = kit.files_below(f"{kit.ROOT}/crates/{crate}/{part}")
                self.assertEqual({os.path.relpath(it, kit.ROOT) for it in files} - named, set())
        self.assertIn("crates.txt", named)

    def test_kit(self) -> None:
        """Another kit makes another product of the same sources."""
        places = set()
        for version in kit.KITS:
            with mock.patch.object(kit, "version", lambda version=version: version), mock.patch("shutil.which", str):
                places.add(products.place_of_copy("program", "sources"))
        self.assertEqual(len(places), len(kit.KITS))


class Libraries(unittest.TestCase):
    """The libraries below a crate are taken if `rt ci` has kept all of them. Otherwise `rt ci` runs."""

    def made(self, kept: set[str]) -> list[str]:
        """What is done where these are kept: each library that is taken, and the run of `rt ci`."""
        done: list[str] = []

        class Kept:
            """What `rt ci` has kept."""

            def __init__(self, crates: object) -> None:
                pass

            def key(self, crate: SimpleNamespace) -> str:
                return f"key of {crate.name}"

            def give(self, crate: SimpleNamespace, tests: bool, key: str) -> bool:
                return not tests and key == f"key of {crate.name}" and crate.name in kept

            def is_built(self, crate: SimpleNamespace) -> None:
                done.append(crate.name)

        def crate_of(folder: str, root: str, known: object) -> SimpleNamespace:
            return SimpleNamespace(folder=folder, name=os.path.basename(folder))

        @contextlib.contextmanager
        def proved(crates: list[str], tell: object) -> Iterator[None]:
            done.append("rt ci")
            yield None

        rt = SimpleNamespace(Kept=Kept, Crate=crate_of)
        with mock.patch.object(kit, "load_rt", return_value=rt), mock.patch.object(proving, "proved", proved):
            with proving.libraries("dwarf_read_c", lambda text: None) as copy:
                self.assertEqual(copy is None, "rt ci" in done)
        return done

    def test_all_are_kept(self) -> None:
        below = kit.below("dwarf_read_c")
        self.assertEqual(self.made({*below}), below)

    def test_one_is_missing(self) -> None:
        below = kit.below("dwarf_read_c")
        self.assertEqual(self.made({*below} - {below[2]}), [*below[:2], "rt ci"])
