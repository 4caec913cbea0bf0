"""Tests of pages: that each link leads somewhere in the repository, that lists, names and examples fit the sources, and
that numbers are those that were measured."""
import glob
import os
import re
import unittest

from workshop import kit
from workshop.compare import measured

PAGES = ("*.md", "docs/*.md", "rust/*.md", "crates/*/*.md")
FENCED = re.compile(r"^```.*?^```", re.M | re.S)
HEADING = re.compile(r"^#+ (.*)$", re.M)
# A link with its target, or the line of a target; and a link whose target is on such a line.
TARGET = re.compile(r"\]\((?!https?:)([^)\s]+)\)|^\[[^]]+\]: (\S+)$", re.M)
SHORT = re.compile(r"\[(`[^`]+`)\](?![(\[:])|\]\[([^]]+)\]")


def anchors(text: str) -> set[str]:
    """What links name the headings of a page by."""
    return {re.sub(r"[^\w -]", "", it.lower()).replace(" ", "-") for it in HEADING.findall(FENCED.sub("", text))}


def dead(page: str, text: str) -> list[str]:
    """The links of a page with this text that lead nowhere."""
    prose = FENCED.sub("", text)
    found = ["".join(it) for it in SHORT.findall(prose) if f"\n[{''.join(it)}]: " not in prose]
    for target in map("".join, TARGET.findall(prose)):
        path, _, anchor = target.partition("#")
        file = os.path.join(os.path.dirname(page), path)
        if not os.path.exists(file) or anchor and anchor not in anchors(kit.text_of(file) if path else text):
            found.append(target)
    return found


def of_kind(page: str, kind: str) -> list[str]:
    """The fenced blocks of a page that have this word after the fence."""
    return re.findall(rf"^```{kind}\n(.*?)^```$", kit.text_of(f"{kit.ROOT}/{page}"), re.M | re.S)


# A ratio in a text, such as 0.57, and neither a version nor a part of one.
RATIO = re.compile(r"(?<![\d.])(?<!gimli )\d\.\d\d(?!\.?\d)")
# The rows that the ratios of README's section on speed are from, in their order, each after the command that wrote it.
RATIOS = [
    ("time --elf", "a declaration of a table, a Rust program"),
    ("time --elf", "a declaration of a table, a C++ object"),
    ("time --elf", "a declaration of a table by the call for C, a Rust program"),
    ("time --elf", "a declaration of a table by the call for C, a C++ object"),
]
# What the section says in words, the ratios of which it is true, and the rows that have to have such ratios.
IN_WORDS = [
    (
        "`get_str` takes less than half of gimli's time.",
        (0.0, 0.495),
        [
            ("time", "`get_str`, made-up strings"),
            ("time --elf", "`get_str`, strings of a Rust program"),
            ("time --elf", "`get_str`, strings of a C++ object"),
        ],
    ),
    (
        "Numbers of 16 bits, skipped numbers and `get_str_offset` take as long as in gimli.",
        (0.95, 1.05),
        [
            ("time", "a number of 16 bits of any length"),
            ("time", "a number of 16 bits mostly of one byte"),
            ("time", "a number skipped, of any length"),
            ("time", "a number skipped, mostly of one byte"),
            ("time", "`get_str_offset`"),
        ],
    ),
]
GIMLI = re.compile(r"gimli (\d+\.\d+(?:\.\d+)?)")


def unmeasured(page: str, file: str) -> list[str]:
    """The rows with a number of a page that the file of measurements does not have, and the ratios that are
    in no row."""
    rows = set(measured.rows_of(file).items())
    of_page = measured.rows_of(page)
    found = [row for place, row in of_page.items() if re.search(r"\d", row) and (place, row) not in rows]
    return found + [it for it in RATIO.findall(measured.TABLE.sub("", page)) if it != "1.00"]


def ratio_of(file: str, command: str, name: str) -> str:
    """The ratio of a row that a command wrote into a file of measurements with this text."""
    section = dict(measured.SECTION.findall(file))[command]
    row = {cells.split(" | ")[0]: (head, cells) for (head, _), cells in measured.rows_of(section).items()}[f"| {name}"]
    head, cells = (it.split(" | ") for it in row)
    return cells[head.index("ratio")]


def misquoted(speed: str, file: str) -> list[str]:
    """What a section on speed with this text says, and the file of measurements doesn't."""
    said, written = RATIO.findall(speed), [ratio_of(file, *it) for it in RATIOS]
    found = [] if said == written else [f"{' '.join(said)}, not {' '.join(written)}"]
    for words, (low, high), rows in IN_WORDS:
        if words not in " ".join(speed.split()):
            found.append(f"not there: {words}")
        found += [f"{name}: {words}" for at, name in rows if not low <= float(ratio_of(file, at, name)) <= high]
    return found


class Pages(unittest.TestCase):
    def test_numbers(self) -> None:
        """The rows of BENCHMARKS are those that `tools/compare` wrote, and README's section on speed quotes rows."""
        file = kit.text_of(measured.FILE)
        speed = kit.text_of(f"{kit.ROOT}/README.md").partition("\n## Speed\n")[2].partition("\n## ")[0]
        self.assertEqual(unmeasured(kit.text_of(measured.PAGE), file), [])
        self.assertEqual(misquoted(speed, file), [])

    def test_misquoted(self) -> None:
        file = kit.text_of(measured.FILE)
        speed = f"{' '.join(ratio_of(file, *it) for it in RATIOS)} {' '.join(it for it, _, _ in IN_WORDS)}"
        self.assertEqual(misquoted(speed, file), [])
        swapped = " ".join(ratio_of(file, *it) for it in reversed(RATIOS))
        self.assertEqual(len(misquoted(f"{swapped} {speed.partition(' `')[2]}", file)), 2)
        for command, name in [*RATIOS, *(it for *_, rows in IN_WORDS for it in rows)]:
            row = re.compile(rf"(`tools/compare {command}`\n.*?\| {re.escape(name)} \| .*? \| .*? \| )\d", re.S)
            self.assertEqual(len(misquoted(speed, row.sub(r"\g<1>7", file, 1))), 1, name)

    def test_numbers_of_sources(self) -> None:
        """Pages have the numbers of the sources: the room of a table, the header of a set, versions, and the kit."""

        def text(path: str) -> str:
            return " ".join(kit.text_of(f"{kit.ROOT}/{path}").split())

        rows, attributes = map(int, re.findall(r"left / \d < (\d+)", text("include/dwarf_read.h")))
        lengths = re.findall(r"Format::Dwarf\d\d => (\d+),", text("crates/dwarf_base_core/src/common.rt"))
        narrow, wide = (int(it) + 2 + 2 for it in lengths[:2])
        rust = re.findall(r'rust-version = "(.*?)"', text("rust/Cargo.toml"))[0]
        kits = [it.split() for it in kit.KITS]
        for page, words in (
            ("docs/C.md", f"it makes room for {rows:,} abbreviations and {attributes:,} attributes at first"),
            ("docs/DECISIONS.md", f"make room for {rows:,} abbreviations at first"),
            ("rust/src/table.rs", f"at most {rows:,} /// abbreviations and {attributes:,} attributes"),
            ("rust/src/table.rs", f"USUAL_ROWS: usize = {rows}; const USUAL_ATTRIBUTES: usize = {attributes};"),
            ("docs/C.md", f"their `base` is {narrow}, or {wide} in the 64-bit format"),
            ("rust/README.md", f"The crate needs Rust {rust}."),
            ("elf/Cargo.toml", f'rust-version = "{rust}"'),
            ("CONTRIBUTING.md", f"the `rustc` that it installs, {rust}, has to compile the crate for Rust"),
            ("README.md", f"(`{kits[0][0]}` or `{kits[1][0].rpartition('-')[2]}`, checker sum `{kits[0][2]}`, as"),
        ):
            self.assertTrue(words in text(page), f"{page}: {words}")

    def test_versions_of_gimli(self) -> None:
        """Pages name the version that the comparer's lock file has, and the oldest that its manifest takes."""
        lock, manifest = (kit.text_of(f"{kit.ROOT}/compare/{it}") for it in ("Cargo.lock", "Cargo.toml"))
        locked = re.findall(r'name = "gimli"\nversion = "(.*)"', lock)[0]
        oldest = re.findall(r'^gimli = .*">=(\d+\.\d+)', manifest, re.M)[0]
        pages = [it for pattern in ("*.md", "docs/*.md", "rust/*.md") for it in glob.glob(f"{kit.ROOT}/{pattern}")]
        named = {it for page in pages if "CHANGELOG" not in page for it in GIMLI.findall(kit.text_of(page))}
        self.assertEqual(named, {locked, locked.rpartition(".")[0], oldest, f"{oldest}.0"})

    def test_stale_numbers(self) -> None:
        head = "| times | gimli | here |\n|---|---|---|\n"
        file = f"## `tools/compare time`\n\n{head}| one | 5.0 | 2.5, 0.50 |\n| two | 4.0 | 1.0, 0.25 |\n"
        rows = [
            (f"As gimli 0.27 and 1.00:\n\n{head}| two | 4.0 | 1.0, 0.25 |\n", []),
            (f"{head}| two | 4.0 | 2.0, 0.50 |\n", ["| two | 4.0 | 2.0, 0.50 |"]),
            (f"{head}| three | 4.0 | 1.0, 0.25 |\n", ["| three | 4.0 | 1.0, 0.25 |"]),
            (f"{head.replace('times', 'counts')}| one | 5.0 | 2.5, 0.50 |\n", ["| one | 5.0 | 2.5, 0.50 |"]),
            ("In 0.51 of its time.", ["0.51"]),
        ]
        for page, wanted in rows:
            self.assertEqual(unmeasured(page, file), wanted, page)
        new = measured.rows_of(f"{head}| two | 4.0 | 3.0, 0.75 |\n")
        self.assertEqual(unmeasured(measured.put_rows(rows[0][0], new), file), ["| two | 4.0 | 3.0, 0.75 |"])

    def test_links(self) -> None:
        for page in [it for pattern in PAGES for it in glob.glob(f"{kit.ROOT}/{pattern}")]:
            self.assertEqual(dead(page, kit.text_of(page)), [], page)

    def test_dead_links(self) -> None:
        for link in ("docs/NONE.md", "docs/C.md#none", "#none", "LICENSE-MIT#none"):
            self.assertEqual(dead(f"{kit.ROOT}/README.md", f"# One\n[a]({link}) [b](#one) [c](docs/C.md#rust)"), [link])
        self.assertEqual(dead(f"{kit.ROOT}/README.md", "[`None.antt`] [a][b]\n[b]: README.md"), ["`None.antt`"])

    def test_quoted_blocks(self) -> None:
        """README's examples in C and for the crate for Rust are parts of blocks that are compiled and run: tools/examples
        compiles those of docs/C.md, and cargo those of rust/README.md."""
        for kind, page, of_page in (("c", "docs/C.md", "c"), ("rust,no_run", "rust/README.md", "rust")):
            quoted = of_kind("README.md", kind)
            self.assertTrue(quoted, kind)
            for block in quoted:
                self.assertTrue(any(f"\n{block}" in f"\n{it}" for it in of_kind(page, of_page)), block)

    def test_crates(self) -> None:
        """The table of crates in ARCHITECTURE has each crate once, and no other."""
        table = kit.text_of(f"{kit.ROOT}/ARCHITECTURE.md").partition("\n| Crate | Contents |\n")[2].partition("\n\n")[0]
        found = [name for row in table.splitlines() for name in re.findall(r"`(dwarf_\w+)`", row.split("|")[1])]
        self.assertEqual(sorted(found), sorted(kit.CRATES))

    def test_names_of_definitions(self) -> None:
        """Each name that docs/DEFINITIONS.md has alone between backticks is one of the sources or of their definitions."""
        folders = [f"{kit.ROOT}/crates/{crate}/{part}" for crate in kit.CRATES for part in ("src", "specs")]
        files = [it for folder in folders for it in kit.files_below(folder)]
        known = {word for it in files for word in re.findall(r"\w+", kit.text_of(it))}
        prose = FENCED.sub("", kit.text_of(f"{kit.ROOT}/docs/DEFINITIONS.md")).partition("\n## The headline\n")[2]
        named = set(re.findall(r"`([A-Za-z_]\w*)`", prose))
        self.assertGreater(len(named), 100)
        self.assertEqual(sorted(named - known - {*kit.CRATES}), [])

    def test_lines_of_the_headline(self) -> None:
        """README and docs/DEFINITIONS.md say about how many lines the definitions of the headline have, and the second has
        the command that counts them."""
        pages = ("README.md", "docs/DEFINITIONS.md")
        said = [int(it) for page in pages for it in re.findall(r"about (\d+)\s+lines", kit.text_of(f"{kit.ROOT}/{page}"))]
        counted = int(kit.run(["sh", "-c", of_kind(pages[1], "sh")[0]], cwd=kit.ROOT).stdout)
        self.assertEqual([it for it in said if abs(it - counted) <= 5], said, counted)
        self.assertEqual(len(said), len(pages))
