"""Writes what crates/CRATE/CALLING.md quotes from the sources, and prints contracts.

    tools/api            writes these parts
    tools/api CRATE      prints the contracts of all public calls of a library crate, and the ghost members of public
                         types and traits that contracts cite, by file
    tools/api --check    says whether the parts are what would be written, whether docs/PROVED.md has a row for each
                         call and names only what is there, whether docs/USING.md lists the calls that require
                         something, whether each example is in a caller, whether crates cite only lemmas in another
                         one's proofs/public, whether pages list these, and whether each lemma is cited; the exit status is
                         1 if not

The front of such a file is written by hand, up to the first heading that this script writes. What follows is a caller,
which is a whole file; the contracts of the calls that QUOTED lists below; and by name the laws, and what the traits in
NAMED have. Contracts are in the kit's short form: `S` is what `self` points to at the call, and `S'` at the return.

A call is `TYPE::call`, or `FILE::call` if it belongs to no type. It has a row in docs/PROVED.md if the column of calls
names it, or its type, below the heading that names its crate. A name in parentheses there is a law, a definition, a
ghost member, or a clause of a call that the row names. The list below the heading "Preconditions" of docs/USING.md has
a line for each call with a `requires`, and no other.

An example is a fenced block in a documentation comment of `crates/`, or one of Rust on another page. Its lines are
consecutive in a proved caller or a proved test, except for indentation and empty lines.
"""
import functools
import glob
import itertools
import os
import pathlib
import re
import sys
import textwrap
from collections import Counter
from collections.abc import Iterable, Iterator, Sequence
from dataclasses import dataclass
from typing import Optional

from workshop import frame, kit

PROVED = f"{kit.ROOT}/docs/PROVED.md"
USING = f"{kit.ROOT}/docs/USING.md"
# Those of the library, of listings, of units, of entries, and of the library for C.
CRATES = (*kit.below("dwarf_list"), "dwarf_unit_core", "dwarf_entry_core", "dwarf_read_c")
# The crates with such a page, and the calls whose contracts it quotes, in this order: those that most callers use.
QUOTED = {
    "dwarf_reader_core": """
        EndianSlice::new EndianSlice::with_first_id EndianSlice::slice
        Reader::split Reader::read_u32 Reader::read_word Reader::read_initial_length Reader::read_uleb128
        Leb128::unsigned Leb128::bytes write::uleb128_size
    """,
    "dwarf_read_core": """
        DebugAbbrev::new DebugAbbrev::abbreviations DebugAbbrev::abbreviations_and_end
        Abbreviations::get Abbreviations::iter
        AbbreviationsCache::populate AbbreviationsCache::get AbbreviationsCache::section_grew
        DebugStrOffsets::get_str_offset DebugStr::get_str DebugAddr::get_address
        DebugAddr::headers ContributionHeaderIter::next AddrHeader::entries AddrEntryIter::next
    """,
    "dwarf_unit_core": """
        DebugInfo::new DebugInfo::units UnitHeadersIter::next DebugInfo::header_from_offset
        UnitHeader::offset UnitHeader::unit_length UnitHeader::encoding UnitHeader::type_
        UnitHeader::debug_abbrev_offset UnitHeader::entries_buf
    """,
    "dwarf_entry_core": """
        EntriesRaw::new EntriesRaw::is_empty EntriesRaw::next_offset EntriesRaw::read_abbreviation
        EntriesRaw::read_attribute EntriesRaw::read_attributes EntriesRaw::skip_attributes
    """,
}
# The traits whose members a page lists by name.
NAMED = {"dwarf_reader_core": "Reader"}
# The callers that are quoted whole, and the crates that have the examples.
CALLER_OF = {f"dwarf_{it}": f"dwarf_uses/src/calling/{it}.rt" for it in ("reader_core", "read_core")}
CALLERS = ("dwarf_uses", "dwarf_read_tests", "dwarf_unit_tests", "dwarf_entry_tests", "dwarf_tags")
# The headings that this script writes first, and what is below the second, before and after the contracts.
CALLER, CONTRACTS = "## A caller\n", "## Contracts\n"
SHORTENED = """
`tools/api` quotes these from `src/`, shortened as in the kit's `std/COMMON.md`: `S` is what `self` points to at the
call, and `S'` at the return. `specs/` defines the words, and [DEFINITIONS](../../docs/DEFINITIONS.md) says how they fit
together. A path such as `finite.get`, or a word under another name, comes from the `ghost use` lines of its file.
"""
OTHERS = """
For a contract that this page doesn't quote, run `tools/api {crate}`, which prints all, or, in the crate's
folder, `grep -rn -A12 'fn NAME' src`.
"""
LAWS = "\n## Laws\n\nEach is a function of the module `laws`, and its contract is the law.\n"
MEMBERS = "\n## `{trait}`\n\nThe ghost members of the trait, which clauses cite, and its calls.\n"
# How wide a line of a signature may be.
WIDTH = 120
SKIPPED = {"lib.rt", "constants.rt"}
TYPE = re.compile(r"^(?:impl(?:<.*?>)? |pub trait )(\w+)(?:<|:|$)")
# What the members of a file are found by: the end of a block, its heading, a call and a ghost member, each with the
# comment above it.
ITEM = re.compile(
    r"^(?P<end>\})$"
    r"|^(?P<owner>(?:pub )?(?:impl|trait)\b[^{]*)"
    r"|(?P<doc>(?:^ *///.*\n)*)(?:^ *(?:#\[|//).*\n)*"
    r"^ *(?P<pub>pub )?(?:const )?(?:extern \"C\" )?fn (?P<call>\w+)"
    r"|(?P<note>(?:^ *//.*\n)*)^    ghost (?P<ghost>\w+)(?: =|:) ",
    re.M,
)
CLAUSE = re.compile(r"^(?:requires|ensures)\b")
# A clause, or a comment above it.
OF_CONTRACT = re.compile(r"^(?:requires\b|ensures\b|//)")
PUBLIC = re.compile(r"^pub (?:struct|enum|trait) (\w+)", re.M)
# The ghost members that only proofs need, in traits too, and those by which an `impl` proves what its trait says.
OF_PROOFS = {"coded", "inverse", "inverse_ok", "invariant", "laws"}
PROOFS = {"fits_u64", "has_size", "holds_reader", "holds_u32", "respects_eq", "within"}
# What a page has as code, what it has in parentheses with code, and a name there; and what a file of specs/ defines.
SPAN = re.compile(r"`([^`]+)`")
IN_PARENTHESES = re.compile(r"\(([^()]*`[^()]*)\)")
NAME = re.compile(r"`((?:laws::)?\w+)`")
DEFINED = re.compile(r"^(?:abbrev |unfoldable )?pub (?:data |record )?(\w+)", re.M)
# An `impl` of a trait for a type, and what it has: calls, and clauses of its own.
OF_TRAIT = re.compile(r"^impl\b[^{]* for (\w+).*?^\}", re.M | re.S)
HAS = re.compile(r"^ *(?:fn|requires|ensures) (\w+)", re.M)
# The heading of the list of calls that require something, and a line of it.
REQUIRING = "## Preconditions\n"
LISTED = re.compile(r"^- `(\w+::\w+)`: ", re.M)
# The heading of the list of lemmas that a crate offers, a file on it, the declaration of one, and a citation: a crate and
# a file of its.
LEMMAS = "## Lemmas\n"
OFFERED = re.compile(r"`proofs\.([\w.]+)`")
DECLARED = re.compile(r"^pub (?:mod |use Rattle\.[\w.]+\.)(\w+)$", re.M)
CITED = re.compile(r"\buse Rattle\.(\w+)\.proofs\.(\w+(?:\.\w+)*)")
# What cites no lemma: comments and imports; a word of the rest; and the first line of a lemma, by its indentation.
UNCITING = re.compile(r"(?:--|//).*$|^ *(?:pub )?(?:ghost )?use .*$", re.M)
WORD = re.compile(r"[^\s(){}\[\],;.:@«»]+")
LEMMA = re.compile(r"^( *)(?:(?:pub|abbrev|unfoldable) )*([^\s(){}\[\],;.:@«»=|]+) : ", re.M)


@dataclass
class Member:
    """A public call, or a ghost member of a public type or trait: its name, the type or trait, the first sentence of
    what is said of it, and the lines of its signature and contract."""

    name: str
    owner: str
    said: str
    lines: list[str]
    is_ghost: bool = False

    def requires(self) -> bool:
        """Whether a call requires something of its caller."""
        return any(it.strip().startswith("requires") for it in self.lines)

    def key(self, path: pathlib.PurePath) -> str:
        """The name of a call of this file with its type or trait, or with its module."""
        return f"{type_of(self.owner) if self.owner else path.stem}::{self.name}"


def type_of(heading: str) -> str:
    """The type or trait of a heading such as `impl<R: Reader> DebugAddr<R>`."""
    return str(TYPE.findall(heading)[0])


# A file, and what it has.
OfFile = tuple[pathlib.PurePath, list[Member]]


def clause_end(lines: list[str], at: int) -> int:
    """The index of the line that closes the clause which begins here."""
    depth = 0
    while True:
        depth += lines[at].count("{") - lines[at].count("}")
        if depth <= 0:
            return at
        at += 1


def contract(lines: list[str], at: int) -> list[str]:
    """The lines of the signature and of the contract that begin at a line, without the body."""
    indent = len(lines[at]) - len(lines[at].lstrip())
    found: list[str] = []
    while True:
        line = lines[at].strip()
        if CLAUSE.match(line):
            end = clause_end(lines, at)
            found += lines[at : end + 1]
            at = end
            if lines[at].rstrip().endswith("};"):
                found[-1] = found[-1].rstrip().removesuffix(";")
                break
        elif line.endswith(("{", "{}", ";")):
            found.append(re.sub(r" *(\{|\{\}|;)$", "", lines[at]))
            break
        else:
            found.append(lines[at])
        at += 1
    return [it[indent:].rstrip() for it in found if it.strip()]


def sentence(doc: list[str]) -> str:
    """The first sentence of a documentation comment."""
    text = " ".join(doc).split(" # ")[0]
    # A stop inside of code ends nothing.
    found = re.match(r"((?:`[^`]*`|[^`])*?[.:?])(?: |$)", text)
    return (found[1] if found else text).rstrip(":.") + "."


def without_generics(text: str) -> str:
    """A heading without what it has in angle brackets."""
    text = text.replace("->", "")
    while "<" in text:
        text = re.sub(r"<[^<>]*>", "", text)
    return text


def is_cited(ghost: str, owner: str, public: set[str]) -> bool:
    """Whether contracts cite a ghost member of this `impl` or trait, if these types and traits are public."""
    heading = without_generics(owner)
    if heading.startswith("pub trait"):
        return ghost not in OF_PROOFS
    of_trait, _, of_type = (it.strip().split("::")[-1] for it in heading.removeprefix("impl").partition(" for "))
    # A type such as `u64` is no type of the crate.
    is_public = of_type in public or of_trait in public and not of_type[:1].isupper()
    return is_public and ghost not in OF_PROOFS | PROOFS and not ghost.endswith("_law")


def members(text: str, public: set[str]) -> Iterator[Member]:
    """The public calls of a file, and the ghost members of these types and traits."""
    lines = text.split("\n")
    owner = ""
    for it in ITEM.finditer(text):
        if it["end"] or it["owner"]:
            owner = " ".join((it["owner"] or "").split())
            continue
        said = [line.strip().lstrip("/").strip() for line in (it["doc"] or it["note"] or "").splitlines()]
        at = text.count("\n", 0, it.end())
        if it["ghost"] and owner and is_cited(it["ghost"], owner, public):
            found = [line[4:] for line in lines[at : clause_end(lines, at) + 1]]
            found[-1] = found[-1].removesuffix(";")
            yield Member(it["ghost"], owner, sentence(said) if said else "", found, True)
        elif it["call"] and " for " not in owner:
            if it["pub"] or owner.startswith("pub trait"):
                yield Member(it["call"], owner, sentence(said), contract(lines, at))


@functools.cache
def members_by_file(crate: str) -> list[OfFile]:
    """The files of a crate that have public calls or ghost members, each with those."""
    files = sorted((pathlib.PurePath(name), text) for name, text in kit.sources(crate, False))
    public = {name for _, text in files for name in PUBLIC.findall(text)}
    kept = [(path.relative_to(f"crates/{crate}/src"), [*members(text, public)]) for path, text in files]
    return [(path, found) for path, found in kept if path.name not in SKIPPED and found]


def calls() -> Iterator[tuple[str, pathlib.PurePath, Member]]:
    """The public calls, each after its crate and its file."""
    for crate in CRATES:
        for path, found in members_by_file(crate):
            yield from ((crate, path, it) for it in found if not it.is_ghost)


def shortened(text: str) -> str:
    """A clause in which `self` is what it points to, before the call and after it."""
    return re.sub(r"\bself\.new\b", "S'", re.sub(r"\bself\.(?:now|old)\b", "S", text))


def clause(lines: list[str]) -> list[str]:
    """The lines of a clause or of a ghost member, without the braces around what it says."""
    head, _, first = lines[0].partition("{")
    # A ghost member has its sign already.
    sign = ":" if CLAUSE.match(head) else ""
    found = [f"  {head.strip()}{sign} {first.strip()}"]
    found += [f"      {it.strip()}" for it in lines[1:]]
    found[-1] = found[-1].rstrip().removesuffix("}").rstrip()
    return [shortened(it) for it in found if it.strip()]


def clauses(lines: list[str]) -> Iterator[list[str]]:
    """The clauses of a contract, each as its lines."""
    at = 0
    while at < len(lines):
        end = clause_end(lines, at)
        yield lines[at : end + 1]
        at = end + 1


def in_short(member: Member) -> list[str]:
    """A call or a ghost member in the short form, as lines."""
    if member.is_ghost:
        said = textwrap.wrap(member.said, WIDTH, initial_indent="  // ", subsequent_indent="  // ")
        return said + clause(member.lines)
    begins = next((at for at, it in enumerate(member.lines) if OF_CONTRACT.match(it.strip())), len(member.lines))
    signature = " ".join(it.strip() for it in member.lines[:begins])
    signature = re.sub(r"^pub |extern \"C\" |const (?=fn)", "", signature)
    signature = signature.replace("( ", "(").replace(",)", ")").replace(", )", ")")
    if member.owner:
        signature = signature.replace("fn ", f"fn {type_of(member.owner)}::", 1)
    whole = [line for it in clauses([it.strip() for it in member.lines[begins:]]) for line in clause(it)]
    return textwrap.wrap(signature, WIDTH, subsequent_indent="    ", break_long_words=False) + whole


def contracts(crate: str) -> list[str]:
    """The contracts of a crate as lines, those of its laws last."""
    out: list[str] = []
    for path, of_file in sorted(members_by_file(crate), key=lambda it: it[0].name == "laws.rt"):
        out += ["", f"{path}"] if out else [f"{path}"]
        for (owner, is_ghost), own in itertools.groupby(of_file, lambda it: (it.owner, it.is_ghost)):
            out += [owner] if is_ghost else []
            out += [line for it in own for line in in_short(it)]
    return out


def caller(crate: str) -> str:
    """The caller of a crate that is quoted, or nothing if it has none."""
    if crate not in CALLER_OF:
        return ""
    source = kit.text_of(f"{kit.ROOT}/crates/{CALLER_OF[crate]}")
    lines = [it for it in source.split("\n") if not it.startswith("//!")]
    text = "\n".join(lines).strip("\n")
    return f"{CALLER}\n```rust\n{text}\n```\n\n"


def by_name(found: Iterable[Member]) -> str:
    """A list of calls and of ghost members, each with what is said of it."""
    lines: list[str] = []
    for it in found:
        name = " ".join(map(str.strip, clause(it.lines))) if it.is_ghost else it.name
        # A link of a documentation comment leads nowhere on a page.
        said = re.sub(r"\[(`[^`]+`)\]\([^)]*\)", r"\1", it.said)
        lines += textwrap.wrap(f"- `{name}`: {said}", WIDTH, subsequent_indent="  ", break_long_words=False)
    return "\n".join(["", *lines, ""])


def quoted(crate: str) -> str:
    """What the page of a crate has from its first contract on."""
    found = [(path, it) for path, of_file in members_by_file(crate) for it in of_file]
    laws = [it for path, it in found if path.name == "laws.rt"]
    named = {it.key(path): it for path, it in found if not it.is_ghost and path.name != "laws.rt"}
    keys = [it for it in QUOTED[crate].split() if it in named]
    text = "\n".join(["", "```text", *(line for it in keys for line in in_short(named[it])), "```", ""])
    text += OTHERS.format(crate=crate)
    if trait := NAMED.get(crate):
        of_trait = [it for _, it in found if it.owner.startswith(f"pub trait {trait}:")]
        text += MEMBERS.format(trait=trait) + by_name(sorted(of_trait, key=lambda it: not it.is_ghost))
    return text + (LAWS + by_name(laws) if laws else "")


def text_of(crate: str, there: str) -> str:
    """The file of a crate, as it is to be, if it is now this text."""
    front = re.split(f"^(?:{CALLER}|{CONTRACTS})", there, maxsplit=1, flags=re.M)[0]
    return f"{front}{caller(crate)}{CONTRACTS}{SHORTENED}{quoted(crate)}"


def misnamed() -> Iterator[str]:
    """A line for each name in QUOTED that isn't that of exactly one public call, or is there twice. A law is no such
    call, since a page has each by name."""
    found = [(crate, it.key(path)) for crate, path, it in calls() if path.name != "laws.rt"]
    for crate, names in ((crate, named.split()) for crate, named in QUOTED.items()):
        for it in dict.fromkeys(names):
            if found.count((crate, it)) != 1:
                yield f"QUOTED in tools/api has {it}, which is no public call of {crate}"
            elif names.count(it) > 1:
                yield f"QUOTED in tools/api has {it} of {crate} twice"


def passages() -> Iterator[tuple[list[str], set[str], str]]:
    """The rows and paragraphs of docs/PROVED.md about crates: the crates, the calls that a row names, and the text."""
    named: list[str] = []
    above: list[str] = []
    for block in kit.text_of(PROVED).split("\n\n"):
        if block.startswith("#"):
            named = SPAN.findall(block)
        elif not block.startswith("| "):
            yield named, set(), " ".join(block.split("\n"))
        else:
            for line in block.split("\n")[2:]:
                # A row of the last table is of the crate that it names, or else of that above.
                first, second, *_ = line.split(" | ")
                above = SPAN.findall(first) or above
                names = SPAN.findall(first if named else second)
                yield named or above, {"::".join(it.split("::")[-2:]) for it in names}, line


def is_named(path: pathlib.PurePath, call: Member, names: set[str]) -> bool:
    """Whether one of these names is that of a call or of its type."""
    key = call.key(path)
    return bool({call.name, key.split("::")[0], key} & names)


def without_row() -> Iterator[str]:
    """A line for each public call that docs/PROVED.md has no row for."""
    rows: dict[str, set[str]] = {}
    for crates, names, _ in passages():
        for crate in crates:
            rows.setdefault(crate, set()).update(names)
    for crate, path, call in calls():
        # What a law says is its own contract, and docs/DEFINITIONS.md has it.
        if path.name != "laws.rt" and not is_named(path, call, rows.get(crate, set())):
            yield f"docs/PROVED.md has no row for {crate}: {call.key(path)}"


def defined(crate: str) -> set[str]:
    """The names of a crate's laws, as `laws::NAME`, of its ghost members, and of what its specs/ defines."""
    found: set[str] = set()
    for path, of_file in members_by_file(crate):
        found.update(it.name for it in of_file if it.is_ghost)
        found.update(f"laws::{it.name}" for it in of_file if path.name == "laws.rt")
    for name in glob.glob(f"{kit.ROOT}/crates/{crate}/specs/**/*.antt", recursive=True):
        found.update(DEFINED.findall(kit.text_of(name)))
    return found


def absent() -> Iterator[str]:
    """A line for each name in parentheses of docs/PROVED.md that is neither one of those above nor that of a clause of
    the calls there, or of an `impl` of a trait for a type there. A paragraph is about all calls of its crates."""
    words = {it: defined(it) for it in CRATES}
    # Another crate's function may have the name of a clause.
    relations = {name for it in words.values() for name in it if not name[0].islower()}
    found = [*calls()]
    impls = [(it, block) for it in CRATES for _, text in kit.sources(it, False) for block in OF_TRAIT.finditer(text)]
    for crates, names, said in passages():
        own = [(path, it) for crate, path, it in found if crate in crates]
        texts = ["\n".join(it.lines) for path, it in own if not names or is_named(path, it, names)]
        texts += [block[0] for crate, block in impls if crate in crates and block[1] in names]
        known = relations.union(*(words.get(it, ()) for it in crates), *map(HAS.findall, texts))
        last = ""
        for name in [it for part in IN_PARENTHESES.findall(said) for it in NAME.findall(part)] if texts else []:
            # `_word` is short for the name before it, with another end.
            last = last.rpartition("_")[0] + name if name.startswith("_") else name
            if last not in known:
                yield f"docs/PROVED.md names {last}, which nothing there has: {said[:60].strip()}.."


def misplaced() -> Iterator[str]:
    """A line for each call that requires something and isn't listed, and for each listed one that requires nothing."""
    text = kit.text_of(USING).split(REQUIRING)[1].split("\n#")[0]
    listed = LISTED.findall(text)
    wanted = [it.key(path) for _, path, it in calls() if it.requires()]
    for it in sorted({*listed, *wanted}):
        if listed.count(it) < wanted.count(it):
            yield f"docs/USING.md doesn't list what {it} requires"
        elif listed.count(it) > wanted.count(it):
            yield f"docs/USING.md lists {it}, which requires nothing, or lists it twice"


def blocks(lines: Iterable[str]) -> Iterator[tuple[str, int, list[str]]]:
    """The fenced blocks among the lines of a page: the kind, the line's number, and the lines."""
    kind: Optional[str] = None
    begun = 0
    block: list[str] = []
    for number, line in enumerate(lines, 1):
        if not line.startswith("```"):
            block.append(line)
            continue
        if kind is not None:
            yield kind, begun, block
        kind = line[3:] if kind is None else None
        begun = number
        block = []


def examples() -> Iterator[tuple[str, int, list[str]]]:
    """The examples, each after its page and the number of its line."""
    for page in [*sorted(glob.glob(f"{kit.ROOT}/*.md")), *sorted(glob.glob(f"{kit.ROOT}/docs/*.md"))]:
        found = blocks(kit.text_of(page).split("\n"))
        yield from ((os.path.relpath(page, kit.ROOT), begun, block) for kind, begun, block in found if kind == "rust")
    for path, text in (it for crate in sorted(kit.CRATES) for it in kit.sources(crate)):
        lines = map(str.strip, text.split("\n"))
        doc = [it[3:].removeprefix(" ") if it.startswith(("///", "//!")) else "" for it in lines]
        yield from ((path, begun, block) for _, begun, block in blocks(doc))


def plain(lines: Iterable[str]) -> str:
    """The text of lines without indentation and without empty lines, between newlines."""
    return "\n" + "".join(f"{it}\n" for it in map(str.strip, lines) if it)


def without_caller(found: Iterable[tuple[str, int, list[str]]]) -> Iterator[str]:
    """A line for each of these examples that is in no caller."""
    callers = [plain(text.split("\n")) for crate in CALLERS for _, text in kit.sources(crate)]
    for page, begun, block in found:
        if not any(plain(block) in it for it in callers):
            yield f"{page}:{begun}: this example is in no caller"


def offered(crate: str) -> set[str]:
    """The files of lemmas that a crate offers to others."""
    path = f"{kit.ROOT}/crates/{crate}/proofs/public.antt"
    return {f"public.{it}" for it in DECLARED.findall(kit.text_of(path))} if os.path.exists(path) else set()


def citing() -> Iterator[tuple[str, str, str]]:
    """The files that may cite a lemma: a crate, the path of its file, and the text."""
    for crate in kit.CRATES:
        yield from ((crate, *it) for it in kit.sources(crate))
        for part in kit.PARTS[1:]:
            for path in sorted(glob.glob(f"{kit.ROOT}/crates/{crate}/{part}/**/*.antt", recursive=True)):
                yield crate, os.path.relpath(path, kit.ROOT), kit.text_of(path)


def private(files: Iterable[tuple[str, str, str]]) -> Iterator[str]:
    """A line for each lemma that one of these files cites of another crate, which doesn't offer it."""
    there = {it: offered(it) for it in kit.CRATES}
    for crate, path, text in files:
        for owner, file in CITED.findall(text):
            if owner in kit.CRATES and owner != crate and file not in there[owner]:
                yield f"{path} cites proofs.{file}, which {owner} doesn't offer"


def unlisted(pages: Iterable[tuple[str, str]]) -> Iterator[str]:
    """A line for each file of lemmas that the page of a crate, with this text, lists and the crate doesn't offer, or the
    other way round."""
    for crate, text in pages:
        listed = {*OFFERED.findall(text.partition(LEMMAS)[2].partition("\n## ")[0])}
        for it in sorted(listed ^ offered(crate)):
            yield f"crates/{crate}/CALLING.md and proofs/public.antt differ in proofs.{it}"


def uncited(files: Sequence[tuple[str, str, str]], pages: Iterable[str]) -> Iterator[str]:
    """A line for each lemma of these files that nothing cites but its own equations, and no page names."""
    rest = [(path, UNCITING.sub("", text)) for _, path, text in files]
    words = Counter(word for _, text in rest for word in WORD.findall(text))
    named = {*itertools.chain.from_iterable(map(SPAN.findall, pages))}
    for path, text in rest:
        if "/proofs/" not in path:
            continue
        for indent, name in LEMMA.findall(text):
            own = re.findall(rf"^{indent}(?:(?:pub|abbrev|unfoldable) )*{re.escape(name)}(?=[ (]|$)", text, re.M)
            if words[name] <= len(own) and name not in named:
                yield f"{path}: nothing cites {name}"


def page_of(crate: str) -> str:
    """The page of a crate."""
    return kit.text_of(f"{kit.ROOT}/crates/{crate}/CALLING.md")


class Pages(frame.Check):
    """The pages fit the sources."""

    @frame.each(QUOTED)
    def test_quoted(self, crate: str) -> None:
        there = page_of(crate)
        assert text_of(crate, there) == there, f"crates/{crate}/CALLING.md isn't what tools/api would write"

    def test_names_of_quoted(self) -> None:
        self.assertEqual([*misnamed()], [])

    def test_rows_of_calls(self) -> None:
        self.assertEqual([*without_row()], [])

    def test_names_of_proved(self) -> None:
        self.assertEqual([*absent()], [])

    def test_preconditions(self) -> None:
        self.assertEqual([*misplaced()], [])

    def test_examples(self) -> None:
        self.assertEqual([*without_caller(examples())], [])

    def test_lemmas_of_other_crates(self) -> None:
        self.assertEqual([*private(citing())], [])

    def test_lists_of_lemmas(self) -> None:
        self.assertEqual([*unlisted((it, page_of(it)) for it in QUOTED)], [])

    def test_citations(self) -> None:
        self.assertEqual([*uncited([*citing()], map(page_of, QUOTED))], [])


CHECKS = [Pages]


def main(words: list[str]) -> int:
    if words == ["--check"]:
        return frame.check("api", CHECKS, section="api")
    if len(words) == 1 and words[0] in CRATES:
        print("\n".join(contracts(words[0])))
        return 0
    if words:
        return frame.usage(__doc__, f"api: no library crate: {' '.join(words)}")
    if faults := [*misnamed()]:
        print("\n".join(faults), file=sys.stderr)
        return 1
    for it in QUOTED:
        path = f"{kit.ROOT}/crates/{it}/CALLING.md"
        kit.write_file(path, text_of(it, kit.text_of(path)))
    return 0
