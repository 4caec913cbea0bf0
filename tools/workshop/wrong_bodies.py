"""Compares what the first line of a wrong body says of its refusal with what `rt` prints of it."""
import os
import re
from collections.abc import Callable, Iterator
from typing import Optional

from workshop import kit

# The first line of a wrong body: the function that refuses it, and the clauses that it breaks.
NOTE = re.compile(r"# refused by ([\w:]+)(?:, clauses? (\w+(?:(?:, | and )\w+)*))?")
# What `rt` prints of a refused one: the place of its first error, and the clause, if the name of what isn't proved ends
# with one. A long line is cut.
PLACE = re.compile(r"(?:note: )?(?:\./)?((?:src|proofs)/\S+?):(\d+):(\d+): ")
CLAUSE = re.compile(r"-clause-(\w+)`")
# An error of a proof file that begins so says that a module or a record lacks a name. What is lacking is on the next
# line, which `rt` neither reads nor prints, so it can't tell such an error from a refusal.
LACKS_NAME = re.compile(r"error: (?:`[^`]*`: )?(?:record `|module `|`[^`]*`: module `|`goal\.)")
# What follows the name of what isn't proved if a search ended at a limit of its own, so that it may hold. `rt` cuts a long
# line, also in these words.
LIMITS = ("; `search` gave up at ", "; `grind` gave up at ", "`grind` stopped at its own limit")
# A file of a function's proof, in the folder of its path.
PROOF = re.compile(r"proofs/(?:[a-z_0-9]+/)*((?:[A-Z]\w*/)?\w+)/(?:Answers|Invariants|Proof)\.antt")
# Functions are found by the heads of items, and by what ends one. Comments and texts are passed over.
TOKEN = re.compile(
    r"//.*|\"(?:\\.|[^\"\\])*\"|'[{};]'"
    r"|(?P<owner>(?:^|(?<=[;}] ))(?:pub )?(?:impl|trait)\b[^{;]*)"
    r"|\bfn (?P<call>\w+)|(?P<end>[{};])",
    re.M,
)
OWNER = re.compile(r"(?:pub )?(?:impl|trait) +(?:\w+::)*(\w+)(?: for (?:\w+::)*(\w+))?")


def owner_of(heading: str) -> str:
    """The name by which the kit calls an `impl` or a trait: the type, and after it the trait."""
    heading = heading.replace("()", "Unit").replace("->", "")
    # An associated type as the argument of a type is a part of the name.
    heading = re.sub(r"<\w+::(\w+)(?:, \w+)*>", r"\1", heading)
    while (shorter := re.sub(r"<[^<>]*>", "", heading)) != heading:
        heading = shorter
    found = OWNER.match(heading)
    return (found[2] or "") + found[1] if found else ""


def functions(text: str) -> Iterator[tuple[int, str]]:
    """The functions of a file, with the name of their `impl` or trait, each after the place where its head begins."""
    owner = ""
    depth = begins = 0
    for it in TOKEN.finditer(text):
        if it["end"]:
            begins = it.end()
            depth += {"{": 1, "}": -1, ";": 0}[it["end"]]
            owner = owner if depth else ""
        elif it["owner"] and not depth:
            owner = owner_of(it["owner"])
        elif it["call"]:
            yield begins, f"{owner}::{it['call']}" if owner else it["call"]


def function_of(line: str, text_at: Callable[[str], str]) -> str:
    """The function that a printed line is about, if the files of the crate have these texts."""
    found = PLACE.match(line)
    if not found:
        return "no function"
    path, row, column = found[1], int(found[2]), int(found[3])
    if proof := PROOF.fullmatch(path):
        return proof[1].replace("/", "::")
    if not path.startswith("src/"):
        return path
    text = text_at(path)
    place = len("".join(text.splitlines(True)[: row - 1])) + column - 1
    return next((name for begins, name in reversed([*functions(text)]) if begins <= place), "no function")


def disagreement(note: str, line: str, text_at: Callable[[str], str]) -> Optional[str]:
    """Why the first line of a wrong body isn't what `rt` printed of it, or None if it is: the function is the same, and
    the clause, if one is printed, is one of those in the first line. What is refused for a name shows nothing."""
    noted = NOTE.fullmatch(note)
    if not noted:
        return f"begins with a line that names no function and clauses: {note}"
    if LACKS_NAME.search(line):
        return f"is refused for a name that a proof file gives, so this says nothing of the contract: {line}"
    function = function_of(line, text_at)
    if function != noted[1]:
        return f"is refused by {function}, and its first line says {noted[1]}"
    clause = CLAUSE.search(line)
    if clause and clause[1] not in re.split(r", | and ", noted[2] or ""):
        return f"is refused by the clause {clause[1]} of {function}, which its first line doesn't name"
    return None


def is_limit(line: str) -> bool:
    """Whether `rt` printed, as far as it goes, that a search ended at a limit."""
    rests = filter(None, (line.partition("`)")[2], line.rpartition("`: ")[2]))
    return any(it in line for it in LIMITS) or any(it.startswith(rest) for rest in rests for it in LIMITS)


def unshown(text: str, line: str) -> Optional[str]:
    """Why nothing shows that a clause is false of a wrong body with this text, or None. If a search ended at a limit, a
    line of the body has to say with which value all is proved: then the value is what fails."""
    said = text.partition("\nfile: ")[0].replace("\n#", "")
    if is_limit(line) and "all is proved" not in said:
        return "is refused as a search ended at a limit, and no line says with which value all is proved"
    return None


def judge(body: str, line: str) -> Optional[str]:
    """The same for a wrong body of this checkout, as a crate and a file."""
    crate, name = body.split("/")
    folder = f"{kit.ROOT}/crates/{crate}"
    path = f"{folder}/must-fail/{name}"
    edited, why = kit.load_rt().read_edit(path, folder)
    if why:
        return str(why)

    def text_at(path: str) -> str:
        return str(edited.get(path) or kit.text_of(os.path.join(folder, path)))

    text = kit.text_of(path)
    return disagreement(text.partition("\n")[0], line, text_at) or unshown(text, line)
