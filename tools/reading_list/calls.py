"""What is promised: clauses of the top calls, what a source and a sink have to do, laws."""

import re
from collections.abc import Iterator
from dataclasses import dataclass

from reading_list.repository import Repository
from reading_list.texts import Imports, imports_of

# the top calls, and for each the clauses that say what it exists for
CALLS = {"run": ["headline"], "check_run": ["headline"], "session_run": ["heard"]}
# the calls of a session, with their crate: they say for each line what session_run says of all;
# the definitions that only they reach are in specs/inside/
METHODS = [("pc_whatif", "Session", "begin"), ("pc_whatif", "Session", "answer")]

ITEM = re.compile(
    r"(?:^///[^\n]*\n)*^pub (?:fn (\w+)|trait (Source|Sink) )",
    flags=re.MULTILINE,
)
# the line after the clauses of a function, or the end of a trait
BODY = re.compile(r"^(\{\}|\{|\})$", flags=re.MULTILINE)
FIRST_CLAUSE = re.compile(r"^    (?:requires|ensures)\b", flags=re.MULTILINE)
CLAUSE = re.compile(r"^    ensures (\w+) \{", flags=re.MULTILINE)


class NotFound(Exception):
    """A call that the list is about is not in the code."""


@dataclass(frozen=True)
class Contract:
    """A part of a contract: a clause, or the complete head of a law, a trait or a method."""

    name: str
    place: str
    imports: Imports
    text: str


def closing(text: str, at: int) -> int:
    """The place after the brace that closes the one before `at`."""
    depth = 1
    while depth:
        depth += {"{": 1, "}": -1}.get(text[at], 0)
        at += 1
    return at


def clauses_of(repository: Repository, call: str) -> list[Contract]:
    """The named clauses of a top call, in order."""
    for path, text in repository.sources.items():
        start = re.search(rf"^pub fn {call}<", text, flags=re.MULTILINE)
        if not start:
            continue
        head = text[start.start() : text.index("\n{\n", start.start())]
        imports, place = imports_of(text), repository.place(path)
        return [
            Contract(match[1], place, imports, head[match.end() : closing(head, match.end()) - 1])
            for match in CLAUSE.finditer(head)
        ]
    raise NotFound(f"no call {call}")


def is_law(head: str) -> bool:
    """Whether a public function with this head, its text up to the body, is a law.

    A law has no result and no `&mut` parameter: calling it changes nothing, and its contract is
    what it says.
    """
    signature = FIRST_CLAUSE.split(head[head.index("pub fn") :])[0]
    has_contract = FIRST_CLAUSE.search(head) is not None
    return has_contract and "->" not in signature and "&mut" not in signature


def traits_and_laws(repository: Repository) -> Iterator[Contract]:
    """The contracts of a source and of a sink, and the laws."""
    for path, text in repository.sources.items():
        imports = imports_of(text)
        for start in ITEM.finditer(text):
            end = BODY.search(text, start.end())
            if end is None:
                continue
            head = text[start.start() : end.start()]
            if start[2]:
                yield Contract(start[2], repository.place(path), imports, head + end[0])
            elif is_law(head):
                yield Contract(start[1], repository.place(path), imports, head.rstrip("\n"))


def methods(repository: Repository) -> Iterator[Contract]:
    """The contracts of METHODS, with their comments."""
    for crate, kind, name in METHODS:
        yield method(repository, crate, kind, name)


def method(repository: Repository, crate: str, kind: str, name: str) -> Contract:
    """The contract of a method, with its comments."""
    folder = repository.crates / crate / "src"
    for path, text in repository.sources.items():
        if folder not in path.parents:
            continue
        for block in re.finditer(
            rf"^impl(?:<[^\n]*>)? {kind}\b[^\n]*\{{\n.*?^\}}", text, flags=re.MULTILINE | re.DOTALL
        ):
            found = re.search(
                rf"(?:^    ///[^\n]*\n)*^    pub fn {name}\b.*?(?=^    \{{$)",
                block[0],
                flags=re.MULTILINE | re.DOTALL,
            )
            if found:
                plain = re.sub(r"^    ", "", found[0], flags=re.MULTILINE)
                return Contract(f"{kind}::{name}", repository.place(path), imports_of(text), plain)
    raise NotFound(f"no call {kind}::{name}")


def promises(repository: Repository) -> Iterator[Contract]:
    """All contracts that an auditor's definitions are reached by."""
    for call in CALLS:
        yield from clauses_of(repository, call)
    yield from traits_and_laws(repository)
