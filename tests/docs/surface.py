#!/usr/bin/env python3
"""Compares the public surface of the crates, as tests/docs/surface.txt lists it, with the code.

    tests/docs/surface.py            compares; fails if a call, type, trait or impl of the list is missing or written differently
    tests/docs/surface.py --list     prints for each line of the list the file and the line where it is defined

Lifetimes are compared up to their names: both texts are written out by Rust's rules of elision
first. `pub`, `mut` in front of a parameter and spaces are not compared, nor are contracts. In
signatures an alias is the same as what it stands for. A type that the list has in two crates and
that the code has once, re-exported, differs in both. Where the code differs from the list, the
table of tests/docs/surface-differs.md has a line with the code's text and the reason, and every
line of that table must be needed.
"""

from __future__ import annotations

import os
import re
import sys
from collections.abc import Iterator

TOP = os.path.dirname(os.path.dirname(os.path.dirname(os.path.abspath(__file__))))
LIST = os.path.join(TOP, "tests", "docs", "surface.txt")
REASONS = os.path.join(TOP, "tests", "docs", "surface-differs.md")
DIFFERS = "# Where the public surface differs"
CONTRACT = re.compile(r"\b(requires|ensures|ghost)\b")
ITEM = re.compile(
    r"(?:(pub(?:\(crate\))?)\s+)?\b(fn|struct|enum|trait|type|impl|macro_rules!|ghost|const|static)\b"
)

# The name of an item, its text and its place
Item = tuple[str, str, int]
# What an item defines, and the place after it
Found = tuple[list[Item], int]


def plain(text: str) -> str:
    """A text without what is never compared."""
    text = re.sub(r"\bpub(\(crate\))?\s+", "", text)
    text = re.sub(r"\s+", " ", text)
    text = re.sub(r"(?<=[(,] )mut |(?<=\()mut ", "", text)
    text = re.sub(r",? ?([)}>\]])", r"\1", text)
    text = re.sub(r"([({<\[]) ", r"\1", text)
    text = re.sub(r" ?([({]) ?", r"\1", text)
    return text.strip(" ;,")


def without_comments(text: str) -> str:
    """The same text with blanks for comments and for the contents of strings, so that places
    stay. Derives stay.
    """
    blank = lambda m: re.sub(r"[^\n]", " ", m.group())
    text = re.sub(r'b?"(\\.|[^"\\])*"|b\'(\\.|[^\'\\])\'', blank, text, flags=re.S)
    return re.sub(r"//[^\n]*|#!?\[(?!derive)[^\]\n]*\]", blank, text)


def closing(text: str, at: int) -> int:
    """The place of the bracket that closes the one at `at`."""
    depth = 0
    for i in range(at, len(text)):
        depth += (text[i] in "{([") - (text[i] in "})]")
        if depth == 0:
            return i
    raise ValueError("a bracket is not closed")


def head(text: str, at: int) -> tuple[str, int]:
    """The text from `at` to the contract, the body or the end of a signature, and the place where
    it ends.
    """
    depth = 0
    for i in range(at, len(text)):
        if depth == 0 and (text[i] in "{;" or CONTRACT.match(text, i)):
            return text[at:i], i
        depth += (text[i] in "([") - (text[i] in ")]")
    return text[at:], len(text)


def over_contract(text: str, at: int) -> int:
    """The place after the clauses of a contract."""
    while CONTRACT.match(text, at):
        at = closing(text, text.find("{", at)) + 1
        at += len(text[at:]) - len(text[at:].lstrip())
    return at


def past(text: str, at: int) -> int:
    """The place after the semicolon that ends an item without a body."""
    while text[at] != ";":
        at = closing(text, at) + 1 if text[at] in "{([" else at + 1
    return at + 1


def type_named(words: str) -> str:
    """The name of the type that begins a text, as Solver in `pc_flow::Solver<'n>`."""
    return named(r"(?:\w+::)*(\w+)", words.strip())


def impl_of(words: str) -> tuple[str | None, str]:
    """Of the head of an `impl` its trait, or None, and its type."""
    words = re.sub(r"^impl\s*", "", words.strip())
    if words.startswith("<"):
        depth = 0
        for i, char in enumerate(words):
            depth += (char == "<") - (char == ">")
            if depth == 0:
                words = words[i + 1 :]
                break
    words = re.split(r"\bwhere\b", words)[0]
    trait, found, kind = words.partition(" for ")
    return (type_named(trait), type_named(kind)) if found else (None, type_named(words))


def fields(body: str) -> Iterator[str]:
    """The fields of a struct, split at the commas outside brackets."""
    depth, field = 0, ""
    for char in body[1:-1]:
        depth += (char in "([{<") - (char in ")]}>")
        if char == "," and depth == 0:
            yield field
            field = ""
        else:
            field += char
    yield field


def function_items(text: str, match: re.Match[str], owner: str, in_trait: bool) -> Found:
    """A function or method, if it is public, and the place after it."""
    words, stop = head(text, match.start(2))
    called = named(r"fn\s+(\w+)", words)
    found: list[Item] = []
    if in_trait or match.group(1) == "pub":
        before_name = owner + "::" if owner else ""
        found.append((before_name + called, re.sub(r"^fn\s+", before_name, words), match.start()))
    stop = over_contract(text, stop)
    return found, closing(text, stop) + 1 if text[stop] == "{" else stop + 1


def type_items(text: str, match: re.Match[str]) -> Found:
    """A struct or enum with the traits that it derives, if it is public, and the place after it."""
    words, stop = head(text, match.start(2))
    body = text[stop : closing(text, stop) + 1] if text[stop] == "{" else ""
    called, at = named(r"\w+\s+(\w+)", words), match.start()
    found: list[Item] = []
    if match.group(1) == "pub":
        derived = " ".join(re.findall(r"#\[derive\(([^)]*)\)\]", before(text, at)))
        for trait in re.findall(r"\w+", derived):
            found.append((trait + " for " + called, trait + " for " + called, at))
        is_enum = match.group(2) == "enum"
        is_open = body != "" and (
            is_enum or all(re.match(r"\s*(pub\s+\w|$)", field) for field in fields(body))
        )
        found.append((called, words + (body if is_open else ""), at))
    return found, stop + len(body) + 1


def block_items(text: str, match: re.Match[str]) -> Found:
    """A trait with its methods, or what an `impl` adds, and the place after it."""
    words, stop = head(text, match.start(2))
    last, at = closing(text, stop), match.start()
    if match.group(2) == "trait":
        called = named(r"trait\s+(\w+)", words)
        inner = list(items_of(text, stop + 1, last, called, True))
        methods = [
            one.split("::")[1] + ("" if is_asked(text, place) else "..") for one, _, place in inner
        ]
        return [(called, words + " { " + " ".join(methods) + " }", at), *inner], last + 1
    trait, called = impl_of(words)
    if trait:
        return [(trait + " for " + called, trait + " for " + called, at)], last + 1
    return list(items_of(text, stop + 1, last, called)), last + 1


def items_of(text: str, start: int, end: int, owner: str, in_trait: bool = False) -> Iterator[Item]:
    """The public functions, types, traits and impls in a stretch of a file."""
    at = start
    while match := ITEM.search(text, at, end):
        kind, at = match.group(2), match.start()
        found: list[Item] = []
        if kind == "fn":
            found, at = function_items(text, match, owner, in_trait)
        elif kind in ("struct", "enum"):
            found, at = type_items(text, match)
        elif kind == "type":
            words, stop = head(text, match.start(2))
            if match.group(1) == "pub" and owner == "":
                found = [(named(r"type\s+(\w+)", words), words, at)]
            at = stop + 1
        elif kind in ("trait", "impl"):
            found, at = block_items(text, match)
        elif kind == "macro_rules!":
            at = closing(text, text.find("{", at)) + 1
        else:
            at = past(text, match.end())
        yield from found


def named(pattern: str, words: str) -> str:
    """The name in the text of an item, which must have one."""
    found = re.match(pattern, words)
    if found is None:
        raise ValueError("an item without a name: " + words)
    return found.group(1)


def before(text: str, at: int) -> str:
    """The derives in front of an item."""
    derives = r"((?:#\[derive\([^)]*\)\]\s*)*)(?:pub(?:\(crate\))?\s+)?$"
    found = re.search(derives, text[:at])
    return found.group(1) if found else ""


def is_asked(text: str, place: int) -> bool:
    """Whether a method of a trait has no body of its own, so that an `impl` has to have it."""
    return text[over_contract(text, head(text, place)[1])] != "{"


class Crates:
    """What the crates of the repository define and export."""

    def __init__(self) -> None:
        """Has read no crate yet."""
        self.defined: dict[str, dict[str, list[tuple[str, str]]]] = {}
        self.exports: dict[str, dict[str, tuple[str, str]]] = {}
        self.aliases: dict[str, str] = {}
        self.borrowing: set[str] = set()

    def items(self, crate: str) -> dict[str, list[tuple[str, str]]]:
        """What a crate defines: for each name a list of (text, file, line), since names in
        modules may repeat.
        """
        if crate not in self.defined:
            found = self.defined[crate] = {}
            for folder, _, files in os.walk(os.path.join(TOP, "crates", crate, "src")):
                for file in sorted(name for name in files if name.endswith(".rt")):
                    path = os.path.join(folder, file)
                    with open(path, encoding="utf-8") as opened:
                        text = without_comments(opened.read())
                    for name, words, at in items_of(text, 0, len(text), ""):
                        place = "%s:%d" % (os.path.relpath(path, TOP), text.count("\n", 0, at) + 1)
                        found.setdefault(name, []).append((" ".join(words.split()), place))
                        if re.match(r"(struct|enum)\s+\w+<'", words):
                            self.borrowing.add(name)
                        if words.startswith("type ") and re.match(r"\s*\w", words.split("=", 1)[1]):
                            self.aliases[name] = type_named(words.split("=", 1)[1])
        return self.defined[crate]

    def exported(self, crate: str) -> dict[str, tuple[str, str]]:
        """The names at the top of a crate, each with the crate that it comes from and its name
        there.
        """
        if crate not in self.exports:
            found = self.exports[crate] = {}
            with open(
                os.path.join(TOP, "crates", crate, "src", "lib.rt"), encoding="utf-8"
            ) as file:
                text = without_comments(file.read())
            for name in re.findall(
                r"^pub (?:fn|struct|enum|trait|type|const|mod) (\w+)", text, re.M
            ):
                found[name] = (crate, name)
            for words in re.findall(r"^pub use ([^;]*);", text, re.M):
                first = words.split("::")[0].strip()
                source = first if os.path.isdir(os.path.join(TOP, "crates", first)) else crate
                group = re.search(r"\{(.*)\}", words, re.S)
                for one in group.group(1).split(",") if group else [words]:
                    names = re.search(r"(\w+)(?:\s+as\s+(\w+))?\s*$", one)
                    if names:
                        found[names.group(2) or names.group(1)] = (source, names.group(1))
                        if names.group(2):
                            self.aliases[names.group(2)] = names.group(1)
        return self.exports[crate]

    def read(self, crate: str) -> None:
        """Reads a crate and those that it re-exports from, so that their aliases and borrowing
        types are known.
        """
        if crate not in self.exports:
            self.items(crate)
            for source, _ in list(self.exported(crate).values()):
                self.read(source)

    def find(self, crate: str, name: str) -> list[tuple[str, str]] | None:
        """The crate that defines a name, its name there and what stands there, or None."""
        top = name.split(" for ")[-1].split("::")[0]
        if top not in self.exported(crate):
            return None
        while top in self.exported(crate) and self.exported(crate)[top] != (crate, top):
            crate, real = self.exported(crate)[top]
            name, top = re.sub(r"\b%s\b" % top, real, name), real
        while top in self.aliases and name not in self.items(crate):
            real = self.aliases[top]
            name, top = re.sub(r"\b%s\b" % top, real, name), real
        return self.items(crate).get(name)


def written_out(text: str, crates: Crates) -> str:
    """A text with the lifetimes that Rust's rules of elision leave out, named in the order in
    which they come, and with aliases replaced.
    """
    text = plain(text)
    is_call = "(" in text and not re.match(r"(struct|enum|trait|type) ", text)
    text = (
        re.sub(r"\b(%s)\b(?!<'|::)" % "|".join(sorted(crates.borrowing)), r"\1<'_>", text)
        if is_call and crates.borrowing
        else text
    )
    text = re.sub(r"^(\w+)<'_>", r"\1", re.sub(r"&(?!')", "&'_ ", text))
    text = re.sub(
        r"^((?:\w+::)?\w+)<'\w+(, )?", lambda m: m.group(1) + ("<" if m.group(2) else "<>"), text
    ).replace("<>>", "")
    if is_call:
        at = closing(text, text.index("("))
        given, result = text[:at], text[at:]
        fresh = iter(range(1000))
        given = re.sub(r"'_ self\b", "'self self", given)
        given = re.sub(r"'_(?!\w)", lambda _: "'e%d" % next(fresh), given)
        one = re.findall(r"'\w+", given)
        source = "'self" if "'self" in one else one[0] if len(set(one)) == 1 else "'unknown"
        text = given + re.sub(r"'_(?!\w)", source, result)
    names: dict[str, str] = {}
    text = re.sub(
        r"'(?!static\b)\w+", lambda m: names.setdefault(m.group(), "'%d" % (len(names) + 1)), text
    )
    return re.sub(r"\w+", lambda word: real_name(word.group(), crates.aliases), text)


def real_name(word: str, aliases: dict[str, str]) -> str:
    """What a name stands for at the end of a chain of aliases."""
    while word in aliases:
        word = aliases[word]
    return word


def is_same(have: str, wanted: str, crates: Crates) -> bool:
    """Whether the code's text says what the list says. An alias in the place of a type of its own
    is a difference.
    """
    if re.match(r"(struct|enum|trait) ", wanted):
        one, other = (re.sub(r"<'\w+>", "<'_>", plain(text)) for text in (have, wanted))
        return one == other
    return written_out(have, crates) == written_out(wanted, crates)


def read_list() -> list[tuple[str, str, int]]:
    """The lines of the list as (crate, text, number)."""
    wanted: list[tuple[str, str, int]] = []
    crate = ""
    with open(LIST, encoding="utf-8") as file:
        for number, line in enumerate(file, 1):
            line = line.rstrip("\n")
            if line.startswith("    "):
                wanted.append((crate, line.strip(), number))
            elif line.strip() and not line.startswith("#"):
                crate = line.strip()
    return wanted


def read_deviations() -> dict[str, str]:
    """The table of surface-differs.md: for each name, with its crate, the text in the code."""
    with open(REASONS, encoding="utf-8") as file:
        section = file.read().split(DIFFERS + "\n", 1)[1].split("\n## ")[0]
    found = {}
    for line in section.splitlines():
        cells = [cell.strip() for cell in re.split(r"(?<!\\)\|", line.strip().strip("|"))]
        if len(cells) == 3 and cells[0].startswith("`"):
            if cells[2] == "":
                raise SystemExit("tests/docs/surface-differs.md: no reason for " + cells[0])
            found[cells[0].strip("`")] = cells[1].strip("`")
    return found


def name_of(text: str) -> str:
    """The name under which the code has a line of the list."""
    if " for " in text and "(" not in text:
        return text
    return (
        re.sub(r"^(struct|enum|trait|type) ", "", text)
        .split("<")[0]
        .split("(")[0]
        .split("{")[0]
        .strip(" ;")
    )


def text_in_code(crates: Crates, crate: str, text: str) -> tuple[str, str]:
    """What the code has for a line of the list: its text and its place."""
    found = crates.find(crate, name_of(text))
    if found is None:
        return "none", "-"
    return next((one for one in found if is_same(one[0], text, crates)), found[0])


def shared_types(crates: Crates, wanted: list[tuple[str, str, int]]) -> dict[str, str]:
    """The types that the list has in two crates and that are one type in the code: for each name,
    with its crate, the name of that type.
    """
    found: dict[str, list[str]] = {}
    for crate, text, _ in wanted:
        have, place = text_in_code(crates, crate, text)
        if re.match(r"(struct|enum|trait) ", text) and is_same(have, text, crates):
            found.setdefault(place, []).append(crate + "::" + name_of(text))
    return {
        key: place.split(os.sep)[1] + "::" + key.split("::")[1]
        for place, keys in found.items()
        if len({key.split("::")[0] for key in keys}) > 1
        for key in keys
    }


def compare(crates: Crates, wanted: list[tuple[str, str, int]]) -> Iterator[tuple[str, str, str]]:
    """The lines of the list that the code does not have so: for each its name with its crate, what
    the code has, and what to say of it.
    """
    shared = shared_types(crates, wanted)
    for crate, text, number in wanted:
        have, place = text_in_code(crates, crate, text)
        key = crate + "::" + name_of(text)
        if "--list" in sys.argv[1:]:
            print("%s: %s: %s" % (place, crate, text))
        said = "surface.txt:%d: %s: %s\n    %s: the code has `%s`"
        if have == "none" or not is_same(have, text, crates):
            shown = "none" if have == "none" else shortened(have)
            yield key, shown, said % (number, crate, text, place, shown)
        elif key in shared and re.match(r"(struct|enum|trait) ", text):
            shown = shared[key]
            yield key, shown, said % (number, crate, text, place, shown)


def main() -> None:
    """Compares each line of the list, and ends with 1 if one differs without a reason."""
    crates, failed, met = Crates(), [], set()
    wanted, deviations = read_list(), read_deviations()
    for crate in sorted({crate for crate, _, _ in wanted}):
        crates.read(crate)
    for key, shown, said in compare(crates, wanted):
        if deviations.get(key) == shown:
            met.add(key)
        else:
            failed.append(said)
    for key in sorted(set(deviations) - met):
        failed.append(
            "tests/docs/surface-differs.md: %s does not differ, or not in this way: take its line out of the table"
            % key
        )
    for one in failed:
        print("FAILED " + one)
    print(
        "surface: %d calls, types and impls are as listed, and %d differ for a reason in tests/docs/surface-differs.md"
        % (len(wanted) - len(failed) - len(met), len(met))
    )
    sys.exit(failed != [])


def shortened(text: str) -> str:
    """A text of the code as the table has it: without `pub` and without blanks that say nothing."""
    text = re.sub(r"\s+", " ", re.sub(r"\bpub(\(crate\))?\s+", "", text))
    return re.sub(r",? \}", " }", re.sub(r",? ?\)", ")", re.sub(r"\( ", "(", text))).strip(" ;,")


if __name__ == "__main__":
    main()
