#!/usr/bin/env python3
"""Finds imports that nothing uses and lines that are too long.

    tests/docs/imports.py [--fix] [CRATE..]

- Each name that a `ghost use` of a .rt file imports is used by a clause or a ghost item that reads
  this import. Clauses read the imports at the file's top and those of their block. The ghost items
  of a block that has imports of its own read only these.
- In .rt files no line is longer than 120 columns, in .antt files none is longer than 200.

With --fix, unused names are dropped and long comments of .rt files are wrapped. Afterwards run
`rt fmt` and `rt check` in each changed crate. Break other long lines by hand. Without a CRATE,
all crates are checked.
"""

from __future__ import annotations

import glob
import os
import re
import sys
from collections.abc import Iterator

TOP = os.path.dirname(os.path.dirname(os.path.dirname(os.path.abspath(__file__))))
MOST = {".rt": 120, ".antt": 200}
COMMENT_OR_TEXT = re.compile(r"""//[^\n]*|"(?:\\.|[^"\\])*"|'(?:\\.|[^'\\\n])'""", re.S)
IMPORT = re.compile(
    r"^[ \t]*ghost use (?P<module>[^;{\s]*?)(?:\.\{(?P<names>[^}]*)\}|(?P<alias>\s+as\s+\S+))?\s*;[ \t]*\n",
    re.M,
)
TERM = re.compile(
    r"\b(?:requires|ensures)\b(?:\s+[\w']+)?\s*\{|\b(?P<item>ghost)\s+(?!use\b)[\w']+\s*[:=]\s*\{"
)
SECOND_TERM = re.compile(r"\s*=\s*\{")
COMMENT = re.compile(r"(\s*//[/!]?)( .*)?$")
OWN_LINE = re.compile(r" (?:\s|[-*#|>`]|\d+\.)")

# The begin and the end of a block
Block = tuple[int, int]


def blanked(source: str) -> str:
    """The source with spaces in place of comments, strings and characters."""
    return COMMENT_OR_TEXT.sub(lambda it: re.sub(r"[^\n]", " ", it[0]), source)


def end_of(text: str, at: int) -> int:
    """The place after the bracket that closes the one at `at`."""
    depth = 0
    for place in range(at, len(text)):
        depth += (text[place] == "{") - (text[place] == "}")
        if depth == 0:
            return place + 1
    return len(text)


def terms_of(text: str) -> Iterator[tuple[int, int, bool]]:
    """The terms of clauses and of ghost items: (begin, end, whether it belongs to a ghost item)."""
    found = TERM.search(text)
    while found:
        # (a ghost member of a trait may have a type and a default)
        begin, is_item = found.end() - 1, found["item"] is not None
        end = end_of(text, begin)
        yield begin, end, is_item
        if second := SECOND_TERM.match(text, end):
            begin, end = second.end() - 1, end_of(text, second.end() - 1)
            yield begin, end, is_item
        found = TERM.search(text, end)


def block_around(text: str, at: int) -> Block | None:
    """The innermost block in which a place is: (begin, end), or None at the file's top."""
    depth = 0
    for place in range(at - 1, -1, -1):
        depth += (text[place] == "}") - (text[place] == "{")
        if depth < 0:
            return place, end_of(text, place)
    return None


def names_of(imported: re.Match[str]) -> list[str]:
    """The names of one import, as they are written in it."""
    if imported["names"] is not None:
        return [name.strip() for name in imported["names"].split(",") if name.strip()]
    return [imported["module"].split(".")[-1] + (imported["alias"] or "")]


def occurs(word: str, terms: str) -> bool:
    """Whether the terms use a word, as a name or an operator. Behind a dot that follows a name it
    is a field.
    """
    if word == "[]":
        return re.search(r"\[\s*\]", terms) is not None
    edge = r"[\w'-]" if re.match(r"\w", word) else r"[^\s\w(){}\[\],;.λ]"
    return re.search(rf"(?<!{edge})(?<![\w')\]]\.){re.escape(word)}(?!{edge}|ℤ)", terms) is not None


def is_used(name: str, terms: str) -> bool:
    """Whether the terms use an imported name. An operator is used if each of its parts occurs."""
    name = re.split(r"\sas\s", name)[-1].strip()
    return all(occurs(part, terms) for part in name.split("◌") if part)


def unused(source: str) -> Iterator[tuple[re.Match[str], list[str]]]:
    """The imports of a source that have unused names, each with these names."""
    text = blanked(source)
    imports = [(it, block_around(text, it.start())) for it in IMPORT.finditer(text)]
    blocks = {block for _, block in imports if block}
    terms: dict[Block | None, str] = {}
    for begin, end, is_item in terms_of(text):
        block = max((it for it in blocks if it[0] < begin < it[1]), default=None)
        for reader in {block} if is_item else {block, None}:
            terms[reader] = terms.get(reader, "") + " " + text[begin:end]
    for imported, block in imports:
        names = [name for name in names_of(imported) if not is_used(name, terms.get(block, ""))]
        if names:
            yield imported, names


def without(source: str, found: list[tuple[re.Match[str], list[str]]]) -> str:
    """The source without the unused names of its imports."""
    for imported, names in reversed(found):
        begin, end = imported.span()
        line = source[begin:end] if len(names) < len(names_of(imported)) else ""
        for name in names:
            line = re.sub(rf"(?<=[{{,\s]){re.escape(name)}(?:,\s*|\s*(?=\}}))", "", line, count=1)
        source = source[:begin] + re.sub(r",\s*\}", "}", line) + source[end:]
    return source


def wrapped(lines: list[str]) -> Iterator[str]:
    """The lines, with long comments wrapped. What does not fit goes to the next line, if that is
    of the same paragraph.
    """
    rest = list(lines)
    while rest:
        line = rest.pop(0)
        comment = COMMENT.match(line) if len(line) > MOST[".rt"] else None
        cut = line.rfind(" ", len(comment[1]) + 1, MOST[".rt"] + 1) if comment else -1
        if comment is None or cut < 0:
            yield line
            continue
        mark = re.match(r" *(?:[-*] |\d+\. )?", comment[2])
        item = mark[0] if mark else ""
        begin = comment[1] + " " * max(1, len(item))
        after = COMMENT.match(rest[0]) if rest and len(item) == 1 else None
        if after and after[1] == comment[1] and after[2] and not OWN_LINE.match(after[2]):
            rest[0] = f"{begin}{line[cut + 1:]}{after[2]}"
        else:
            rest.insert(0, begin + line[cut + 1 :])
        yield line[:cut].rstrip()


def long_lines(source: str, most: int) -> Iterator[tuple[int, int]]:
    """The numbers of the lines that are longer than `most`, and how long each is."""
    for number, line in enumerate(source.split("\n"), 1):
        if len(line) > most:
            yield number, len(line)


def faults_of(path: str, fix: bool) -> Iterator[tuple[int, str]]:
    """What is wrong with a file. With `fix`, what is left of it after the file was changed."""
    kind = os.path.splitext(path)[1]
    with open(path, encoding="utf-8") as file:
        source = before = file.read()
    if kind == ".rt" and fix:
        while found := list(unused(source)):
            source = without(source, found)
        source = "\n".join(wrapped(source.split("\n")))
    if source != before:
        with open(path, "w", encoding="utf-8") as file:
            file.write(source)
    if kind == ".rt":
        for imported, names in unused(source):
            line = source.count("\n", 0, imported.start()) + 1
            yield line, f"nothing uses {', '.join(names)} of {imported['module']}"
    for line, columns in long_lines(source, MOST[kind]):
        yield line, f"{columns} columns; at most {MOST[kind]} are allowed"


def main(words: list[str]) -> int:
    """Checks the crates that are named, or all, and returns the status."""
    fix = "--fix" in words
    crates = [word for word in words if word != "--fix"]
    if any(word.startswith("-") for word in crates):
        print(__doc__.strip())
        return 0 if words[0] in ("-h", "--help") else 2
    files = failed = 0
    for crate in crates or sorted(os.listdir(f"{TOP}/crates")):
        paths = glob.glob(f"{TOP}/crates/{crate}/src/**/*.rt", recursive=True)
        for folder in ("specs", "proofs"):
            paths += glob.glob(f"{TOP}/crates/{crate}/{folder}/**/*.antt", recursive=True)
        files += len(paths)
        for path in sorted(paths):
            for line, fault in faults_of(path, fix):
                failed += 1
                print(f"FAILED imports: {os.path.relpath(path, TOP)}:{line}: {fault}")
    print(
        f"imports: {files} files have no unused ghost import and no line that is too long"
        if not failed
        else f"imports: {failed} failed"
    )
    return 1 if failed else 0


if __name__ == "__main__":
    sys.exit(main(sys.argv[1:]))
