#!/usr/bin/env python3
"""Checks README, CONTRIBUTING, CHANGELOG and docs/*.md: links, paths, words and length.

    tests/docs/pages.py [PAGE..]

- Each relative link leads to a file that git tracks, and each #anchor to a heading of that page.
- Each path in code that begins with a folder of this repository, such as `tests/run`, leads to a
  file or folder, unless a part of it is in capitals (`crates/CRATE/src`) or is built (`out`). Each
  word that begins with `pc_` is a crate.
- Outside code, no page uses a word of WORDS, for which there is a plainer one, unless
  docs/glossary.md has it as an entry.
- README.md and docs/*.md have at most MOST words together, and README.md at most LINES lines, without
  what only installed pages show (tools/installed-page.py).
- A line of prose has at most COLUMNS columns, unless it is one word or link, and a cell of a table
  at most CELL characters without the addresses of links.
- The headline is the same wherever it is quoted, and so is the kit's line. A number of
  definitions in COUNTED is one that `tools/reading-list.py` counts for `run`.
"""

from __future__ import annotations

import glob
import os
import re
import subprocess
import sys
from collections.abc import Iterator

TOP = os.path.dirname(os.path.dirname(os.path.dirname(os.path.abspath(__file__))))
MOST, LINES = 49000, 110
COLUMNS, CELL = 100, 120
COUNTED = ("docs/auditor.md", "docs/verification.md")
KIT = re.compile(r"rattle-kit-\S+ logic [0-9a-f]{16}")
WORDS = {
    "want of memory": "out of memory",
    "let go": "drop",
    "lets go": "drops",
    "anew": "again",
    "wherein": "where",
    "of which": "whose, or a new sentence",
    "by which": "whose, or a new sentence",
    "who wants": "if you want",
    "mend": "fix",
    "mends": "fixes",
    "mended": "fixed",
    "misfit": "field error",
    "spelled": "formatted, written",
    "spelling": "format, text",
    "gives on": "re-exports",
    "in its one form": "in canonical form",
    "is drawn": "is generated, is built",
    "are drawn": "are generated, are built",
    "tells": "reports, names",
    "is told": "is reported",
    "are told": "are reported",
    "lent": "passed in",
    "lends": "passes in",
}


def read(path: str) -> str:
    """Returns the text of a file."""
    with open(path, encoding="utf-8") as file:
        return file.read()


def prose(text: str) -> str:
    """The text without indented and fenced code, code spans and quotations."""
    text = re.sub(r"^```.*?^```", "", text, flags=re.M | re.S)
    text = re.sub(r"^    .*$", "", text, flags=re.M)
    return re.sub(r"`[^`]*`", "CODE", text)


def anchors(text: str) -> set[str]:
    """The anchors of a page's headings, as they are made for links."""
    found = set()
    for heading in re.findall(r"^#+ (.*)$", text, flags=re.M):
        plain = re.sub(r"[`*]", "", re.sub(r"\[([^\]]*)\]\([^)]*\)", r"\1", heading)).lower()
        found.add(re.sub(r"[^\w\- ]", "", plain).replace(" ", "-"))
    return found


def as_shown(text: str) -> str:
    """The text without comments, which only installed pages show."""
    return re.sub(r"<!--.*?-->\n*", "", text, flags=re.S)


def unlinked(text: str) -> str:
    """The text with links as they are shown."""
    return re.sub(r"\[([^\]]*)\]\([^)]*\)", r"\1", text)


def too_wide(text: str) -> Iterator[str]:
    """The lines of prose that are too long and the cells that are too long, each with what is
    wrong.
    """
    for line in re.sub(r"^```.*?^```", "", text, flags=re.M | re.S).split("\n"):
        if line.startswith("|"):
            for cell in re.split(r"(?<!\\)\|", line.strip("| ")):
                if len(unlinked(cell).strip()) > CELL:
                    yield f"a cell of more than {CELL} characters: {cell.strip()[:60]}"
        elif (
            len(line) > COLUMNS
            and not line.startswith("    ")
            and " " in re.sub(r"`[^`]*`", "", line.lstrip(" -*>")).strip()
        ):
            yield f"a line of more than {COLUMNS} columns: {line[:60]}"


def quotations(text: str) -> list[str]:
    """The texts that a page quotes with `>`, each on one line."""
    return [
        " ".join(re.sub(r"^> ?", "", quoted, flags=re.M).split())
        for quoted in re.findall(r"(?:^>.*\n)+", text, flags=re.M)
    ]


def counts() -> list[str]:
    """How many definitions the headline and all clauses of `run` rest on, as `tools/reading-list.py`
    counts them.
    """
    said = subprocess.run(
        [os.path.join(TOP, "tools", "reading-list.py"), "--check"],
        stdout=subprocess.PIPE,
        text=True,
        check=False,
    ).stdout
    return re.findall(r"(\d+) definitions", said.split("\n")[0])


def link_faults(page: str, text: str) -> Iterator[str]:
    """What is wrong with the links and the paths of a page, and with the crates that it names."""
    for link in re.findall(r"\]\(([^)\s]+)\)", re.sub(r"`[^`]*`", "", text)):
        if re.match(r"[a-z]+:", link):
            continue
        place, _, anchor = link.partition("#")
        target = os.path.normpath(os.path.join(os.path.dirname(page), place)) if place else page
        if not os.path.exists(target):
            yield f"the link {link} leads nowhere"
        elif anchor and target.endswith(".md") and anchor not in anchors(read(target)):
            yield f"the link {link} leads to no heading"
    for word in (word for span in re.findall(r"`([^`\n]+)`", text) for word in span.split()):
        placed = re.fullmatch(r"(crates|docs|examples|tests|tools)/[\w./-]*\w/?", word)
        is_there = os.path.exists(os.path.join(TOP, word))
        if placed and not is_there and not re.search(r"/([A-Z]+|out)(/|$)", word):
            yield f"the path {word} leads nowhere"
    crates = read(os.path.join(TOP, "crates.txt"))
    for crate in sorted(set(re.findall(r"\bpc_[a-z_]*[a-z]", text))):
        if not re.search(rf"^{crate}:", crates, flags=re.M):
            yield f"{crate} is no crate of crates.txt"


def claim_faults(name: str, text: str, headline: list[str], kit: list[str]) -> Iterator[str]:
    """What a page says otherwise than README.md or than tools/reading-list.py counts."""
    if name in COUNTED:
        counted = r"\brests?\s+on\s+(\d+)\s+definitions|\bpromises\s+of\s+`run`\s+on\s+(\d+)"
        for number in re.findall(counted, text):
            said = "".join(number)
            if said not in counts():
                yield f"tools/reading-list.py counts not {said} definitions but {' and '.join(counts())}"
    for quoted in quotations(text):
        if quoted.startswith("For every accepted deck") and [quoted] != headline:
            yield "the headline is not that of README.md"
    for line in KIT.findall(text):
        if [line] != kit:
            yield f"the kit's line {line} is not that of README.md"


def word_faults(text: str, defined: set[str]) -> Iterator[str]:
    """The words of a page for which there is a plainer one."""
    for line in prose(text).split("\n"):
        for word, better in WORDS.items():
            if word not in defined and re.search(rf"\b{word}\b", line, flags=re.I):
                yield f"'{word}' (better: {better}) in: {line.strip()[:100]}"


def faults(pages: list[str]) -> Iterator[str]:
    """What is wrong with the pages, page by page, and then with the length of all."""
    entries = re.findall(
        r"^\| \**([^|*]+?)\** \|", read(os.path.join(TOP, "docs", "glossary.md")), flags=re.M
    )
    defined = {word.lower() for word in entries}
    readme = read(os.path.join(TOP, "README.md"))
    headline, kit = quotations(readme), KIT.findall(readme)
    if len(headline) != 1 or len(kit) != 1:
        yield "README.md: it has the headline once, as a quotation, and the kit's line once"
    for page in pages:
        text, name = read(page), os.path.relpath(page, TOP)
        found = [*link_faults(page, text), *claim_faults(name, text, headline, kit)]
        for fault in [*found, *too_wide(text), *word_faults(text, defined)]:
            yield f"{name}: {fault}"
    docs = [os.path.join(TOP, "README.md")] + glob.glob(os.path.join(TOP, "docs", "*.md"))
    words = sum(len(as_shown(read(page)).split()) for page in docs)
    if words > MOST:
        yield f"README.md and docs/*.md have {words} words, more than {MOST}"
    if len(as_shown(readme).split("\n")) - 1 > LINES:
        yield f"README.md has more than {LINES} lines"


def main() -> None:
    """Checks the pages that are named, or all, and ends with 1 if something is wrong."""
    pages = [os.path.abspath(page) for page in sys.argv[1:]]
    if not pages:
        pages = [
            os.path.join(TOP, name) for name in ("README.md", "CONTRIBUTING.md", "CHANGELOG.md")
        ] + sorted(glob.glob(os.path.join(TOP, "docs", "*.md")))
    found = list(faults(pages))
    for fault in found:
        print(f"FAILED pages: {fault}")
    words = sum(len(read(page).split()) for page in pages)
    print(f"pages: {len(pages)} pages, {words} words, {len(found)} failed")
    sys.exit(1 if found else 0)


if __name__ == "__main__":
    main()
