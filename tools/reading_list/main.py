"""Prints the definitions that a reader of the top contracts needs, each once, in reading order.

tools/reading-list.py [FOLDER]   writes FOLDER/headline.md and FOLDER/rest.md (default: out/reading)
tools/reading-list.py --check    writes nothing; prints the counts, and fails if
  - a definition is in specs/ that belongs in specs/inside/, or the other way round
  - a name is used and no page defines it, or two constants or types of a crate have one name
  - a word of the language or of the kit's libraries has no line in tools/library-words.txt
  - tools/reading-sections.txt names a section that no page has
  - docs/auditor.md quotes a definition incorrectly
  - tools/reading-parts.txt or tools/reading-notes.md names a definition that headline.md lacks
  - the promises reach more definitions than the limits in tools/reading_list/checks.py allow, or
    the first of headline.md end further down

A clause names definitions, and these name others, down to words of the language and of the kit's
libraries, constants and plain types of the code. A definition is printed under the first clause
that reaches it: first those that the clause names, then what they name. What is reached only
through the definitions of tools/reading-parts.txt comes later in headline.md, part by part, and
tools/reading-notes.md has examples that are printed below definitions that are hard to read.
"""

import sys
from pathlib import Path

from reading_list.calls import NotFound
from reading_list.checks import counts, flaws
from reading_list.pages import headline_page, rest_page
from reading_list.repository import Repository


def run(top: Path, words: list[str]) -> int:
    """Runs the command in a checkout, and returns its status."""
    if len(words) > 1 or any(word.startswith("-") and word != "--check" for word in words):
        print(__doc__, file=sys.stderr)
        return 0 if "--help" in words else 2
    try:
        if words == ["--check"]:
            return check(Repository(top))
        write(Repository(top), Path(words[0]) if words else top / "out" / "reading")
    except NotFound as missing:
        print(f"reading-list: {missing}", file=sys.stderr)
        return 1
    return 0


def check(repository: Repository) -> int:
    """Prints the counts, and what is wrong; returns the status."""
    headline, first = headline_page(repository)
    rest, other = rest_page(repository, first)
    reach = counts(repository)
    found = list(flaws(repository, [(headline, first), (rest, other)], reach["run"]))
    for line in found:
        print(line, file=sys.stderr)
    return 1 if found else 0


def write(repository: Repository, folder: Path) -> None:
    """Prints the counts, and writes the two pages."""
    headline, first = headline_page(repository)
    rest, _ = rest_page(repository, first)
    counts(repository)
    folder.mkdir(parents=True, exist_ok=True)
    (folder / "headline.md").write_text(headline, encoding="utf-8")
    (folder / "rest.md").write_text(rest, encoding="utf-8")
