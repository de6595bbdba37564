"""The tables beside the list: the parts of the headline's page, notes on definitions, which section
says a definition in words, and the kit's words.
"""

import re
from dataclasses import dataclass
from pathlib import Path

from reading_list.definitions import Definition
from reading_list.repository import Repository


def rows_of(path: Path) -> list[list[str]]:
    """The rows of a table whose columns are separated by tabs, without its comments."""
    lines = path.read_text(encoding="utf-8").split("\n")
    return [line.split("\t") for line in lines if line and not line.startswith("#")]


def library_lines(repository: Repository) -> dict[str, str]:
    """What tools/library-words.txt says of each word of the language and of the libraries."""
    rows = rows_of(repository.top / "tools" / "library-words.txt")
    return {word: "\t".join(said) for word, *said in rows}


@dataclass(frozen=True)
class Section:
    """A section of the pages, which says the definitions of a file or of a folder in words."""

    place: str
    page: str
    heading: str


def sections(repository: Repository) -> list[Section]:
    """The rows of tools/reading-sections.txt, the longest places first. A row with a star is one
    for each file that it matches.
    """
    rows = rows_of(repository.top / "tools" / "reading-sections.txt")
    found: list[Section] = []
    for place, page, heading in rows:
        if "*" in place:
            found += starred(repository, Section(place, page, heading))
        else:
            found.append(Section(place, page, heading))
    return sorted(found, key=lambda section: -len(section.place))


def starred(repository: Repository, row: Section) -> list[Section]:
    """A row for each file that a row with a star matches, whose name is in the heading instead."""
    before, _, after = row.place.partition("*")
    found = []
    for path in sorted(repository.crates.glob(row.place)):
        place = str(path.relative_to(repository.crates))
        name = place.removeprefix(before).removesuffix(after).lower()
        found.append(Section(place, row.page, row.heading.replace("*", name)))
    return found


def section_of(repository: Repository, listed: list[Section], definition: Definition) -> str | None:
    """The page and the section that say a definition in words, if any do."""
    path = str(definition.module.path.relative_to(repository.crates))
    for section in listed:
        if path.startswith(section.place):
            return f'{section.page}, "{section.heading}"'
    return None


@dataclass(frozen=True)
class Part:
    """A later part of the headline's page: its heading, the places of the definitions with which it
    begins, and why it comes later.
    """

    heading: str
    begins: tuple[str, ...]
    said: str


def parts(repository: Repository) -> list[Part]:
    """The rows of tools/reading-parts.txt, in the order in which the page has them."""
    rows = rows_of(repository.top / "tools" / "reading-parts.txt")
    return [Part(heading, tuple(begins.split()), said) for heading, begins, said in rows]


def notes(repository: Repository) -> dict[str, str]:
    """The notes of tools/reading-notes.md, by the place of the definition that each explains."""
    text = (repository.top / "tools" / "reading-notes.md").read_text(encoding="utf-8")
    return {
        found[1]: found[2].strip()
        for found in re.finditer(r"^## (\S+)\n(.*?)(?=^## |\Z)", text, flags=re.M | re.S)
    }
