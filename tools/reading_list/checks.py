"""What would make the pages wrong, incomplete or too long."""

import re
from collections.abc import Iterator

from reading_list.calls import CALLS, clauses_of, promises
from reading_list.definitions import BEGINS, Definition, constructors_of
from reading_list.pages import Page, count
from reading_list.repository import Repository
from reading_list.tables import library_lines, notes, parts, sections

# how many definitions and lines the headline of `run` may reach, so that it is read in a day
MOST = (325, 1650)
# the definition that the headline is about, how many definitions are read first, and on which line
# of the page the last of these may end
HEART = "PrintsWholeCurve"
FIRST = (30, 450)
# how many definitions all clauses of `run` together may reach
MOST_OF_ALL = 900
MISPLACED = "in specs/ and reached by no promise, or in specs/inside/ and reached by one"
BLOCK = re.compile(r"^```\n(.*?)^```$", flags=re.MULTILINE | re.DOTALL)
ROW = re.compile(r"^\| `((?:[^`|]|\\\|)+)` \|", flags=re.MULTILINE)
DECLARED = re.compile(r"^ *(?:pub(?:\([a-z_: ]+\))? )?(?:struct|enum) (\w+)", flags=re.MULTILINE)
VARIANT = re.compile(r"^ {4}(\w+)(?:,|\(| \{)", flags=re.MULTILINE)
QUOTE = re.compile(r"(?:^    [^\n]*\n)+", flags=re.MULTILINE)


def counts(repository: Repository) -> dict[str, list[Definition]]:
    """Prints how much the clauses of each top call reach. Returns what all of each reach."""
    reach: dict[str, list[Definition]] = {}
    for call, first in CALLS.items():
        headline: list[Definition] = []
        complete: list[Definition] = []
        seen: set[Definition] = set()
        everything: set[Definition] = set()
        for clause in clauses_of(repository, call):
            if clause.name in first:
                repository.reach(clause.imports, None, clause.text, seen, headline)
            repository.reach(clause.imports, None, clause.text, everything, complete)
        print(f"reading list: {call}: headline {count(headline)}; all clauses {count(complete)}")
        reach[call] = complete
    return reach


def beginning(page: Page) -> Iterator[str]:
    """Prints how far the first definitions of the headline's page reach. Yields what is too far."""
    number = min(FIRST[0], len(page.ends))
    end = page.ends[number - 1] if number else 0
    names = [definition.name for definition in page.listed]
    heart = names.index(HEART) + 1 if HEART in names else 0
    print(f"reading list: headline.md: the first {number} definitions end on line {end}", end="")
    print(f"; {HEART} is number {heart}" if heart else "")
    if end > FIRST[1]:
        yield f"the first {number} definitions end on line {end}; at most on line {FIRST[1]}"
    if heart > FIRST[0]:
        yield f"{HEART} is definition {heart}; at most {FIRST[0]}"


def too_long(headline: list[Definition], complete: list[Definition]) -> Iterator[str]:
    """Whether more is reached than a person reads."""
    if len(headline) > MOST[0] or sum(one.length for one in headline) > MOST[1]:
        most = f"at most {MOST[0]} definitions and {MOST[1]} lines"
        yield f"the headline reaches {count(headline)}; {most}"
    if len(complete) > MOST_OF_ALL:
        yield f"all clauses of run reach {count(complete)}; at most {MOST_OF_ALL} definitions"


def misplaced(repository: Repository) -> Iterator[str]:
    """The definitions that are in specs/ and belong in specs/inside/, or the other way round."""
    seen: set[Definition] = set()
    for contract in promises(repository):
        repository.reach(contract.imports, None, contract.text, seen, [])
    for module in repository.all_modules():
        inside = "inside" in module.name.split(".")
        for definition in module.order:
            if (definition in seen) == inside:
                yield f"{repository.place_of(definition)} {definition.name}: {MISPLACED}"


def printed_in(text: str) -> set[str]:
    """The names that a page defines: in its blocks, and in the first column of its tables."""
    found = {row.replace("\\|", "|") for row in ROW.findall(text)}
    for block in BLOCK.findall(text):
        declared = DECLARED.findall(block)
        if declared:
            found.update(declared, VARIANT.findall(block))
            continue
        for line in block.split("\n"):
            if begins := BEGINS.match(line):
                found.add(begins[1])
        if at := re.search(r"^pub data", block, flags=re.MULTILINE):
            found.update(constructors_of(block[at.start() :]))
    return found


def unprinted(pages: list[tuple[str, Page]]) -> Iterator[str]:
    """The names that a page uses and that neither it nor a page before it defines."""
    printed: set[str] = set()
    for text, page in pages:
        printed |= printed_in(text)
        for name, place in sorted(page.words.used.items()):
            if name not in printed:
                yield f"{place}: uses {name}, which no page defines"


def unsaid(repository: Repository, pages: list[tuple[str, Page]]) -> Iterator[str]:
    """The words of the libraries without a line that says what they mean."""
    said = library_lines(repository)
    words = {name: module for _, page in pages for name, module in page.words.library.items()}
    for name, module in sorted(words.items()):
        if name not in said:
            yield f"{name} ({module}): a word without a line in tools/library-words.txt"


def stale(repository: Repository) -> Iterator[str]:
    """The rows of tools/reading-sections.txt that name what there is not."""
    for section in sections(repository):
        path = repository.top / "docs" / section.page
        heading = rf"^#+ {re.escape(section.heading)}$"
        if not path.exists() or not re.search(
            heading, path.read_text(encoding="utf-8"), flags=re.MULTILINE
        ):
            yield f"tools/reading-sections.txt: {section.page} has no section '{section.heading}'"
        if not (repository.crates / section.place).exists():
            yield f"tools/reading-sections.txt: there is no {section.place}"


def unknown(repository: Repository, headline: Page) -> Iterator[str]:
    """The definitions that tools/reading-parts.txt and tools/reading-notes.md name and the pages
    do not have.
    """
    begins = [(place, "parts.txt") for part in parts(repository) for place in part.begins]
    for place, file in [*begins, *((place, "notes.md") for place in notes(repository))]:
        if repository.definition_of(place) not in headline.seen:
            yield f"tools/reading-{file}: headline.md has no definition {place}"


def misquoted(repository: Repository) -> Iterator[str]:
    """The definitions that docs/auditor.md quotes and that are not so in specs/.

    A quote is an indented text that begins with a comment.
    """
    wholes = {one.whole for module in repository.all_modules() for one in module.order}
    page = (repository.top / "docs" / "auditor.md").read_text(encoding="utf-8")
    for text in QUOTE.findall(page):
        plain = re.sub(r"^    ", "", text, flags=re.MULTILINE).rstrip("\n")
        if plain.startswith("-- ") and plain not in wholes:
            yield f"docs/auditor.md quotes no definition: {plain.splitlines()[0]}"


def flaws(
    repository: Repository, pages: list[tuple[str, Page]], complete: list[Definition]
) -> Iterator[str]:
    """All that is wrong."""
    yield from too_long(pages[0][1].listed, complete)
    yield from beginning(pages[0][1])
    yield from misplaced(repository)
    yield from misquoted(repository)
    for _, page in pages:
        yield from sorted(page.words.flaws)
    yield from unprinted(pages)
    yield from unsaid(repository, pages)
    yield from stale(repository)
    yield from unknown(repository, pages[0][1])
