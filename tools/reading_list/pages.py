"""The two pages that the command writes."""

from collections.abc import Sequence

from reading_list.calls import CALLS, Contract, clauses_of, methods, traits_and_laws
from reading_list.code import Code
from reading_list.definitions import Definition
from reading_list.repository import Repository
from reading_list.tables import Part, library_lines, notes, parts, section_of, sections
from reading_list.words import Alias, Words

HEADLINE = (
    "The clause of `run` that says what the program is for, and below it each definition on which "
    "it rests, once: those that the clause names, and after each what it names in turn. What is "
    "printed comes first, and what an accepted deck is after it. Start with docs/auditor.md, which "
    "leads through those that matter most."
)
TYPES = (
    "A plain type of the code is printed below the first definition that names it; in definitions "
    "its integer types are ℕ, and ℤ if they have a sign. Constants and the words of the language "
    "and of the kit's libraries are in tables at the end."
)
REST = (
    "Every other clause of `run`, `check_run` and `session_run`, the calls of a session, what is "
    "asked of a source and of a sink, and the laws: public functions without a result and without "
    "a `&mut` parameter, so that calling one changes nothing and its contract is what it says. "
    "Below each is what it rests on and headline.md does not print."
)


def count(definitions: Sequence[Definition]) -> str:
    """How many definitions these are, and how many lines they have."""
    return f"{len(definitions)} definitions, {sum(one.length for one in definitions)} lines"


def fenced(text: str) -> list[str]:
    """The lines of a text as a block of code."""
    return ["```", text.rstrip("\n"), "```", ""]


def cell(text: str) -> str:
    """A text as it is written in a cell of a table."""
    return text.replace("|", "\\|")


class Page:
    """A page that prints each definition once, and at its end what they need besides."""

    def __init__(self, repository: Repository, title: str, intro: str) -> None:
        self.repository = repository
        self.sections = sections(repository)
        self.notes = {repository.definition_of(at): said for at, said in notes(repository).items()}
        self.out = [f"# {title}", "", intro, "", TYPES, ""]
        self.words = Words(repository)
        self.seen: set[Definition] = set()
        self.listed: list[Definition] = []
        # the line on which each of them ends
        self.ends: list[int] = []
        self.types: set[Code] = set()
        self.last: str | None = None

    def contract(self, contract: Contract, heading: str, later: Sequence[Part] = ()) -> None:
        """Prints a contract, and the definitions that it reaches and that were not printed yet:
        first those outside all later parts, and then each part.
        """
        begins = {part: self.begins(part) for part in later}
        held = {definition for found in begins.values() for definition in found}
        listed: list[Definition] = []
        self.repository.reach(contract.imports, None, contract.text, self.seen, listed, held)
        self.out += [f"## {heading}, {contract.place}", ""] + fenced(contract.text)
        self.definitions(listed)
        for part, found in begins.items():
            held -= set(found)
            self.part(part, found, held)
        self.words.take(contract.imports, contract.text, contract.place)
        self.new_types()

    def begins(self, part: Part) -> list[Definition]:
        """The definitions with which a part begins."""
        found = [self.repository.definition_of(place) for place in part.begins]
        return [definition for definition in found if definition is not None]

    def part(self, part: Part, begins: Sequence[Definition], later: set[Definition]) -> None:
        """Prints a part: the definitions with which it begins, and what they reach."""
        self.out += [f"## {part.heading}", "", part.said, ""]
        self.last = None
        for definition in begins:
            if definition in self.seen:
                continue
            self.seen.add(definition)
            listed, inner = [definition], definition.module
            text = definition.text
            self.repository.reach(inner.imports, inner, text, self.seen, listed, later)
            self.definitions(listed)

    def definitions(self, listed: Sequence[Definition]) -> None:
        """Prints definitions, and notes where each ends."""
        for definition in listed:
            self.definition(definition)
            self.ends.append(sum(line.count("\n") + 1 for line in self.out) - 1)
            self.new_types()
        self.listed += listed

    def definition(self, definition: Definition) -> None:
        """Prints a definition, with its file where that is another than the last one's."""
        place = self.repository.place(definition.module.path)
        if place != self.last:
            said = section_of(self.repository, self.sections, definition)
            self.out += [f"*{place}*" + (f" (in words: {said})" if said else ""), ""]
            self.last = place
        context = definition.context()
        if context:
            self.out += [f"({context})", ""]
        self.out += fenced(definition.whole)
        if definition in self.notes:
            self.out += [self.notes[definition], ""]
        self.words.take(definition.module.imports, definition.text, place)

    def new_types(self) -> None:
        """Prints the plain types of the code that were named and not printed yet."""
        for code in list(self.words.codes.values()):
            if code.sort == "type" and code not in self.types:
                self.types.add(code)
                self.out += [f"*{code.place}*", "", *fenced(code.text)]
                self.last = None

    def finish(self) -> str:
        """The complete page."""
        codes = sorted(self.words.codes.values(), key=lambda code: (code.place, code.name))
        constants = [code for code in codes if code.sort == "constant"]
        views = [code for code in codes if code.sort == "view"]
        lines = [*self.out, *constant_lines(constants), *view_lines(views)]
        lines += alias_lines(self.words.aliases)
        lines += self.word_lines()
        return "\n".join(lines) + "\n"

    def word_lines(self) -> list[str]:
        """The words of the language and of the kit's libraries, with their meaning."""
        said = library_lines(self.repository)
        return [
            "## Words of the language and of the kit's libraries",
            "",
            "| Word | Meaning |",
            "|---|---|",
            *(f"| `{cell(name)}` | {said.get(name, '')} |" for name in sorted(self.words.library)),
        ]


def constant_lines(constants: list[Code]) -> list[str]:
    """The constants of the code."""
    if not constants:
        return []
    rows = [f"| `{one.name}` | `{cell(one.text)}` | {one.place} |" for one in constants]
    return ["## Constants", "", "| Constant | Value | Where |", "|---|---|---|", *rows, ""]


def view_lines(views: list[Code]) -> list[str]:
    """The types in place of whose values definitions see something else."""
    if not views:
        return []
    rows = [f"| `{one.name}` | `{cell(one.text)}` | {one.said} | {one.place} |" for one in views]
    heading = "## What definitions see in fields of other types"
    return [heading, "", "| Type | Seen as | What it is | Where |", "|---|---|---|---|", *rows, ""]


def alias_lines(aliases: set[Alias]) -> list[str]:
    """The other names under which files use a name, and the prefixes of modules."""
    rows = []
    for one in sorted(aliases, key=lambda alias: (alias.name, alias.module, alias.means)):
        means = f"`{cell(one.means)}` of {one.module}" if one.means else f"names of {one.module}"
        rows.append(f"| `{cell(one.name)}` | {means} |")
    said = "A file may import a name as another, or a module with a prefix for its names."
    table = ["| Name | What it means |", "|---|---|", *rows, ""]
    return ["## Other names", "", said, "", *table] if rows else []


def headline_page(repository: Repository) -> tuple[str, Page]:
    """The page of the headline of `run`."""
    page = Page(repository, "The headline: a day's reading", HEADLINE)
    for clause in clauses_of(repository, "run"):
        if clause.name in CALLS["run"]:
            page.contract(clause, f"`{clause.name}` of `run`", parts(repository))
    page.out[3] = f"\n{count(page.listed)}.\n"
    page.ends = [end + 2 for end in page.ends]
    return page.finish(), page


def rest_page(repository: Repository, headline: Page) -> tuple[str, Page]:
    """The page of all other promises."""
    page = Page(repository, "All other promises", REST)
    page.seen, page.types = set(headline.seen), set(headline.types)
    for call, first in CALLS.items():
        for clause in clauses_of(repository, call):
            if call != "run" or clause.name not in first:
                page.contract(clause, f"`{clause.name}` of `{call}`")
    for contract in [*methods(repository), *traits_and_laws(repository)]:
        page.contract(contract, f"`{contract.name}`")
    return page.finish(), page
