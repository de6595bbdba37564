"""What becomes of the fields of planners' files: the rows of the tables in docs/importing.md.

Each reader has its table next to it (`mspdi_carried`, `p6_carried`, `list_carried` ..), and
tools/carried-tables.py writes them into the page. A test compares the fields of each table with
those that the reader reads.
"""

from collections.abc import Iterable, Mapping, Sequence
from dataclasses import dataclass, field


@dataclass(frozen=True)
class Carried:
    """A row: what a file has, what it becomes, and the fields that are read for it."""

    found: str
    becomes: str
    fields: Mapping[str, str] = field(default_factory=dict)
    """The names of the fields, with blanks between them, by the element or table that has them."""
    in_xml: Mapping[str, str] = field(default_factory=dict)
    """Of P6: the elements of its XML that are no field of XER under another name."""


def fields_by_holder(fields: Iterable[Mapping[str, str]]) -> dict[str, frozenset[str]]:
    """Returns the names of fields by the element or table that has them."""
    found: dict[str, set[str]] = {}
    for names_by_holder in fields:
        for holder, names in names_by_holder.items():
            found.setdefault(holder, set()).update(names.split())
    return {holder: frozenset(names) for holder, names in found.items()}


def full_names(fields: Iterable[Mapping[str, str]]) -> set[str]:
    """Returns the names of fields with their elements or tables: `Task.UID`."""
    full: set[str] = set()
    for holder, names in fields_by_holder(fields).items():
        full.update(f"{holder}.{name}" for name in names)
    return full


def carried_table(rows: Iterable[Carried]) -> str:
    """Returns a table as the page has it."""
    cells = [(row.found, row.becomes) for row in rows]
    return table(("In the file", "In the deck and its side file"), cells)


def table(heads: Sequence[str], rows: Iterable[Sequence[str]]) -> str:
    """Returns a table in Markdown."""
    lines = [f"| {' | '.join(heads)} |", "|" + "---|" * len(heads)]
    lines += [f"| {' | '.join(cells)} |" for cells in rows]
    return "".join(f"{line}\n" for line in lines)
