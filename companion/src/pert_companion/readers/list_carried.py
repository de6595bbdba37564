"""The columns of lists: the headings of each that docs/importing.md shows, and what it is.

All headings are in `columns.HEADINGS`.
"""

from dataclasses import dataclass

from pert_companion.readers.carried import table


@dataclass(frozen=True)
class Columns:
    """A row of the table: fields of `columns.HEADINGS`, with blanks between them."""

    fields: str
    headings: str
    """Some of their headings, for example."""
    meaning: str


COLUMNS = (
    Columns("id uid", "ID, Nr., #; Unique ID", "what links refer to, and the id that stays"),
    Columns(
        "code task",
        "Code, Activity ID, Kürzel; Task or Vorgang next to a column of names",
        "the code",
    ),
    Columns("name", "Name, Task Name, Title, Vorgangsname", "the title"),
    Columns("duration", "Duration, Normal, Dauer", "the normal duration"),
    Columns(
        "opt likely pess",
        "Optimistic, Most Likely, Pessimistische Dauer",
        "the three estimates",
    ),
    Columns("crash reduction", "Crash, Kürzeste Dauer; Max Reduction", "the shortest duration"),
    Columns("slope crashcost", "Slope, Mehrkosten pro Tag; Crash Cost", "what shortening costs"),
    Columns("cost", "Cost, Budget, Kosten", "the cost at the normal duration"),
    Columns("pred succ", "Predecessors, Vorgänger; Successors, Nachfolger", "links"),
    Columns(
        "level wbs group",
        "Outline Level, Ebene; WBS, PSP-Code; Phase, Gruppe",
        "the outline",
    ),
    Columns(
        "calendar",
        "Calendar, Task Calendar, Vorgangskalender",
        "the task's own calendar (below)",
    ),
    Columns(
        "resources work",
        "Resource Names, Ressourcennamen; Work, Arbeit",
        "who works, and how long",
    ),
    Columns("percent remaining", "% Complete; Remaining Duration, Restdauer", "progress"),
    Columns("actstart actfinish", "Actual Start, Aktuelles Ende", "actual dates"),
    Columns(
        "actcost remcost",
        "Actual Cost, Ist-Kosten; Remaining Cost",
        "costs so far and still to come",
    ),
    Columns("start finish", "Start, Anfang; Finish, Ende", "dates to compare with"),
    Columns("constraint condate", "Constraint Type, Constraint Date", "a date constraint"),
    Columns("deadline", "Deadline, Stichtag", "a deadline"),
    Columns(
        "basestart basefinish baseduration basecost",
        "Baseline Start, .., Baseline Cost",
        "the baseline",
    ),
    Columns("milestone summary active", "Milestone, Summary, Active", "kinds of rows"),
    Columns(
        "type mode", "Activity Type; Task Mode, Vorgangsmodus", "levels of effort; manual tasks"
    ),
)
"""The rows of the table, in the order of the page."""


def columns_table() -> str:
    """Returns the table of columns as the page has it."""
    cells = [(_shown(row.fields.split()), row.headings, row.meaning) for row in COLUMNS]
    return table(("Field", "Headings, for example", "What it is"), cells)


def _shown(fields: list[str]) -> str:
    """Returns fields as the page names them; more than three are the first and the last."""
    if len(fields) > 3:
        return f"`{fields[0]}` .. `{fields[-1]}`"
    return ", ".join(f"`{name}`" for name in fields)
