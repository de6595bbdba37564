"""What to check before the page is believed: named on the first screen, listed in a section."""

from collections.abc import Iterator, Sequence
from dataclasses import dataclass

from pert_companion.analysis.deadlines import missed_deadlines
from pert_companion.analysis.plausibility import DoubtKind
from pert_companion.analysis.real_dates import calendars_text
from pert_companion.model.losses import NAMED, accepted_text
from pert_companion.page.gathering import Gathered
from pert_companion.page.view import Alert, Line, Row, Table, plain, title
from pert_companion.page.words import day_text, number_text, plural, shown

MOST_NAMED = 3
"""Tasks of an alert that are named."""
MOST_ROWS = 100
DEADLINES, BROKEN, LEFT_OUT = "check-deadlines", "check-dates", "check-left-out"


@dataclass(frozen=True)
class CheckTable:
    """A table of the section, and the key by which alerts lead to it."""

    key: str
    table: Table


@dataclass(frozen=True)
class Checks:
    """What is on the first screen, and the tables with all of it."""

    alerts: tuple[Alert, ...]
    tables: tuple[CheckTable, ...]


def checks(gathered: Gathered) -> Checks:
    """Returns the missed deadlines of a state, fixed dates that it breaks, and what was left out.

    What is hard to believe is named here too, and has a section of its own.
    """
    alerts = [
        *deadline_alerts(gathered),
        *broken_alerts(gathered),
        *loss_alerts(gathered),
        *doubt_alerts(gathered),
    ]
    tables = [
        *deadline_tables(gathered),
        *broken_tables(gathered),
        *loss_tables(gathered),
    ]
    return Checks(tuple(alerts), tuple(tables))


def deadline_alerts(gathered: Gathered) -> Iterator[Alert]:
    """Yields how many deadlines are missed, with the first of them."""
    missed = missed_deadlines(gathered.state, gathered.today)
    if missed:
        names = [it.name for it in missed]
        start = plain(f"{plural(len(missed), 'deadline')} missed by today’s plan: ")
        yield Alert(DEADLINES, (*start, *some_of(names)))


def broken_alerts(gathered: Gathered) -> Iterator[Alert]:
    """Yields how many latest dates of tasks are broken."""
    if gathered.broken:
        count = plural(len(gathered.broken), "fixed date")
        yield Alert(BROKEN, plain(f"Today’s plan breaks {count} of tasks"))


def loss_alerts(gathered: Gathered) -> Iterator[Alert]:
    """Yields what the import left out, and which tasks have calendars of their own."""
    side = gathered.state.side
    if side.accepted:
        text = (*plain("Not carried over from "), *title(shown(side.source_name)))
        text = (*text, *plain(f", as accepted: {accepted_text(side.accepted)}"))
        yield Alert(LEFT_OUT, text)
    calendars = calendars_text(side)
    if calendars:
        yield Alert("schedule", title(shown(calendars)))


def doubt_alerts(gathered: Gathered) -> Iterator[Alert]:
    """Yields what is hard to believe, by kind; the section of doubts has each."""
    for kind in DoubtKind:
        names = [doubt.name or doubt.code for doubt in gathered.doubts if doubt.kind is kind]
        if names:
            yield Alert("doubts", (*plain(f"To check, {kind.value}: "), *some_of(names)))


def some_of(names: Sequence[str]) -> Line:
    """Returns the first names, and how many there are more."""
    listed = ", ".join(shown(name) for name in names[:MOST_NAMED])
    more = f" and {len(names) - MOST_NAMED} more" if len(names) > MOST_NAMED else ""
    return (*title(listed), *plain(more))


def deadline_tables(gathered: Gathered) -> Iterator[CheckTable]:
    """Yields the table of missed deadlines, if there are any."""
    calendar = gathered.state.rest.side.calendar
    rows = []
    for it in missed_deadlines(gathered.state, gathered.today):
        late = calendar.count_days(it.deadline, it.end)
        days = (day_text(it.deadline), day_text(it.end), number_text(late))
        rows.append(Row(title(shown(it.name)), tuple(plain(day) for day in days)))
    heads = ("Task", "Deadline", "Ends", "Working days late")
    yield from check_table(DEADLINES, "Deadlines missed by today’s plan", heads, rows, (1, 2))


def broken_tables(gathered: Gathered) -> Iterator[CheckTable]:
    """Yields the table of fixed dates that are broken, if there are any."""
    rows = [Row(title(shown(line)), ()) for line in gathered.broken]
    yield from check_table(BROKEN, "Fixed dates of tasks", ("Today’s plan",), rows)


def loss_tables(gathered: Gathered) -> Iterator[CheckTable]:
    """Yields the table of what the import left out, if anything was."""
    side = gathered.state.side
    rows = []
    for loss in side.accepted:
        there = f"{loss.field} {loss.text}".strip() or "\u2013"
        cells = (NAMED[loss.kind], there, loss.why)
        name = title(shown(loss.name or loss.where))
        rows.append(Row(name, tuple(title(shown(cell)) for cell in cells)))
    heads = ("Where", "What", "The source has", "Why")
    caption = f"Not carried over from {shown(side.source_name)}, as accepted"
    yield from check_table(LEFT_OUT, caption, heads, rows)


def check_table(
    key: str,
    caption: str,
    heads: tuple[str, ...],
    rows: Sequence[Row],
    texts: tuple[int, ...] = (1, 2, 3),
) -> Iterator[CheckTable]:
    """Yields a table of at most `MOST_ROWS` rows, or nothing if there are none."""
    if not rows:
        return
    more = len(rows) - MOST_ROWS
    name = f"{caption} ({number_text(more)} more are not shown)" if more > 0 else caption
    yield CheckTable(key, Table(name, heads, tuple(rows[:MOST_ROWS]), texts, has_phrases=True))
