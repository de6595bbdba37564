"""What changed since the report before: states side by side, bridges, milestones, the past."""

from collections.abc import Iterator
from dataclasses import dataclass, replace

from pert_companion.analysis.bridges import Bridges, bridges
from pert_companion.analysis.compare import Comparison, History, StateFigures, compare
from pert_companion.model.figures import ratio_text, signed_days
from pert_companion.page.bridges import (
    StateMoney,
    budgets_table,
    end_table,
    estimate_table,
    task_name,
    task_table,
)
from pert_companion.page.view import Line, Row, Table, plain, title
from pert_companion.page.words import Words, day_text, plural, shown
from pert_companion.state.project import ProjectState

MOST_ROWS = 40
"""Rows of a table of changes."""
ORDER = (
    "By task, today's state of each task takes the place of its last one, along the path that"
    " drives the end and in the order of the work. Another order would divide the same move"
    " otherwise."
)


@dataclass(frozen=True)
class Changes:
    """What the section shows."""

    since: str
    tables: tuple[Table, ...]
    details: tuple[Table, ...]
    """The tables that the reader opens."""
    order: str
    """In which order tasks move the end, or an empty text if none did."""
    notes: tuple[str, ...]


@dataclass(frozen=True)
class Changed:
    """The states that are compared, and the bridges between their ends."""

    history: History
    bridges: Bridges


def changed(
    current: ProjectState, previous: ProjectState, baseline: ProjectState | None
) -> Changed:
    """Returns what changed from the report before to the current state."""
    history = compare([previous, current], baseline)
    comparison = history.comparisons[-1]
    return Changed(history, bridges(comparison.old, comparison.new))


def changes_view(changes: Changed, words: Words) -> Changes:
    """Returns the section on what changed."""
    comparison = changes.history.comparisons[-1]
    steps, moves = changes.bridges.steps, changes.bridges.moves
    money = StateMoney(changes.history, words)
    tables = [states_table(changes.history, money)]
    order = ""
    if steps:
        tables.append(end_table(steps, comparison))
    if moves is not None and (moves.tasks or moves.others):
        tables.append(task_table(moves, comparison))
        order = ORDER
    if comparison.old.state.deck.accounts or comparison.new.state.deck.accounts:
        tables.append(estimate_table(comparison, money))
        tables.append(budgets_table(comparison, money))
    notes = []
    if not steps:
        notes.append("The bridge of the end date cannot be made from these two decks.")
    if comparison.restated:
        count = plural(len(comparison.restated), "figure")
        notes.append(
            f"Since the last report, {count} of the time before it changed. The last report is"
            " shown as it was reported."
        )
    return Changes(
        day_text(comparison.old.data_day),
        tuple(tables),
        tuple(_more_tables(comparison, money)),
        order,
        tuple(notes),
    )


def states_table(history: History, money: StateMoney) -> Table:
    """Returns the baseline, the last report and now, side by side."""
    columns = [history.baseline, *history.states]
    if history.baseline is history.states[0]:
        columns = list(history.states)
    names = ["Baseline", "Last report", "Now"][-len(columns) :]
    rows = [
        Row(plain("As of"), tuple(plain(day_text(state.data_day)) for state in columns)),
        Row(
            plain("Forecast end"),
            tuple(plain(day_text(state.end)) for state in columns),
        ),
        Row(
            plain("Earliest end"),
            tuple(plain(day_text(min(s.earliest_end, s.end))) for s in columns),
        ),
        Row(plain("Budget"), tuple(money.text(state.budget) for state in columns)),
        Row(plain("Spent"), tuple(money.text(state.actual) for state in columns)),
        Row(plain("To go"), tuple(money.text(state.to_go) for state in columns)),
        Row(
            plain("Latest estimate"),
            tuple(money.text(state.latest) for state in columns),
        ),
    ]
    if any(state.earned is not None for state in columns):
        rows.append(Row(plain("Earned (EV)"), tuple(_earned(s, money) for s in columns)))
        rows.append(Row(plain("CPI"), tuple(_ratio(s, "cpi") for s in columns)))
        rows.append(Row(plain("SPI"), tuple(_ratio(s, "spi") for s in columns)))
    rows.extend(milestone_rows(columns))
    return Table("States side by side", ("", *names), tuple(rows))


def _earned(state: StateFigures, money: StateMoney) -> Line:
    return plain("\u2013") if state.earned is None else money.text(state.earned.total.ev)


def _ratio(state: StateFigures, name: str) -> Line:
    if state.earned is None:
        return plain("\u2013")
    ratio = state.earned.total.cpi if name == "cpi" else state.earned.total.spi
    return plain("\u2013" if ratio is None else ratio_text(ratio, 2))


def milestone_rows(columns: list[StateFigures]) -> Iterator[Row]:
    """Yields the trend of each milestone: its forecast in each state."""
    latest = columns[-1].forecast
    for milestone in [task for task in latest.tasks if task.is_milestone][:MOST_ROWS]:
        cells = []
        for state in columns:
            found = next((t for t in state.forecast.tasks if t.uid == milestone.uid), None)
            cells.append(plain("\u2013" if found is None else day_text(found.last_day)))
        name = (*title(shown(milestone.name or milestone.code)), *plain(" (milestone)"))
        yield Row(name, tuple(cells))


def _more_tables(comparison: Comparison, money: StateMoney) -> Iterator[Table]:
    rows = [_named(c.code, c.name, "joined", c.why) for c in comparison.joined]
    rows += [_named(c.code, c.name, "left", c.why) for c in comparison.left]
    yield from _table("Critical path", ("Task", "", "Why"), rows)
    days = comparison.new.day_minutes
    rows = [
        _named(
            c.code,
            c.name,
            f"{signed_days(c.new_minutes - c.old_minutes, days)} days",
            "all used" if c.is_used_up else "",
        )
        for c in comparison.slack_used
    ]
    yield from _table("Slack used", ("Task", "Slack", ""), rows)
    rows = [_named(c.code, c.name, c.kind.value, c.old, c.new) for c in comparison.changes]
    yield from _table("Changed entries", ("Task or account", "What", "Before", "Now"), rows)
    rows = [
        _named(c.subject, c.name, c.what, day_text(c.day), c.old, c.new)
        for c in comparison.restated
    ]
    heads = ("Task or account", "What", "Of", "Reported", "Now")
    yield from _table("Restated: of the time before the last report", heads, rows)
    yield from _credits_table(comparison, money)


def _credits_table(comparison: Comparison, money: StateMoney) -> Iterator[Table]:
    """Yields the credits since the last report, which are no restated past."""
    rows = []
    for credit in comparison.credits:
        texts = day_text(credit.day), credit.number, credit.text
        cells = (title(shown(text or "\u2013")) for text in texts)
        rows.append(
            Row(task_name(credit.account, credit.name), (money.text(credit.amount), *cells))
        )
    heads = ("Account", "Credit", "Day", "Voucher", "Text")
    for table in _table("Credits since the last report", heads, rows):
        yield replace(table, texts=(2, 3, 4))


def _named(code: str, name: str, *cells: str) -> Row:
    return Row(task_name(code, name), tuple(title(shown(cell or "\u2013")) for cell in cells))


def _table(caption: str, heads: tuple[str, ...], rows: list[Row]) -> Iterator[Table]:
    if not rows:
        return
    texts = tuple(range(1, len(heads)))
    more = len(rows) - MOST_ROWS
    name = f"{caption} ({more} more rows in pert-compare)" if more > 0 else caption
    yield Table(name, heads, tuple(rows[:MOST_ROWS]), texts)
