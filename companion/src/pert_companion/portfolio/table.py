"""The rows of several projects as CSV, for a spreadsheet."""

from collections.abc import Sequence

from pert_companion.model.figures import days_text, money_text
from pert_companion.model.lines import csv_bytes
from pert_companion.model.output import FileKind
from pert_companion.page.words import shown
from pert_companion.portfolio.row import Row
from pert_companion.portfolio.urgency import alarms, freshness
from pert_companion.writers.formula import plain_text

PORTFOLIO_TABLE = FileKind("a table of projects", "path,code,title,as_of,")

PLAIN = (
    *(
        "path",
        "code",
        "title",
        "as_of",
        "forecast",
        "likely",
        "contract",
        "contract_name",
        "missed",
    ),
    *("latest", "budget", "overrun", "first_budget", "day_price", "currency", "fault"),
)
"""The columns that are fields of a row."""
AMOUNTS = ("latest", "budget", "overrun", "first_budget", "day_price")
"""Those that are amounts."""

Cells = dict[str, str | int | None]


def table_csv(rows: Sequence[Row], stale_days: int) -> bytes:
    """Returns the rows in the order of their decks as CSV in UTF-8.

    Amounts are in the currency of each deck, lengths in days.
    """
    fresh = freshness(rows, stale_days)
    lines = [[*_cells(Row("")), "alarms"]]
    for row in rows:
        found = "; ".join(alarm.value for alarm in alarms(row, fresh))
        lines.append([_text(value) for value in (*_cells(row).values(), found)])
    return csv_bytes(lines)


def _cells(row: Row) -> Cells:
    """Returns the cells of a row by the names of their columns."""
    mile = row.milestone
    cells: Cells = {name: getattr(row, name) for name in PLAIN}
    for name in AMOUNTS:
        if cells[name] is not None:
            cells[name] = money_text(getattr(row, name), row.money_scale)
    cells |= {
        "late_days": _days(row.late, row),
        "moved_days": _days(row.moved, row),
        "milestone": "" if mile is None else mile.name,
        "milestone_day": "" if mile is None else mile.day,
    }
    return cells


def _days(minutes: int | None, row: Row) -> str:
    """Returns working minutes in days; an empty text if there are none."""
    return "" if minutes is None else days_text(minutes, row.day_minutes)


def _text(value: str | int | None) -> str:
    """Returns a cell as a spreadsheet may read it: no text of a deck is a formula."""
    if value is None or value == "":
        return ""
    if isinstance(value, int) or value.lstrip("-").replace(".", "", 1).isdecimal():
        return str(value)
    return plain_text(shown(value))
