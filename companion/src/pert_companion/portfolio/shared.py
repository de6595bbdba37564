"""What several projects load the same resources with, week by week."""

from collections.abc import Sequence
from dataclasses import dataclass
from itertools import chain

from pert_companion.page.words import number_text, shown
from pert_companion.portfolio.row import Row

Users = dict[int, dict[str, int]]
"""Amounts by week, by the number of the row."""


@dataclass(frozen=True)
class Shared:
    """A resource that several projects use: its weeks, and amounts by project."""

    title: str
    weeks: tuple[str, ...]
    rows: tuple[tuple[str, tuple[str, ...]], ...]
    """Names with their amounts; the text of a week in which nothing is used is empty."""


def shared_of(rows: Sequence[Row]) -> list[Shared]:
    """Returns the resources that more than one project uses, matched by title, by title."""
    amounts: dict[str, Users] = {}
    for number, row in enumerate(rows):
        for load in row.loads:
            weeks = amounts.setdefault(load.title, {}).setdefault(number, {})
            weeks[load.week] = weeks.get(load.week, 0) + load.amount
    return [
        _shared(rows, title, users) for title, users in sorted(amounts.items()) if len(users) > 1
    ]


def _shared(rows: Sequence[Row], title: str, users: Users) -> Shared:
    weeks = sorted(set(chain.from_iterable(users.values())))
    lines = []
    for number, by_week in users.items():
        name = shown(rows[number].title or rows[number].code)
        lines.append((name, tuple(_amount(by_week.get(week, 0)) for week in weeks)))
    lines.append(("All", tuple(_amount(_used_in(week, users)) for week in weeks)))
    return Shared(shown(title), tuple(weeks), tuple(lines))


def _used_in(week: str, users: Users) -> int:
    """Returns what all projects use in a week."""
    return sum(by_week.get(week, 0) for by_week in users.values())


def _amount(amount: int) -> str:
    return number_text(amount) if amount else ""
