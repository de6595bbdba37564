"""Sums of several projects: of money in one currency. Nothing else can be added."""

from collections.abc import Sequence
from dataclasses import dataclass

from pert_companion.page.words import Words, shown
from pert_companion.portfolio.row import Row


@dataclass(frozen=True)
class Sum:
    """What the projects with amounts in one currency overrun together."""

    name: str
    overrun: str
    note: str
    is_bad: bool


def sums_of(rows: Sequence[Row]) -> list[Sum]:
    """Returns the sum for each currency in which several projects have amounts, by its name.

    Decks that name no currency are in no sum, since nobody knows whether theirs are the same.
    """
    currencies: dict[str, list[Row]] = {}
    for row in rows:
        if row.currency and row.overrun is not None:
            currencies.setdefault(row.currency, []).append(row)
    return [_sum(name, users) for name, users in sorted(currencies.items()) if len(users) > 1]


def _sum(currency: str, rows: Sequence[Row]) -> Sum:
    scale = max(row.money_scale for row in rows)
    words = Words("", shown(currency), scale)
    latest = sum((row.latest or 0) * (scale // row.money_scale) for row in rows)
    budget = sum((row.budget or 0) * (scale // row.money_scale) for row in rows)
    overrun = sum((row.overrun or 0) * (scale // row.money_scale) for row in rows)
    return Sum(
        f"{len(rows)} projects with amounts in {shown(currency)}",
        words.money(overrun),
        f"latest estimate {words.money(latest)}, budget {words.money(budget)}",
        overrun > 0,
    )
