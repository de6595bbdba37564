"""What a row has to be like to be shown: rows come from other hosts, and from files of a cache."""

import re
from collections.abc import Iterable
from datetime import date

from pert_companion.analysis.contract import CONTRACT_DATE, PLANNED_END, TARGET_DATE
from pert_companion.portfolio.row import Row, WeekLoad, week_name

MOST = 10**18
"""No number of a row is larger: amounts of a deck end at a million millions."""
MOST_SCALE = 10**9
DAY_MINUTES = 24 * 60
WEEK = re.compile(r"([0-9]{4})-W([0-9]{2})", re.ASCII)


def is_plausible(row: Row) -> bool:
    """Says whether a row with values of the right types can be one of a deck.

    Its dates are days, its numbers are in their ranges, and what belongs together is there or not.
    A row with a fault has nothing else.
    """
    if row.fault:
        return row == Row(row.path, fault=row.fault)
    return (
        bool(row.as_of)
        and all(day == "" or is_day(day) for day in _days(row))
        and all(abs(number) <= MOST for number in _numbers(row))
        and _is_scale(row.money_scale)
        and 1 <= row.day_minutes <= DAY_MINUTES
        and _is_consistent(row)
        and all(map(_is_load, row.loads))
    )


def is_day(text: str) -> bool:
    """Says whether a text is a day as YYYY-MM-DD."""
    try:
        return date.fromisoformat(text).isoformat() == text
    except ValueError:
        return False


def _days(row: Row) -> Iterable[str]:
    milestone = () if row.milestone is None else (row.milestone.day or "no day",)
    return (row.as_of, row.forecast, row.likely, row.contract, row.previous_as_of, *milestone)


def _numbers(row: Row) -> Iterable[int]:
    amounts = (row.latest, row.budget, row.overrun, row.first_budget, row.day_price)
    found = (row.late, row.moved, row.missed, *amounts)
    return (number for number in found if number is not None)


def _is_scale(scale: int) -> bool:
    """Says whether a scale of money is 1 or a power of ten."""
    return 1 <= scale <= MOST_SCALE and str(scale).strip("0") == "1"


def _is_consistent(row: Row) -> bool:
    """Says whether values that belong together are all there, or none of them."""
    names = (CONTRACT_DATE, TARGET_DATE, PLANNED_END)
    has_contract = row.contract_name in names and bool(row.contract) and row.late is not None
    has_none = (row.contract_name, row.contract, row.late) == ("", "", None)
    amounts = {row.latest is None, row.budget is None, row.overrun is None}
    return (
        (has_contract or has_none)
        and len(amounts) == 1
        and (row.first_budget is None or row.budget is not None)
        and row.missed >= 0
        and (row.missed > 0) == bool(row.missed_first)
        and (row.moved is None or bool(row.previous_as_of))
    )


def _is_load(load: WeekLoad) -> bool:
    """Says whether an amount is in a week that there is."""
    found = WEEK.fullmatch(load.week)
    if found is None or not 1 <= load.amount <= MOST:
        return False
    try:
        return week_name(date.fromisocalendar(int(found[1]), int(found[2]), 1)) == load.week
    except ValueError:
        return False
