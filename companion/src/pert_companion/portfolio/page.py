"""The page of several projects as one HTML file, the most urgent project first."""

import os
from collections.abc import Sequence
from dataclasses import dataclass, replace
from datetime import date
from fractions import Fraction
from itertools import chain
from pathlib import Path
from urllib.parse import quote

from pert_companion.model.figures import day_words
from pert_companion.page.html import html_file
from pert_companion.page.words import Words, day_text, plural, shown
from pert_companion.portfolio.definitions import WORDS
from pert_companion.portfolio.row import Row
from pert_companion.portfolio.shared import shared_of
from pert_companion.portfolio.sums import sums_of
from pert_companion.portfolio.urgency import (
    Alarm,
    Freshness,
    alarms,
    by_urgency,
    freshness,
)

LEAST_SCALE = 10**6
"""Amounts of all decks are sorted by counts of this part of their currency."""


@dataclass(frozen=True)
class Head:
    """The heading of a column, and whether its cells are numbers."""

    name: str
    is_number: bool = False


HEADS = (
    Head("Project"),
    Head("Late", True),
    Head("Overrun", True),
    Head("Forecast end"),
    Head("80 % sure by"),
    Head("Held to"),
    Head("Moved", True),
    Head("One day less costs", True),
    Head("Next milestone"),
    Head("As of"),
)


@dataclass(frozen=True)
class Cell:
    """A cell: its text, what it is sorted by, and whether it is bad news."""

    text: str
    key: str
    note: str = ""
    tone: str = ""
    is_number: bool = False


NOTHING, NO_NUMBER = Cell("\u2013", ""), Cell("\u2013", "", is_number=True)


@dataclass(frozen=True)
class Line:
    """A row of the page: the project with its link, and its cells or its fault."""

    name: str
    path: str
    link: str
    cells: tuple[Cell, ...]
    fault: str
    alarms: str
    """The words that filters find it by."""


@dataclass(frozen=True)
class Filter:
    """A button that shows the projects with one alarm."""

    word: str
    text: str
    count: int


def render(rows: Sequence[Row], output: Path, stale_days: int) -> bytes:
    """Returns the page as UTF-8; it asks for nothing from anywhere.

    A project links the page next to its deck that has the deck's name, if there is one. An as-of
    date more than `stale_days` days before the newest one is flagged.
    """
    fresh = freshness(rows, stale_days)
    newest = fresh.newest
    return html_file(
        "portfolio.html",
        ["report.css", "portfolio.css"],
        ["portfolio.js"],
        lines=[line_of(row, output, fresh) for row in by_urgency(rows, fresh)],
        heads=HEADS,
        words=WORDS,
        filters=filters_of(rows, fresh),
        sums=sums_of(rows),
        shared=shared_of(rows),
        newest=day_text(date.fromisoformat(newest)) if newest else "",
        stale_days=stale_days,
    )


def filters_of(rows: Sequence[Row], fresh: Freshness) -> list[Filter]:
    """Returns a filter for each alarm that there is, the most urgent first."""
    found = list(chain.from_iterable(alarms(row, fresh) for row in rows))
    return [
        Filter(alarm.name.lower(), alarm.value, found.count(alarm))
        for alarm in Alarm
        if alarm in found
    ]


def line_of(row: Row, output: Path, fresh: Freshness) -> Line:
    """Returns the line of a row."""
    name = shown(row.title or row.code or Path(row.path).stem)
    path = shown(row.path)
    found = alarms(row, fresh)
    words = " ".join(alarm.name.lower() for alarm in found)
    if row.fault:
        return Line(name, path, "", (), shown(row.fault), words)
    money = Words("", shown(row.currency), row.money_scale)
    cells = (
        _late_cell(row),
        _overrun_cell(row, money, Alarm.OVERRUN in found),
        _day_cell(row.forecast),
        _day_cell(row.likely),
        _day_cell(row.contract, row.contract_name),
        _moved_cell(row),
        _money_cell(row.day_price, money, False),
        _milestone_cell(row),
        _as_of_cell(row, fresh),
    )
    return Line(name, path, link_of(row, output), cells, "", words)


def _late_cell(row: Row) -> Cell:
    """Returns how late a project is, with its missed deadlines."""
    tone = "bad" if row.missed or (row.is_binding and (row.late or 0) > 0) else ""
    return _days_cell(row.late, row, ("late", "early", "on time"), _missed_note(row), tone)


def _missed_note(row: Row) -> str:
    if not row.missed:
        return ""
    more = f" and {row.missed - 1} more" if row.missed > 1 else ""
    return f"{plural(row.missed, 'deadline')} missed: {shown(row.missed_first)}{more}"


def _moved_cell(row: Row) -> Cell:
    tone = "bad" if (row.moved or 0) > 0 else ""
    return _days_cell(row.moved, row, ("later", "earlier", "not moved"), "", tone)


def _days_cell(
    minutes: int | None, row: Row, words: tuple[str, str, str], note: str, tone: str
) -> Cell:
    """Returns a cell of working minutes with a word for more, for less and for none of them."""
    if minutes is None:
        return Cell("\u2013", "", note, tone, True)
    after, before, none = words
    text = none
    if minutes:
        text = f"{day_words(abs(minutes), row.day_minutes)} {after if minutes > 0 else before}"
    return Cell(text, str(round(Fraction(minutes * 100, row.day_minutes))), note, tone, True)


def _money_cell(amount: int | None, words: Words, is_bad: bool) -> Cell:
    if amount is None:
        return NO_NUMBER
    key = amount * LEAST_SCALE // words.money_scale
    return Cell(words.money(amount), str(key), "", "bad" if is_bad else "", True)


def _overrun_cell(row: Row, money: Words, is_bad: bool) -> Cell:
    """Returns the overrun, with the one over the first budget if the budget has changed."""
    cell = _money_cell(row.overrun, money, is_bad)
    if row.first_budget is None or row.first_budget == row.budget or row.latest is None:
        return cell
    more = money.money(row.latest - row.first_budget)
    return replace(cell, note=f"{more} against the first budget")


def _day_cell(day: str, note: str = "", tone: str = "") -> Cell:
    if not day:
        return NOTHING
    return Cell(day_text(date.fromisoformat(day)), day, note, tone)


def _as_of_cell(row: Row, fresh: Freshness) -> Cell:
    """Returns the as-of date, with how old it is and what the import left out."""
    is_stale = fresh.is_stale(row)
    age = f"more than {fresh.days} days old" if is_stale else ""
    note = "; ".join(text for text in (age, shown(row.note)) if text)
    return _day_cell(row.as_of, note, "bad" if is_stale else "")


def _milestone_cell(row: Row) -> Cell:
    if row.milestone is None:
        return NOTHING
    return _day_cell(row.milestone.day, shown(row.milestone.name))


def link_of(row: Row, output: Path) -> str:
    """Returns the address of the page of a project, or nothing if there is none by its deck."""
    page = Path(row.path).with_suffix(".html")
    if not page.is_file() or page.resolve() == output.resolve():
        return ""
    return quote(os.fsencode(os.path.relpath(page.resolve(), output.resolve().parent)))
