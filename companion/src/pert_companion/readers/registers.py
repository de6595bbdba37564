"""Reads the tables next to a deck: packages, changes of budget, renames, explanations.

A row that makes no sense ends the reading: these tables decide what totals mean.
"""

from collections.abc import Callable, Iterable
from datetime import date
from decimal import Decimal
from pathlib import PurePath
from typing import TypeVar

from pert_companion.model.errors import InputError
from pert_companion.model.registers import (
    BudgetChange,
    Explanation,
    PackageRule,
    Rename,
    Renames,
    Technique,
)
from pert_companion.model.source import Source
from pert_companion.readers.base import ReaderOptions
from pert_companion.readers.outline import Row
from pert_companion.readers.sheet import Layout, Sheet, read_sheet
from pert_companion.readers.style import Columns
from pert_companion.readers.values import Unreadable, amount, day, is_nothing

Made = TypeVar("Made")

PACKAGES = Layout(
    "list of packages",
    {
        "item": ("item", "package", "work package", "wbs", "arbeitspaket", "paket"),
        "title": ("title", "name", "titel", "bezeichnung"),
        "technique": ("technique", "method", "earned value technique", "methode"),
        "manager": ("manager", "control account manager", "cam", "verantwortlich"),
        "weights": ("weights", "milestones", "milestone weights", "gewichte"),
        "base": ("base", "based on", "apportioned to", "basis"),
        "budget": ("budget", "amount", "betrag"),
        "start": ("start", "first day", "anfang", "beginn"),
        "finish": ("finish", "last day", "ende"),
    },
    (("item",), ("technique", "manager")),
    Columns(("budget",), ("start", "finish")),
)
CHANGES = Layout(
    "list of changes",
    {
        "date": ("date", "datum"),
        "from": ("from", "source", "von"),
        "to": ("to", "target", "nach", "an"),
        "amount": ("amount", "budget", "betrag"),
        "reason": ("reason", "why", "grund", "text"),
        "approved": ("approved", "approved by", "who", "genehmigt", "genehmigt von"),
    },
    (("date",), ("amount",), ("from", "to")),
    Columns(("amount",), ("date",)),
)
RENAMES = Layout(
    "list of renames",
    {
        "old": ("old", "before", "from", "alt"),
        "new": ("new", "after", "to", "now", "neu"),
    },
    (("old",), ("new",)),
)
EXPLANATIONS = Layout(
    "list of explanations",
    {
        "date": ("date", "data date", "datum", "stand"),
        "item": ("item", "package", "account", "paket"),
        "figure": ("figure", "variance", "kennzahl"),
        "cause": ("cause", "explanation", "reason", "ursache", "begründung"),
        "action": ("action", "corrective action", "massnahme", "maßnahme"),
    },
    (("date",), ("item",), ("cause",)),
    Columns((), ("date",)),
)
_TECHNIQUES = {technique.value: technique for technique in Technique} | {
    "": Technique.PERCENT,
    "percent complete": Technique.PERCENT,
    "0-100": Technique.AT_FINISH,
    "50-50": Technique.HALVES,
    "weighted milestones": Technique.MILESTONES,
    "level of effort": Technique.EFFORT,
    "undistributed budget": Technique.UNDISTRIBUTED,
    "management reserve": Technique.RESERVE,
}
_FIGURES = ("SV", "CV", "VAC")


def read_packages(source: Source) -> tuple[PackageRule, ...]:
    """Returns the rules of packages; `InputError` names the first row that makes no sense."""
    sheet = read_sheet(source, ReaderOptions(), PACKAGES)
    rules = [_checked(_rule, row, sheet) for row in sheet.rows]
    _refuse_doubles(((rule.item, rule.place) for rule in rules), "package")
    return tuple(rules)


def read_changes(source: Source) -> tuple[BudgetChange, ...]:
    """Returns the change log; `InputError` names the first row that makes no sense."""
    sheet = read_sheet(source, ReaderOptions(), CHANGES)
    return tuple(_checked(_change, row, sheet) for row in sheet.rows)


def read_renames(source: Source) -> Renames:
    """Returns the renames; `InputError` names a code that got two new names."""
    sheet = read_sheet(source, ReaderOptions(), RENAMES)
    rows = [_checked(_rename, row, sheet) for row in sheet.rows]
    places = [sheet.place(row) for row in sheet.rows]
    _refuse_doubles(zip((row.old for row in rows), places), "code")
    return Renames(tuple(rows))


def read_explanations(source: Source) -> tuple[Explanation, ...]:
    """Returns the explanations of variances."""
    sheet = read_sheet(source, ReaderOptions(), EXPLANATIONS)
    return tuple(_checked(_explanation, row, sheet) for row in sheet.rows)


def _checked(made: Callable[[Row, Sheet], Made], row: Row, sheet: Sheet) -> Made:
    """Returns what is made of a row; `InputError` with its place if it makes no sense."""
    try:
        return made(row, sheet)
    except Unreadable as reason:
        raise InputError(f"{sheet.place(row)}: {reason}") from None


def _refuse_doubles(named: Iterable[tuple[str, str]], what: str) -> None:
    places: dict[str, str] = {}
    for name, place in named:
        if name in places:
            raise InputError(f"{place}: {what} {name[:40]!r} is in {places[name]} too")
        places[name] = place


def _rule(row: Row, sheet: Sheet) -> PackageRule:
    technique = _TECHNIQUES.get(" ".join(row.text("technique").casefold().split()))
    if technique is None:
        known = ", ".join(each.value for each in Technique)
        raise Unreadable(f"technique {row.text('technique')[:40]!r} is none of {known}")
    rule = PackageRule(
        item=_needed(row, "item"),
        technique=technique,
        manager=row.text("manager"),
        weights=_weights(row.text("weights")),
        base=row.text("base"),
        budget=_optional_amount(row, "budget", sheet),
        start=_optional_day(row, "start", sheet),
        finish=_optional_day(row, "finish", sheet),
        title=row.text("title"),
        place=_place(row, sheet),
    )
    _check_rule(rule)
    return rule


def _check_rule(rule: PackageRule) -> None:
    """Raises `Unreadable` if a rule lacks what its technique needs."""
    if rule.technique is Technique.MILESTONES:
        total = sum(weight for _, weight in rule.weights)
        if total != 100:
            raise Unreadable(f"the weights of milestones add up to {total}, not 100")
    if (rule.technique is Technique.APPORTIONED) != bool(rule.base):
        raise Unreadable("an apportioned package, and no other, names its base")
    if rule.technique.is_budget_alone and rule.budget is None:
        raise Unreadable(f"{rule.technique.value} without a budget")
    if rule.start and rule.finish and rule.finish < rule.start:
        raise Unreadable(f"it ends on {rule.finish}, before it starts on {rule.start}")


def _weights(text: str) -> tuple[tuple[str, int], ...]:
    """Returns the milestones and weights of a text such as `PLAN:40 DONE:60`."""
    found = []
    for part in text.replace(";", " ").replace(",", " ").split():
        code, _, weight = part.rpartition(":")
        number = weight.removesuffix("%")
        if not code or not (number.isascii() and number.isdigit() and len(number) <= 3):
            raise Unreadable(f"{part[:40]!r} is no milestone with its weight, as DONE:60")
        found.append((code, int(number)))
    return tuple(found)


def _change(row: Row, sheet: Sheet) -> BudgetChange:
    moved = amount(row.cell("amount"), sheet.style)
    source, target = row.text("from"), row.text("to")
    if moved <= 0 or source == target:
        raise Unreadable("a change moves an amount above 0 from one place to another")
    booked = _optional_day(row, "date", sheet)
    if booked is None:
        raise Unreadable("a change without a date")
    reason, approved = row.text("reason"), row.text("approved")
    return BudgetChange(booked, source, target, moved, reason, approved, _place(row, sheet))


def _rename(row: Row, _sheet: Sheet) -> Rename:
    old, new = _needed(row, "old"), _needed(row, "new")
    if old == new:
        raise Unreadable(f"{old[:40]!r} is renamed to itself")
    return Rename(old, new)


def _explanation(row: Row, sheet: Sheet) -> Explanation:
    figure = row.text("figure").upper()
    if figure and figure not in _FIGURES:
        raise Unreadable(f"figure {figure[:20]!r} is none of {', '.join(_FIGURES)}")
    written = _optional_day(row, "date", sheet)
    if written is None:
        raise Unreadable("an explanation without the data date that it is for")
    texts = _needed(row, "item"), figure, _needed(row, "cause"), row.text("action")
    return Explanation(written, *texts, _place(row, sheet))


def _place(row: Row, sheet: Sheet) -> str:
    """Returns the file and the row, without folders: a page with it is the same everywhere."""
    return f"{PurePath(sheet.file).name}: row {row.number}"


def _needed(row: Row, field: str) -> str:
    text = row.text(field)
    if not text:
        raise Unreadable(f"a row without {field}")
    return text


def _optional_amount(row: Row, field: str, sheet: Sheet) -> Decimal | None:
    if is_nothing(row.cell(field)):
        return None
    value = amount(row.cell(field), sheet.style)
    if value < 0:
        raise Unreadable(f"{field} {value:f} is below zero")
    return value


def _optional_day(row: Row, field: str, sheet: Sheet) -> date | None:
    return None if is_nothing(row.cell(field)) else day(row.cell(field), sheet.style)
