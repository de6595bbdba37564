"""Edits of a plan: each is the change of the deck and its side file that a person makes by hand.

An edit is written as a word: `DIG.normal=4`, `data-date=2026-04-30`. `pert-edit` takes such words,
and the desk shows them for each step, so that both do the same by the same function. Durations are
in days, amounts in the currency, a price is that of a day less.
"""

from collections.abc import Iterable, Sequence
from dataclasses import dataclass, replace

from pert_companion.carry.charges import with_ledger
from pert_companion.carry.reporting import as_of_close
from pert_companion.desk import (
    capacity_edits,
    figures,
    plan_edits,
    project_edits,
    status_edits,
)
from pert_companion.desk.amounts import read_day
from pert_companion.importing.month_end import Books
from pert_companion.model.errors import InputError, UsageError
from pert_companion.model.fitting import fitted_to
from pert_companion.state.implied import implied_side_file

DATA_DATE = "data-date"


@dataclass(frozen=True)
class Edit:
    """One change, as people write it: a field of a task, or of the project if `task` is empty."""

    field: str
    value: str
    task: str = ""
    """The code of a task, or the name or code of a resource."""

    @property
    def word(self) -> str:
        """Returns the edit as `pert-edit` takes it."""
        name = f"{self.task}.{self.field}" if self.task else self.field
        return f"{name}={self.value}"


def edit_of(word: str) -> Edit:
    """Returns the edit of a word; `UsageError` if it is none."""
    name, mark, value = word.partition("=")
    task, _, field = name.rpartition(".")
    known = (*TASK_FIELDS, *RESOURCE_FIELDS) if task else PROJECT_FIELDS
    if not mark or field not in known:
        names = ", ".join((*TASK_FIELDS, *RESOURCE_FIELDS, *PROJECT_FIELDS))
        raise UsageError(f"{word[:60]!r} is not TASK.FIELD=VALUE or FIELD=VALUE; fields: {names}")
    return Edit(field, value, task)


TASK_FIELDS = (*figures.FIELDS, *plan_edits.FIELDS, *status_edits.FIELDS)
RESOURCE_FIELDS = capacity_edits.FIELDS
PROJECT_FIELDS = (DATA_DATE, *project_edits.FIELDS)


def with_edits(books: Books, edits: Sequence[Edit]) -> Books:
    """Returns a deck with its side file after some edits, in the order of a month's end.

    First the data date, then tasks with their figures and links, then the progress of tasks, then
    money from the ledger. Raises `InputError` with the first edit that makes no sense; whether the
    programs accept the deck is asked by the caller.
    """
    dated = [edit for edit in edits if edit.field == DATA_DATE]
    for edit in dated:
        books = _at_data_date(books, edit)
    books = _with_plan(books, edits)
    books = _with_status(books, edits)
    return _rebooked(books) if dated else books


def _at_data_date(books: Books, edit: Edit) -> Books:
    """Returns the deck at another close of business."""
    day = read_day(edit.value)
    if day is None:
        raise InputError("the data date is a day such as 2026-04-30")
    deck, side = as_of_close(books.deck, books.side, day)
    return _fitted(replace(books, deck=deck, side=side))


def _with_plan(books: Books, edits: Iterable[Edit]) -> Books:
    """Returns the deck with the tasks, links, capacities and figures that edits change."""
    for edit in edits:
        if edit.field in figures.FIELDS:
            task = plan_edits.task_of(books, edit.task)
            books = _fitted(figures.changed(books, task, edit.field, edit.value))
        elif edit.field in plan_edits.FIELDS:
            books = _fitted(plan_edits.changed(books, edit.task, edit.field, edit.value))
        elif edit.field in capacity_edits.FIELDS:
            books = _fitted(capacity_edits.changed(books, edit.task, edit.value))
        elif edit.field in project_edits.FIELDS:
            books = _fitted(project_edits.changed(books, edit.field, edit.value))
    return books


def _with_status(books: Books, edits: Iterable[Edit]) -> Books:
    """Returns the deck with the progress that edits report, the fields of a task in one row."""
    rows: dict[str, dict[str, str]] = {}
    for edit in edits:
        if edit.field in status_edits.FIELDS:
            plan_edits.task_of(books, edit.task)
            rows.setdefault(edit.task, {})[edit.field] = edit.value
    return _fitted(status_edits.changed(books, rows)) if rows else books


def _fitted(books: Books) -> Books:
    """Returns the deck with a side file that belongs to it."""
    if not books.has_side_file:
        return replace(books, side=implied_side_file(books.deck))
    return replace(books, side=fitted_to(books.side, books.deck))


def _rebooked(books: Books) -> Books:
    """Returns the deck with the money of its ledger at the data date, if it has one."""
    if not books.has_ledger:
        return books
    booked = with_ledger(books.deck, books.booked_ledger, books.side.money_scale)
    return replace(books, deck=booked.deck)
