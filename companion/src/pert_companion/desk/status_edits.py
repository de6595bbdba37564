"""Changes the progress of tasks, as a list of progress for `pert-ledger` does."""

from collections.abc import Mapping
from dataclasses import replace
from datetime import date
from decimal import Decimal

from pert_companion.analysis.actuals import ONE_DAY
from pert_companion.carry.reporting import with_progress
from pert_companion.desk.amounts import amounts_of, read_day, read_percent
from pert_companion.importing.month_end import Books
from pert_companion.model.deck import Deck
from pert_companion.model.errors import InputError
from pert_companion.model.progress import Reported
from pert_companion.model.sidefile import SideTask

FIELDS = ("percent", "actual-start", "actual-finish", "remaining")


def fixed_status(books: Books) -> dict[str, str]:
    """Returns why fields of progress cannot be changed in a deck, by field."""
    if books.has_side_file:
        return {}
    why = "only a side file keeps percent and remaining durations (pert-days --calendar)"
    return dict.fromkeys(("percent", "remaining"), why)


def changed(books: Books, rows: Mapping[str, Mapping[str, str]]) -> Books:
    """Returns the deck with what is reported of tasks, by code: texts of their fields.

    A field that a row does not have stays as it is. Raises `InputError` with the first row that
    makes no sense.
    """
    tasks = {task.code: task for task in books.side.tasks}
    reported = []
    for code, texts in rows.items():
        try:
            reported.append(_reported(books, tasks[code], texts))
        except InputError as error:
            raise InputError(f"{code}: {error}") from None
        books = _forgotten(books, tasks[code])
    done = with_progress(books.deck, books.side, reported, books.has_side_file)
    if done.findings:
        raise InputError(done.findings[0].why)
    return replace(books, deck=done.deck, side=done.side)


def status_days(deck: Deck) -> dict[tuple[str, str], date]:
    """Returns the days of STATUS cards by activity and letter."""
    return {(card.activity, card.letter): card.day for card in deck.statuses}


def actual_days(
    task: SideTask, days: Mapping[tuple[str, str], date]
) -> tuple[date | None, date | None]:
    """Returns the days on which a task began and on which its work ended.

    A STATUS card has the morning after it.
    """
    start = task.actual_start or days.get((task.parts[0], "S"))
    finish = task.actual_finish
    ended = days.get((task.parts[-1], "F"))
    if finish is None and ended is not None:
        finish = ended - ONE_DAY
    return start, finish


def _reported(books: Books, task: SideTask, texts: Mapping[str, str]) -> Reported:
    """Returns a row of progress: what is known of a task, with what was typed in its place."""
    start, finish = actual_days(task, status_days(books.deck))
    percent, remaining = task.percent, task.remaining
    if "actual-start" in texts:
        start = read_day(texts["actual-start"])
    if "actual-finish" in texts:
        finish = read_day(texts["actual-finish"])
        percent, remaining = None, None
    if "percent" in texts:
        percent, remaining = read_percent(texts["percent"]), None
    if "remaining" in texts:
        text = texts["remaining"]
        remaining = amounts_of(books.side).read_minutes(text) if text.strip() else None
    if finish is not None:
        percent, remaining = percent or (Decimal(100) if books.has_side_file else None), None
    return Reported(task.code, task.code, percent, remaining, start, finish)


def _forgotten(books: Books, task: SideTask) -> Books:
    """Returns the deck without the start and finish of a task, so that a row can take them away."""
    cards = {*task.parts, task.start_moment, task.finish_moment}
    statuses = tuple(card for card in books.deck.statuses if card.activity not in cards)
    entry = replace(task, actual_start=None, actual_finish=None)
    tasks = tuple(entry if each.code == task.code else each for each in books.side.tasks)
    return replace(
        books,
        deck=replace(books.deck, statuses=statuses),
        side=replace(books.side, tasks=tasks),
    )
