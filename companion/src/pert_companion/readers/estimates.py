"""Reads what a month's end brings next to vouchers: amounts to go by account, progress by task."""

from collections.abc import Iterable
from dataclasses import dataclass
from datetime import date

from pert_companion.model.bookings import BookingKind, Finding
from pert_companion.model.ledger import ToGo
from pert_companion.model.progress import Reported
from pert_companion.model.source import Source
from pert_companion.readers.base import ReaderOptions
from pert_companion.readers.outline import Row
from pert_companion.readers.sheet import Layout, Sheet, read_sheet
from pert_companion.readers.style import Columns
from pert_companion.readers.values import (
    Style,
    Unreadable,
    amount,
    day,
    duration,
    is_nothing,
    percent,
    whole_minutes,
)

TO_GO = Layout(
    "list of amounts to go",
    {
        "account": (
            "account",
            "cost account",
            "control account",
            "konto",
            "kostenstelle",
        ),
        "to go": (
            "to go",
            "to-go",
            "togo",
            "etc",
            "estimate to complete",
            "remaining cost",
        )
        + ("restkosten", "noch zu erwarten", "obligo und rest"),
        "date": ("date", "as of", "datum", "stand"),
    },
    (("account",), ("to go",)),
    Columns(("to go",), ("date",)),
)
PROGRESS = Layout(
    "list of progress",
    {
        "task": ("task", "code", "activity", "activity id", "id", "vorgang", "kürzel"),
        "percent": ("percent", "% complete", "percent complete", "complete", "progress")
        + ("physical % complete", "fortschritt", "fertig", "% fertig", "prozent"),
        "remaining": ("remaining", "remaining duration", "left", "restdauer", "rest"),
        "start": ("actual start", "started", "start", "ist-anfang", "begonnen"),
        "finish": ("actual finish", "finished", "finish", "ist-ende", "beendet"),
    },
    (("task",), ("percent", "remaining", "start", "finish")),
    Columns(("percent", "remaining"), ("start", "finish")),
)


@dataclass(frozen=True)
class EstimateList:
    """The amounts to go of a list, and the rows of it that are none."""

    estimates: tuple[ToGo, ...]
    findings: tuple[Finding, ...]
    notes: tuple[str, ...]


@dataclass(frozen=True)
class ProgressList:
    """The progress of a list, and the rows of it that are none."""

    reported: tuple[Reported, ...]
    findings: tuple[Finding, ...]
    notes: tuple[str, ...]


def read_to_go(
    source: Source,
    options: ReaderOptions,
    close: date,
    remembered: Iterable[tuple[str, str]] = (),
) -> EstimateList:
    """Returns the amounts to go of a list; rows without a date are as of `close`.

    `remembered` are fields with headings that the user named.
    """
    sheet = read_sheet(source, options, TO_GO.remembering(remembered))
    found: list[ToGo] = []
    findings: list[Finding] = []
    for row in sheet.rows:
        try:
            found.append(_to_go(row, sheet, close))
        except Unreadable as reason:
            findings.append(Finding(BookingKind.ROW, sheet.place(row), f"{reason}; left out"))
    return EstimateList(tuple(found), tuple(findings), sheet.notes)


def _to_go(row: Row, sheet: Sheet, close: date) -> ToGo:
    account = row.text("account")
    if not account or is_nothing(row.cell("to go")):
        raise Unreadable("a row without an account or an amount")
    value = amount(row.cell("to go"), sheet.style)
    if value < 0:
        raise Unreadable(f"{value:f} to go is below zero")
    estimated = _optional_day(row, "date", sheet.style) or close
    return ToGo(estimated, account, value, sheet.file, row.number)


def _optional_day(row: Row, field: str, style: Style) -> date | None:
    return None if is_nothing(row.cell(field)) else day(row.cell(field), style)


def read_progress(
    source: Source, options: ReaderOptions, remembered: Iterable[tuple[str, str]] = ()
) -> ProgressList:
    """Returns the progress of a list; a task that it names twice is a finding.

    `remembered` are fields with headings that the user named.
    """
    sheet = read_sheet(source, options, PROGRESS.remembering(remembered))
    found: dict[str, Reported] = {}
    findings: list[Finding] = []
    for row in sheet.rows:
        try:
            reported = _reported(row, sheet)
        except Unreadable as reason:
            findings.append(Finding(BookingKind.ROW, sheet.place(row), f"{reason}; left out"))
            continue
        if reported.task in found:
            why = f"{reported.task} is in {found[reported.task].place} too; left out"
            findings.append(Finding(BookingKind.TASK, reported.place, why))
            continue
        found[reported.task] = reported
    return ProgressList(tuple(found.values()), tuple(findings), sheet.notes)


def _reported(row: Row, sheet: Sheet) -> Reported:
    task = row.text("task")
    if not task:
        raise Unreadable("a row without a task")
    style = sheet.style
    done = None if is_nothing(row.cell("percent")) else percent(row.cell("percent"), style)
    left = _minutes(row, style)
    start, finish = _optional_day(row, "start", style), _optional_day(row, "finish", style)
    return Reported(task, sheet.place(row), done, left, start, finish)


def _minutes(row: Row, style: Style) -> int | None:
    if is_nothing(row.cell("remaining")):
        return None
    found = whole_minutes(duration(row.cell("remaining"), style).minutes)
    if found < 0:
        raise Unreadable("a remaining duration below zero")
    return found
