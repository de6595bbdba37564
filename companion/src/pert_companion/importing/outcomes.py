"""What `pert-import` and `pert-ledger` did, as their JSON has it."""

from collections.abc import Iterable
from dataclasses import dataclass
from datetime import date

from pert_companion.carry.charges import Credit, close_of
from pert_companion.importing.conversion import Imported
from pert_companion.importing.month_end import MonthEnd, Sums
from pert_companion.importing.reconcile import Difference, Reconciliation
from pert_companion.model.bookings import BookingKind
from pert_companion.model.losses import Acceptance, LossKind


@dataclass(frozen=True)
class NamedLoss:
    """One thing that is not carried over."""

    kind: LossKind
    where: str
    """The place in the source."""
    name: str
    """The name of the task or group, or an empty text."""
    field: str
    text: str
    """What the source has there."""
    why: str
    is_accepted: bool


@dataclass(frozen=True)
class DateMoved:
    """A task whose day in the file is another than by its links."""

    code: str
    row: int | None
    name: str
    field: str
    """`start` or `finish`."""
    listed: date
    computed: date


@dataclass(frozen=True)
class ImportOutcome:
    """What an import made of a file, and what it could not carry over."""

    file: str
    format: str
    tasks: int
    groups: int
    links: int
    start: date
    data_date: date | None
    deck: str
    """The deck that was written; empty if none was."""
    losses: tuple[NamedLoss, ...]
    compared: int | None
    """How many tasks have dates in the file; None if they were not compared."""
    differences: tuple[DateMoved, ...]
    notes: tuple[str, ...]


def import_outcome(
    imported: Imported,
    acceptance: Acceptance,
    dates: Reconciliation | None,
    deck: str,
) -> ImportOutcome:
    """Returns the outcome of an import; `deck` is what was written, or an empty text."""
    side = imported.side
    return ImportOutcome(
        file=imported.source.name,
        format=imported.format,
        tasks=len(side.tasks),
        groups=len(side.groups),
        links=len(imported.plan.links),
        start=side.start,
        data_date=side.data_date,
        deck=deck,
        losses=tuple(_losses(imported, acceptance)),
        compared=None if dates is None else dates.compared,
        differences=() if dates is None else tuple(map(_moved, dates.differences)),
        notes=(*imported.plan.notes, *imported.carried.notes),
    )


def _losses(imported: Imported, acceptance: Acceptance) -> Iterable[NamedLoss]:
    taken, _ = acceptance.divided(imported.losses)
    for loss in imported.losses:
        texts = loss.where, loss.name, loss.field, loss.text, loss.why
        yield NamedLoss(loss.kind, *texts, loss in taken)


def _moved(found: Difference) -> DateMoved:
    task = found.task
    return DateMoved(task.code, task.row, task.name, found.field, found.listed, found.computed)


@dataclass(frozen=True)
class NamedFinding:
    """One row or balance that is not taken as it is."""

    kind: BookingKind
    place: str
    """The file and the row, or the account and the day."""
    why: str
    is_accepted: bool


@dataclass(frozen=True)
class LedgerOutcome:
    """What booking lists at a month's end did."""

    close: date
    """The close of business that the deck reports."""
    vouchers: int
    """How many vouchers the ledger has."""
    new: int
    """How many of them the lists brought."""
    deck: str
    """The deck that was written; empty if none was."""
    findings: tuple[NamedFinding, ...]
    credits: tuple[Credit, ...]
    """Every credit of the ledger, with the charges that it reduces."""
    sums: Sums
    notes: tuple[str, ...]


def ledger_outcome(month: MonthEnd, accepted: frozenset[BookingKind], deck: str) -> LedgerOutcome:
    """Returns the outcome of a month's end; `deck` is what was written, or an empty text."""
    return LedgerOutcome(
        close=close_of(month.books.deck),
        vouchers=len(month.books.ledger.vouchers),
        new=month.count,
        deck=deck,
        findings=tuple(
            NamedFinding(each.kind, each.place, each.why, each.kind in accepted)
            for each in month.findings
        ),
        credits=month.booked.credits,
        sums=month.sums,
        notes=month.notes,
    )
