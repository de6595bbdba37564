"""From a planner's file to a deck and its side file: the steps of `pert-import`."""

from collections.abc import Iterable, Mapping
from dataclasses import dataclass, field, replace
from decimal import Decimal
from pathlib import Path

from pert_companion import readers
from pert_companion.analysis.passes import from_mornings, spans, spans_of_rest
from pert_companion.analysis.real_dates import calendars_text
from pert_companion.analysis.schedule import ScheduledTask
from pert_companion.analysis.scheduling import (
    TaskDates,
    normal_dates,
    normal_schedule,
    rest_schedule,
)
from pert_companion.carry import Carried, CarryOptions, carry, logic_of
from pert_companion.carry.charges import with_ledger
from pert_companion.carry.packages import with_effort
from pert_companion.importing.capacities import with_capacities
from pert_companion.importing.crash_sheet import candidates, crash_sheet, with_crash
from pert_companion.importing.overtime import Overtime, propose_overtime
from pert_companion.importing.pauses import can_pause, check_curve
from pert_companion.importing.registers import registers_of
from pert_companion.importing.reconcile import Reconciliation, reconcile
from pert_companion.model.amounts import measure_of
from pert_companion.model.errors import InputError
from pert_companion.model.figures import money_text
from pert_companion.model.ledger import find_ledger, ledger_path
from pert_companion.model.logic import Spans
from pert_companion.model.losses import Loss, LossKind
from pert_companion.model.plan import Plan
from pert_companion.model.sidefile import SideFile, card_codes
from pert_companion.model.source import Source, read_bytes
from pert_companion.model.text_form import PLAIN, TextForm
from pert_companion.programs.client import Programs
from pert_companion.readers.base import ReaderOptions
from pert_companion.state.project import ProjectState
from pert_companion.state.remaining import remaining

MAX_BYTES = 512 * 1024 * 1024
"""A longer file is not read."""


@dataclass(frozen=True)
class Imported:
    """A plan of a file, its deck and side file, and everything that is not in them."""

    source: Source
    format: str
    plan: Plan
    carried: Carried
    losses: tuple[Loss, ...]
    """All losses for the way the result is written, in the order of the steps."""

    @property
    def side(self) -> SideFile:
        """Returns the side file."""
        return self.carried.side


def read_source(path: Path) -> Source:
    """Returns a file with its bytes; `InputError` if it is too long."""
    return Source(path, read_bytes(path, MAX_BYTES))


@dataclass(frozen=True)
class CrashSources:
    """Where shortest durations come from besides the file itself."""

    filled_sheet: Source | None = None
    """A sheet that `crash_sheet` made and that was filled in."""
    overtime: Overtime | None = None


@dataclass(frozen=True)
class Capacities:
    """How much of resources there is, by name, besides what the file says."""

    said: Mapping[str, Decimal] = field(default_factory=dict)
    kept: Mapping[str, Decimal] = field(default_factory=dict)
    """What the last import was told; a resource that is no longer there is passed over."""


def import_plan(
    source: Source,
    options: ReaderOptions,
    carrying: CarryOptions,
    deck: Path | None,
    crash: CrashSources = CrashSources(),
    capacities: Capacities = Capacities(),
) -> Imported:
    """Returns the deck of a planner's file. `deck` is where it will be, None if without side file.

    Raises `InputError` that begins with the name of the file if it cannot be used at all, and
    `UsageError` if a capacity is said of a resource that it does not have.
    """
    found = readers.detect(source)
    reading = readers.reader(found).read(source, options)
    plan = _with_holidays(reading.plan, options)
    if options.data_date is not None:
        plan = replace(plan, data_date=options.data_date)
    if not plan.source:
        plan = replace(plan, source=found)
    plan = with_capacities(plan, capacities.said, capacities.kept)
    plan, crash_losses = _with_crash(plan, crash)
    try:
        carried = carried_by_dates(plan, carrying, "" if deck is None else deck.name)
    except InputError as error:
        raise _named(error, source) from None
    side = replace(carried.side, source_name=source.path.name)
    carried = _with_tables(replace(carried, side=side), deck)
    losses = _joined([*reading.losses, *crash_losses], carried.losses)
    if deck is None:
        losses += carried.side_losses
    return Imported(source, found, plan, carried, tuple(dict.fromkeys(losses)))


def carried_by_dates(
    plan: Plan, options: CarryOptions = CarryOptions(), deck_name: str = ""
) -> Carried:
    """Returns the deck of a plan in which each task lasts what it spans at its normal dates.

    Of a running plan these are the dates of what is left. Errors are those of `carry`.
    """
    logic = logic_of(plan, options)
    if logic is None:
        return carry(plan, options, deck_name)
    counted = spans(plan.calendar, *logic)
    carried = carry(plan, options, deck_name, counted)
    if carried.deck.statuses:
        carried = _counted_in_rest(plan, options, carried, counted)
    text = calendars_text(carried.side)
    return replace(carried, notes=(*carried.notes, text)) if text else carried


def _counted_in_rest(
    plan: Plan, options: CarryOptions, carried: Carried, planned: Spans
) -> Carried:
    """Returns the deck of a running plan in which each task lasts what it spans in what is left.

    Where what is left of a task is no whole unit, those after it begin within a day: they are
    counted from its morning then. The deck stays as it is if that takes another unit too.
    """
    exact = spans_of_rest(remaining(carried.deck, carried.side), planned)
    for counted in (exact, replace(exact, starts=from_mornings(exact.starts, carried.side))):
        made = carry(plan, options, carried.side.deck_name, counted)
        is_same_unit = made.side.unit_minutes == carried.side.unit_minutes
        if is_same_unit and made.losses == carried.losses:
            return made
    return carried


def _with_tables(carried: Carried, path: Path | None) -> Carried:
    """Returns the deck with what is next to the path where it will be: packages, and the ledger."""
    if path is None:
        return carried
    tables, scale = registers_of(path), carried.side.money_scale
    deck = with_effort(carried.deck, tables.packages, scale)
    notes = list(carried.notes)
    ledger = find_ledger(path)
    if ledger is not None:
        names = tables.renames.names_of(account.code for account in deck.accounts)
        booked = with_ledger(deck, ledger.renamed(names), scale)
        listed = money_text(sum(card.amount for card in deck.charges), scale)
        deck, file = booked.deck, ledger_path(path).name
        spent = money_text(booked.charged, scale)
        notes.append(f"{file} has spent {spent}; the file's actual costs, {listed}, are not used")
        notes.extend(finding.line() for finding in booked.findings)
    return replace(carried, deck=deck, data=deck.to_bytes(), notes=tuple(notes))


def _with_holidays(plan: Plan, options: ReaderOptions) -> Plan:
    """Returns the plan with the free days that the user adds to its calendar."""
    if not options.holidays:
        return plan
    exceptions = (*options.holidays, *plan.calendar.exceptions)
    return replace(plan, calendar=replace(plan.calendar, exceptions=exceptions))


def _joined(read: Iterable[Loss], carried: Iterable[Loss]) -> list[Loss]:
    """Returns the losses of a reader and of `carry`; a task's own calendar is named once."""
    losses = list(read)
    places = {loss.where for loss in losses if loss.kind is LossKind.CALENDAR}
    for loss in carried:
        if loss.kind is not LossKind.CALENDAR or loss.where not in places:
            losses.append(loss)
    return losses


def _with_crash(plan: Plan, crash: CrashSources) -> tuple[Plan, list[Loss]]:
    """Returns the plan with the shortest durations of a filled sheet, and proposals for others."""
    losses: list[Loss] = []
    sheet = crash.filled_sheet
    if sheet is not None:
        plan, found = with_crash(sheet, plan)
        losses = [replace(loss, where=f"{sheet.name}, {loss.where}") for loss in found]
    if crash.overtime is not None:
        plan, lines = propose_overtime(plan, crash.overtime)
        plan = replace(plan, notes=(*plan.notes, *lines))
    return plan, losses


def sheet_to_fill_in(imported: Imported, state: ProjectState) -> tuple[bytes, int]:
    """Returns the sheet of shortest durations to fill in, and its number of tasks."""
    found = candidates(imported.plan, normal_schedule(state.plan))
    return crash_sheet(imported.plan, found), len(found)


def _named(error: InputError, source: Source) -> InputError:
    text = str(error)
    return error if text.startswith(source.name) else InputError(f"{source.name}: {text}")


def with_accepted(imported: Imported, taken: Iterable[Loss]) -> Imported:
    """Returns the import with the losses that the user accepted in its side file."""
    side = replace(imported.side, accepted=tuple(loss.kept() for loss in taken))
    return replace(imported, carried=replace(imported.carried, side=side))


def summary(imported: Imported, form: TextForm = PLAIN) -> str:
    """Returns one line that says what was carried over."""
    plan, deck = imported.plan, imported.carried.deck
    tasks = len(imported.side.tasks)
    waits = len(card_codes(imported.side)) - tasks
    crash = sum(1 for card in deck.work if card.crash < card.normal)
    counts = [
        (tasks, "task"),
        (len(imported.side.groups), "group"),
        (len(plan.links), "link"),
        (len(deck.resources), "resource"),
        (crash, "shorter duration"),
        (waits, "card more for links"),
    ]
    parts = [_count(number, what, form) for number, what in counts if number > 0]
    if deck.as_of is not None:
        codes = {task.code for task in imported.side.tasks}
        begun = len({card.activity for card in deck.statuses} & codes)
        parts.append(f"{form.count(begun)} begun by the evening of {imported.side.data_date}")
    return f"{', '.join(parts)}; days of the calendar {plan.calendar.name!r} from {plan.start}"


def _count(number: int, what: str, form: TextForm) -> str:
    first, _, rest = what.partition(" ")
    plural = f"{first}s {rest}" if first == "card" else f"{what}s"
    return f"1 {what}" if number == 1 else f"{form.count(number)} {plural}"


def state_of(imported: Imported, programs: Programs) -> ProjectState:
    """Returns the state of the imported project."""
    return ProjectState(programs, imported.carried.deck, imported.side)


def compare_dates(state: ProjectState) -> Reconciliation:
    """Returns how the dates of the deck, as `pert` computes them, differ from the file's.

    Those of a running project are dates of the plan, or of what is left from the data date on.
    """
    tasks = state.side.tasks
    if all(task.listed_start is None and task.listed_finish is None for task in tasks):
        return Reconciliation(0, ())
    rest: tuple[TaskDates, ...] = ()
    if state.has_begun:
        rest = tuple(map(_dates_of, rest_schedule(state).tasks))
    return reconcile(state.side, normal_dates(state.plan), rest)


def _dates_of(task: ScheduledTask) -> TaskDates:
    return TaskDates(task.code, task.start, task.finish, task.is_milestone)


def pause_line(imported: Imported, state: ProjectState) -> str:
    """Returns the line on tasks that pause at lengths of the curve, or an empty text."""
    if not can_pause(imported.side):
        return ""
    found = check_curve(state.plan)
    return found.line(measure_of(imported.side))
