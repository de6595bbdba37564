"""Reads what MS Project's XML says of one task: duration, dates, cost, progress, baselines."""

import re
from collections.abc import Iterator, Mapping
from dataclasses import dataclass, field, replace
from datetime import date
from decimal import Decimal
from functools import cached_property

from pert_companion.model import moments
from pert_companion.model.calendar import Calendar
from pert_companion.model.logic import CLOCK, CLOCK_NAME
from pert_companion.model.losses import LossKind
from pert_companion.model.plan import (
    Baseline,
    Constraint,
    ConstraintKind,
    Crash,
    Progress,
    Task,
)
from pert_companion.model.xmltree import Node, decimal, whole
from pert_companion.readers import crashing, fields
from pert_companion.readers.base import ReaderOptions
from pert_companion.readers.fields import TextReader
from pert_companion.readers.grid import clip
from pert_companion.readers.mspdi_calendars import Calendars
from pert_companion.readers.own_calendars import OwnCalendars, has_work
from pert_companion.readers.values import Unreadable

_DURATION = re.compile(
    r"P(?:([0-9]{1,6})D)?T?(?:([0-9]{1,9})H)?(?:([0-9]{1,9})M)?(?:([0-9]{1,9})(?:\.[0-9]{0,9})?S)?"
)
CONSTRAINTS = {
    "1": ConstraintKind.AS_LATE_AS_POSSIBLE,
    "2": ConstraintKind.MUST_START,
    "3": ConstraintKind.MUST_FINISH,
    "4": ConstraintKind.START_NO_EARLIER,
    "5": ConstraintKind.START_NO_LATER,
    "6": ConstraintKind.FINISH_NO_EARLIER,
    "7": ConstraintKind.FINISH_NO_LATER,
}
_AS_SOON_AS_POSSIBLE = "0"
ELAPSED = frozenset((4, 6, 8, 10, 12, 20, 36, 38, 40, 42, 44, 52))
"""The formats of durations and lags that count time by the clock."""
CENTS = 100
_ALL = 100
_COST_FIELDS = ("cost", "kosten")
"""How the names of custom fields begin that hold amounts, in hundredths."""
_FINISH_KINDS = (
    ConstraintKind.MUST_FINISH,
    ConstraintKind.FINISH_NO_EARLIER,
    ConstraintKind.FINISH_NO_LATER,
)
_MOST_BASELINE = 10
KINDS = {
    "Start": LossKind.DATE,
    "Finish": LossKind.DATE,
    "StartDate": LossKind.DATE,
    "StatusDate": LossKind.DATE,
    "Deadline": LossKind.DEADLINE,
    "ConstraintType": LossKind.CONSTRAINT,
    "ConstraintDate": LossKind.CONSTRAINT,
    "Cost": LossKind.COST,
    "FixedCost": LossKind.COST,
    "ActualCost": LossKind.COST,
    "RemainingCost": LossKind.COST,
    "PercentComplete": LossKind.PROGRESS,
    "ActualStart": LossKind.PROGRESS,
    "ActualFinish": LossKind.PROGRESS,
    "RemainingDuration": LossKind.PROGRESS,
    "Baseline": LossKind.BASELINE,
    "crash": LossKind.CRASH,
    "slope": LossKind.CRASH,
    "crash cost": LossKind.CRASH,
    "PredecessorUID": LossKind.LINK,
    "LinkLag": LossKind.LINK,
    "Type": LossKind.LINK,
    "StandardRate": LossKind.RESOURCE,
    "OvertimeRate": LossKind.RESOURCE,
    "Work": LossKind.RESOURCE,
    "Units": LossKind.RESOURCE,
    "MaxUnits": LossKind.RESOURCE,
}
"""The kind of loss of each field that cannot be read."""


class Row(Node):
    """A row of the outline, as losses name it."""

    @property
    def where(self) -> str:
        """Returns the place of the row."""
        number, uid = clip(self.text("ID"), 12), clip(self.uid, 20)
        return f"row {number} (UID {uid})" if number else f"UID {uid}"

    @property
    def name(self) -> str:
        """Returns the name of the row in one line."""
        return title(self.text("Name"))

    @property
    def uid(self) -> str:
        """Returns the id that stays when rows move."""
        return self.text("UID")

    @property
    def level(self) -> int:
        """Returns the level of the row in the outline; TaskJuggler's begin at 0."""
        level = whole(self.text("OutlineLevel"))
        return 1 if level is None else level

    @property
    def duration_format(self) -> int:
        """Returns the code of how the duration is shown."""
        return whole(self.text("DurationFormat")) or 0


@dataclass
class TaskReader:
    """Reads the rows that are tasks."""

    calendar: Calendar
    calendars: Calendars
    start: date
    """The first day of the project."""
    options: ReaderOptions
    reader: TextReader
    custom_fields: Mapping[str, tuple[str, str]]
    """The name and alias of each custom field in small letters, by its FieldID."""
    is_of_taskjuggler: bool
    silent: set[str] = field(default_factory=set)
    """The rows that are left out together with their links."""
    alone: set[str] = field(default_factory=set)
    """The tasks whose own calendar holds whatever those of their resources are."""

    @cached_property
    def own(self) -> OwnCalendars:
        """Returns the calendars of tasks that are not the plan's."""
        return OwnCalendars(self.calendar)

    def task(self, row: Row, parent: str | None, above: list[Row]) -> Task | None:
        """Returns the task of a row below groups, or None and a loss."""
        if self._is_left_out(row):
            return None
        name, calendar = self._own_calendar(row)
        minutes = self._minutes(row, calendar)
        if minutes is None:
            return None
        self._name_split(row, minutes, calendar)
        cost = self.reader.read(row, "Cost", money)
        return Task(
            uid=row.uid,
            where=row.where,
            name=row.name,
            minutes=minutes,
            parent=parent,
            row=whole(row.text("ID")),
            crash=self._crash(row, minutes),
            cost=cost,
            constraint=self._constraint(row, above),
            deadline=self.reader.read(row, "Deadline", fields.finish_day(self.calendar)),
            listed_start=self._start_day(row, "Start", minutes, calendar),
            listed_finish=self._listed_finish(row, minutes, calendar),
            progress=self._progress(row, minutes, calendar),
            baselines=tuple(self._baselines(row)),
            manual=row.flag("Manual") and not self.is_of_taskjuggler,
            calendar=name,
        )

    def _is_left_out(self, row: Row) -> bool:
        """Says whether a row is no task of this plan, and names it as a loss."""
        if row.text("Active") == "0":
            why = "the task is inactive; it is left out with its links"
            self.reader.lose(row, "Active", why, kind=LossKind.TASK)
            self.silent.add(row.uid)
            return True
        if row.flag("ExternalTask") or row.flag("IsSubproject"):
            what = "ExternalTask" if row.flag("ExternalTask") else "IsSubproject"
            why = "what another file holds is left out"
            self.reader.lose(row, what, why, kind=LossKind.TASK)
            return True
        return False

    def _start_day(self, row: Row, name: str, minutes: int, calendar: Calendar) -> date | None:
        """Returns the first day of work; a milestone has the day of its moment."""
        convert = fields.day if minutes == 0 else fields.start_day(calendar)
        return self.reader.read(row, name, convert)

    def _finish_day(self, row: Row, name: str, minutes: int, calendar: Calendar) -> date | None:
        """Returns the last day of work; a milestone has the day of its moment."""
        convert = fields.day if minutes == 0 else fields.finish_day(calendar)
        return self.reader.read(row, name, convert)

    def _listed_finish(self, row: Row, minutes: int, calendar: Calendar) -> date | None:
        if minutes == 0 and not row.text("Finish"):
            return moments.day(row.text("Start"))
        return self._finish_day(row, "Finish", minutes, calendar)

    def _name_split(self, row: Row, minutes: int, calendar: Calendar) -> None:
        """Adds a loss of a task that takes more working time from start to finish than its own.

        What is left of work under way may wait for the data date, and for other tasks.
        """
        if row.text("ActualStart") and not row.text("ActualFinish"):
            return
        start, finish = moments.moment(row.text("Start")), moments.moment(row.text("Finish"))
        if start is None or finish is None or row.flag("Manual"):
            return
        span = calendar.between(start, finish)
        if span > minutes:
            why = (
                f"it takes {span} working minutes from start to finish and works {minutes}: it is"
                " split, or waits for its resources; here it is done in one piece"
            )
            self.reader.lose(row, "Duration", why, kind=LossKind.PAUSE)

    def _minutes(self, row: Row, calendar: Calendar) -> int | None:
        """Returns the duration of a task in minutes of its calendar, or None and a loss."""
        text = row.text("Duration")
        if not text and row.flag("Manual"):
            return self._manual_minutes(row, calendar)
        if not text and row.flag("Milestone"):
            return 0
        minutes = duration(text)
        if minutes is None:
            why = "no duration; the task is left out"
            self.reader.lose(row, "Duration", why, kind=LossKind.TASK)
        return minutes

    def _manual_minutes(self, row: Row, calendar: Calendar) -> int | None:
        """Returns the duration of a manual task that has dates alone."""
        start = moments.moment(row.text("ManualStart") or row.text("Start"))
        finish = moments.moment(row.text("ManualFinish") or row.text("Finish"))
        if start is None or finish is None or finish < start:
            why = "a manual task without dates or duration"
            self.reader.lose(row, "Start", why, kind=LossKind.TASK)
            return None
        return calendar.between(start, finish)

    def _crash(self, row: Row, minutes: int) -> Crash | None:
        """Returns the shortest duration and what it costs, from custom fields."""
        found = crashing.find_fields(lambda names: self._custom(row, names), self.options)

        def shortest(text: str) -> int:
            known = duration(text)
            known = crashing.minutes_of(self.calendar)(text) if known is None else known
            if row.duration_format not in ELAPSED:
                return known
            return known * CLOCK.day_minutes // self.calendar.day_minutes

        return crashing.crash_of(self.reader, row, found, minutes, shortest)

    def _custom(self, row: Row, names: tuple[str, ...]) -> str:
        """Returns the value of a custom field by its name or alias; amounts are whole units."""
        for attribute in row.children("ExtendedAttribute"):
            known = self.custom_fields.get(attribute.text("FieldID"), ("", ""))
            if not any(name in names for name in known):
                continue
            value = attribute.text("Value")
            amount = decimal(value)
            if known[0].startswith(_COST_FIELDS) and amount is not None:
                return str(amount / CENTS)
            return value
        return ""

    def _constraint(self, row: Row, above: list[Row]) -> Constraint | None:
        """Returns the date constraint of a task, or None.

        TaskJuggler writes one for each task; it is the start of tasks without links.
        """
        text = row.text("ConstraintType")
        kind = CONSTRAINTS.get(text)
        if kind is None:
            if text not in ("", _AS_SOON_AS_POSSIBLE):
                self.reader.lose(row, "ConstraintType", "this is no known constraint")
            return None
        if self.is_of_taskjuggler:
            day = moments.start_day(self.calendar, row.text("Start"))
            is_linked = any(each.has("PredecessorLink") for each in [row, *above])
            if is_linked or day is None or day <= self.start:
                return None
            return Constraint(ConstraintKind.START_NO_EARLIER, day)
        if kind is ConstraintKind.AS_LATE_AS_POSSIBLE:
            return Constraint(kind, None)
        is_finish = kind in _FINISH_KINDS
        convert = fields.finish_day(self.calendar) if is_finish else fields.day
        day = self.reader.read(row, "ConstraintDate", convert)
        if day is not None:
            return Constraint(kind, day)
        if fields.given(row.text("ConstraintDate")) is None:
            self.reader.lose(row, "ConstraintDate", f"{kind.value} without a date")
        return None

    def _progress(self, row: Row, minutes: int, calendar: Calendar) -> Progress:
        """Returns what the file says of work done."""
        read = self.reader.read
        percent = read(row, "PercentComplete", fields.percentage)
        started = self._start_day(row, "ActualStart", minutes, calendar)
        if not percent and (started is None or self.is_of_taskjuggler):
            return Progress()
        is_finished = percent is None or percent == _ALL
        finished = None
        if is_finished:
            finished = self._finish_day(row, "ActualFinish", minutes, calendar)
        return Progress(
            percent=percent,
            actual_start=started,
            actual_finish=finished,
            remaining=read(row, "RemainingDuration", length),
            actual_cost=read(row, "ActualCost", money),
            remaining_cost=read(row, "RemainingCost", money),
        )

    def _own_calendar(self, row: Row) -> tuple[str | None, Calendar]:
        """Returns the calendar of a task, with its name if its working time is not the plan's.

        A duration by the clock has that as its calendar. All days are as long as the project's.
        """
        if row.duration_format in ELAPSED:
            self.alone.add(row.uid)
            return CLOCK_NAME, CLOCK
        uid = row.text("CalendarUID")
        found = self.calendars.by_uid(uid)
        why = ""
        if found is None and uid not in ("", "-1"):
            why = "there is no calendar of this UID; the plan's is used"
        elif found is not None and not has_work(found):
            why = "the calendar has no working time; the plan's is used"
        if why:
            self.reader.lose(row, "CalendarUID", why, kind=LossKind.CALENDAR)
        if found is None or why:
            return None, self.calendar
        plan = self.calendar
        lengths = {"day_minutes": plan.day_minutes, "week_minutes": plan.week_minutes}
        found = replace(found, **lengths, month_days=plan.month_days)
        if row.flag("IgnoreResourceCalendar"):
            self.alone.add(row.uid)
        return self.own.name_of(found, f"UID {clip(uid, 20)}"), found

    def _baselines(self, row: Row) -> Iterator[Baseline]:
        """Yields the saved baselines 0 to 10 of a task."""
        for part in row.children("Baseline"):
            number = whole(part.text("Number"))
            if number is None or not 0 <= number <= _MOST_BASELINE:
                why = f"it has no number from 0 to {_MOST_BASELINE}"
                self.reader.lose(row, "Baseline", why)
                continue
            read = self.reader.part
            finish = fields.finish_day(self.calendar)
            yield Baseline(
                number,
                read(row, part, "Start", fields.day, "Baseline"),
                read(row, part, "Finish", finish, "Baseline"),
                read(row, part, "Duration", length, "Baseline"),
                read(row, part, "Cost", money, "Baseline"),
            )


def title(text: str) -> str:
    """Returns a text in one line."""
    return " ".join(text.split())


def duration(text: str) -> int | None:
    """Returns the minutes of a duration such as `PT16H30M0S`, rounded to a minute, or None."""
    found = _DURATION.fullmatch(text) if len(text) <= 60 else None
    if found is None or text in ("P", "PT"):
        return None
    days, hours, minutes, seconds = (int(part or 0) for part in found.groups())
    return days * 1440 + hours * 60 + minutes + round(seconds / 60)


def length(text: str) -> int:
    """Returns the minutes of a duration that is a field of its own."""
    minutes = duration(text)
    if minutes is None:
        raise Unreadable("this is no duration such as PT16H0M0S")
    return minutes


def money(text: str) -> Decimal:
    """Returns an amount, which the file has in hundredths."""
    return fields.amount(text) / CENTS
