"""Makes a plan of the tables of Primavera P6, which XER and P6's XML both hold.

A table is a list of records whose fields have the names of XER. What one file format lacks is an
empty field.
"""

from collections import Counter
from collections.abc import Iterable, Iterator, Mapping
from dataclasses import dataclass, field, replace
from datetime import date, datetime
from decimal import Decimal
from fractions import Fraction
from functools import cached_property

from pert_companion.model import moments
from pert_companion.model.calendar import Calendar
from pert_companion.model.errors import InputError
from pert_companion.model.losses import Loss, LossKind
from pert_companion.model.plan import (
    Assignment,
    Baseline,
    Constraint,
    ConstraintKind,
    Crash,
    Group,
    Lag,
    LagCalendar,
    Link,
    LinkKind,
    Plan,
    Progress,
    Resource,
    ResourceKind,
    Task,
)
from pert_companion.model.source import Source
from pert_companion.model.xmltree import decimal
from pert_companion.readers import crashing, fields
from pert_companion.readers.base import ReaderOptions, Reading
from pert_companion.readers.fields import NamedPlace, TextReader
from pert_companion.readers.grid import MOST_ROWS, clip
from pert_companion.readers.own_calendars import OwnCalendars, has_work
from pert_companion.readers.p6_outline import Node, outline_order
from pert_companion.readers.values import Unreadable

_CONSTRAINTS = {
    "CS_ALAP": ConstraintKind.AS_LATE_AS_POSSIBLE,
    "CS_MSO": ConstraintKind.MUST_START,
    "CS_MSOA": ConstraintKind.START_NO_EARLIER,
    "CS_MSOB": ConstraintKind.START_NO_LATER,
    "CS_MEO": ConstraintKind.MUST_FINISH,
    "CS_MEOA": ConstraintKind.FINISH_NO_EARLIER,
    "CS_MEOB": ConstraintKind.FINISH_NO_LATER,
    "CS_MANDSTART": ConstraintKind.MUST_START,
    "CS_MANDFIN": ConstraintKind.MUST_FINISH,
}
_LINK_KINDS = {
    "PR_FS": LinkKind.FINISH_START,
    "PR_SS": LinkKind.START_START,
    "PR_FF": LinkKind.FINISH_FINISH,
    "PR_SF": LinkKind.START_FINISH,
}
_LAG_CALENDARS = {
    "rcal_Predecessor": LagCalendar.PREDECESSOR,
    "rcal_Successor": LagCalendar.SUCCESSOR,
    "rcal_ProjDefault": LagCalendar.PLAN,
}
_CLOCK_LAGS = "rcal_24Hour"
_MILESTONES = frozenset(("TT_Mile", "TT_FinMile"))
_SPANS = {
    "TT_LOE": "a level of effort spans other tasks; it is left out with its links",
    "TT_WBS": "a WBS summary spans other tasks; it is left out with its links",
}
_ACTUAL_COSTS = {"TASKRSRC": ("act_reg_cost", "act_ot_cost"), "PROJCOST": ("act_cost",)}
"""The tables of costs, and the fields of each that are costs so far."""
_MOST_MINUTES = 10**9
_FINISHED = "TK_Complete"
_KINDS = {
    "target_drtn_hr_cnt": LossKind.TASK,
    "remain_drtn_hr_cnt": LossKind.PROGRESS,
    "phys_complete_pct": LossKind.PROGRESS,
    "act_work_qty": LossKind.PROGRESS,
    "remain_work_qty": LossKind.PROGRESS,
    "act_start_date": LossKind.PROGRESS,
    "act_end_date": LossKind.PROGRESS,
    "early_start_date": LossKind.DATE,
    "early_end_date": LossKind.DATE,
    "target_start_date": LossKind.DATE,
    "target_end_date": LossKind.DATE,
    "plan_start_date": LossKind.DATE,
    "plan_end_date": LossKind.DATE,
    "last_recalc_date": LossKind.DATE,
    "cstr_date": LossKind.CONSTRAINT,
    "cstr_date2": LossKind.CONSTRAINT,
    "lag_hr_cnt": LossKind.LINK,
    "pred_type": LossKind.LINK,
    "clndr_id": LossKind.CALENDAR,
    "wbs_id": LossKind.GROUP,
    "cost_per_qty": LossKind.RESOURCE,
    "target_qty": LossKind.RESOURCE,
    "max_qty_per_hr": LossKind.RESOURCE,
    "crash": LossKind.CRASH,
    "slope": LossKind.CRASH,
    "crash cost": LossKind.CRASH,
}
"""The kind of loss of each field that cannot be read; of costs if it is none of these."""


@dataclass(frozen=True)
class Record:
    """One row of a table: its place in the file, and the texts of its fields."""

    where: str
    fields: Mapping[str, str]

    def text(self, name: str) -> str:
        """Returns the text of a field; an empty one if there is none."""
        return self.fields.get(name, "")

    @property
    def name(self) -> str:
        """Returns the name of an activity, or else its id; empty for what is none."""
        return title(self.text("task_name")) or self.text("task_code")


@dataclass(frozen=True)
class P6File:
    """The tables of a file, and its calendars by their id."""

    source: Source
    format: str
    tables: Mapping[str, list[Record]]
    calendars: Mapping[str, Calendar]
    losses: list[Loss] = field(default_factory=list)
    notes: list[str] = field(default_factory=list)
    baselines: Mapping[str, tuple[Baseline, ...]] = field(default_factory=dict)
    """The saved baselines of an activity by its code."""

    def table(self, name: str) -> list[Record]:
        """Returns the rows of a table; none if the file lacks it."""
        return self.tables.get(name, [])


def read_plan(file: P6File, options: ReaderOptions) -> Reading:
    """Returns the plan of a file and what is not in it.

    Raises `InputError` if the file has no activity that can be carried over, several projects of
    which none is chosen, or an outline that is none.
    """
    return _Reader(file, options).reading()


class _Reader:
    """Reads one project of a file."""

    def __init__(self, file: P6File, options: ReaderOptions) -> None:
        self.file = file
        self.options = options
        self.losses = list(file.losses)
        self.fields = TextReader(_KINDS, self.losses, LossKind.COST)
        self.notes = list(file.notes)
        self.project = self.chosen_project()
        self.records = self.own_records("TASK")
        if not self.records:
            raise InputError(f"{file.source.name}: no activities (table TASK)")
        if len(self.records) > MOST_ROWS:
            raise InputError(f"{file.source.name}: more than {MOST_ROWS} activities")
        self.resource_records = {row.text("rsrc_id"): row for row in file.table("RSRC")}
        self.resources_of = self.resource_ids_by_task()
        self.calendar = self.plan_calendar()
        self.crash_types = self.user_fields()
        self.user_values = self.values_by_task()
        self.costs = _Costs(file, self.fields, {row.text("task_id") for row in self.records})
        self.items = {row.text("wbs_id") for row in self.own_records("PROJWBS")}

    def reading(self) -> Reading:
        """Returns the plan and its losses."""
        source = self.file.source
        nodes = [
            Node(row.text("wbs_id"), row.text("parent_wbs_id"), row)
            for row in self.own_records("PROJWBS")
        ]
        order = outline_order(nodes, self.records, source.name)
        outline = tuple(self.entries(order.entries))
        tasks = {entry.uid: entry for entry in outline if isinstance(entry, Task)}
        if not tasks:
            first = f": {self.losses[0].line(source.name)}" if self.losses else ""
            raise InputError(first[2:] or f"{source.name}: no task can be carried over")
        name = self.options.name or self.project_name(order.root)
        resources = {resource.uid: resource for resource in self.resources()}
        plan = Plan(
            name=name or source.path.stem,
            start=self.start,
            calendar=self.calendar,
            outline=outline,
            links=tuple(self.links(tasks)),
            resources=tuple(resources.values()),
            assignments=tuple(self.assignments(tasks, resources)),
            data_date=self.data_date(),
            must_finish=self.must_finish(),
            currency=self.currency(),
            source=self.file.format,
            calendars=self.own.calendars,
            lag_calendar=_LAG_CALENDARS.get(self.lag_setting, LagCalendar.PREDECESSOR),
            begin=self.begin(),
            notes=tuple(self.notes),
        )
        return Reading(plan, tuple(dict.fromkeys(self.losses)))

    def chosen_project(self) -> Record:
        """Returns the project that has activities; `--name` chooses one of several."""
        used = {row.text("proj_id") for row in self.file.table("TASK")}
        found = [row for row in self.file.table("PROJECT") if row.text("proj_id") in used]
        if len(found) > 1 and self.options.name:
            wanted = self.options.name.casefold()
            found = [row for row in found if row.text("proj_short_name").casefold() == wanted]
        if len(found) > 1 or (not found and len(used) > 1):
            names = ", ".join(row.text("proj_short_name") for row in found)
            raise InputError(
                f"{self.file.source.name}: several projects; choose one with --name: {clip(names)}"
            )
        return found[0] if found else Record("table PROJECT", {})

    def own_records(self, table: str) -> list[Record]:
        """Returns the rows of a table that belong to the project."""
        rows = self.file.table(table)
        wanted = self.project.text("proj_id")
        return [row for row in rows if not wanted or row.text("proj_id") in ("", wanted)]

    def project_name(self, root: Record | None) -> str:
        """Returns the name of the project: that of its top item, else its short name."""
        name = self.project.text("proj_name") or (root.text("wbs_name") if root else "")
        return title(name or self.project.text("proj_short_name"))

    def currency(self) -> str:
        """Returns the code of the file's base currency."""
        rows = self.file.table("CURRTYPE")
        wanted = self.project.text("base_curr_id")
        for row in rows:
            if row.text("curr_id") == wanted or len(rows) == 1:
                return row.text("curr_short_name")[:8]
        return ""

    @cached_property
    def start(self) -> date:
        """Returns the first day of the project."""
        start = self.options.start
        start = start or self.fields.read(self.project, "plan_start_date", fields.day)
        if start is None:
            listed = [moments.day(row.text(_field_of(row, _STARTS))) for row in self.records]
            start = min((day for day in listed if day is not None), default=None)
        if start is None:
            raise InputError(f"{self.file.source.name}: no start date; give one with --start")
        return start

    def begin(self) -> datetime | None:
        """Returns the moment of the first day from which work may begin, or None."""
        moment = moments.moment(self.project.text("plan_start_date"))
        return moment if moment is not None and moment.date() == self.start else None

    @cached_property
    def lag_setting(self) -> str:
        """Returns by which calendar lags run, as the options of scheduling say."""
        rows = self.own_records("SCHEDOPTIONS")
        return rows[0].text("sched_calendar_on_relationship_lag") if rows else ""

    def data_date(self) -> date | None:
        """Returns the day whose evening the progress is about.

        P6's data date is a morning, so it is the working day before. Before the first day it is
        None: that of a plan that has not begun is the morning of its first day.
        """
        if self.options.data_date is not None:
            return self.options.data_date
        day = self.fields.read(self.project, "last_recalc_date", self._evening_before)
        return day if day is not None and day >= self.start else None

    def _evening_before(self, text: str) -> date:
        """Returns the last day of work before the moment of a data date."""
        timed = f"{text}T00:00" if len(text) == len("2026-09-01") else text
        return fields.finish_day(self.calendar)(timed)

    def must_finish(self) -> date | None:
        """Returns the day on which the project must finish by its contract, or None."""
        convert = fields.finish_day(self.calendar)
        return self.fields.read(self.project, "plan_end_date", convert)

    def plan_calendar(self) -> Calendar:
        """Returns the calendar of most activities, or the one that is asked for."""
        if not self.calendar_key:
            self.notes.append("the file has no calendar: Monday to Friday is assumed")
        return self.with_lengths(self.file.calendars.get(self.calendar_key, Calendar()))

    @cached_property
    def calendar_key(self) -> str:
        """Returns the id of the calendar of the plan; empty if the file has none."""
        file, wanted = self.file, self.options.calendar.casefold()
        if wanted:
            found = [key for key, each in file.calendars.items() if each.name.casefold() == wanted]
            if not found:
                raise InputError(f"{file.source.name}: no calendar named {self.options.calendar!r}")
            return found[0]
        used = [key for key in map(self.calendar_id, self.records) if key in file.calendars]
        counts = Counter([*used, self.project.text("clndr_id")])
        known = [key for key, _ in counts.most_common() if key in file.calendars]
        return known[0] if known else ""

    def with_lengths(self, calendar: Calendar) -> Calendar:
        """Returns a calendar with the hours of days and weeks that the user says, if any."""
        options = self.options
        day = options.day_minutes or calendar.day_minutes
        week = options.week_minutes or calendar.week_minutes
        month = options.month_days or calendar.month_days
        return replace(calendar, day_minutes=day, week_minutes=week, month_days=month)

    def resource_ids_by_task(self) -> dict[str, list[str]]:
        """Returns the resources of each activity, by ids."""
        found: dict[str, list[str]] = {}
        for row in self.file.table("TASKRSRC"):
            found.setdefault(row.text("task_id"), []).append(row.text("rsrc_id"))
        return found

    def calendar_id(self, row: Record) -> str:
        """Returns the calendar that an activity is scheduled by: its own, or its resource's."""
        if row.text("task_type") != "TT_Rsrc":
            return row.text("clndr_id")
        for key in self.resources_of.get(row.text("task_id"), []):
            resource = self.resource_records.get(key)
            if resource is not None and resource.text("clndr_id") in self.file.calendars:
                return resource.text("clndr_id")
        return row.text("clndr_id")

    def calendar_of(self, row: Record) -> Calendar:
        """Returns the calendar that an activity is scheduled by."""
        key = self.calendar_id(row)
        found = self.file.calendars.get(key)
        if found is None or key == self.calendar_key or not has_work(found):
            return self.calendar
        return self.with_lengths(found)

    def own_name(self, row: Record) -> str | None:
        """Returns the name of the calendar of an activity if its working time is not the plan's."""
        return self.own.name_of(self.calendar_of(row), f"id {clip(self.calendar_id(row), 20)}")

    @cached_property
    def own(self) -> OwnCalendars:
        """Returns the calendars of activities that are not the plan's."""
        return OwnCalendars(self.calendar)

    def entries(self, order: Iterable[tuple[Record, str | None, bool]]) -> Iterator[Task | Group]:
        """Yields the groups and tasks of an outline."""
        seen: set[str] = set()
        for row, parent, is_group in order:
            if is_group:
                yield _group(row, parent)
                continue
            uid = row.text("task_id")
            if uid in seen or not uid:
                why = "two activities have this id" if uid else "an activity without an id"
                raise InputError(f"{self.file.source.name}: {row.where}: {why} {clip(uid)}".strip())
            seen.add(uid)
            task = self.task(row, parent)
            if task is not None:
                yield task

    def task(self, row: Record, parent: str | None) -> Task | None:
        """Returns the task of an activity, or None and a loss."""
        kind = row.text("task_type")
        if kind in _SPANS:
            self.lose(LossKind.LOE, row, "task_type", _SPANS[kind], kind)
            return None
        minutes = 0 if kind in _MILESTONES else self.minutes(row, "target_drtn_hr_cnt")
        if minutes is None:
            if not row.text("target_drtn_hr_cnt"):
                why = "there is no duration; the task is left out"
                self.fields.lose(row, "target_drtn_hr_cnt", why)
            return None
        self.name_unknown(row)
        constraint, deadline = self.constraints(row)
        uid = row.text("task_id")
        return Task(
            uid=uid,
            where=row.where,
            name=row.name or uid,
            minutes=minutes,
            parent=parent,
            code=row.text("task_code")[:200],
            crash=self.crash(row, minutes),
            cost=self.costs.planned.get(uid),
            constraint=constraint,
            deadline=deadline,
            listed_start=self.start_day(row, _field_of(row, _STARTS), minutes),
            listed_finish=self.finish_day(row, _field_of(row, _FINISHES), minutes),
            progress=self.progress(row, minutes),
            baselines=self.file.baselines.get(row.text("task_code"), ()),
            calendar=self.own_name(row),
        )

    def start_day(self, row: Record, name: str, minutes: int) -> date | None:
        """Returns the first day of work; a milestone has the day of its moment."""
        convert = fields.day if minutes == 0 else fields.start_day(self.calendar_of(row))
        return self.fields.read(row, name, convert)

    def finish_day(self, row: Record, name: str, minutes: int) -> date | None:
        """Returns the last day of work; a milestone has the day of its moment."""
        convert = fields.day if minutes == 0 else fields.finish_day(self.calendar_of(row))
        return self.fields.read(row, name, convert)

    def minutes(self, row: Record, name: str) -> int | None:
        """Returns a duration of an activity in minutes of its calendar, or None."""

        def convert(text: str) -> int:
            found = _minutes(text)
            if found is None or found < 0:
                raise Unreadable("this is no duration")
            return found

        return self.fields.read(row, name, convert)

    def name_unknown(self, row: Record) -> None:
        """Adds a loss of an activity whose item or calendar is not in a file that has some."""
        item, calendar = row.text("wbs_id"), row.text("clndr_id")
        if item and self.items and item not in self.items:
            why = "there is no item of the WBS with this id; the task is put at the top"
            self.fields.lose(row, "wbs_id", why)
        if calendar and self.file.calendars and calendar not in self.file.calendars:
            why = "there is no calendar with this id; the plan's is used"
            self.fields.lose(row, "clndr_id", why)
        found = self.file.calendars.get(self.calendar_id(row))
        if found is not None and not has_work(found):
            why = "the calendar has no working time; the plan's is used"
            self.fields.lose(row, "clndr_id", why)

    def constraints(self, row: Record) -> tuple[Constraint | None, date | None]:
        """Returns the constraint and the deadline of an activity.

        A second constraint "finish on or before" is a deadline; any other one is a loss.
        """
        first = self.constraint(row, "cstr_type", "cstr_date")
        second = self.constraint(row, "cstr_type2", "cstr_date2")
        if row.text("external_early_start_date") or row.text("external_late_end_date"):
            why = "dates of other projects are not carried over"
            self.lose(LossKind.CONSTRAINT, row, "external dates", why, "yes")
        if first is None:
            return second, None
        if second is not None and second.kind is ConstraintKind.FINISH_NO_LATER:
            return first, second.day
        if second is not None:
            why = f"the second constraint, {second.kind.value} {second.day}, is not carried over"
            self.lose(LossKind.CONSTRAINT, row, "cstr_type2", why)
        return first, None

    def constraint(self, row: Record, kind_name: str, day_name: str) -> Constraint | None:
        """Returns one constraint of an activity, or None; a loss if it has no sense."""
        text = row.text(kind_name)
        if not text:
            return None
        kind = _CONSTRAINTS.get(text)
        if kind is None:
            self.lose(LossKind.CONSTRAINT, row, kind_name, "this is no known constraint")
            return None
        if kind is ConstraintKind.AS_LATE_AS_POSSIBLE:
            return Constraint(kind, None)
        is_finish = kind.value.startswith("finish") or kind is ConstraintKind.MUST_FINISH
        convert = fields.finish_day(self.calendar) if is_finish else fields.day
        day = self.fields.read(row, day_name, convert)
        if day is None and not row.text(day_name):
            self.fields.lose(row, day_name, f"{kind.value} without a date")
        return None if day is None else Constraint(kind, day)

    def progress(self, row: Record, minutes: int) -> Progress:
        """Returns what the file says of work done."""
        status = row.text("status_code")
        if status in ("", "TK_NotStart"):
            return Progress()
        if row.text("suspend_date") and status == "TK_Active":
            why = "a suspended activity goes on in one piece"
            self.lose(LossKind.PAUSE, row, "suspend_date", why)
        is_finished = status == _FINISHED
        uid = row.text("task_id")
        remaining = 0 if is_finished else self.minutes(row, "remain_drtn_hr_cnt")
        return Progress(
            percent=Decimal(100) if is_finished else self.percent(row, minutes, remaining),
            actual_start=self.start_day(row, "act_start_date", minutes),
            actual_finish=self.finish_day(row, "act_end_date", minutes) if is_finished else None,
            remaining=remaining,
            actual_cost=self.costs.actual.get(uid),
            remaining_cost=self.costs.remaining.get(uid),
        )

    def percent(self, row: Record, minutes: int, remaining: int | None) -> Decimal | None:
        """Returns percent complete as the activity's type of it says; None if it is unreadable."""
        kind = row.text("complete_pct_type")
        if kind == "CP_Phys":
            text = row.text("phys_complete_pct") or "0"
            percent = self.fields.taken(row, "phys_complete_pct", text, fields.percentage)
            return None if percent is None else _rounded(percent)
        if kind == "CP_Units":
            done = self.fields.read(row, "act_work_qty", fields.positive) or Decimal(0)
            left = self.fields.read(row, "remain_work_qty", fields.positive) or Decimal(0)
            if done + left > 0:
                return _rounded(Decimal(100) * done / (done + left))
        if minutes <= 0 or remaining is None:
            return Decimal(0)
        return _rounded(Decimal(100) * max(0, minutes - remaining) / minutes)

    def user_fields(self) -> dict[str, str]:
        """Returns the name in small letters of each user-defined field of activities, by its id."""
        found = {}
        for row in self.file.table("UDFTYPE"):
            if row.text("table_name") in ("", "TASK"):
                found[row.text("udf_type_id")] = row.text("udf_type_label").strip().casefold()
        return found

    def values_by_task(self) -> dict[tuple[str, str], str]:
        """Returns the texts of user-defined fields, by activity and name in small letters."""
        found: dict[tuple[str, str], str] = {}
        for row in self.file.table("UDFVALUE"):
            name = self.crash_types.get(row.text("udf_type_id"))
            value = row.text("udf_number") or row.text("udf_text")
            if name is not None and value:
                found.setdefault((row.text("fk_id"), name), value.strip())
        return found

    def crash(self, row: Record, minutes: int) -> Crash | None:
        """Returns the shortest duration and what it costs, from user-defined fields."""
        uid = row.text("task_id")

        def look_up(names: tuple[str, ...]) -> str:
            texts = (self.user_values.get((uid, name), "") for name in names)
            return next((text for text in texts if text), "")

        found = crashing.find_fields(look_up, self.options)
        shortest = crashing.minutes_of(self.calendar_of(row))
        return crashing.crash_of(self.fields, row, found, minutes, shortest)

    def links(self, tasks: Mapping[str, Task]) -> Iterator[Link]:
        """Yields the links between tasks; others are losses, unless an end is a span."""
        records = {row.text("task_id"): row for row in self.records}
        for row in self.file.table("TASKPRED"):
            before, after = row.text("pred_task_id"), row.text("task_id")
            if after not in records and self.is_foreign(row):
                continue
            if before in tasks and after in tasks:
                link = self.link(row, records[before], records[after])
                if link is not None:
                    yield link
                continue
            kinds = [records[uid].text("task_type") for uid in (before, after) if uid in records]
            if not any(kind in _SPANS for kind in kinds):
                self.lose_link(row, tasks.get(after) or tasks.get(before))

    def is_foreign(self, row: Record) -> bool:
        """Says whether a row belongs to another project of the file."""
        own = self.project.text("proj_id")
        return bool(own) and row.text("proj_id") not in ("", own)

    def lose_link(self, row: Record, task: Task | None) -> None:
        """Adds a loss of a link whose ends are not both tasks."""
        text = f"{row.text('pred_task_id')} to {row.text('task_id')}"
        name = task.name if task is not None else ""
        why = "one of the activities is not in this project or not carried over"
        self.losses.append(Loss(LossKind.LINK, row.where, name, "link", clip(text), why))

    def link(self, row: Record, before: Record, after: Record) -> Link | None:
        """Returns a link, or None and a loss."""

        def lag_of(text: str) -> Lag:
            minutes = _minutes(text)
            if minutes is None:
                raise Unreadable("this is no lag; the link is left out")
            return Lag(minutes, elapsed=self.lag_setting == _CLOCK_LAGS)

        place = NamedPlace(row.where, after.name)
        kind = self.fields.taken(place, "pred_type", row.text("pred_type") or "PR_FS", _link_kind)
        lag = self.fields.taken(place, "lag_hr_cnt", row.text("lag_hr_cnt") or "0", lag_of)
        if lag is None or kind is None:
            return None
        shown = clip(before.text("task_code") or before.text("task_id"))
        return Link(before.text("task_id"), after.text("task_id"), kind, lag, row.where, shown)

    def resources(self) -> Iterator[Resource]:
        """Yields the resources and roles that have a name."""
        rates, limits = self.rates(), self.limits("RSRCRATE", "rsrc_id")
        units = {
            row.text("unit_id"): row.text("unit_abbrev") for row in self.file.table("UMEASURE")
        }
        for uid, row in self.resource_records.items():
            is_material = row.text("rsrc_type") == "RT_Mat"
            yield Resource(
                uid=uid,
                name=title(row.text("rsrc_name") or row.text("rsrc_short_name") or uid),
                kind=ResourceKind.MATERIAL if is_material else ResourceKind.WORK,
                unit=units.get(row.text("unit_id"), "") or "units" if is_material else "h",
                rate=rates.get(uid),
                capacity=limits.get(uid),
            )
        role_limits = self.limits("ROLELIMIT", "role_id")
        for row in self.file.table("ROLES"):
            limit = role_limits.get(row.text("role_id"))
            yield Resource(_role_id(row), title(row.text("role_name")), capacity=limit)

    def rates(self) -> dict[str, Decimal]:
        """Returns the first rate of each resource; later ones are noted."""
        return self.first_values("RSRCRATE", "rsrc_id", "cost_per_qty", "rates")

    def limits(self, table: str, key: str) -> dict[str, Decimal]:
        """Returns the first units per time of each resource or role; 0 is no limit."""
        found = self.first_values(table, key, "max_qty_per_hr", "capacities")
        return {uid: limit for uid, limit in found.items() if limit > 0}

    def first_values(self, table: str, key: str, name: str, what: str) -> dict[str, Decimal]:
        """Returns the values of a field that hold first, by id; later ones are noted."""
        found: dict[str, tuple[str, Decimal]] = {}
        changed = set()
        for row in self.file.table(table):
            uid, day = row.text(key), row.text("start_date")
            value = self.fields.read(row, name, fields.amount)
            if value is None:
                continue
            if uid in found and found[uid][1] != value:
                changed.add(uid)
            if uid not in found or day < found[uid][0]:
                found[uid] = (day, value)
        if changed:
            number = f"{len(changed)} resources"
            self.notes.append(f"{what} that change ({number}): the first one is used")
        return {uid: value for uid, (_, value) in found.items()}

    def assignments(
        self, tasks: Mapping[str, Task], known: Mapping[str, Resource]
    ) -> Iterator[Assignment]:
        """Yields how much of each resource a task uses: minutes of work, or units."""
        others = {row.text("task_id") for row in self.file.table("TASK")} - set(tasks)
        for row in self.file.table("TASKRSRC"):
            uid, quantity = row.text("task_id"), decimal(row.text("target_qty"))
            if uid in others:
                continue
            resource = known.get(row.text("rsrc_id")) or known.get(_role_id(row))
            why = ""
            if uid not in tasks:
                why = "there is no such activity"
            elif quantity is None and row.text("target_qty"):
                why = "this is no quantity"
            elif resource is None and quantity:
                why = "there is no such resource; its work is not carried over"
            if why:
                self.lose_assignment(row, tasks.get(uid), why)
            elif resource is not None and quantity:
                factor = 60 if resource.kind is ResourceKind.WORK else 1
                yield Assignment(uid, resource.uid, quantity * factor)

    def lose_assignment(self, row: Record, task: Task | None, why: str) -> None:
        """Adds a loss of a row of TASKRSRC."""
        text = f"resource {row.text('rsrc_id')}, {row.text('target_qty')}"
        name = task.name if task is not None else ""
        self.losses.append(
            Loss(LossKind.RESOURCE, row.where, name, "TASKRSRC", clip(text, 60), why)
        )

    def lose(self, kind: LossKind, row: Record, name: str, why: str, text: str = "") -> None:
        """Adds a loss of an activity."""
        shown = clip(text or row.text(name), 60)
        self.losses.append(Loss(kind, row.where, row.name, name, shown, why))


class _Costs:
    """The costs of activities: those of their resources and their expenses, added up."""

    def __init__(self, file: P6File, reader: TextReader, known: set[str]) -> None:
        self.planned: dict[str, Decimal] = {}
        self.actual: dict[str, Decimal] = {}
        self.remaining: dict[str, Decimal] = {}
        self._fields = reader
        every = {row.text("task_id") for row in file.table("TASK")}
        for table, actual in _ACTUAL_COSTS.items():
            for row in file.table(table):
                uid = row.text("task_id")
                if uid in known:
                    self._add(row, uid, actual)
                elif uid not in every:
                    self._name_unknown(row)

    def _add(self, row: Record, uid: str, actual: tuple[str, ...]) -> None:
        for held, names in (
            (self.planned, ("target_cost",)),
            (self.actual, actual),
            (self.remaining, ("remain_cost",)),
        ):
            for name in names:
                amount = self._fields.read(row, name, fields.amount)
                if amount is not None:
                    held[uid] = held.get(uid, Decimal(0)) + amount

    def _name_unknown(self, row: Record) -> None:
        if row.text("target_cost"):
            self._fields.lose(row, "target_cost", "there is no such activity")


def _group(row: Record, parent: str | None) -> Group:
    code = row.text("wbs_short_name")[:200]
    name = title(row.text("wbs_name")) or code
    return Group("W" + row.text("wbs_id"), row.where, name, parent, code)


def _minutes(text: str) -> int | None:
    """Returns hours in minutes, or None if they are no number."""
    hours = decimal(text)
    if hours is None or abs(hours) * 60 > _MOST_MINUTES:
        return None
    return round(Fraction(hours) * 60)


def _rounded(percent: Decimal) -> Decimal:
    """Returns a percentage with at most two decimals."""
    return percent.quantize(Decimal("0.01")).normalize() + 0


def _link_kind(text: str) -> LinkKind:
    if text not in _LINK_KINDS:
        raise Unreadable("this is no kind of link; the link is left out")
    return _LINK_KINDS[text]


_STARTS = ("act_start_date", "early_start_date", "target_start_date")
_FINISHES = ("act_end_date", "early_end_date", "target_end_date")


def _field_of(row: Record, names: tuple[str, ...]) -> str:
    """Returns the first of these fields that an activity has."""
    return next((name for name in names if row.text(name)), names[-1])


def _role_id(row: Record) -> str:
    return "role-" + row.text("role_id")


def title(text: str) -> str:
    return clip(" ".join(text.split()), 2000)
