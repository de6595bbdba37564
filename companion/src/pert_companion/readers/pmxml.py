"""Reads the XML of Primavera P6 (PMXML): the same content as XER under longer names."""

from collections.abc import Iterator, Mapping
from dataclasses import dataclass, field
from decimal import Decimal
from functools import cached_property

from pert_companion.model.calendar import (
    STANDARD_WEEK,
    Calendar,
    CalendarException,
    Shift,
    merged_shifts,
)
from pert_companion.model.errors import InputError
from pert_companion.model.losses import Loss, LossKind
from pert_companion.model.plan import Baseline
from pert_companion.model.source import Source
from pert_companion.model.xmltree import Node, decimal, head_text, local_name, parse
from pert_companion.readers import fields, p6, p6_calendars
from pert_companion.readers.base import ReaderOptions, Reading
from pert_companion.readers.fields import NamedPlace, TextReader
from pert_companion.readers.grid import clip
from pert_companion.readers.p6 import P6File, Record
from pert_companion.readers.values import Unreadable

NAMESPACE = "http://xmlns.oracle.com/Primavera/P6"
_ROOT = "APIBusinessObjects"

_TASK_TYPES = {
    "Task Dependent": "TT_Task",
    "Resource Dependent": "TT_Rsrc",
    "Level of Effort": "TT_LOE",
    "Start Milestone": "TT_Mile",
    "Finish Milestone": "TT_FinMile",
    "WBS Summary": "TT_WBS",
}
_STATUSES = {"Not Started": "TK_NotStart", "In Progress": "TK_Active", "Completed": "TK_Complete"}
_PERCENT_TYPES = {"Physical": "CP_Phys", "Duration": "CP_Drtn", "Units": "CP_Units"}
_CONSTRAINTS = {
    "As Late As Possible": "CS_ALAP",
    "Start On": "CS_MSO",
    "Start On or After": "CS_MSOA",
    "Start On or Before": "CS_MSOB",
    "Finish On": "CS_MEO",
    "Finish On or After": "CS_MEOA",
    "Finish On or Before": "CS_MEOB",
    "Mandatory Start": "CS_MANDSTART",
    "Mandatory Finish": "CS_MANDFIN",
}
_LINK_TYPES = {
    "Finish to Start": "PR_FS",
    "Start to Start": "PR_SS",
    "Finish to Finish": "PR_FF",
    "Start to Finish": "PR_SF",
}
_RESOURCE_TYPES = {"Material": "RT_Mat", "Labor": "RT_Labor", "Nonlabor": "RT_Equip"}
_LAG_CALENDARS = {
    "Predecessor Activity Calendar": "rcal_Predecessor",
    "Successor Activity Calendar": "rcal_Successor",
    "Project Default Calendar": "rcal_ProjDefault",
    "24 Hour Calendar": "rcal_24Hour",
}
_WORDS: dict[str, dict[str, str]] = {
    "task_type": _TASK_TYPES,
    "status_code": _STATUSES,
    "complete_pct_type": _PERCENT_TYPES,
    "cstr_type": _CONSTRAINTS,
    "cstr_type2": _CONSTRAINTS,
    "pred_type": _LINK_TYPES,
    "rsrc_type": _RESOURCE_TYPES,
    "sched_calendar_on_relationship_lag": _LAG_CALENDARS,
}
"""The words of fields, and what XER has for them."""

_PROJECT = {
    "proj_id": "ObjectId",
    "proj_short_name": "Id",
    "proj_name": "Name",
    "plan_start_date": "PlannedStartDate",
    "plan_end_date": "MustFinishByDate",
    "last_recalc_date": "DataDate",
    "clndr_id": "ActivityDefaultCalendarObjectId",
}
_WBS = {
    "wbs_id": "ObjectId",
    "parent_wbs_id": "ParentObjectId",
    "wbs_short_name": "Code",
    "wbs_name": "Name",
    "seq_num": "SequenceNumber",
}
_TASK = {
    "task_id": "ObjectId",
    "wbs_id": "WBSObjectId",
    "clndr_id": "CalendarObjectId",
    "task_code": "Id",
    "task_name": "Name",
    "task_type": "Type",
    "status_code": "Status",
    "complete_pct_type": "PercentCompleteType",
    "target_drtn_hr_cnt": "PlannedDuration",
    "remain_drtn_hr_cnt": "RemainingDuration",
    "act_work_qty": "ActualLaborUnits",
    "remain_work_qty": "RemainingLaborUnits",
    "act_start_date": "ActualStartDate",
    "act_end_date": "ActualFinishDate",
    "early_start_date": "StartDate",
    "early_end_date": "FinishDate",
    "target_start_date": "PlannedStartDate",
    "target_end_date": "PlannedFinishDate",
    "cstr_type": "PrimaryConstraintType",
    "cstr_date": "PrimaryConstraintDate",
    "cstr_type2": "SecondaryConstraintType",
    "cstr_date2": "SecondaryConstraintDate",
    "external_early_start_date": "ExternalEarlyStartDate",
    "external_late_end_date": "ExternalLateFinishDate",
    "suspend_date": "SuspendDate",
}
_OPTIONS = {"sched_calendar_on_relationship_lag": "RelationshipLagCalendar"}
_LINK = {
    "task_id": "SuccessorActivityObjectId",
    "pred_task_id": "PredecessorActivityObjectId",
    "pred_type": "Type",
    "lag_hr_cnt": "Lag",
}
_ASSIGNMENT = {
    "task_id": "ActivityObjectId",
    "rsrc_id": "ResourceObjectId",
    "role_id": "RoleObjectId",
    "target_qty": "PlannedUnits",
    "target_cost": "PlannedCost",
    "act_reg_cost": "ActualCost",
    "remain_cost": "RemainingCost",
}
_EXPENSE = {
    "task_id": "ActivityObjectId",
    "target_cost": "PlannedCost",
    "act_cost": "ActualCost",
    "remain_cost": "RemainingCost",
}
_RESOURCE = {
    "rsrc_id": "ObjectId",
    "rsrc_name": "Name",
    "rsrc_short_name": "Id",
    "rsrc_type": "ResourceType",
    "clndr_id": "CalendarObjectId",
    "unit_id": "UnitOfMeasureObjectId",
}
_RATE = {
    "rsrc_id": "ResourceObjectId",
    "cost_per_qty": "PricePerUnit",
    "start_date": "EffectiveDate",
    "max_qty_per_hr": "MaxUnitsPerTime",
}
_ROLE_LIMIT = {
    "role_id": "RoleObjectId",
    "start_date": "EffectiveDate",
    "max_qty_per_hr": "MaxUnitsPerTime",
}
_ROLE = {"role_id": "ObjectId", "role_name": "Name"}
_UNIT = {"unit_id": "ObjectId", "unit_abbrev": "Abbreviation"}
_USER_FIELD = {"udf_type_id": "ObjectId", "udf_type_label": "Title"}

_SHARED = (
    ("RSRC", "Resource", _RESOURCE),
    ("RSRCRATE", "ResourceRate", _RATE),
    ("ROLES", "Role", _ROLE),
    ("ROLELIMIT", "RoleLimit", _ROLE_LIMIT),
    ("UMEASURE", "UnitOfMeasure", _UNIT),
)
"""The tables outside projects: the name in XER, the element, its fields."""
_OF_PROJECT = (
    ("PROJWBS", "WBS", _WBS),
    ("SCHEDOPTIONS", "ScheduleOptions", _OPTIONS),
    ("TASKPRED", "Relationship", _LINK),
    ("TASKRSRC", "ResourceAssignment", _ASSIGNMENT),
    ("PROJCOST", "ActivityExpense", _EXPENSE),
)
TRANSLATED = (
    *_SHARED,
    *_OF_PROJECT,
    ("PROJECT", "Project", _PROJECT),
    ("TASK", "Activity", _TASK),
    ("UDFTYPE", "UDFType", _USER_FIELD),
)
"""All tables whose fields are those of XER under other names."""
_BASELINE_COSTS = ("PlannedLaborCost", "PlannedNonLaborCost", "PlannedExpenseCost")
_MOST_HOURS = 10**8
_WEEKDAYS = ("Monday", "Tuesday", "Wednesday", "Thursday", "Friday", "Saturday", "Sunday")


def matches(data: bytes) -> bool:
    """Says whether the bytes look like P6's XML."""
    head = head_text(data)
    return NAMESPACE in head or f"<{_ROOT}" in head


def read(source: Source, options: ReaderOptions) -> Reading:
    """Returns the plan of a file and what is not in it."""
    root = parse(source)
    if local_name(root) != _ROOT:
        raise InputError(f"{source.name}: not a file of Primavera P6 (no {_ROOT})")
    tables = _Tables(Node(root))
    tables.read()
    file = P6File(
        source,
        "pmxml",
        tables.held,
        dict(tables.calendars()),
        tables.losses,
        baselines=tables.baselines(),
    )
    return p6.read_plan(file, options)


@dataclass
class _Tables:
    """Collects the tables of a file under XER's names."""

    root: Node
    held: dict[str, list[Record]] = field(default_factory=dict)
    losses: list[Loss] = field(default_factory=list)

    @cached_property
    def fields(self) -> TextReader:
        """Returns the reader of what is no field of XER: calendars and baselines."""
        return TextReader({"Date": LossKind.CALENDAR}, self.losses, LossKind.BASELINE)

    def read(self) -> None:
        """Reads all tables."""
        for table, element, names in _SHARED:
            self.add_all(self.root, table, element, names)
        for node in self.root.children("Currency"):
            self.add("CURRTYPE", _currency(node))
        for node in self.root.children("UDFType"):
            if node.text("SubjectArea") in ("", "Activity"):
                self.add("UDFTYPE", _record(node, "UDFType", _USER_FIELD))
        for project in self.root.children("Project"):
            self.read_project(project)

    def read_project(self, project: Node) -> None:
        """Reads the tables of one project."""
        record = _record(project, "Project", _PROJECT)
        self.add("PROJECT", record)
        own = {"proj_id": record.text("proj_id")}
        for table, element, names in _OF_PROJECT:
            self.add_all(project, table, element, names, own)
        for node in project.children("Activity"):
            self.add_activity(node, own)

    def add_activity(self, node: Node, own: Mapping[str, str]) -> None:
        """Adds an activity and its user-defined fields."""
        record = _record(node, "Activity", _TASK)
        text = node.text("PhysicalPercentComplete")
        share = decimal(text)
        extra = dict(own)
        if text:
            extra["phys_complete_pct"] = text if share is None else str(share * 100)
        where = f"activity {clip(record.text('task_code') or record.text('task_id'), 40)}"
        self.add("TASK", Record(where, {**record.fields, **extra}))
        for value in node.children("UDF"):
            fields = {
                "udf_type_id": value.text("TypeObjectId"),
                "fk_id": record.text("task_id"),
                "udf_number": _number_of(value),
                "udf_text": value.text("TextValue"),
            }
            self.add("UDFVALUE", Record(where, fields))

    def add_all(
        self,
        holder: Node,
        table: str,
        element: str,
        names: Mapping[str, str],
        own: Mapping[str, str] | None = None,
    ) -> None:
        """Adds each element of a name as a row of a table."""
        for node in holder.children(element):
            record = _record(node, element, names)
            self.add(table, Record(record.where, {**record.fields, **(own or {})}))

    def add(self, table: str, record: Record) -> None:
        """Adds a row to a table."""
        self.held.setdefault(table, []).append(record)

    def calendars(self) -> Iterator[tuple[str, Calendar]]:
        """Yields all calendars, of the file and of its projects, by their ids."""
        holders = [self.root, *self.root.children("Project")]
        for holder in holders:
            for node in holder.children("Calendar"):
                yield node.text("ObjectId"), self.calendar(node)

    def calendar(self, node: Node) -> Calendar:
        """Returns a calendar; hours that cannot be read are a loss."""
        name = clip(node.text("Name") or f"calendar {node.text('ObjectId')}")
        hours = node.text("HoursPerDay")
        lengths, is_known = p6_calendars.lengths_of(
            hours, node.text("HoursPerWeek"), node.text("HoursPerMonth")
        )
        if not is_known:
            why = f"these are no hours of a day; the calendar {name!r} has 8"
            where = f"calendar {name}"
            self.losses.append(
                Loss(LossKind.CALENDAR, where, "", "HoursPerDay", clip(hours, 60), why)
            )
        week = list(STANDARD_WEEK)
        for part in node.within("StandardWorkWeek", "StandardWorkHours"):
            if part.text("DayOfWeek") in _WEEKDAYS:
                week[_WEEKDAYS.index(part.text("DayOfWeek"))] = _shifts(part)
        exceptions = []
        for part in node.within("HolidayOrExceptions", "HolidayOrException"):
            place = NamedPlace(f"calendar {name}")
            day = self.fields.part(place, part, "Date", fields.day)
            if day is not None:
                exceptions.append(CalendarException(day, day, "", _shifts(part)))
        return Calendar(
            name, tuple(week), tuple(exceptions), lengths.day, lengths.week, lengths.month
        )

    def baselines(self) -> dict[str, tuple[Baseline, ...]]:
        """Returns the baselines of each activity by its code, in the order of the file."""
        found: dict[str, tuple[Baseline, ...]] = {}
        numbers: dict[str, int] = {}
        for project in self.root.children("BaselineProject"):
            original = project.text("OriginalProjectObjectId")
            number = numbers.get(original, 0)
            numbers[original] = number + 1
            for node in project.children("Activity"):
                code = node.text("Id")
                found[code] = (*found.get(code, ()), self.baseline(node, number))
        return found

    def baseline(self, node: Node, number: int) -> Baseline:
        """Returns the baseline that an activity of a baseline project is."""
        place = NamedPlace(f"activity {clip(node.text('Id'), 40)}", node.text("Name"))
        read = self.fields.part
        start = "StartDate" if node.text("StartDate") else "PlannedStartDate"
        finish = "FinishDate" if node.text("FinishDate") else "PlannedFinishDate"
        amounts = [read(place, node, name, fields.amount) for name in _BASELINE_COSTS]
        known = [amount for amount in amounts if amount is not None]
        return Baseline(
            number,
            read(place, node, start, fields.day),
            read(place, node, finish, fields.finish_day(Calendar())),
            read(place, node, "PlannedDuration", _minutes),
            sum(known, Decimal(0)) if known else None,
        )


def _record(node: Node, element: str, names: Mapping[str, str]) -> Record:
    """Returns the fields of an element under XER's names, words as XER has them."""
    fields = {}
    for name, tag in names.items():
        text = node.text(tag)
        if text:
            fields[name] = _WORDS.get(name, {}).get(text, text)
    place = clip(node.text("Id") or node.text("ObjectId"), 40)
    return Record(f"{element} {place}".strip(), fields)


def _currency(node: Node) -> Record:
    fields = {"curr_id": node.text("ObjectId"), "curr_short_name": node.text("Id")}
    return Record("currency", fields)


def _number_of(value: Node) -> str:
    """Returns the number of a user-defined field, or an empty text."""
    for tag in ("IntegerValue", "DoubleValue", "CostValue"):
        if value.text(tag):
            return value.text(tag)
    return ""


def _minutes(text: str) -> int:
    """Returns a number of hours in minutes."""
    hours = decimal(text)
    if hours is None or not 0 <= hours <= _MOST_HOURS:
        raise Unreadable("this is no duration")
    return int(hours * 60)


def _shifts(node: Node) -> tuple[Shift, ...]:
    """Returns the shifts of a day; P6 names the last minute of a shift (`11:59`)."""
    found = []
    for part in node.children("WorkTime"):
        begin = p6_calendars.minute_of_day(part.text("Start"))
        end = p6_calendars.minute_of_day(part.text("Finish"))
        if begin is None or end is None:
            continue
        found.append((begin, end + 1 if end % 10 == 9 else end or 24 * 60))
    return merged_shifts(found)
