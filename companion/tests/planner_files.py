"""Writes plans in planners' formats, after the formats' schemas, for the tests that read them back.

Ids of tasks and groups are the plan's own. What a format cannot say is left out, so a test asks for
plans with just the features that the format has.
"""

from collections.abc import Iterator, Sequence
from datetime import date, datetime, timedelta
from decimal import Decimal
from itertools import chain
from xml.sax.saxutils import escape, quoteattr

from pert_companion.model.calendar import Calendar, Shift
from pert_companion.model.plan import (
    Baseline,
    ConstraintKind,
    Group,
    Lag,
    LagCalendar,
    Link,
    LinkKind,
    Plan,
    Resource,
    ResourceKind,
    Task,
)

MSPDI_LINKS = {"FF": 0, "FS": 1, "SF": 2, "SS": 3}
MSPDI_CONSTRAINTS = {
    ConstraintKind.AS_LATE_AS_POSSIBLE: 1,
    ConstraintKind.MUST_START: 2,
    ConstraintKind.MUST_FINISH: 3,
    ConstraintKind.START_NO_EARLIER: 4,
    ConstraintKind.START_NO_LATER: 5,
    ConstraintKind.FINISH_NO_EARLIER: 6,
    ConstraintKind.FINISH_NO_LATER: 7,
}
P6_CONSTRAINTS = {
    ConstraintKind.AS_LATE_AS_POSSIBLE: ("CS_ALAP", "As Late As Possible"),
    ConstraintKind.MUST_START: ("CS_MSO", "Start On"),
    ConstraintKind.MUST_FINISH: ("CS_MEO", "Finish On"),
    ConstraintKind.START_NO_EARLIER: ("CS_MSOA", "Start On or After"),
    ConstraintKind.START_NO_LATER: ("CS_MSOB", "Start On or Before"),
    ConstraintKind.FINISH_NO_EARLIER: ("CS_MEOA", "Finish On or After"),
    ConstraintKind.FINISH_NO_LATER: ("CS_MEOB", "Finish On or Before"),
}
P6_LINKS = {
    "FS": "Finish to Start",
    "SS": "Start to Start",
    "FF": "Finish to Finish",
    "SF": "Start to Finish",
}
WEEKDAYS = (
    "Monday",
    "Tuesday",
    "Wednesday",
    "Thursday",
    "Friday",
    "Saturday",
    "Sunday",
)
XER_LAGS = {
    LagCalendar.PLAN: "rcal_ProjDefault",
    LagCalendar.PREDECESSOR: "rcal_Predecessor",
    LagCalendar.SUCCESSOR: "rcal_Successor",
}
PMXML_LAGS = {
    LagCalendar.PLAN: "Project Default Calendar",
    LagCalendar.PREDECESSOR: "Predecessor Activity Calendar",
    LagCalendar.SUCCESSOR: "Successor Activity Calendar",
}
FINISH_KINDS = (
    ConstraintKind.MUST_FINISH,
    ConstraintKind.FINISH_NO_EARLIER,
    ConstraintKind.FINISH_NO_LATER,
)


def morning(day: date) -> str:
    """Returns the moment at which work begins on a day."""
    return f"{day}T08:00:00"


def evening(day: date) -> str:
    """Returns the moment at which work ends on a day."""
    return f"{day}T17:00:00"


def tag(name: str, value: object) -> str:
    """Returns an element with a text, or nothing for None."""
    return "" if value is None else f"<{name}>{escape(str(value))}</{name}>"


def clock(minute: int) -> str:
    """Returns a minute of the day as `08:00:00`."""
    return f"{minute // 60 % 24:02d}:{minute % 60:02d}:00"


def iso_duration(minutes: int) -> str:
    """Returns minutes as `PT8H30M0S`."""
    return f"PT{minutes // 60}H{minutes % 60}M0S"


def cents(amount: Decimal | None) -> str | None:
    """Returns an amount in hundredths."""
    return None if amount is None else f"{amount * 100:f}"


def levels(plan: Plan) -> dict[str, int]:
    """Returns the outline level of each entry, from 1."""
    found: dict[str, int] = {}
    for entry in plan.outline:
        found[entry.uid] = 1 if entry.parent is None else found[entry.parent] + 1
    return found


def exception_days(calendar: Calendar) -> Iterator[tuple[date, str, tuple[Shift, ...]]]:
    """Yields each day of the exceptions, the one that holds where they overlap."""
    seen = set()
    for exception in calendar.exceptions:
        day = exception.first
        while day <= exception.last:
            if day not in seen:
                seen.add(day)
                yield day, exception.name, exception.shifts
            day += timedelta(days=1)


def calendar_number(plan: Plan, task: Task, first: int) -> int:
    """Returns the number of a task's calendar: the plan's has the first one."""
    names = [plan.calendar.name, *(calendar.name for calendar in plan.calendars)]
    return first + names.index(task.calendar or plan.calendar.name)


# MS Project's XML


def _mspdi_shifts(shifts: Sequence[Shift]) -> str:
    times = "".join(
        f"<WorkingTime><FromTime>{clock(a)}</FromTime><ToTime>{clock(b)}</ToTime></WorkingTime>"
        for a, b in shifts
    )
    working = tag("DayWorking", int(bool(shifts)))
    return working + (f"<WorkingTimes>{times}</WorkingTimes>" if shifts else "")


def _mspdi_calendar(calendar: Calendar, uid: int) -> str:
    days = ""
    for number in range(1, 8):
        shifts = calendar.week[(number - 2) % 7]
        days += f"<WeekDay><DayType>{number}</DayType>{_mspdi_shifts(shifts)}</WeekDay>"
    exceptions = ""
    for each in calendar.exceptions:
        exceptions += (
            "<Exception><EnteredByOccurrences>0</EnteredByOccurrences><TimePeriod>"
            f"<FromDate>{each.first}T00:00:00</FromDate><ToDate>{each.last}T23:59:00</ToDate>"
            f"</TimePeriod>{tag('Name', each.name)}<Type>1</Type>{_mspdi_shifts(each.shifts)}"
            "</Exception>"
        )
    return (
        f"<Calendar><UID>{uid}</UID>{tag('Name', calendar.name)}<IsBaseCalendar>1"
        f"</IsBaseCalendar><BaseCalendarUID>-1</BaseCalendarUID><WeekDays>{days}</WeekDays>"
        f"<Exceptions>{exceptions}</Exceptions></Calendar>"
    )


def _mspdi_lag(lag: Lag) -> str:
    if lag.share is not None:
        return tag("LinkLag", int(lag.share * 100)) + tag("LagFormat", 19)
    return tag("LinkLag", lag.minutes * 10) + tag("LagFormat", 8 if lag.elapsed else 7)


def _mspdi_links(links: Sequence[Link]) -> str:
    return "".join(
        f"<PredecessorLink><PredecessorUID>{link.predecessor}</PredecessorUID>"
        f"<Type>{MSPDI_LINKS[link.kind.value]}</Type>{_mspdi_lag(link.lag)}</PredecessorLink>"
        for link in links
    )


def _mspdi_custom(field: str, value: str | None) -> str:
    if value is None:
        return ""
    return f"<ExtendedAttribute><FieldID>{field}</FieldID>{tag('Value', value)}</ExtendedAttribute>"


def _finish_in_day(day: date, minutes: int) -> str:
    """Returns when a task ends on its last day, if it began on that day or is a long one."""
    if minutes > 420:
        return evening(day)
    lunch = 60 if minutes > 240 else 0
    return f"{day}T{clock(480 + minutes + lunch)}"


def _reached(task: Task, day: date, start: date) -> str:
    """Returns when a task ended on a day: a milestone of the first day in its morning."""
    return morning(day) if task.is_milestone and day == start else evening(day)


def _mspdi_task(task: Task, start: date) -> str:
    progress, crash, constraint = task.progress, task.crash, task.constraint
    parts = [tag("Duration", iso_duration(task.minutes)), tag("DurationFormat", 7)]
    if task.listed_start is not None:
        parts.append(tag("Start", morning(task.listed_start)))
    if task.listed_finish is not None:
        parts.append(tag("Finish", _finish_in_day(task.listed_finish, task.minutes)))
    parts += [tag("Milestone", int(task.is_milestone)), tag("Cost", cents(task.cost))]
    parts.append(tag("PercentComplete", progress.percent))
    if progress.actual_start is not None:
        parts.append(tag("ActualStart", morning(progress.actual_start)))
    if progress.actual_finish is not None:
        parts.append(tag("ActualFinish", _reached(task, progress.actual_finish, start)))
    if progress.remaining is not None:
        parts.append(tag("RemainingDuration", iso_duration(progress.remaining)))
    parts.append(tag("ActualCost", cents(progress.actual_cost)))
    parts.append(tag("RemainingCost", cents(progress.remaining_cost)))
    if constraint is not None:
        parts.append(tag("ConstraintType", MSPDI_CONSTRAINTS[constraint.kind]))
        if constraint.day is not None:
            moment = evening if constraint.kind in FINISH_KINDS else morning
            parts.append(tag("ConstraintDate", moment(constraint.day)))
    if task.deadline is not None:
        parts.append(tag("Deadline", evening(task.deadline)))
    if crash is not None:
        parts.append(_mspdi_custom("188743783", iso_duration(crash.minutes)))
        parts.append(_mspdi_custom("188743786", cents(crash.slope)))
        parts.append(_mspdi_custom("188743787", cents(crash.cost)))
    return "".join(parts) + _mspdi_baselines(task)


def _mspdi_baselines(task: Task) -> str:
    text = ""
    for saved in task.baselines:
        assert saved.start is not None and saved.finish is not None and saved.minutes is not None
        text += (
            f"<Baseline><Number>{saved.number}</Number>{tag('Start', morning(saved.start))}"
            f"{tag('Finish', evening(saved.finish))}{tag('Duration', iso_duration(saved.minutes))}"
            f"{tag('Cost', cents(saved.cost))}</Baseline>"
        )
    return text


def _mspdi_resources(plan: Plan) -> str:
    kinds = {ResourceKind.MATERIAL: 0, ResourceKind.WORK: 1}
    resources = ""
    numbers = {}
    for number, resource in enumerate(plan.resources, 1):
        numbers[resource.uid] = number
        label = resource.unit if resource.kind is ResourceKind.MATERIAL else None
        resources += (
            f"<Resource><UID>{number}</UID>{tag('Name', resource.name)}"
            f"{tag('Type', kinds[resource.kind])}{tag('MaterialLabel', label)}"
            f"{tag('MaxUnits', resource.capacity)}{tag('StandardRate', resource.rate)}</Resource>"
        )
    by_uid = {resource.uid: resource for resource in plan.resources}
    assignments = ""
    for each in plan.assignments:
        is_work = by_uid[each.resource].kind is ResourceKind.WORK
        quantity = tag("Units", each.quantity)
        if is_work:
            quantity = tag("Work", iso_duration(int(each.quantity)))
        assignments += (
            f"<Assignment><TaskUID>{each.task}</TaskUID>"
            f"<ResourceUID>{numbers[each.resource]}</ResourceUID>{quantity}</Assignment>"
        )
    return f"<Resources>{resources}</Resources><Assignments>{assignments}</Assignments>"


def mspdi_bytes(plan: Plan) -> bytes:
    """Returns a plan as MS Project's XML."""
    level = levels(plan)
    tasks = "<Task><UID>0</UID><ID>0</ID><Name>All</Name><OutlineLevel>0</OutlineLevel></Task>"
    for entry in plan.outline:
        links = [link for link in plan.links if link.successor == entry.uid]
        body = tag("Summary", 1)
        if isinstance(entry, Task):
            number = calendar_number(plan, entry, 1) if entry.calendar else -1
            body = _mspdi_task(entry, plan.start) + tag("CalendarUID", number)
        tasks += (
            f"<Task><UID>{entry.uid}</UID><ID>{entry.uid}</ID>{tag('Name', entry.name)}"
            f"<OutlineLevel>{level[entry.uid]}</OutlineLevel>{body}{_mspdi_links(links)}</Task>"
        )
    fields = ""
    for code, name, alias in (
        ("188743783", "Duration1", "Crash"),
        ("188743786", "Cost1", "Slope"),
        ("188743787", "Cost2", "Crash cost"),
    ):
        fields += (
            f"<ExtendedAttribute><FieldID>{code}</FieldID>{tag('FieldName', name)}"
            f"{tag('Alias', alias)}</ExtendedAttribute>"
        )
    status = None if plan.data_date is None else evening(plan.data_date)
    calendar = plan.calendar
    calendars = ""
    for number, each in enumerate((calendar, *plan.calendars), 1):
        calendars += _mspdi_calendar(each, number)
    return (
        '<?xml version="1.0" encoding="UTF-8" standalone="yes"?>'
        f'<Project xmlns="http://schemas.microsoft.com/project">{tag("Title", plan.name)}'
        f"{tag('StartDate', morning(plan.start))}{tag('StatusDate', status)}"
        f"<CalendarUID>1</CalendarUID>{tag('MinutesPerDay', calendar.day_minutes)}"
        f"{tag('MinutesPerWeek', calendar.week_minutes)}{tag('DaysPerMonth', calendar.month_days)}"
        f"<ExtendedAttributes>{fields}</ExtendedAttributes><Calendars>{calendars}</Calendars>"
        f"<Tasks>{tasks}</Tasks>{_mspdi_resources(plan)}</Project>"
    ).encode()


# Primavera's XER


def _p6_moment(moment: str) -> str:
    return moment.replace("T", " ")[:16]


def _serial(day: date) -> int:
    return (day - date(1899, 12, 30)).days


def _xer_shifts(shifts: Sequence[Shift]) -> str:
    return "".join(
        f"(0||{number}(s|{clock(a)[:5]}|f|{clock(b)[:5]})())"
        for number, (a, b) in enumerate(shifts)
    )


def xer_calendar_text(calendar: Calendar) -> str:
    """Returns the nested text of a calendar."""
    days = ""
    for number in range(1, 8):
        days += f"(0||{number}()(\x7f\x7f {_xer_shifts(calendar.week[(number - 2) % 7])}))"
    exceptions = ""
    for number, (day, _, shifts) in enumerate(exception_days(calendar)):
        exceptions += f"(0||{number}(d|{_serial(day)})({_xer_shifts(shifts)}))"
    return (
        f"(0||CalendarData()(  (0||DaysOfWeek()({days}))"
        f"(0||VIEW(ShowTotal|Y)())(0||Exceptions()({exceptions}))))"
    )


def _xer_table(name: str, rows: Sequence[dict[str, object]]) -> str:
    if not rows:
        return ""
    fields = list(dict.fromkeys(chain.from_iterable(rows)))
    lines = [f"%T\t{name}", "%F\t" + "\t".join(fields)]
    for row in rows:
        cells = [row.get(field) for field in fields]
        lines.append("%R\t" + "\t".join("" if cell is None else str(cell) for cell in cells))
    return "".join(f"{line}\r\n" for line in lines)


def _hours(minutes: int) -> str:
    return f"{Decimal(minutes) / 60:f}"


def _p6_task(task: Task, codes: bool, plan: Plan) -> dict[str, object]:
    """Returns the row of an activity under XER's names."""
    progress, constraint = task.progress, task.constraint
    row: dict[str, object] = {
        "task_id": task.uid,
        "proj_id": 1,
        "wbs_id": "top" if task.parent is None else task.parent,
        "clndr_id": calendar_number(plan, task, 7),
        "task_code": f"T{task.uid}" if codes else f"A{task.uid}",
        "task_name": task.name,
        "task_type": "TT_Mile" if task.is_milestone else "TT_Task",
        "status_code": "TK_NotStart",
        "complete_pct_type": "CP_Phys",
        "target_drtn_hr_cnt": _hours(task.minutes),
        "remain_drtn_hr_cnt": _hours(task.minutes),
    }
    if task.listed_start is not None and task.listed_finish is not None:
        moment = morning if task.is_milestone else evening
        row["early_start_date"] = _p6_moment(morning(task.listed_start))
        row["early_end_date"] = _p6_moment(moment(task.listed_finish))
    if progress.percent is not None:
        row["status_code"] = "TK_Active" if progress.percent < 100 else "TK_Complete"
        row["phys_complete_pct"] = progress.percent
        row["remain_drtn_hr_cnt"] = _hours(progress.remaining or 0)
    if progress.actual_start is not None:
        row["act_start_date"] = _p6_moment(morning(progress.actual_start))
    if progress.actual_finish is not None:
        finish = _reached(task, progress.actual_finish, plan.start)
        row["act_end_date"] = _p6_moment(finish)
    if constraint is not None:
        row["cstr_type"] = P6_CONSTRAINTS[constraint.kind][0]
        if constraint.day is not None:
            moment = evening if constraint.kind in FINISH_KINDS else morning
            row["cstr_date"] = _p6_moment(moment(constraint.day))
        if task.deadline is not None:
            row["cstr_type2"] = P6_CONSTRAINTS[ConstraintKind.FINISH_NO_LATER][0]
            row["cstr_date2"] = _p6_moment(evening(task.deadline))
    return row


def _p6_resources(plan: Plan) -> list[dict[str, object]]:
    return [
        {
            "rsrc_id": number,
            "rsrc_name": resource.name,
            "rsrc_type": "RT_Mat" if resource.kind is ResourceKind.MATERIAL else "RT_Labor",
            "unit_id": resource.unit if resource.kind is ResourceKind.MATERIAL else None,
        }
        for number, resource in enumerate(plan.resources, 100)
    ]


def _p6_rates(plan: Plan) -> list[dict[str, object]]:
    """Returns what resources cost, and how much of them there is."""
    found: list[dict[str, object]] = []
    for number, resource in enumerate(plan.resources, 100):
        if resource.capacity is not None or resource.rate is not None:
            row = {"rsrc_id": number, "max_qty_per_hr": resource.capacity}
            row["cost_per_qty"] = resource.rate
            found.append({**row, "start_date": "2026-01-01 00:00"})
    return found


def _p6_assignments(plan: Plan) -> list[dict[str, object]]:
    numbers = {resource.uid: number for number, resource in enumerate(plan.resources, 100)}
    kinds = {resource.uid: resource.kind for resource in plan.resources}
    found: list[dict[str, object]] = []
    for each in plan.assignments:
        quantity = each.quantity
        if kinds[each.resource] is ResourceKind.WORK:
            quantity = each.quantity / 60
        row = {
            "task_id": each.task,
            "rsrc_id": numbers[each.resource],
            "target_qty": quantity,
        }
        found.append({"taskrsrc_id": len(found), **row})
    return found


def _p6_user_values(task: Task) -> Iterator[tuple[int, object]]:
    """Yields the type and value of each user-defined field of a task."""
    crash = task.crash
    if crash is None:
        return
    yield 1, f"{crash.minutes} min"
    if crash.slope is not None:
        yield 2, f"{crash.slope:f}"
    if crash.cost is not None:
        yield 3, f"{crash.cost:f}"


USER_FIELDS = (
    (1, "Crash", "FT_TEXT"),
    (2, "Slope", "FT_MONEY"),
    (3, "Crash cost", "FT_MONEY"),
)


def xer_bytes(plan: Plan, codes: bool = False, encoding: str = "utf-8") -> bytes:
    """Returns a plan as XER. With `codes` an activity has the code `T` and its uid."""
    status = plan.data_date or plan.start
    moment = evening(status) if plan.data_date else morning(status)
    groups: list[dict[str, object]] = [
        {
            "wbs_id": "top",
            "proj_id": 1,
            "parent_wbs_id": "eps",
            "wbs_name": plan.name,
            "seq_num": 1,
        }
    ]
    for number, group in enumerate(plan.groups()):
        above = group.parent or "top"
        groups.append(
            {
                "wbs_id": group.uid,
                "proj_id": 1,
                "parent_wbs_id": above,
                "wbs_name": group.name,
                "seq_num": number,
            }
        )
    tasks = list(plan.tasks())
    values: list[dict[str, object]] = []
    for task in tasks:
        for kind, value in _p6_user_values(task):
            name = "udf_text" if kind == 1 else "udf_number"
            values.append({"udf_type_id": kind, "fk_id": task.uid, name: value})
    costs: list[dict[str, object]] = [
        {
            "task_id": task.uid,
            "target_cost": task.cost,
            "act_cost": task.progress.actual_cost,
            "remain_cost": task.progress.remaining_cost,
        }
        for task in tasks
        if task.cost is not None
    ]
    options = {"proj_id": 1, "sched_calendar_on_relationship_lag": XER_LAGS[plan.lag_calendar]}
    units = {resource.unit for resource in plan.resources if resource.unit != "h"}
    tables = [
        _xer_table("UMEASURE", [{"unit_id": u, "unit_abbrev": u} for u in sorted(units)]),
        _xer_table(
            "PROJECT",
            [
                {
                    "proj_id": 1,
                    "proj_short_name": "P1",
                    "plan_start_date": _p6_moment(morning(plan.start)),
                    "plan_end_date": (
                        _p6_moment(evening(plan.must_finish)) if plan.must_finish else ""
                    ),
                    "last_recalc_date": _p6_moment(moment),
                }
            ],
        ),
        _xer_table("CALENDAR", _xer_calendars(plan)),
        _xer_table("SCHEDOPTIONS", [options] if plan.calendars else []),
        _xer_table("PROJWBS", groups),
        _xer_table("RSRC", _p6_resources(plan)),
        _xer_table("RSRCRATE", _p6_rates(plan)),
        _xer_table("TASK", [_p6_task(task, codes, plan) for task in tasks]),
        _xer_table("TASKPRED", _xer_links(plan)),
        _xer_table("TASKRSRC", _p6_assignments(plan)),
        _xer_table("PROJCOST", costs),
        _xer_table(
            "UDFTYPE",
            [
                {"udf_type_id": n, "table_name": "TASK", "udf_type_label": name}
                for n, name, _ in USER_FIELDS
            ],
        ),
        _xer_table("UDFVALUE", values),
    ]
    return f"ERMHDR\t19.12\t2026-03-02\r\n{''.join(tables)}%E\r\n".encode(encoding)


def _xer_calendars(plan: Plan) -> list[dict[str, object]]:
    rows: list[dict[str, object]] = []
    for number, calendar in enumerate((plan.calendar, *plan.calendars), 7):
        row = {
            "clndr_id": number,
            "clndr_name": calendar.name,
            "day_hr_cnt": _hours(calendar.day_minutes),
            "week_hr_cnt": _hours(calendar.week_minutes),
            "month_hr_cnt": _hours(calendar.month_days * calendar.day_minutes),
            "clndr_data": xer_calendar_text(calendar),
        }
        rows.append(row)
    return rows


def _xer_links(plan: Plan) -> list[dict[str, object]]:
    return [
        {
            "task_pred_id": number,
            "task_id": link.successor,
            "pred_task_id": link.predecessor,
            "proj_id": 1,
            "pred_type": f"PR_{link.kind.value}",
            "lag_hr_cnt": _hours(link.lag.minutes),
        }
        for number, link in enumerate(plan.links)
    ]


# Primavera's XML


def _pmxml_times(shifts: Sequence[Shift]) -> str:
    return "".join(
        f"<WorkTime><Start>{clock(a)}</Start><Finish>{clock(b - 1)}</Finish></WorkTime>"
        for a, b in shifts
    )


def _pmxml_calendar(calendar: Calendar, number: int) -> str:
    week = "".join(
        f"<StandardWorkHours><DayOfWeek>{name}</DayOfWeek>{_pmxml_times(shifts)}"
        "</StandardWorkHours>"
        for name, shifts in zip(WEEKDAYS, calendar.week)
    )
    days = "".join(
        f"<HolidayOrException><Date>{day}T00:00:00</Date>{_pmxml_times(shifts)}"
        "</HolidayOrException>"
        for day, _, shifts in exception_days(calendar)
    )
    return (
        f"<Calendar><ObjectId>{number}</ObjectId>{tag('Name', calendar.name)}"
        f"{tag('HoursPerDay', _hours(calendar.day_minutes))}"
        f"{tag('HoursPerWeek', _hours(calendar.week_minutes))}"
        f"{tag('HoursPerMonth', _hours(calendar.month_days * calendar.day_minutes))}"
        f"<StandardWorkWeek>{week}</StandardWorkWeek>"
        f"<HolidayOrExceptions>{days}</HolidayOrExceptions></Calendar>"
    )


_PMXML_STATUS = {
    "TK_NotStart": "Not Started",
    "TK_Active": "In Progress",
    "TK_Complete": "Completed",
}


def _pmxml_task(task: Task, codes: bool, plan: Plan) -> str:
    row = _p6_task(task, codes, plan)
    constraint = task.constraint
    percent = task.progress.percent
    user = ""
    for kind, value in _p6_user_values(task):
        name = "TextValue" if kind == 1 else "CostValue"
        user += f"<UDF><TypeObjectId>{kind}</TypeObjectId>{tag(name, value)}</UDF>"
    parts = [
        tag("ObjectId", task.uid),
        tag("Id", row["task_code"]),
        tag("Name", task.name),
        tag("Type", "Start Milestone" if task.is_milestone else "Task Dependent"),
        tag("Status", _PMXML_STATUS[str(row["status_code"])]),
        tag("PercentCompleteType", "Physical"),
        tag("PhysicalPercentComplete", None if percent is None else percent / 100),
        tag("PlannedDuration", row["target_drtn_hr_cnt"]),
        tag("RemainingDuration", row["remain_drtn_hr_cnt"]),
        tag("ActualStartDate", row.get("act_start_date")),
        tag("ActualFinishDate", row.get("act_end_date")),
        tag("StartDate", row.get("early_start_date")),
        tag("FinishDate", row.get("early_end_date")),
        tag("CalendarObjectId", row["clndr_id"]),
        tag("WBSObjectId", row["wbs_id"]),
        user,
    ]
    if constraint is not None:
        parts.append(tag("PrimaryConstraintType", P6_CONSTRAINTS[constraint.kind][1]))
        parts.append(tag("PrimaryConstraintDate", row.get("cstr_date")))
    if "cstr_date2" in row:
        latest = P6_CONSTRAINTS[ConstraintKind.FINISH_NO_LATER][1]
        parts.append(tag("SecondaryConstraintType", latest))
        parts.append(tag("SecondaryConstraintDate", row["cstr_date2"]))
    return f"<Activity>{''.join(parts)}</Activity>"


def _pmxml_resources(plan: Plan) -> str:
    found = ""
    for row in _p6_resources(plan):
        kind = "Material" if row["rsrc_type"] == "RT_Mat" else "Labor"
        found += (
            f"<Resource>{tag('ObjectId', row['rsrc_id'])}{tag('Name', row['rsrc_name'])}"
            f"{tag('ResourceType', kind)}{tag('UnitOfMeasureObjectId', row['unit_id'])}</Resource>"
        )
    for rate in _p6_rates(plan):
        found += (
            f"<ResourceRate>{tag('ResourceObjectId', rate['rsrc_id'])}"
            f"{tag('MaxUnitsPerTime', rate['max_qty_per_hr'])}"
            f"{tag('PricePerUnit', rate['cost_per_qty'])}"
            f"{tag('EffectiveDate', '2026-01-01T00:00:00')}</ResourceRate>"
        )
    units = {resource.unit for resource in plan.resources if resource.unit != "h"}
    for unit in sorted(units):
        found += (
            f"<UnitOfMeasure>{tag('ObjectId', unit)}{tag('Abbreviation', unit)}</UnitOfMeasure>"
        )
    return found


def pmxml_bytes(plan: Plan, codes: bool = False) -> bytes:
    """Returns a plan as P6's XML."""
    status = None if plan.data_date is None else evening(plan.data_date)
    groups = f"<WBS><ObjectId>top</ObjectId>{tag('Name', plan.name)}</WBS>"
    for number, group in enumerate(plan.groups()):
        groups += (
            f"<WBS>{tag('ObjectId', group.uid)}{tag('Name', group.name)}"
            f"{tag('ParentObjectId', group.parent or 'top')}{tag('SequenceNumber', number)}</WBS>"
        )
    tasks = "".join(_pmxml_task(task, codes, plan) for task in plan.tasks())
    links = "".join(
        f"<Relationship>{tag('PredecessorActivityObjectId', link.predecessor)}"
        f"{tag('SuccessorActivityObjectId', link.successor)}"
        f"{tag('Type', P6_LINKS[link.kind.value])}{tag('Lag', _hours(link.lag.minutes))}"
        "</Relationship>"
        for link in plan.links
    )
    parts = "".join(
        f"<ResourceAssignment>{tag('ActivityObjectId', row['task_id'])}"
        f"{tag('ResourceObjectId', row['rsrc_id'])}{tag('PlannedUnits', row['target_qty'])}"
        "</ResourceAssignment>"
        for row in _p6_assignments(plan)
    )
    for task in plan.tasks():
        if task.cost is not None:
            parts += (
                f"<ActivityExpense>{tag('ActivityObjectId', task.uid)}"
                f"{tag('PlannedCost', task.cost)}{tag('ActualCost', task.progress.actual_cost)}"
                f"{tag('RemainingCost', task.progress.remaining_cost)}</ActivityExpense>"
            )
    types = "".join(
        f"<UDFType>{tag('ObjectId', n)}{tag('Title', name)}<SubjectArea>Activity</SubjectArea>"
        "</UDFType>"
        for n, name, _ in USER_FIELDS
    )
    calendars = options = ""
    for number, each in enumerate((plan.calendar, *plan.calendars), 7):
        calendars += _pmxml_calendar(each, number)
    if plan.calendars:
        lags = tag("RelationshipLagCalendar", PMXML_LAGS[plan.lag_calendar])
        options = f"<ScheduleOptions>{lags}</ScheduleOptions>"
    return (
        '<?xml version="1.0" encoding="utf-8"?><APIBusinessObjects'
        ' xmlns="http://xmlns.oracle.com/Primavera/P6/V22.12/API/BusinessObjects">'
        f"{types}{calendars}{_pmxml_resources(plan)}"
        f"<Project><ObjectId>1</ObjectId><Id>P1</Id>{tag('Name', plan.name)}"
        f"{tag('PlannedStartDate', morning(plan.start))}{tag('DataDate', status)}"
        f"{tag('MustFinishByDate', evening(plan.must_finish)) if plan.must_finish else ''}"
        f"{options}{groups}{tasks}{links}{parts}</Project>{_pmxml_baselines(plan, codes)}"
        "</APIBusinessObjects>"
    ).encode()


def _pmxml_baselines(plan: Plan, codes: bool) -> str:
    """Returns a project for each baseline, with the activities that it has, by their codes."""
    text = ""
    numbers = {saved.number for task in plan.tasks() for saved in task.baselines}
    for number in sorted(numbers):
        text += f"<BaselineProject>{tag('OriginalProjectObjectId', 1)}"
        for task in plan.tasks():
            for saved in task.baselines:
                if saved.number == number:
                    code = _p6_task(task, codes, plan)["task_code"]
                    text += f"<Activity>{tag('Id', code)}{_pmxml_baseline(saved)}</Activity>"
        text += "</BaselineProject>"
    return text


def _pmxml_baseline(saved: Baseline) -> str:
    assert saved.start is not None and saved.finish is not None and saved.minutes is not None
    return (
        f"{tag('PlannedStartDate', morning(saved.start))}"
        f"{tag('PlannedFinishDate', evening(saved.finish))}"
        f"{tag('PlannedDuration', _hours(saved.minutes))}{tag('PlannedExpenseCost', saved.cost)}"
    )


# GanttProject and GNOME Planner


def _attributes(**values: object) -> str:
    pairs = ((name.replace("_", "-"), value) for name, value in values.items())
    return "".join(f" {name}={quoteattr(str(value))}" for name, value in pairs if value is not None)


GAN_LINKS = {LinkKind.START_START: 1, LinkKind.FINISH_START: 2}
GAN_LINKS |= {LinkKind.FINISH_FINISH: 3, LinkKind.START_FINISH: 4}


def _nested(plan: Plan, opening: dict[str, str], inside: dict[str, str]) -> str:
    """Returns the elements of all entries, each inside its group."""
    text = ""
    waiting: list[tuple[str, str | None]] = []
    for entry in plan.outline:
        while waiting and waiting[-1][0] != entry.parent:
            waiting.pop()
            text += "</task>"
        text += f"<task{opening[entry.uid]}>{inside[entry.uid]}"
        waiting.append((entry.uid, entry.parent))
    return text + "</task>" * len(waiting)


GAN_COLUMNS = (*((number, name) for number, name, _ in USER_FIELDS), (4, "Calendar"))
"""The custom columns."""


def _gan_task(task: Task, plan: Plan) -> str:
    """Returns the attributes of a task: GanttProject has its start, and how much of it is done."""
    start = task.progress.actual_start or task.listed_start or plan.start
    values = _attributes(id=task.uid, name=task.name)
    values += _attributes(meeting="true" if task.is_milestone else "false", start=start)
    values += _attributes(duration=task.minutes // 480, complete=task.progress.percent or 0)
    constraint = task.constraint
    if constraint is not None and constraint.kind is ConstraintKind.START_NO_EARLIER:
        values += f' thirdDate="{constraint.day}" thirdDate-constraint="1"'
    values += _attributes(cost_manual_value=task.cost)
    return values + _attributes(cost_calculated=None if task.cost is None else "false")


def _gan_columns(task: Task) -> str:
    """Returns the custom columns of a task; its shortest duration is in days."""
    values: dict[int, object] = dict(_p6_user_values(task))
    if task.crash is not None:
        values[1] = task.crash.minutes // 480
    if task.calendar is not None:
        values[4] = task.calendar
    return "".join(
        f'<customproperty taskproperty-id="tpc{number}" value={quoteattr(str(value))}/>'
        for number, value in values.items()
    )


def _gan_baselines(plan: Plan) -> str:
    """Returns the saved baselines, with the start and the duration of each task that they have."""
    text = ""
    numbers = {saved.number for task in plan.tasks() for saved in task.baselines}
    for number in sorted(numbers):
        tasks = ""
        for task in plan.tasks():
            for saved in task.baselines:
                if saved.number == number and saved.minutes is not None:
                    values = _attributes(id=task.uid, start=saved.start)
                    values += _attributes(duration=saved.minutes // 480, meeting="false")
                    tasks += f'<previous-task{values} super="false"/>'
        text += f'<previous-tasks name="Baseline {number}">{tasks}</previous-tasks>'
    return f"<previous>{text}</previous>" if text else ""


def _gan_resource(resource: Resource, number: int) -> str:
    """Returns a resource, whose rate is that of a day."""
    rate = ""
    if resource.rate is not None:
        rate = f'<rate name="standard" value="{resource.rate * 8:f}"/>'
    return f"<resource{_attributes(id=number, name=resource.name)}>{rate}</resource>"


def gan_bytes(plan: Plan) -> bytes:
    """Returns a plan of whole days as a file of GanttProject."""
    opening, inside = {}, {}
    for entry in plan.outline:
        links = "".join(
            f'<depend id="{link.successor}" type="{GAN_LINKS[link.kind]}"'
            f' difference="{link.lag.minutes // 480}" hardness="Strong"/>'
            for link in plan.links
            if link.predecessor == entry.uid
        )
        values = _attributes(id=entry.uid, name=entry.name, start=plan.start)
        if isinstance(entry, Task):
            values = _gan_task(entry, plan)
            links += _gan_columns(entry)
        opening[entry.uid], inside[entry.uid] = values, links
    week = {name[:3].lower(): int(not s) for name, s in zip(WEEKDAYS, plan.calendar.week)}
    dates = "".join(
        f'<date year="{day.year}" month="{day.month}" date="{day.day}"'
        f' type="{"WORKING_DAY" if shifts else "HOLIDAY"}">{escape(name)}</date>'
        for day, name, shifts in exception_days(plan.calendar)
    )
    columns = "".join(
        f'<taskproperty id="tpc{n}" name="{name}" type="custom" valuetype="text"/>'
        for n, name in GAN_COLUMNS
    )
    resources = "".join(_gan_resource(each, number) for number, each in enumerate(crews(plan)))
    return (
        f'<?xml version="1.0" encoding="UTF-8"?><project{_attributes(name=plan.name)}'
        f' view-date="{plan.start}" view-index="0" version="3.2.3247"><calendars>'
        f'<day-types><day-type id="0"/><day-type id="1"/><default-week id="1"{_attributes(**week)}'
        f'/></day-types>{dates}</calendars><tasks empty-milestones="true">'
        f"<taskproperties>{columns}</taskproperties>{_nested(plan, opening, inside)}</tasks>"
        f"<resources>{resources}</resources><allocations>{_loads(plan, 'load')}</allocations>"
        f"{_gan_baselines(plan)}</project>"
    ).encode()


def crews(plan: Plan) -> list[Resource]:
    """Returns the resources that work."""
    return [resource for resource in plan.resources if resource.kind is ResourceKind.WORK]


def _loads(plan: Plan, name: str) -> str:
    numbers = {resource.uid: number for number, resource in enumerate(crews(plan))}
    minutes = {task.uid: task.minutes for task in plan.tasks()}
    return "".join(
        f'<allocation task-id="{each.task}" resource-id="{numbers[each.resource]}"'
        f' {name}="{each.quantity * 100 / minutes[each.task]:f}"/>'
        for each in plan.assignments
        if each.resource in numbers
    )


PLANNER_CONSTRAINTS = {
    ConstraintKind.START_NO_EARLIER: "start-no-earlier-than",
    ConstraintKind.FINISH_NO_LATER: "finish-no-later-than",
    ConstraintKind.MUST_START: "must-start-on",
    ConstraintKind.AS_LATE_AS_POSSIBLE: "as-late-as-possible",
}


def _compact(moment: str) -> str:
    return datetime.fromisoformat(moment).strftime("%Y%m%dT%H%M%SZ")


def planner_bytes(plan: Plan) -> bytes:
    """Returns a plan as a file of GNOME Planner; lags are by the clock."""
    opening, inside = {}, {}
    for entry in plan.outline:
        links = "".join(
            f'<predecessor id="{number}" predecessor-id="{link.predecessor}"'
            f' type="{link.kind.value}" lag="{link.lag.minutes * 60}"/>'
            for number, link in enumerate(plan.links)
            if link.successor == entry.uid
        )
        text = f"<predecessors>{links}</predecessors>" if links else ""
        values = _attributes(id=entry.uid, name=entry.name)
        if isinstance(entry, Task):
            values += _attributes(type="milestone" if entry.is_milestone else "normal")
            values += _attributes(work=0, duration=entry.minutes * 60, percent_complete=0)
            values += _attributes(scheduling="fixed-duration")
            if entry.listed_start is not None and entry.listed_finish is not None:
                finish = morning if entry.is_milestone else evening
                values += _attributes(start=_compact(morning(entry.listed_start)))
                values += _attributes(end=_compact(finish(entry.listed_finish)))
            constraint = entry.constraint
            if constraint is not None and constraint.kind in PLANNER_CONSTRAINTS:
                moment = evening if constraint.kind in FINISH_KINDS else morning
                time = "" if constraint.day is None else _compact(moment(constraint.day))
                kind = PLANNER_CONSTRAINTS[constraint.kind]
                text = f'<constraint type="{kind}" time="{time}"/>{text}'
        opening[entry.uid], inside[entry.uid] = values, text
    week = {name[:3].lower(): int(not s) for name, s in zip(WEEKDAYS, plan.calendar.week)}
    worked = next(shifts for shifts in plan.calendar.week if shifts)
    intervals = "".join(
        f'<interval start="{clock(a)[:5].replace(":", "")}" end="{clock(b)[:5].replace(":", "")}"/>'
        for a, b in worked
    )
    days = "".join(
        f'<day date="{day:%Y%m%d}" type="day-type" id="{0 if shifts else 1}"/>'
        for day, _, shifts in exception_days(plan.calendar)
    )
    resources = "".join(
        f'<resource{_attributes(id=n, name=r.name)} type="1" std-rate="0"/>'
        for n, r in enumerate(crews(plan))
    )
    start = _compact(f"{plan.start}T00:00:00")
    return (
        f'<?xml version="1.0"?><project{_attributes(name=plan.name)} project-start="{start}"'
        ' mrproject-version="2" calendar="1"><calendars><day-types/>'
        f"<calendar{_attributes(id=1, name=plan.calendar.name)}>"
        f"<default-week{_attributes(**week)}/>"
        f'<overridden-day-types><overridden-day-type id="0">{intervals}</overridden-day-type>'
        f"</overridden-day-types><days>{days}</days></calendar></calendars>"
        f"<tasks>{_nested(plan, opening, inside)}</tasks><resources>{resources}</resources>"
        f"<allocations>{_loads(plan, 'units')}</allocations></project>"
    ).encode()


def without_materials(plan: Plan) -> set[str]:
    """Returns the uids of the resources that work."""
    return {resource.uid for resource in crews(plan)}


def group_uids(plan: Plan) -> set[str]:
    """Returns the uids of the groups."""
    return {entry.uid for entry in plan.outline if isinstance(entry, Group)}
