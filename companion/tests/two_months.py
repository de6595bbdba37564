"""A plan of 87 rows with everything that planners' files say, as planned and in its second month.

It has three calendars, links of all kinds with lags and leads, milestones, constraints, deadlines,
resources, costs, shortest durations and a baseline. Its dates are computed hour by hour (`hourly`),
with nothing of the package's calendars or passes.
"""

from collections.abc import Callable, Mapping, Sequence
from dataclasses import dataclass, field, replace
from datetime import date, datetime, timedelta
from decimal import Decimal

from hourly import FIRST, Actual, Found, HourLink, Hours, HourTask, dates_by_hours, moment_of

from pert_companion.model.calendar import STANDARD_DAY, Calendar, free_days
from pert_companion.model.plan import (
    Assignment,
    Baseline,
    Constraint,
    ConstraintKind,
    Crash,
    Group,
    Lag,
    LagCalendar,
    Link,
    LinkKind,
    Plan,
    Progress,
    Resource,
    ResourceKind,
    Task,
)

START = date(2026, 3, 2)
NOW = date(2026, 4, 24)
"""The evening that progress is about: in the second month."""
FREE = frozenset(date(2026, *day) for day in ((4, 3), (4, 6), (5, 1), (5, 14), (5, 25)))
WORKED = frozenset((8, 9, 10, 11, 13, 14, 15, 16))
HOURS = {
    "": Hours(frozenset(range(5)), WORKED, FREE),
    "Site": Hours(frozenset(range(6)), WORKED, FREE),
    "Yard": Hours(frozenset(range(1, 6)), WORKED, FREE),
}
OFFICE = Calendar(exceptions=free_days(FREE))
SITE = replace(OFFICE, name="Site", week=(STANDARD_DAY,) * 6 + ((),))
YARD = replace(OFFICE, name="Yard", week=((),) + (STANDARD_DAY,) * 5 + ((),))
WORDS = {"Site": "mon-sat", "Yard": "tue-sat"}
"""The weekdays of the calendars of tasks, as a list says them."""
BLOCKS = 6
DAY = 480
STARTS = (ConstraintKind.START_NO_EARLIER, ConstraintKind.MUST_START)
FINISHES = (ConstraintKind.FINISH_NO_EARLIER, ConstraintKind.MUST_FINISH)


@dataclass
class Builder:
    """Collects the rows and links of the plan; ids count the rows."""

    outline: list[Task | Group] = field(default_factory=list)
    links: list[Link] = field(default_factory=list)
    assignments: list[Assignment] = field(default_factory=list)

    def group(self, name: str, parent: str | None = None) -> str:
        """Adds a group and returns its id."""
        uid = str(len(self.outline) + 1)
        self.outline.append(Group(uid, f"row {uid}", name, parent, row=int(uid)))
        return uid

    def task(self, parent: str, name: str, days: int, shorter: int = 0, slope: int = 0) -> str:
        """Adds a task that can be so many days shorter, and returns its id."""
        uid = str(len(self.outline) + 1)
        crash = Crash((days - shorter) * DAY, slope=Decimal(slope)) if shorter else None
        cost = Decimal(500 * days + 7 * int(uid))
        task = Task(
            uid, f"row {uid}", name, days * DAY, parent, row=int(uid), crash=crash, cost=cost
        )
        self.outline.append(task)
        return uid

    def change(self, uid: str, **parts: object) -> None:
        """Changes a task."""
        at = int(uid) - 1
        self.outline[at] = replace(self.outline[at], **parts)

    def link(self, before: str, after: str, kind: str = "FS", days: int = 0) -> None:
        """Adds a link."""
        self.links.append(Link(before, after, LinkKind(kind), Lag(days * DAY)))

    def held(self, uid: str, kind: ConstraintKind, day: date | None = None) -> None:
        """Gives a task a constraint."""
        self.change(uid, constraint=Constraint(kind, day))

    def crew(self, uid: str, name: str, each: int = 1) -> None:
        """Has so many of a resource work on a task as long as it takes."""
        task = self.outline[int(uid) - 1]
        assert isinstance(task, Task)
        self.assignments.append(Assignment(uid, name, Decimal(each * task.minutes)))


RESOURCES = (
    Resource("Planner", "Planner"),
    Resource("Crew", "Crew", rate=Decimal(62), capacity=Decimal(4)),
    Resource("Digger", "Digger", rate=Decimal("87.5"), capacity=Decimal(2)),
    Resource("Concrete", "Concrete", ResourceKind.MATERIAL, "m3", rate=Decimal(140)),
)
"""In the order in which tasks need them."""


def station() -> Plan:
    """Returns the plan."""
    made = Builder()
    top = made.group("Pump station")
    ready = [_first_works(made, top)]
    for number in range(1, BLOCKS + 1):
        ready.append(_block(made, top, number, ready[-1]))
    _last_works(made, top, ready[1:])
    order = {resource.uid: place for place, resource in enumerate(RESOURCES)}
    made.assignments.sort(key=lambda each: order[each.resource])
    return Plan(
        "Pump station",
        START,
        OFFICE,
        tuple(made.outline),
        tuple(made.links),
        RESOURCES,
        tuple(made.assignments),
        calendars=(SITE, YARD),
        lag_calendar=LagCalendar.SUCCESSOR,
    )


def _first_works(made: Builder, top: str) -> str:
    group = made.group("Preparation", top)
    begin = made.task(group, "Notice to proceed", 0)
    permit = made.task(group, "Permit", 12, 2, 900)
    survey = made.task(group, "Survey", 4, 1, 300)
    mobilise = made.task(group, "Mobilise", 5, 1, 500)
    made.link(begin, permit)
    made.link(begin, survey)
    made.link(survey, mobilise)
    made.link(permit, mobilise, "FF", 2)
    made.held(permit, ConstraintKind.START_NO_LATER, date(2026, 3, 9))
    made.crew(survey, "Planner")
    _tenders(made, top, begin, mobilise)
    return mobilise


def _tenders(made: Builder, top: str, begin: str, mobilise: str) -> None:
    """Adds a group with leads, and with dates that tasks must keep."""
    group = made.group("Tenders", top)
    drawings = made.task(group, "Drawings", 7, 2, 350)
    tender = made.task(group, "Tender", 9)
    award = made.task(group, "Award", 1)
    kickoff = made.task(group, "Kick-off", 1)
    insurance = made.task(group, "Insurance", 4)
    signs = made.task(group, "Signs", 3)
    approval = made.task(group, "Approval", 2)
    made.change(drawings, crash=Crash(5 * DAY, cost=Decimal(4320)))
    made.link(begin, drawings)
    made.link(drawings, tender, "FS", -2)
    made.link(tender, award)
    made.link(drawings, insurance, "SS", 1)
    made.link(insurance, approval, "FF", -1)
    made.link(award, kickoff)
    made.link(begin, signs)
    made.link(signs, mobilise, "FF")
    made.held(kickoff, ConstraintKind.MUST_START, date(2026, 3, 24))
    made.held(insurance, ConstraintKind.FINISH_NO_EARLIER, date(2026, 3, 20))
    made.held(approval, ConstraintKind.MUST_FINISH, date(2026, 3, 27))
    made.held(signs, ConstraintKind.AS_LATE_AS_POSSIBLE)
    made.change(kickoff, deadline=date(2026, 3, 25))
    made.crew(drawings, "Planner", 2)


def _block(made: Builder, top: str, number: int, before: str) -> str:
    """Adds the works of a block, and returns what the next one waits for."""
    group = made.group(f"Block {number}", top)
    dig = made.task(group, f"Dig {number}", 8, 2, 400 + 10 * number)
    form = made.task(group, f"Formwork {number}", 6, 1, 250 + 7 * number)
    steel = made.task(group, f"Reinforcement {number}", 5)
    pour = made.task(group, f"Pour {number}", 3, 1, 650)
    cure = made.task(group, f"Cure {number}", 7)
    strip = made.task(group, f"Strip {number}", 2)
    walls = made.task(group, f"Walls {number}", 9, 3, 380 + 5 * number)
    roof = made.task(group, f"Roof {number}", 6, 2, 420 + 11 * number)
    pipes = made.task(group, f"Pipes {number}", 10, 3, 510 + 9 * number)
    done = made.task(group, f"Block {number} ready", 0)
    made.change(done, deadline=date(2026, 5, 22) + timedelta(days=21 * number))
    for uid in (dig, pour):
        made.change(uid, calendar="Site")
    made.crew(dig, "Digger")
    made.crew(dig, "Crew")
    made.crew(form, "Crew", 2)
    made.crew(steel, "Crew", 2)
    made.assignments.append(Assignment(pour, "Concrete", Decimal(40 + number)))
    made.link(before, dig)
    made.link(dig, form, "SS", 3)
    made.link(form, steel, "SS", 2)
    for first, then in ((form, pour), (steel, pour), (pour, cure), (cure, strip), (strip, walls)):
        made.link(first, then)
    made.link(walls, roof)
    made.link(walls, pipes, "SS", 4)
    made.link(pipes, done)
    made.link(roof, done)
    return pour if number % 2 else strip


def _last_works(made: Builder, top: str, ready: list[str]) -> None:
    group = made.group("Commissioning", top)
    electrics = made.task(group, "Electrics", 15, 4, 820)
    tests = made.task(group, "Tests", 6, 1, 700)
    training = made.task(group, "Training", 3)
    garden = made.task(group, "Landscaping", 8, 2, 300)
    old = made.task(group, "Old pumps run", 10)
    handover = made.task(group, "Handover", 0)
    made.held(training, ConstraintKind.FINISH_NO_LATER, date(2026, 9, 18))
    made.change(training, deadline=date(2026, 9, 11))
    made.held(garden, ConstraintKind.START_NO_EARLIER, date(2026, 6, 1))
    made.change(garden, calendar="Yard")
    made.link(ready[5], old)
    made.link(tests, old, "SF", 1)
    for uid in (entry.uid for entry in made.outline if entry.name.endswith(" ready")):
        made.link(uid, tests)
    made.link(ready[3], electrics)
    made.link(electrics, tests)
    made.link(ready[2], garden, "FS", 5)
    for first in (training, garden, old):
        made.link(first, handover)
    made.link(tests, training)


def hour_tasks(plan: Plan, minutes: Mapping[str, int]) -> dict[str, HourTask]:
    """Returns the tasks for the walk hour by hour, with these durations, each after its links."""
    made = {}
    for task in plan.tasks():
        known, calendar = task.constraint, HOURS[task.calendar or ""]
        kind = None if known is None else known.kind
        day = None if known is None else known.day
        made[task.uid] = HourTask(
            task.uid,
            -(-minutes[task.uid] // 60),
            calendar,
            day if kind in STARTS else None,
            day if kind in FINISHES else None,
        )
    order: dict[str, HourTask] = {}
    while len(order) < len(made):
        for uid, each in made.items():
            before = [link.predecessor for link in plan.links if link.successor == uid]
            if all(name in order for name in before):
                order.setdefault(uid, each)
    return order


def walked(plan: Plan, minutes: Mapping[str, int]) -> dict[str, tuple[datetime, datetime]]:
    """Returns when tasks begin and end that last so many minutes, by id.

    Tasks that have ended have their actual dates; what is left of others comes after `NOW` if the
    plan has a data date.
    """
    tasks = hour_tasks(plan, minutes)
    links = tuple(
        HourLink(
            link.predecessor,
            link.successor,
            link.kind.value,
            link.lag.minutes // 60,
            tasks[link.successor].calendar,
        )
        for link in plan.links
    )
    begin = hour_of(START, 8) if plan.data_date is None else hour_of(NOW, 24)
    work = tuple(tasks.values())

    def walk(held: Mapping[str, int]) -> Found:
        return dates_by_hours(work, links, begin, held, actual_of(plan))

    found = as_late(walk, late_tasks(plan))
    return {uid: (moment_of(start), moment_of(finish)) for uid, (start, finish) in found.items()}


def late_tasks(plan: Plan) -> list[str]:
    """Returns the tasks that are to be done as late as possible and have not begun."""
    return [
        task.uid
        for task in plan.tasks()
        if task.constraint is not None
        and task.constraint.kind is ConstraintKind.AS_LATE_AS_POSSIBLE
        and task.progress.actual_start is None
    ]


def as_late(walk: Callable[[Mapping[str, int]], Found], late: Sequence[str]) -> Found:
    """Returns the dates in which a late task waits for as long as no other one has to.

    The hours from which on it may begin are halved until the last of them is found.
    """
    found = walk({})
    for uid in late:
        least = found[uid][0]
        most = max(finish for _, finish in found.values()) + 1
        while most - least > 1:
            hour = (least + most) // 2
            later = walk({uid: hour})
            if all(later[other] == dates for other, dates in found.items() if other != uid):
                least = hour
            else:
                most = hour
        found = walk({uid: least})
    return found


def actual_of(plan: Plan) -> Actual:
    """Returns what has happened: days of work are from 8:00 to 17:00."""
    finished, begun = {}, {}
    for task in plan.tasks():
        done = task.progress
        if done.actual_start is None:
            continue
        begun[task.uid] = hour_of(done.actual_start, 8)
        if done.actual_finish is not None:
            ended = hour_of(done.actual_finish, 17)
            finished[task.uid] = (begun[task.uid] if task.minutes else ended, ended)
    return Actual(finished, begun)


def hour_of(day: date, hour: int) -> int:
    """Returns the number of an hour of a day."""
    return (day - FIRST.date()).days * 24 + hour


def changed(plan: Plan, change: Callable[[Task], Task]) -> Plan:
    """Returns the plan with its tasks changed."""
    outline = tuple(change(entry) if isinstance(entry, Task) else entry for entry in plan.outline)
    return replace(plan, outline=outline)


def dated(plan: Plan) -> Plan:
    """Returns the plan with the dates that its planner would show, which are its baseline."""
    dates = walked(plan, {task.uid: task.minutes for task in plan.tasks()})

    def with_dates(task: Task) -> Task:
        start, finish = (moment.date() for moment in dates[task.uid])
        saved = Baseline(0, start, finish, task.minutes, task.cost)
        return replace(task, listed_start=start, listed_finish=finish, baselines=(saved,))

    return changed(plan, with_dates)


def running(plan: Plan) -> Plan:
    """Returns the plan at `NOW`, as it went until then; what is under way needs a day more."""
    dates = walked(plan, {task.uid: task.minutes for task in plan.tasks()})
    now = datetime(NOW.year, NOW.month, NOW.day, 17)

    def with_progress(task: Task) -> Task:
        start, finish = dates[task.uid]
        if finish <= now:
            progress = Progress(Decimal(100), start.date(), finish.date(), 0)
        elif start <= now:
            progress = _under_way(task, start, now)
        else:
            return task
        return replace(task, progress=_with_costs(task, progress))

    return replace(changed(plan, with_progress), data_date=NOW)


def _with_costs(task: Task, progress: Progress) -> Progress:
    """Returns progress with what was spent, which is a tenth more than planned."""
    assert task.cost is not None and progress.percent is not None
    spent = task.cost * progress.percent / 100 * Decimal("1.1")
    spent = spent.quantize(Decimal(1))
    left = Decimal(0) if progress.percent == 100 else max(Decimal(0), task.cost - spent)
    return replace(progress, actual_cost=spent, remaining_cost=left)


def _under_way(task: Task, start: datetime, now: datetime) -> Progress:
    """Returns the progress of a task of which a day more is left than was planned."""
    calendar = HOURS[task.calendar or ""]
    hours = calendar.worked(hour_of(start.date(), start.hour), hour_of(now.date(), now.hour))
    left = min(task.minutes, task.minutes - 60 * hours + DAY)
    percent = max(1, 100 * (task.minutes - left) // task.minutes)
    return Progress(Decimal(percent), start.date(), None, left)
