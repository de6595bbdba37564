"""A hypothesis strategy for plans, shared by the tests of readers, `carry` and writers.

`plans(features)` draws a `Plan` that has no cycle and whose parts all refer to each other rightly:
each link leads from an earlier entry of the outline to a later one that is not inside it. Features
that a test does not name are absent, so a test lists exactly what its format can say.
"""

from collections.abc import Sequence
from dataclasses import dataclass
from datetime import date, timedelta
from decimal import Decimal
from enum import Enum, auto
from fractions import Fraction

from hypothesis import strategies as st

from pert_companion.model.calendar import (
    STANDARD_DAY,
    STANDARD_WEEK,
    Calendar,
    CalendarException,
)
from pert_companion.model.plan import (
    Assignment,
    Baseline,
    Constraint,
    ConstraintKind,
    Crash,
    Estimates,
    Group,
    Lag,
    Link,
    LinkKind,
    Plan,
    Progress,
    Resource,
    ResourceKind,
    Task,
)

DAY = 480
FIRST_DAY = date(2026, 3, 2)
WORDS = (
    "Dig",
    "Pour",
    "Walls",
    "Roof",
    "Wires",
    "Pipes",
    "Paint",
    "Tiles",
    "Doors",
    "Übergabe",
)
CREWS = ("Masons", "Carpenters", "Électriciens", "Crew, north")
MATERIALS = (("Concrete", "m3"), ("Gravel", "t"))


class Feature(Enum):
    """What a drawn plan may have beyond groups, tasks of whole days and finish-to-start links."""

    HOURS = auto()
    """Durations and lags of whole hours, not only of whole days."""
    LINK_KINDS = auto()
    LAGS = auto()
    LEADS = auto()
    ELAPSED_LAGS = auto()
    SHARE_LAGS = auto()
    GROUP_LINKS = auto()
    ESTIMATES = auto()
    CRASH = auto()
    CRASH_COST = auto()
    """Some shortest durations have a total cost instead of a slope."""
    COSTS = auto()
    CONSTRAINTS = auto()
    DEADLINES = auto()
    LISTED_DATES = auto()
    PROGRESS = auto()
    BASELINES = auto()
    RESOURCES = auto()
    HOLIDAYS = auto()
    WEEKS = auto()
    """Weeks of four or six working days."""


ALL_FEATURES = frozenset(Feature)


@dataclass(frozen=True)
class _Draft:
    """What the parts of a plan are drawn with."""

    draw: st.DrawFn
    features: frozenset[Feature]

    def has(self, feature: Feature) -> bool:
        """Draws whether an entry has the feature; never if the test does not name it."""
        return feature in self.features and self.draw(st.booleans())

    def minutes(self, least: int, most: int) -> int:
        """Draws working minutes between two numbers of days: whole days, or whole hours."""
        if self.has(Feature.HOURS):
            return self.draw(st.integers(least * 8, most * 8)) * 60
        return self.draw(st.integers(least, most)) * DAY

    def day(self, first: int = 0, last: int = 200) -> date:
        """Draws a working day, so many days from the first day of the project."""
        days = self.draw(st.integers(first, last))
        day = FIRST_DAY + timedelta(days=days)
        return day - timedelta(days=max(0, day.weekday() - 4))

    def money(self, most: int = 10_000) -> Decimal:
        """Draws an amount with at most two decimals."""
        return Decimal(self.draw(st.integers(0, most * 100))) / 100


def _calendar(draft: _Draft) -> Calendar:
    week = STANDARD_WEEK
    week_minutes = 5 * DAY
    if draft.has(Feature.WEEKS):
        worked = draft.draw(st.sampled_from((4, 6)))
        week = (STANDARD_DAY,) * worked + ((),) * (7 - worked)
        week_minutes = worked * DAY
    exceptions = []
    if Feature.HOLIDAYS in draft.features:
        count = draft.draw(st.integers(0, 4))
        first = FIRST_DAY
        for number in range(count):
            first += timedelta(days=draft.draw(st.integers(1, 40)))
            last = first + timedelta(days=draft.draw(st.integers(0, 4)))
            exceptions.append(CalendarException(first, last, f"Holiday {number + 1}"))
            first = last + timedelta(days=1)
    return Calendar(week=week, exceptions=tuple(exceptions), week_minutes=week_minutes)


def _estimates(draft: _Draft, likely: int) -> Estimates | None:
    if likely == 0 or not draft.has(Feature.ESTIMATES):
        return None
    less = draft.draw(st.integers(0, likely // 60))
    more = draft.draw(st.integers(0, 40))
    return Estimates(likely - less * 60, likely, likely + more * 60)


def _crash(draft: _Draft, minutes: int, cost: Decimal | None) -> Crash | None:
    if minutes <= 60 or not draft.has(Feature.CRASH):
        return None
    shortest = minutes - draft.minutes(1, max(1, minutes // DAY))
    if not 0 < shortest < minutes:
        return None
    if cost is not None and draft.has(Feature.CRASH_COST):
        return Crash(shortest, cost=cost + draft.money())
    return Crash(shortest, slope=draft.money())


def _constraint(draft: _Draft) -> Constraint | None:
    if not draft.has(Feature.CONSTRAINTS):
        return None
    kind = draft.draw(st.sampled_from(tuple(ConstraintKind)))
    if kind is ConstraintKind.AS_LATE_AS_POSSIBLE:
        return Constraint(kind, None)
    return Constraint(kind, draft.day())


def _progress(draft: _Draft, minutes: int, cost: Decimal | None) -> Progress:
    if not draft.has(Feature.PROGRESS):
        return Progress()
    start = draft.day(0, 30)
    actual_cost = draft.money() if cost is not None else None
    if draft.draw(st.booleans()):
        finish = start if minutes == 0 else start + timedelta(days=7)
        return Progress(Decimal(100), start, finish, 0, actual_cost, None)
    percent = Decimal(draft.draw(st.integers(1, 99)))
    remaining = draft.minutes(0, 20)
    return Progress(percent, start, None, remaining, actual_cost, None)


def _baselines(draft: _Draft, minutes: int) -> tuple[Baseline, ...]:
    if not draft.has(Feature.BASELINES):
        return ()
    start = draft.day(0, 60)
    finish = start + timedelta(days=draft.draw(st.integers(0, 2)) * 7)
    return (Baseline(0, start, finish, minutes, draft.money()),)


def _task(draft: _Draft, uid: str, name: str, parent: str | None) -> Task:
    minutes = draft.minutes(0, 20)
    cost = draft.money() if draft.has(Feature.COSTS) else None
    listed: date | None = None
    if Feature.LISTED_DATES in draft.features:
        listed = draft.day()
    return Task(
        uid=uid,
        where=f"row {int(uid) + 1}",
        name=name,
        minutes=minutes,
        parent=parent,
        row=int(uid),
        estimates=_estimates(draft, minutes),
        crash=_crash(draft, minutes, cost),
        cost=cost,
        constraint=_constraint(draft),
        deadline=draft.day() if draft.has(Feature.DEADLINES) else None,
        listed_start=listed,
        listed_finish=listed,
        progress=_progress(draft, minutes, cost),
        baselines=_baselines(draft, minutes),
    )


def _outline(draft: _Draft, count: int) -> tuple[Task | Group, ...]:
    """Draws groups and tasks in outline order; each group has at least one task below it."""
    entries: list[Task | Group] = []
    open_groups: list[str] = []
    while len(entries) < count:
        uid = str(len(entries) + 1)
        name = f"{draft.draw(st.sampled_from(WORDS))} {uid}"
        last_is_group = bool(entries) and isinstance(entries[-1], Group)
        if not last_is_group:
            closed = draft.draw(st.integers(0, len(open_groups)))
            open_groups = open_groups[: len(open_groups) - closed]
        parent = open_groups[-1] if open_groups else None
        if len(entries) + 1 < count and len(open_groups) < 3 and draft.draw(st.booleans()):
            entries.append(Group(uid, f"row {int(uid) + 1}", name, parent, row=int(uid)))
            open_groups.append(uid)
        else:
            entries.append(_task(draft, uid, name, parent))
    return tuple(entries)


def _ends_of_spans(outline: Sequence[Task | Group]) -> dict[str, int]:
    """Returns for each entry the position behind the last entry inside it."""
    ends = {entry.uid: position + 1 for position, entry in enumerate(outline)}
    for entry in reversed(outline):
        if entry.parent is not None:
            ends[entry.parent] = max(ends[entry.parent], ends[entry.uid])
    return ends


def _lag(draft: _Draft) -> Lag:
    if draft.has(Feature.SHARE_LAGS):
        percent = draft.draw(st.sampled_from((25, 50, 100)))
        return Lag(share=Fraction(percent, 100))
    if draft.has(Feature.ELAPSED_LAGS):
        return Lag(draft.draw(st.integers(1, 14)) * 24 * 60, elapsed=True)
    if draft.has(Feature.LEADS):
        return Lag(-draft.minutes(1, 5))
    if draft.has(Feature.LAGS):
        return Lag(draft.minutes(0, 5))
    return Lag()


def _links(draft: _Draft, outline: Sequence[Task | Group]) -> tuple[Link, ...]:
    with_groups = Feature.GROUP_LINKS in draft.features
    ends = _ends_of_spans(outline)
    links: dict[tuple[str, str], Link] = {}
    count = draft.draw(st.integers(0, 2 * len(outline)))
    for _ in range(count):
        before = draft.draw(st.sampled_from(outline))
        later = outline[ends[before.uid] :]
        if not later:
            continue
        after = draft.draw(st.sampled_from(later))
        if not with_groups and (isinstance(before, Group) or isinstance(after, Group)):
            continue
        kind = LinkKind.FINISH_START
        if draft.has(Feature.LINK_KINDS):
            kind = draft.draw(st.sampled_from(tuple(LinkKind)))
        pair = (before.uid, after.uid)
        links.setdefault(pair, Link(before.uid, after.uid, kind, _lag(draft)))
    position = {entry.uid: number for number, entry in enumerate(outline)}
    in_order = sorted(links.values(), key=lambda item: (position[item.successor], item.predecessor))
    return tuple(in_order)


def _assignments(draft: _Draft, outline: Sequence[Task | Group]) -> tuple[Assignment, ...]:
    """Draws who works on each task of some duration: minutes of work, or units of a material."""
    found = []
    for entry in outline:
        if not isinstance(entry, Task) or entry.minutes == 0:
            continue
        if draft.has(Feature.RESOURCES):
            crew = draft.draw(st.sampled_from(CREWS))
            share = draft.draw(st.sampled_from((50, 100, 200)))
            found.append(Assignment(entry.uid, crew, Decimal(entry.minutes * share) / 100))
        if draft.has(Feature.RESOURCES):
            material = draft.draw(st.sampled_from(MATERIALS))
            units = Decimal(draft.draw(st.integers(1, 500))) / 2
            found.append(Assignment(entry.uid, material[0], units))
    return tuple(found)


def _resources(assignments: Sequence[Assignment]) -> tuple[Resource, ...]:
    units = dict(MATERIALS)
    found: dict[str, Resource] = {}
    for assignment in assignments:
        name = assignment.resource
        if name in units:
            found.setdefault(name, Resource(name, name, ResourceKind.MATERIAL, units[name]))
        else:
            found.setdefault(name, Resource(name, name))
    return tuple(found.values())


@st.composite
def plans(
    draw: st.DrawFn,
    features: frozenset[Feature] = ALL_FEATURES,
    least: int = 1,
    most: int = 12,
) -> Plan:
    """Draws a plan of `least` to `most` outline entries with the given features.

    Uids are the numbers of the entries, from 1. A resource's uid is its name. Every group holds at
    least one task, there is no cycle, and two entries have at most one link between them.
    """
    draft = _Draft(draw, features)
    outline = _outline(draft, draw(st.integers(least, most)))
    assignments = _assignments(draft, outline)
    has_progress = Feature.PROGRESS in features
    return Plan(
        name="Random plan",
        start=FIRST_DAY,
        calendar=_calendar(draft),
        outline=outline,
        links=_links(draft, outline),
        resources=_resources(assignments),
        assignments=assignments,
        data_date=FIRST_DAY + timedelta(days=39) if has_progress else None,
    )


@st.composite
def linked_groups(draw: st.DrawFn) -> Plan:
    """Draws two groups with leads and lags inside, a task before the first, and one after each.

    The groups are linked as whole ones, so that their first and last tasks count.
    """
    draft = _Draft(draw, frozenset((Feature.LINK_KINDS, Feature.LEADS, Feature.LAGS)))
    outline: list[Task | Group] = [Task("1", "row 1", "Before", draft.minutes(0, 20))]
    links: list[Link] = []
    for name in ("g", "h"):
        outline.append(Group(name, f"row {name}", f"Group {name}"))
        inside: list[Task] = []
        for number in range(draw(st.integers(1, 4))):
            uid = f"{name}{number}"
            inside.append(Task(uid, f"row {uid}", f"Task {uid}", draft.minutes(1, 12), name))
            for earlier in inside[:-1]:
                if draw(st.booleans()):
                    kind = draw(st.sampled_from(tuple(LinkKind)))
                    links.append(Link(earlier.uid, uid, kind, _lag(draft)))
        outline.extend(inside)
    outline.append(Task("9", "row 9", "After", draft.minutes(0, 5)))
    for before, after in (("1", "g"), ("g", "h"), ("g", "9"), ("h", "9")):
        if draw(st.booleans()):
            links.append(Link(before, after, lag=_lag(draft)))
    return Plan("Groups", FIRST_DAY, Calendar(), tuple(outline), tuple(links))
