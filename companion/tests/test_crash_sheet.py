"""The sheet of shortest durations: which tasks it lists, what they bring, and reading it back."""

import io
from collections.abc import Mapping
from dataclasses import replace
from datetime import date, datetime
from decimal import Decimal
from pathlib import Path

import pytest
from hypothesis import given, settings
from openpyxl import Workbook, load_workbook

from pert_companion.analysis.schedule import Schedule, ScheduledTask
from pert_companion.importing.crash_sheet import (
    HEADINGS,
    candidates,
    crash_sheet,
    with_crash,
)
from pert_companion.model.calendar import Calendar
from pert_companion.model.errors import InputError
from pert_companion.model.losses import LossKind
from pert_companion.model.plan import (
    Crash,
    Group,
    Lag,
    Link,
    LinkKind,
    Plan,
    Progress,
    Task,
)
from pert_companion.model.source import Source
from plans import Feature, plans

DAY = 480
START = date(2026, 3, 2)


def task(uid: str, days: int, **more: object) -> Task:
    """Returns a task of so many days, named by its uid."""
    return replace(Task(uid, f"row {uid}", f"Task {uid}", days * DAY, row=int(uid)), **more)


def plan_of(tasks: list[Task | Group], links: list[Link]) -> Plan:
    """Returns a plan of tasks and links."""
    return Plan("House", START, Calendar(), tuple(tasks), tuple(links))


def schedule_of(plan: Plan, floats: dict[str, int], length: int) -> Schedule:
    """Returns a schedule with the given floats in days; its dates are of no account here."""
    moment = datetime(2026, 3, 2, 8)
    tasks = tuple(
        ScheduledTask(
            code=entry.uid,
            uid=entry.uid,
            row=entry.row,
            name=entry.name,
            outline=(),
            normal_minutes=entry.minutes,
            chosen_minutes=entry.minutes,
            start=moment,
            finish=moment,
            total_float_minutes=floats[entry.uid] * DAY,
            cost=0,
            is_critical=floats[entry.uid] == 0,
            is_milestone=entry.is_milestone,
        )
        for entry in plan.tasks()
    )
    return Schedule(
        title="House",
        code="H",
        length=length,
        unit_minutes=DAY,
        day_minutes=DAY,
        start=START,
        end=START,
        cost=0,
        next_step=None,
        tasks=tasks,
    )


def length_and_floats(plan: Plan) -> tuple[int, dict[str, int]]:
    """Returns length and total floats in minutes by longest walks, for finish-to-start links."""
    tasks = list(plan.tasks())
    before: dict[str, list[str]] = {task.uid: [] for task in tasks}
    after: dict[str, list[str]] = {task.uid: [] for task in tasks}
    for link in plan.links:
        before[link.successor].append(link.predecessor)
        after[link.predecessor].append(link.successor)
    head: dict[str, int] = {}
    tail: dict[str, int] = {}
    for each in tasks:
        head[each.uid] = each.minutes + max((head[uid] for uid in before[each.uid]), default=0)
    for each in reversed(tasks):
        tail[each.uid] = each.minutes + max((tail[uid] for uid in after[each.uid]), default=0)
    length = max(head.values())
    return length, {t.uid: length - head[t.uid] - tail[t.uid] + t.minutes for t in tasks}


def two_walks() -> tuple[Plan, Schedule]:
    """Returns a plan whose walk 1-2-4 has 16 days and whose walk 1-3-4 has 13."""
    tasks: list[Task | Group] = [task("1", 3), task("2", 8), task("3", 5), task("4", 5)]
    links = [Link("1", "2"), Link("1", "3"), Link("2", "4"), Link("3", "4")]
    plan = plan_of(tasks, links)
    return plan, schedule_of(plan, {"1": 0, "2": 0, "3": 3, "4": 0}, 16)


def test_gain_is_limited_by_the_float_of_tasks_at_the_same_time() -> None:
    """Task 2 brings 3 of its 8 days, then task 3 is critical; the others bring all they have."""
    plan, schedule = two_walks()
    found = candidates(plan, schedule, near_minutes=3 * DAY)
    shown = [(c.task.uid, c.float_minutes // DAY, c.gain_minutes // DAY) for c in found]
    assert shown == [("1", 0, 3), ("2", 0, 3), ("4", 0, 5), ("3", 3, 0)]
    assert found[1].limited_by == ("Task 3",)
    assert found[0].limited_by == ()


def test_tasks_with_more_float_are_left_out() -> None:
    """Without a bound, a float of a tenth of the length is the most."""
    plan, schedule = two_walks()
    assert [c.task.uid for c in candidates(plan, schedule)] == ["1", "2", "4"]


def test_finished_tasks_and_milestones_are_left_out() -> None:
    """What is done, and what takes no time, cannot be shortened."""
    plan, schedule = two_walks()
    outline = list(plan.outline)
    outline[0] = task("1", 3, progress=Progress(percent=Decimal(100)))
    outline[3] = task("4", 0)
    changed = replace(plan, outline=tuple(outline))
    assert [c.task.uid for c in candidates(changed, schedule)] == ["2"]


def test_start_to_start_links_do_not_lead_through_a_task() -> None:
    """A task that starts with another one keeps its dates when that one is shortened."""
    links = [
        Link("1", "2", LinkKind.START_START, Lag(0)),
        Link("1", "3"),
        Link("2", "3"),
    ]
    plan = plan_of([task("1", 6), task("2", 5), task("3", 2)], links)
    schedule = schedule_of(plan, {"1": 0, "2": 1, "3": 0}, 8)
    assert candidates(plan, schedule, 0)[0].gain_minutes == DAY


def test_links_of_groups_lead_to_their_tasks() -> None:
    """A task that follows a group follows all its tasks, so it does not limit them."""
    outline: list[Task | Group] = [
        Group("9", "row 9", "Shell"),
        task("1", 6, parent="9"),
        task("2", 4),
    ]
    plan = plan_of(outline, [Link("9", "2")])
    schedule = schedule_of(plan, {"1": 0, "2": 0}, 10)
    assert [c.gain_minutes // DAY for c in candidates(plan, schedule)] == [6, 4]


@settings(max_examples=40, deadline=None)
@given(plans(features=frozenset(), most=10))
def test_a_task_brings_what_the_sheet_says(plan: Plan) -> None:
    """Shortening a task to nothing gains exactly what is said, where links have no lags.

    A walk past a task then either has a task at the same time as it, or is as long as the walk
    through the task with nothing left of it.
    """
    length, floats = length_and_floats(plan)
    days = {uid: minutes // DAY for uid, minutes in floats.items()}
    schedule = schedule_of(plan, days, length // DAY)
    for candidate in candidates(plan, schedule, near_minutes=length):
        outline = []
        for entry in plan.outline:
            if entry.uid == candidate.task.uid and isinstance(entry, Task):
                entry = replace(entry, minutes=0)
            outline.append(entry)
        shorter, _ = length_and_floats(replace(plan, outline=tuple(outline)))
        assert length - shorter == candidate.gain_minutes


def filled(plan: Plan, schedule: Schedule, cells: Mapping[str, Mapping[str, object]]) -> bytes:
    """Returns the sheet of a plan with some cells filled in, by uid and heading."""
    book = load_workbook(io.BytesIO(crash_sheet(plan, candidates(plan, schedule))))
    sheet = book["Tasks"]
    for row in sheet.iter_rows(min_row=2):
        for heading, value in cells.get(str(row[0].value), {}).items():
            row[HEADINGS.index(heading)].value = value
    data = io.BytesIO()
    book.save(data)
    return data.getvalue()


def test_read_back() -> None:
    """Numbers are days; texts may have units, or be a share; empty cells shorten nothing."""
    plan, schedule = two_walks()
    outline = list(plan.outline)
    outline[2] = task("3", 5, crash=Crash(4 * DAY, slope=Decimal(10)))
    outline[3] = task("4", 5, cost=Decimal(700), crash=Crash(4 * DAY, slope=Decimal(10)))
    plan = replace(plan, outline=tuple(outline))
    data = filled(
        plan,
        schedule,
        {
            "1": {"Shortest duration (days)": "16h", "Cost per day": 90.5},
            "2": {"Shortest duration (days)": "50%", "Cost per day": "120"},
            "4": {
                "Shortest duration (days)": 3,
                "Cost per day": None,
                "Cost at shortest duration": 900,
            },
        },
    )
    read, losses = with_crash(Source(Path("crash.xlsx"), data), plan)
    assert losses == ()
    assert [each.crash for each in read.tasks()] == [
        Crash(2 * DAY, slope=Decimal("90.5")),
        Crash(4 * DAY, slope=Decimal(120)),
        Crash(4 * DAY, slope=Decimal(10)),
        Crash(3 * DAY, cost=Decimal(900)),
    ]
    assert any("50%" in note for note in read.notes)


def test_empty_cells_take_a_shortest_duration_away() -> None:
    """The sheet decides for the tasks that it lists, and for no others."""
    plan, schedule = two_walks()
    crash = Crash(2 * DAY, slope=Decimal(10))
    outline = tuple(replace(each, crash=crash) for each in plan.tasks())
    plan = replace(plan, outline=outline)
    unchanged, losses = with_crash(Source(Path("c.xlsx"), filled(plan, schedule, {})), plan)
    assert (unchanged.outline, losses) == (plan.outline, ())
    emptied = {"2": {"Shortest duration (days)": None, "Cost per day": None}}
    read, losses = with_crash(Source(Path("c.xlsx"), filled(plan, schedule, emptied)), plan)
    assert losses == ()
    assert [each.crash for each in read.tasks()] == [crash, None, crash, crash]


def test_what_is_wrong_is_named() -> None:
    """A shortest duration without a price or above normal, and rows of other tasks."""
    plan, schedule = two_walks()
    data = filled(
        plan,
        schedule,
        {
            "1": {"Shortest duration (days)": 2},
            "2": {"Shortest duration (days)": 9, "Cost per day": 1},
            "4": {"Task": "Other", "Shortest duration (days)": 1, "Cost per day": 1},
        },
    )
    read, losses = with_crash(Source(Path("crash.xlsx"), data), plan)
    assert [each.crash for each in read.tasks()] == [None] * 4
    assert [loss.kind for loss in losses] == [LossKind.CRASH] * 3
    assert "no cost" in losses[0].why
    assert "above the normal one" in losses[1].why
    assert "'Task 4'" in losses[2].why


def test_csv_of_the_sheet() -> None:
    """A sheet that was saved as CSV, with a row of an unknown task and one that is repeated."""
    plan, _ = two_walks()
    text = (
        "Unique ID;Task;Normal duration (days);Shortest duration (days);Cost per day\n"
        "1;Task 1;3;2;50,5\n1;Task 1;3;1;60\n7;Task 7;3;1;60\n8;Task 8;3;;\n"
    )
    read, losses = with_crash(Source(Path("crash.csv"), text.encode()), plan)
    assert next(read.tasks()).crash == Crash(2 * DAY, slope=Decimal("50.5"))
    assert [loss.where for loss in losses] == ["row 3", "row 4"]


def test_a_sheet_with_nothing_filled_in() -> None:
    """Its empty cells shorten nothing."""
    plan, schedule = two_walks()
    found = candidates(plan, schedule)
    assert len(found) == 3
    source = Source(Path("crash.xlsx"), crash_sheet(plan, found))
    assert with_crash(source, plan) == (plan, ())


def test_other_files_are_refused() -> None:
    """A workbook without the headings is one clear line."""
    plan, _ = two_walks()
    book = Workbook()
    book.active.append(["ID", "Name", "Duration"])
    data = io.BytesIO()
    book.save(data)
    with pytest.raises(InputError, match="no sheet of shortest durations"):
        with_crash(Source(Path("plan.xlsx"), data.getvalue()), plan)


def test_texts_stay_texts() -> None:
    """Names and ids that begin like formulas, or hold control characters, are texts."""
    odd = Task('=HYPERLINK("x")', "row 2", "=1+1", 3 * DAY, row=2)
    bell = Task("a\x07b", "row 3", "@SUM(A1)\x0b", 3 * DAY, row=3)
    plan = plan_of([odd, bell], [])
    schedule = schedule_of(plan, {odd.uid: 0, bell.uid: 0}, 3)
    data = crash_sheet(plan, candidates(plan, schedule))
    sheet = load_workbook(io.BytesIO(data))["Tasks"]
    assert [cell.data_type for cell in sheet["A"]] == ["s"] * 3
    assert [cell.data_type for cell in sheet["D"]] == ["s"] * 3
    price = {odd.uid: {"Shortest duration (days)": 1, "Cost per day": 5}}
    read, losses = with_crash(Source(Path("c.xlsx"), filled(plan, schedule, price)), plan)
    assert losses == ()
    assert [each.crash for each in read.tasks()] == [Crash(DAY, slope=Decimal(5)), None]


@settings(max_examples=15, deadline=None)
@given(plans(features=frozenset((Feature.CRASH, Feature.CRASH_COST, Feature.COSTS)), most=8))
def test_an_untouched_sheet_changes_nothing(plan: Plan) -> None:
    """What is in the plan comes back from the sheet."""
    schedule = schedule_of(plan, {each.uid: 0 for each in plan.tasks()}, 100)
    data = crash_sheet(plan, candidates(plan, schedule))
    read, losses = with_crash(Source(Path("crash.xlsx"), data), plan)
    assert losses == ()
    assert read.outline == plan.outline
