"""MS Project's XML that is written shows the chosen schedule, by a CPM of the test's own."""

from dataclasses import replace
from pathlib import Path
from xml.etree import ElementTree

import pytest
from hypothesis import HealthCheck, assume, given, settings

from chosen_lengths import check_dates, in_one_piece, state_of, three_lengths
from examples import length_count
from file_changes import unlisted
from pert_companion.analysis.scheduling import rest_schedule
from pert_companion.carry import CarryOptions, carry
from pert_companion.model.errors import InputError
from pert_companion.model.plan import Plan, Task
from pert_companion.model.predecessors import first_day_waits, real_links
from pert_companion.model.source import Source
from pert_companion.programs.results import cost_at
from pert_companion.readers import mspdi
from pert_companion.readers.base import ReaderOptions
from pert_companion.writers.mspdi import to_mspdi
from pert_companion.writers.mspdi_elements import NAMESPACE
from pert_companion.writers.mspdi_into import into_mspdi
from planner_files import mspdi_bytes
from plans import FIRST_DAY, Feature, plans
from sample_plan import sample_plan

FEATURES = frozenset(
    (
        Feature.LINK_KINDS,
        Feature.LAGS,
        Feature.CRASH,
        Feature.COSTS,
        Feature.CONSTRAINTS,
        Feature.HOLIDAYS,
        Feature.WEEKS,
        Feature.LISTED_DATES,
        Feature.RESOURCES,
    )
)
SLOW = settings(
    max_examples=length_count(12),
    deadline=None,
    suppress_health_check=list(HealthCheck),
)


def read(data: bytes) -> Plan:
    """Reads a file."""
    return mspdi.read(Source(Path("plan.xml"), data), ReaderOptions()).plan


@SLOW
@given(plans(features=FEATURES, least=2, most=9))
def test_into_the_original(plan: Plan) -> None:
    """At three lengths the original shows the dates of the CPM at the chosen durations."""
    plan = in_one_piece(plan)
    assume(any(isinstance(entry, Task) for entry in plan.outline))
    data = mspdi_bytes(plan)
    carried = carry(read(data))
    for schedule in three_lengths(carried):
        changed, missing = into_mspdi(data, "plan.xml", schedule, carried.side)
        assert missing == []
        check_dates(read(changed), schedule)
        assert unlisted("mspdi", data, changed) == []


@SLOW
@given(plans(features=FEATURES - {Feature.RESOURCES}, least=2, most=9))
def test_new_file(plan: Plan) -> None:
    """At three lengths a new file shows the dates of the CPM over its own links and calendar."""
    plan = in_one_piece(plan)
    assume(any(isinstance(entry, Task) for entry in plan.outline))
    carried = carry(read(mspdi_bytes(plan)))
    links = real_links(carried.deck, carried.side)
    waits = first_day_waits(carried.deck, carried.side)
    for schedule in three_lengths(carried):
        data = to_mspdi(schedule, carried.side.calendar, links, waits)
        check_dates(read(data), schedule)
        names = [task.name for task in read(data).tasks()]
        assert names == [task.name for task in plan.tasks()]
        costs = [task.cost or 0 for task in read(data).tasks()]
        assert costs == [task.cost for task in schedule.tasks]


RUNNING = FEATURES | {Feature.PROGRESS, Feature.CRASH_COST}


@SLOW
@given(plans(features=RUNNING, least=2, most=9))
def test_running_plans_come_back(plan: Plan) -> None:
    """An export at any length, imported again, has the curve of what was left from there on."""
    plan = in_one_piece(plan)
    assume(any(isinstance(entry, Task) for entry in plan.outline))
    data = mspdi_bytes(plan)
    carried = carry(read(data))
    unit = CarryOptions(unit=str(carried.side.unit_minutes))
    before = state_of(carried).rest.curve
    for schedule in three_lengths(carried):
        changed, missing = into_mspdi(data, "plan.xml", schedule, carried.side)
        assert missing == []
        assert unlisted("mspdi", data, changed) == []
        after = state_of(carry(read(changed), unit)).rest.curve
        assert (after[0].length, after[-1].length) == (schedule.length, before[-1].length)
        for length in range(after[-1].length, schedule.length + 1):
            assert cost_at(after, length)[0] == cost_at(before, length)[0]
        if schedule.length == before[0].length:
            check_durations(data, changed)


def check_durations(before: bytes, after: bytes) -> None:
    """Checks that a schedule at normal durations changes dates alone."""
    assert kept_texts(before) == kept_texts(after)


def kept_texts(data: bytes) -> list[str | None]:
    """Returns the texts of the fields that normal durations leave as they are."""
    return [element.text for element in ElementTree.fromstring(data).iter() if is_kept(element)]


def is_kept(element: ElementTree.Element) -> bool:
    """Says whether normal durations leave a field as it is; groups follow their tasks."""
    name = element.tag.removeprefix(f"{{{NAMESPACE}}}")
    return name in ("RemainingDuration", "PercentComplete", "Cost", "FixedCost", "Value", "Work")


@SLOW
@given(plans(features=FEATURES, least=2, most=9))
def test_an_unstarted_plan_at_its_own_dates_stays(plan: Plan) -> None:
    """Put into a file that has its dates already, a schedule changes no byte."""
    plan = in_one_piece(plan)
    assume(any(isinstance(entry, Task) for entry in plan.outline))
    carried = carry(read(mspdi_bytes(plan)))
    schedule = rest_schedule(state_of(carried))
    dated, _ = into_mspdi(mspdi_bytes(plan), "plan.xml", schedule, carried.side)
    again, _ = into_mspdi(dated, "plan.xml", schedule, carried.side)
    assert again == dated


TASKS = """
<Task><UID>1</UID><Name>Group</Name><OutlineLevel>1</OutlineLevel><Summary>1</Summary>
<Start>2026-03-02T08:00:00</Start><Finish>2026-03-02T17:00:00</Finish>
<Duration>PT1H0M0S</Duration></Task>
<Task><UID>2</UID><Name>Done</Name><OutlineLevel>2</OutlineLevel><Duration>PT8H0M0S</Duration>
<Start>2026-03-02T08:00:00</Start><Finish>2026-03-02T17:00:00</Finish>
<PercentComplete>100</PercentComplete><ActualStart>2026-03-02T08:00:00</ActualStart>
<ActualFinish>2026-03-02T17:00:00</ActualFinish></Task>
<Task><UID>3</UID><Name>Begun</Name><OutlineLevel>2</OutlineLevel><Duration>PT32H0M0S</Duration>
<Start>2026-03-03T08:00:00</Start><Finish>2026-03-06T17:00:00</Finish>
<PercentComplete>25</PercentComplete><ActualStart>2026-03-03T08:00:00</ActualStart>
<RemainingDuration>PT24H0M0S</RemainingDuration></Task>
<Task><UID>4</UID><Name>Cure</Name><OutlineLevel>2</OutlineLevel><Duration>PT48H0M0S</Duration>
<DurationFormat>8</DurationFormat><Start>2026-03-09T08:00:00</Start>
<Finish>2026-03-11T08:00:00</Finish></Task>
<Task><UID>5</UID><Name>Not done</Name><OutlineLevel>2</OutlineLevel><Active>0</Active>
<Duration>PT8H0M0S</Duration><Start>2026-01-02T08:00:00</Start>
<Finish>2030-01-02T17:00:00</Finish></Task>
<Task><UID>6</UID><IsNull>1</IsNull></Task>
"""


def project(tasks: str) -> bytes:
    """Returns a small file with tasks."""
    return (
        f'<Project xmlns="{NAMESPACE}"><StartDate>2026-03-02T08:00:00</StartDate>'
        "<FinishDate>2026-03-02T08:00:00</FinishDate>"
        f"<StatusDate>2026-03-03T17:00:00</StatusDate><Tasks>{tasks}</Tasks></Project>"
    ).encode()


def task_texts(data: bytes, uid: str) -> dict[str, str]:
    """Returns the texts of one task of a file."""
    root = ElementTree.fromstring(data)
    for element in root.iter(f"{{{NAMESPACE}}}Task"):
        texts = {child.tag.rpartition("}")[2]: child.text or "" for child in element}
        if texts["UID"] == uid:
            return texts
    raise AssertionError(uid)


def test_tasks_with_progress() -> None:
    """Finished tasks stay, begun ones keep their start, elapsed ones their duration."""
    data = project(TASKS)
    carried = carry(read(data))
    schedule = rest_schedule(state_of(carried))
    changed, missing = into_mspdi(data, "plan.xml", schedule, carried.side)
    assert missing == []
    assert task_texts(changed, "2") == task_texts(data, "2")
    assert task_texts(changed, "3") == task_texts(data, "3")
    assert task_texts(changed, "4")["Duration"] == "PT48H0M0S"
    assert task_texts(changed, "4")["Start"] == "2026-03-04T08:00:00"
    assert task_texts(changed, "5") == task_texts(data, "5")
    group = task_texts(changed, "1")
    assert (group["Start"], group["Finish"]) == (
        "2026-03-02T08:00:00",
        "2026-03-06T17:00:00",
    )
    assert group["Duration"] == "PT40H0M0S"


def test_a_shortened_elapsed_task() -> None:
    """A task of two days by the clock that is a day shorter takes one, by the clock."""
    data = project(TASKS)
    carried = carry(read(data))
    schedule = rest_schedule(state_of(carried))
    shorter = [
        replace(task, chosen_minutes=480, shortened_minutes=480) if task.uid == "4" else task
        for task in schedule.tasks
    ]
    schedule = replace(schedule, tasks=tuple(shorter))
    changed, _ = into_mspdi(data, "plan.xml", schedule, carried.side)
    texts = task_texts(changed, "4")
    assert (texts["Duration"], texts["DurationFormat"]) == ("PT24H0M0S", "8")


def test_a_task_that_the_original_lacks() -> None:
    """It is named, and the others are changed."""
    carried = carry(read(project(TASKS)))
    schedule = rest_schedule(state_of(carried))
    data = project(TASKS.replace("<UID>4</UID>", "<UID>44</UID>"))
    _, missing = into_mspdi(data, "plan.xml", schedule, carried.side)
    assert missing == ["plan.xml: no task with UID 4 (Cure)"]


def test_levels_that_are_no_numbers() -> None:
    """An outline level that is no number counts as 1, as in the reader."""
    data = project(
        TASKS.replace("<OutlineLevel>2</OutlineLevel>", "<OutlineLevel>x</OutlineLevel>")
    )
    carried = carry(read(data))
    schedule = rest_schedule(state_of(carried))
    changed, _ = into_mspdi(data, "plan.xml", schedule, carried.side)
    assert task_texts(changed, "3")["Duration"] == "PT32H0M0S"


@pytest.mark.parametrize(
    "data",
    (
        b"",
        b"<Project",
        b"<other/>",
        b'<!DOCTYPE x [<!ENTITY a "b">]><Project>&a;</Project>',
        b"\xff\xfe\x00",
        b"Name,Duration\nDig,4\n",
    ),
)
def test_hostile_originals(data: bytes) -> None:
    """An original that is no file of MS Project is refused in one line."""
    carried = carry(read(project(TASKS)))
    schedule = rest_schedule(state_of(carried))
    with pytest.raises(InputError) as caught:
        into_mspdi(data, "plan.xml", schedule, carried.side)
    assert str(caught.value).startswith("plan.xml: ") and "\n" not in str(caught.value)


def test_new_file_of_hostile_titles() -> None:
    """Characters that XML cannot hold are replaced, all others stay."""
    plan = sample_plan()
    first = next(plan.tasks())
    outline = tuple(
        replace(entry, name="a\x00b <&> \ud800\u202e\ufffe") if entry is first else entry
        for entry in plan.outline
    )
    carried = carry(replace(plan, outline=outline))
    tasks = rest_schedule(state_of(carried))
    names = [replace(task, name="a\x00b <&> \ud800\u202e\ufffe") for task in tasks.tasks]
    data = to_mspdi(replace(tasks, tasks=tuple(names)), carried.side.calendar, {}, {})
    assert next(read(data).tasks()).name == "a\ufffdb <&> \ufffd\u202e\ufffd"


def test_ids_of_a_new_file() -> None:
    """Ids of the source stay if all are numbers; else tasks are counted."""
    carried = carry(read(mspdi_bytes(sample_plan())))
    schedule = rest_schedule(state_of(carried))
    data = to_mspdi(schedule, carried.side.calendar, {}, {})
    assert [task.uid for task in read(data).tasks()] == [task.uid for task in schedule.tasks]
    renamed = tuple(replace(task, uid=f"x{task.uid}") for task in schedule.tasks)
    data = to_mspdi(replace(schedule, tasks=renamed), carried.side.calendar, {}, {})
    assert [task.uid for task in read(data).tasks()] == [str(n) for n in range(1, 61)]
    assert read(data).start == FIRST_DAY
