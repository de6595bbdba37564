"""What a deck cannot say is a loss or a note that names the place in the source, or one line."""

from dataclasses import replace
from datetime import date
from decimal import Decimal
from fractions import Fraction
from typing import Any

import pytest

from pert_companion.carry import Carried, CarryOptions, carry
from pert_companion.carry.codes import shortened
from pert_companion.model.calendar import Calendar, free_days
from pert_companion.model.cards import ChargeCard, LoadCard, ToGoCard
from pert_companion.model.errors import InputError, UsageError
from pert_companion.model.losses import Loss, LossKind
from pert_companion.model.plan import (
    Assignment,
    Baseline,
    Constraint,
    ConstraintKind,
    Crash,
    Estimates,
    Group,
    Lag,
    Link,
    LinkKind,
    Plan,
    Progress,
    Resource,
    ResourceKind,
    Task,
)
from timing import within

DAY = 480
START = date(2026, 9, 1)
"""A Tuesday."""


def task(uid: str, days: float = 2, **parts: Any) -> Task:
    """Returns a task of so many days with further fields."""
    plain = Task(uid, f"row {uid}", f"Task {uid}", int(days * DAY))
    return replace(plain, **parts)


def plan(*outline: Task | Group, links: tuple[Link, ...] = (), **parts: Any) -> Plan:
    """Returns a plan of these entries."""
    plain = Plan("House", START, Calendar(), outline, links)
    return replace(plain, **parts)


def losses_of(carried: Carried, kind: LossKind) -> list[Loss]:
    """Returns the losses of a kind."""
    return [loss for loss in carried.losses if loss.kind is kind]


def numbers(carried: Carried) -> dict[str, tuple[int, int, int]]:
    """Returns normal and crash duration and slope of each card."""
    return {card.code: (card.normal, card.crash, card.slope) for card in carried.deck.tasks}


def test_codes_come_from_ids_or_names_alone() -> None:
    """Own codes stay, ids of planners become codes, and names are made distinct by their groups."""
    by_code = carry(plan(task("1", code="A-100"), task("2", code="way too long for a code")))
    assert [entry.code for entry in by_code.side.tasks] == ["A-100", "T2"]
    assert by_code.notes[0] == "row 2: the code 'way too long for a code' becomes T2"
    by_uid = carry(plan(task("7"), task("DIG"), task("no code!"), source="mspdi"))
    assert [entry.code for entry in by_uid.side.tasks] == ["T7", "DIG", "Task-no-code"]
    upper, lower = Group("g", "row 8", "Upper floor"), Group("h", "row 9", "Lower floor")
    rows = [
        task("1", name="Paint", row=1, parent="g"),
        task("2", name="Paint", row=2, parent="h"),
        task("3", name="The wall of the north", row=3, parent="h"),
        task("4", name="Übergabe", row=4, parent="h"),
        task("5", name="Übergabe", row=5, parent="h"),
        task("6", name="Wall, north", row=6, parent="h"),
    ]
    by_name = carry(plan(upper, lower, *rows))
    codes = [entry.code for entry in by_name.side.tasks]
    assert codes[:2] == ["Paint-Upper-floo", "Paint-Lower-floo"]
    assert codes[2].startswith("wall-north-") and codes[5].startswith("Wall-north-")
    assert codes[3].startswith("Ueber") and codes[3] != codes[4]
    shuffled = carry(plan(lower, upper, *reversed(rows)))
    again = {entry.uid: entry.code for entry in shuffled.side.tasks}
    assert [again[uid] for uid in ("1", "2", "3", "6")] == [*codes[:3], codes[5]]


def test_groups_become_items() -> None:
    """A single group is the top; tasks next to groups get an item, deep groups none."""
    top = Group("g", "row 1", "House: a long title " * 5, None, "1")
    inner = Group("h", "row 2", "Shell", "g", "1.1")
    carried = carry(plan(top, inner, task("1", parent="h"), task("2", parent="g")))
    assert [(item.code, item.parent) for item in carried.deck.items] == [
        ("1", ""),
        ("1.own", "1"),
        ("1.1", "1"),
    ]
    assert [card.item for card in carried.deck.tasks] == ["1.1", "1.own"]
    assert [loss.kind for loss in carried.side_losses] == [LossKind.TITLE]
    assert carried.side.tasks[0].outline[0].startswith("House: a long title House")
    deep = [Group("0", "row 0", "Level 0")]
    for level in range(1, 18):
        deep.append(Group(str(level), f"row {level}", f"Level {level}", str(level - 1)))
    carried = carry(plan(*deep, task("t", parent="17"), task("u", parent="14")))
    found = losses_of(carried, LossKind.GROUP)
    assert [loss.where for loss in found] == ["row 16", "row 17"]
    assert carried.deck.tasks[0].item == "Level-15"
    assert len(carried.side.tasks[0].outline) == 18
    loop = (Group("a", "row 1", "A", "b"), Group("b", "row 2", "B", "a"), task("t"))
    with pytest.raises(InputError, match="row 1: group 'A' is in itself"):
        carry(plan(*loop))


def test_links_that_a_deck_cannot_say_are_losses() -> None:
    """Each names its row, its task, and why it is left out."""
    group = Group("g", "row 9", "Shell")
    shorter = Crash(DAY, slope=Decimal(1))
    inside = (task("1", parent="g"), task("2", 3, parent="g", crash=shorter))
    outside = task("3")
    links = (
        Link("g", "1", where="row 1", text="9FS"),
        Link("g", "3", LinkKind.START_START, where="row 3", text="9SS"),
        Link("3", "g", LinkKind.FINISH_FINISH, where="row 9"),
        Link("2", "3", lag=Lag(-2 * DAY), where="row 3", text="2FS-2d"),
        Link("x", "3", where="row 3", text="xFS"),
        Link("3", "y", text="yFS"),
    )
    carried = carry(plan(group, *inside, outside, links=links))
    found = losses_of(carried, LossKind.LINK)
    assert [(loss.where, loss.name) for loss in found] == [
        ("row 3", "Task 3"),
        ("row 3", "Task 3"),
        ("row 1", "Task 1"),
        ("row 3", "Task 3"),
        ("row 9", "Shell"),
        ("row 3", "Task 3"),
    ]
    reasons = [loss.why for loss in found]
    assert reasons[0] == "one of the tasks that it links is not carried over"
    assert reasons[2] == "it links a task with itself, or a group with what is inside it"
    assert reasons[3] == "it ties the start of a group, which is not that of one task"
    assert reasons[4] == "it ties the finish of a group, which is not that of one task"
    assert reasons[5] == "the lead is longer than 'Task 2' may become"
    assert found[4].text == "3FF"
    circle = (Link("1", "2"), Link("2", "1"))
    with pytest.raises(InputError, match="linked in a circle: 'Task 1' .row 1., 'Task 2'"):
        carry(plan(task("1"), task("2"), links=circle))


def test_groups_are_linked_by_their_ends() -> None:
    """The end of a group is a milestone, and its start the start of its first tasks."""
    first, second = Group("g", "row 8", "Shell"), Group("h", "row 9", "Roof")
    tasks = [task(uid, parent="gh"[uid > "2"]) for uid in "1234"]
    links = (Link("g", "h"), Link("h", "5", LinkKind.START_START), Link("3", "4"))
    last = (Link("5", "h", LinkKind.FINISH_FINISH, Lag(DAY)),)
    carried = carry(plan(first, second, *tasks, task("5"), links=links))
    assert [card.code for card in carried.deck.tasks][-1] == "Shell.F"
    assert "Shell.F" in carried.side.waits and not carried.losses
    befores = [after.before for after in carried.deck.afters if after.task == "Shell.F"]
    assert befores == ["T1", "T2"]
    carried = carry(plan(second, *tasks[2:], task("5"), links=last + links[2:]))
    assert not carried.losses and carried.side.tasks[1].finish_moment == "T4.F"


def test_a_pause_that_cannot_be_kept_out_is_a_loss() -> None:
    """Others wait for the start of a task that may pause before its finish."""
    short = task("1", 5, crash=Crash(DAY, slope=Decimal(1)))
    links = (
        Link("1", "2", LinkKind.FINISH_FINISH, where="row 2", text="1FF"),
        Link("2", "3", LinkKind.START_START),
    )
    carried = carry(plan(short, task("2", 3), task("3"), links=links))
    (loss,) = losses_of(carried, LossKind.PAUSE)
    assert (loss.where, loss.name, loss.text) == ("row 2", "Task 2", "1FF")
    assert "it may pause before its finish: the lead is longer than 'Task 1'" in loss.why


def test_leads_reach_back_over_few_tasks() -> None:
    """Leads before the start say nothing; those over very many tasks are named, in little time."""
    tasks = [task(str(number)) for number in range(700)]
    chain = []
    for number in range(2, 700):
        chain.append(Link(str(number - 1), str(number), LinkKind.START_START, Lag(-DAY)))
        chain.append(Link(str(number - 2), str(number), LinkKind.START_START, Lag(-DAY)))
    carried = carry(plan(*tasks, links=tuple(chain)))
    assert not carried.losses and not carried.deck.afters
    late = Constraint(ConstraintKind.START_NO_EARLIER, date(2036, 9, 1))
    tasks[0] = replace(tasks[0], constraint=late)
    with within(60):
        carried = carry(plan(*tasks, links=tuple(chain)))
    assert {loss.why for loss in carried.losses} == {
        "its leads reach back over more than 300 tasks"
    }


def test_units_are_those_of_all_durations() -> None:
    """Halves of days make the unit half a day by itself; given units round up and say so."""
    halves = plan(task("1", 1.5), task("2", 2, estimates=Estimates(DAY, DAY * 2, DAY * 4)))
    carried = carry(halves)
    assert carried.side.unit_minutes == 240
    assert carried.notes == ()
    assert carried.deck.tasks[1].pessimistic == 8
    carried = carry(halves, CarryOptions(unit="days"))
    assert carried.deck.tasks[0].normal == 2 and carried.side.unit_minutes == DAY
    (loss,) = losses_of(carried, LossKind.FRACTION)
    assert (loss.text, loss.why) == ("720 working minutes", "rounded up to 2 days")
    assert carry(halves, CarryOptions(unit="hours")).deck.tasks[0].normal == 12
    said = carry(halves, CarryOptions(unit="90"))
    assert said.notes == ("durations are counted in units of 90 minutes",)
    assert {loss.why for loss in losses_of(said, LossKind.FRACTION)} == {
        "rounded up to 1.12 days",
        "rounded up to 2.06 days",
        "rounded up to 4.12 days",
    }
    for word in ("fortnights", "0", "-5", "99999", "1.5"):
        with pytest.raises(UsageError, match="say auto, days, hours, or a number of minutes"):
            carry(halves, CarryOptions(unit=word))
    odd = task("3", 1, minutes=481)
    assert carry(plan(odd)).side.unit_minutes == 1
    assert carry(plan(odd, task("4", 60_000))).side.unit_minutes == DAY
    assert carry(plan(odd, task("4", 10_000))).side.unit_minutes == 60
    long = carry(plan(task("5", 100_001)))
    assert losses_of(long, LossKind.DURATION) and long.deck.tasks[0].normal == 100_000
    turned = carry(plan(task("6", estimates=Estimates(DAY * 3, DAY, DAY))))
    assert losses_of(turned, LossKind.DURATION) and turned.deck.tasks[0].optimistic == 2


def test_shortening_needs_a_duration_and_a_price() -> None:
    """A shortest duration that makes no sense or has no price is a loss: nothing is made up."""
    cost = Decimal(100)
    tasks = (
        task("1", 4, crash=Crash(2 * DAY, slope=Decimal("2.5"))),
        task("2", 4, crash=Crash(DAY, cost=Decimal(130)), cost=cost),
        task("3", 4, crash=Crash(5 * DAY, slope=Decimal(1))),
        task("4", 4, crash=Crash(DAY)),
        task("5", 4, crash=Crash(DAY, cost=Decimal(10)), cost=cost),
        task("6", 4, crash=Crash(4 * DAY)),
        task("7", 4, crash=Crash(DAY, slope=Decimal(10**9))),
        task("8", 4, cost=Decimal(-5)),
    )
    carried = carry(plan(*tasks))
    assert numbers(carried) == {
        "T1": (4, 2, 3),
        "T2": (4, 1, 10),
        "T3": (4, 4, 0),
        "T4": (4, 4, 0),
        "T5": (4, 4, 0),
        "T6": (4, 4, 0),
        "T7": (4, 4, 0),
        "T8": (4, 4, 0),
    }
    assert [loss.where for loss in losses_of(carried, LossKind.CRASH)] == [
        "row 3",
        "row 4",
        "row 5",
        "row 7",
    ]
    assert [loss.where for loss in losses_of(carried, LossKind.COST)] == ["row 8"]
    (fraction,) = losses_of(carried, LossKind.FRACTION)
    assert (fraction.field, fraction.text, fraction.why) == (
        "slope",
        "2.5",
        "rounded up to 3",
    )
    cents = carry(plan(*tasks[:2]), CarryOptions(cents=True))
    assert numbers(cents) == {"T1": (4, 2, 250), "T2": (4, 1, 1000)} and not cents.losses
    assert cents.side.money_scale == 100 and cents.deck.accounts[0].budget == 10_000
    halves = carry(plan(tasks[1], task("9", 0.5)))
    assert numbers(halves)["T2"] == (8, 2, 5)


def test_a_task_to_be_done_as_late_as_possible_is_noted() -> None:
    """It is kept in the side file; once it has begun there is nothing to note."""
    late = Constraint(ConstraintKind.AS_LATE_AS_POSSIBLE, None)
    carried = carry(plan(task("1", 3), task("2", constraint=late)))
    assert [note for note in carried.notes if "late as possible" in note] == [
        "row 2, task 'Task 2': it is to be done as late as possible, and a deck begins each task as"
        " early as it can"
    ]
    assert carried.side.tasks[1].constraint == late and not carried.losses
    begun = Progress(percent=Decimal(50), actual_start=date(2026, 9, 1))
    tasks = (task("1", 3), task("2", constraint=late, progress=begun))
    carried = carry(plan(*tasks, data_date=date(2026, 9, 1)))
    assert not [note for note in carried.notes if "late as possible" in note]


def test_constraints_are_waits_or_named() -> None:
    """Earliest dates become waits; latest dates are kept, and noted where links break them."""

    def constrained(kind: ConstraintKind, day: int, **parts: Any) -> Carried:
        constraint = Constraint(kind, date(2026, 9, day))
        return carry(plan(task("1", 3), task("2", constraint=constraint, **parts), links=links))

    links = (Link("1", "2"),)
    for kind in (ConstraintKind.START_NO_EARLIER, ConstraintKind.MUST_START):
        carried = constrained(kind, 10)
        assert carried.side.waits == ("D2026-09-10",) and not carried.losses
        assert numbers(carried)["D2026-09-10"] == (7, 7, 0)
    carried = constrained(ConstraintKind.FINISH_NO_EARLIER, 10)
    assert carried.side.tasks[1].finish_moment == "T2.F"
    assert numbers(carried)["D2026-09-11"] == (8, 8, 0)
    assert not constrained(ConstraintKind.START_NO_EARLIER, 1).side.waits
    broken = {
        ConstraintKind.START_NO_LATER: "by its links it starts on 2026-09-04",
        ConstraintKind.MUST_START: "by its links it starts on 2026-09-04",
        ConstraintKind.FINISH_NO_LATER: "by its links it finishes on 2026-09-07",
        ConstraintKind.MUST_FINISH: "by its links it finishes on 2026-09-07",
    }
    for kind, why in broken.items():
        carried = constrained(kind, 3)
        note = f"row 2, task 'Task 2': {kind.value} 2026-09-03 is broken: {why}"
        assert not carried.losses and carried.notes == (note,)
        assert carried.side.tasks[1].constraint == Constraint(kind, date(2026, 9, 3))
        held = constrained(kind, 30)
        assert not held.losses and held.side_losses[0].kind is LossKind.CONSTRAINT
        assert not held.notes
    moved = constrained(ConstraintKind.FINISH_NO_LATER, 3, minutes=0)
    assert "finishes on 2026-09-04" in moved.notes[0]
    late = task("1", constraint=Constraint(ConstraintKind.AS_LATE_AS_POSSIBLE, None))
    carried = carry(plan(late))
    assert not carried.losses and len(carried.notes) == 1
    assert carried.side.tasks[0].constraint == late.constraint
    assert [loss.kind for loss in carried.side_losses] == [LossKind.CONSTRAINT]
    manual = task("1", manual=True, listed_start=date(2026, 11, 2))
    assert carry(plan(manual)).side.waits == ("D2026-11-02",)
    two = (
        replace(late, uid="2", constraint=manual.constraint),
        manual,
        replace(manual, uid="3"),
    )
    assert carry(plan(*two)).side.waits == ("D2026-11-02",)


def test_a_contract_that_the_links_break_is_noted() -> None:
    """The plan is carried over, and the day is the directed end of the deck."""
    tasks = (task("1", 3), task("2"))
    link = (Link("1", "2"),)
    carried = carry(plan(*tasks, links=link, must_finish=date(2026, 9, 4)))
    assert carried.deck.project.directed == 4 and not carried.losses
    assert carried.notes == (
        "the plan must finish by 2026-09-04: by its links it ends on 2026-09-07",
    )
    assert carry(plan(*tasks, links=link, must_finish=date(2026, 9, 7))).notes == ()


def test_elapsed_lags_and_shares_are_working_time() -> None:
    """Elapsed days count what is worked of them, shares are of the normal duration."""
    calendar = Calendar(exceptions=free_days([date(2026, 9, 3), date(2026, 9, 4)]))
    links = (Link("1", "2", lag=Lag(7 * 1440, elapsed=True)),)
    carried = carry(plan(task("1"), task("2"), links=links, calendar=calendar))
    assert numbers(carried)["T1.w3"] == (3, 3, 0)
    assert carried.notes == ("1 elapsed lag is counted in the working time of its normal dates",)
    start = (Link("1", "2", LinkKind.START_START, Lag(7 * 1440, elapsed=True)),) * 2
    carried = carry(plan(task("1"), task("2"), links=start, calendar=calendar))
    assert numbers(carried)["T1.S.w3"] == (3, 3, 0) and carried.notes[0].startswith("2 elapsed")
    half = (Link("1", "2", lag=Lag(share=Fraction(1, 2))),)
    assert "T1.w1" in numbers(carry(plan(task("1"), task("2"), links=half)))
    group = Group("g", "row 9", "Shell")
    of_group = (Link("g", "2", lag=Lag(share=Fraction(1, 2)), where="row 2"),)
    (loss,) = carry(plan(group, task("1", parent="g"), task("2"), links=of_group)).losses
    assert (loss.kind, loss.where) == (LossKind.LINK, "row 2")
    assert loss.why == "its lag is a share of the duration of a group; it is taken as none"
    crash = task("1", crash=Crash(DAY, slope=Decimal(1)))
    (loss,) = carry(plan(crash, task("2"), links=half)).losses
    assert loss.why == "its lag is taken from the normal duration of 'Task 1'"


def test_loads_are_whole() -> None:
    """Work is in hours or minutes, material in tenths and less, shared among parts."""
    resources = (
        Resource("c", "Crew"),
        Resource("m", "Mason, old"),
        Resource("k", "Concrete", ResourceKind.MATERIAL, "m3"),
        Resource("s", "Sand", ResourceKind.MATERIAL, ""),
        Resource("p", "Permit", ResourceKind.COST),
        Resource("u", "Unused"),
    )
    assignments = (
        Assignment("1", "c", Decimal(960)),
        Assignment("1", "c", Decimal(480)),
        Assignment("1", "m", Decimal(90)),
        Assignment("2", "k", Decimal("12.5")),
        Assignment("2", "s", Decimal("0.0001")),
        Assignment("2", "p", Decimal(5)),
        Assignment("2", "c", Decimal(10**15)),
        Assignment("gone", "c", Decimal(5)),
    )
    links = (Link("1", "2", lag=Lag(-2 * DAY)),)
    carried = carry(
        plan(
            task("1", 6),
            task("2"),
            links=links,
            resources=resources,
            assignments=assignments,
        )
    )
    assert [(card.code, card.title) for card in carried.deck.resources] == [
        ("Crew", "Crew (minutes)"),
        ("Mason-old", "Mason, old (minutes)"),
        ("Concrete", "Concrete (1/10 m3)"),
        ("Sand", "Sand (1/1000 units)"),
    ]
    assert carried.deck.loads == (
        LoadCard("T1", "Crew", 960),
        LoadCard("T1.2", "Crew", 480),
        LoadCard("T1", "Mason-old", 60),
        LoadCard("T1.2", "Mason-old", 30),
        LoadCard("T2", "Concrete", 125),
        LoadCard("T2", "Sand", 1),
    )
    assert [loss.kind for loss in carried.losses] == [
        LossKind.RESOURCE,
        LossKind.FRACTION,
    ]
    hours = carry(plan(task("1"), resources=resources[:1], assignments=assignments[:1]))
    assert hours.deck.resources[0].title == "Crew (hours)"
    assert hours.deck.loads == (LoadCard("T1", "Crew", 16),)


def done(start: int | None, finish: int | None = None, **parts: Any) -> Progress:
    """Returns progress with days of September."""
    progress = Progress(
        actual_start=None if start is None else date(2026, 9, start),
        actual_finish=None if finish is None else date(2026, 9, finish),
    )
    return replace(progress, **parts)


def statuses(carried: Carried) -> dict[str, str]:
    """Returns the days of the STATUS cards of each card: `S1 F5`."""
    found: dict[str, list[str]] = {}
    for card in carried.deck.statuses:
        found.setdefault(card.activity, []).append(f"{card.letter}{card.day.day}")
    return {code: " ".join(days) for code, days in found.items()}


def test_progress_of_moments_and_waits() -> None:
    """Milestones, ends of groups, starts, finishes and lags are done with their tasks."""
    group = Group("g", "row 9", "Shell")
    tasks = (
        task("1", 2, parent="g", progress=done(1, 2)),
        task("2", 3, parent="g", progress=done(1, 3)),
        task("3", 0, progress=done(None, 4)),
        task("4", 4, progress=done(7)),
        task("5", 1, progress=done(8, 8)),
        task("6", 0, progress=done(None, 4)),
    )
    links = (
        Link("g", "3"),
        Link("1", "4", lag=Lag(DAY)),
        Link("4", "5", LinkKind.START_START, Lag(3 * DAY)),
        Link("2", "5", LinkKind.FINISH_FINISH),
        Link("3", "6"),
    )
    carried = carry(plan(group, *tasks, links=links, data_date=date(2026, 9, 8)))
    assert carried.deck.as_of == date(2026, 9, 9) and not carried.losses
    assert statuses(carried) == {
        "T1": "S1 F3",
        "T1.w1": "S3 F4",
        "T2": "S1 F4",
        "T3": "S4 F4",
        "T4.S": "S7 F7",
        "T4": "S7",
        "T4.S.w3": "S7 F8",
        "T5": "S8 F9",
        "T5.F": "S9 F9",
        "T6": "S4 F4",
        "Shell.F": "S4 F4",
    }
    later = replace(tasks[2], progress=done(None, 3))
    carried = carry(plan(group, *tasks[:2], later, links=links[:1], data_date=date(2026, 9, 8)))
    assert statuses(carried)["T3"] == "S4 F4"
    begun = replace(tasks[1], progress=done(1))
    carried = carry(plan(group, tasks[0], begun, tasks[2], links=links[:1], data_date=START))
    assert "Shell.F" not in statuses(carried)


def test_progress_of_parts() -> None:
    """Done days use up part 1, 2, ..; a finished task has all its parts finished."""
    links = (
        Link("1", "2", lag=Lag(-2 * DAY)),
        Link("1", "2", LinkKind.FINISH_FINISH, Lag(-DAY)),
    )

    def at(day: int, **parts: Any) -> dict[str, str]:
        split = task("1", 6, progress=done(1, **parts))
        made = plan(split, task("2", 4), links=links, data_date=date(2026, 9, day))
        return statuses(carry(made))

    assert at(4, percent=Decimal(50)) == {"T1": "S1"}
    assert at(7, percent=Decimal(80)) == {"T1": "S1 F8", "T1.2": "S8"}
    assert at(1, percent=Decimal(80)) == {"T1": "S1 F2", "T1.2": "S2"}
    assert at(9, remaining=DAY) == {"T1": "S1 F9", "T1.2": "S9 F10", "T1.3": "S10"}
    assert at(9, actual_finish=date(2026, 9, 9)) == {
        "T1": "S1 F8",
        "T1.2": "S8 F9",
        "T1.3": "S9 F10",
    }


def test_progress_that_makes_no_sense_is_named() -> None:
    """Dates outside of the project so far, or none where there must be some, are losses."""
    tasks = (
        task("1", progress=done(None, percent=Decimal(10))),
        task("2", progress=done(1, percent=Decimal(100))),
        task("3", progress=done(20)),
        task("4", progress=replace(done(1), actual_start=date(2026, 8, 20))),
        task("5", progress=done(3, 2)),
        task("6", listed_start=START, progress=Progress(percent=Decimal(50))),
        task(
            "7",
            listed_start=START,
            listed_finish=START,
            progress=Progress(Decimal(100)),
        ),
    )
    carried = carry(plan(*tasks, data_date=date(2026, 9, 8)))
    reasons = {loss.where: loss.why for loss in losses_of(carried, LossKind.PROGRESS)}
    assert reasons == {
        "row 1": "there is no date on which the task started",
        "row 2": "there is no date on which the task finished",
        "row 3": "not between 2026-09-01 and the evening of the data date, 2026-09-08; to include"
        " it, say --as-of 2026-09-20",
        "row 4": "not between 2026-09-01 and the evening of the data date, 2026-09-08",
        "row 5": "not between 2026-09-03 and the evening of the data date, 2026-09-08",
    }
    assert statuses(carried) == {"T2": "S1", "T5": "S3", "T6": "S1", "T7": "S1 F2"}
    without = carry(plan(*tasks), CarryOptions(progress=False))
    assert without.notes == ("progress is not carried over, as --no-progress says",)
    assert not without.deck.statuses and without.deck.as_of is None
    with pytest.raises(InputError, match="row 1, task 'Task 1' has progress: say the data date"):
        carry(plan(*tasks))


def test_money_spent_and_to_go() -> None:
    """Actual costs are charges as of the data date, and what remains is an amount to go."""
    tasks = (
        task("1", cost=Decimal(100), progress=done(1, 2, actual_cost=Decimal(110))),
        task("2", cost=Decimal(55), progress=done(2, percent=Decimal(10))),
        task("3", cost=Decimal(30), progress=Progress(remaining_cost=Decimal(40))),
    )
    carried = carry(plan(*tasks, data_date=date(2026, 9, 4)))
    day = date(2026, 9, 5)
    assert carried.deck.charges == (ChargeCard("House.own", day, 110),)
    assert carried.deck.to_go == (ToGoCard("House.own", day, 50 + 40),)
    unpaid = carry(plan(tasks[1], data_date=date(2026, 9, 4)))
    assert any(note.startswith("there are no actual costs") for note in unpaid.notes)


def test_a_behind_task_is_noted() -> None:
    """Remaining durations that a deck does not have are in the side file, and a note says so."""
    late = task("1", 40, progress=done(1, remaining=36 * DAY))
    more = replace(late, uid="2", where="row 2")
    carried = carry(plan(late, more, data_date=date(2026, 9, 30)))
    (note,) = [note for note in carried.notes if "normal duration" in note]
    assert note.startswith("2 tasks are ahead of or behind the normal duration")
    assert "row 1 Task 1, 36 days remain" in note


def test_what_only_the_side_file_says() -> None:
    """Deadlines, baselines, latest dates, titles and remaining durations are lost without it."""
    full = task(
        "1",
        name="A title of more than eighty bytes, which is the most that a deck of tasks may have",
        deadline=date(2026, 10, 1),
        baselines=(Baseline(0, START), Baseline(3, START)),
        constraint=Constraint(ConstraintKind.START_NO_LATER, date(2026, 9, 20)),
        progress=Progress(remaining=DAY),
        calendar="Night shift",
    )
    carried = carry(plan(full))
    assert [loss.kind for loss in carried.side_losses] == [
        LossKind.TITLE,
        LossKind.DEADLINE,
        LossKind.BASELINE,
        LossKind.CONSTRAINT,
        LossKind.PROGRESS,
    ]
    assert [loss.kind for loss in carried.losses] == [LossKind.CALENDAR]
    side = carried.side.tasks[0]
    assert side.name == full.name and side.remaining == DAY and side.deadline == full.deadline
    assert len(carried.deck.tasks[0].title.encode()) <= 80


def test_a_data_date_before_the_first_day_is_a_plan_that_has_not_begun() -> None:
    """One note says so; the deck is as of the first day."""
    carried = carry(plan(task("1"), data_date=date(2026, 8, 1)))
    assert carried.deck.as_of is None and carried.side.data_date is None
    assert carried.losses == () and carried.notes == (
        "the data date 2026-08-01 is before the first day 2026-09-01: the plan has not begun, and"
        " is as of its first day",
    )
    begun = task("1", progress=Progress(actual_start=START))
    left_out = carry(plan(begun, data_date=date(2026, 8, 1)), CarryOptions(progress=False))
    assert left_out.deck.statuses == () and left_out.deck.as_of is None


def test_plans_that_no_deck_can_be_are_one_line() -> None:
    """The line says what is too much or missing."""
    with pytest.raises(InputError, match="there is no task"):
        carry(plan())
    with pytest.raises(InputError, match="first day 1850-01-01 is not in the years 1900 to 2198"):
        carry(plan(task("1"), start=date(1850, 1, 1)))
    begun = task("1", progress=Progress(actual_start=START))
    with pytest.raises(InputError, match="2026-08-01 is before the first day 2026-09-01, and row"):
        carry(plan(begun, data_date=date(2026, 8, 1)))
    with pytest.raises(InputError, match="row 1: a second task has the id '1'"):
        carry(plan(task("1"), task("1")))
    rich = [task(str(number), cost=Decimal(10**12)) for number in range(2)]
    with pytest.raises(InputError, match="item House.own add up to 2000000000000"):
        carry(plan(*rich))


def test_a_part_whose_work_is_just_done_is_finished() -> None:
    """Eight of ten days are done: so is the part of eight days, and the next one has begun."""
    first = task("1", 10, progress=Progress(actual_start=START, remaining=2 * DAY))
    lead = Link("1", "2", lag=Lag(-2 * DAY))
    running = plan(first, task("2"), links=(lead,), data_date=date(2026, 9, 10), source="mspdi")
    carried = carry(running)
    assert carried.side.tasks[0].parts == ("T1", "T1.2")
    letters = [(card.activity, card.letter) for card in carried.deck.statuses]
    assert letters == [("T1", "S"), ("T1", "F"), ("T1.2", "S")]
    more = replace(first, progress=Progress(actual_start=START, remaining=2 * DAY + 60))
    not_yet = carry(replace(running, outline=(more, *running.outline[1:])), CarryOptions("days"))
    assert [card.letter for card in not_yet.deck.statuses] == ["S"]


def test_words_with_digits_keep_them() -> None:
    """In a code too long for a card, other words go first, however far back the digit is."""
    names = {
        "Rohbauabschnittsplanung1 Nord": "Rohbauabschnitts",
        "Foundation of turbine T12": "Founda-turbi-T12",
        "x" * 990 + " 7": "x" * 14 + "-7",
    }
    for name, code in names.items():
        assert shortened(name) == code
