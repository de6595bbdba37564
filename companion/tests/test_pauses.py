"""Tasks that pause are found exactly if no schedule in one piece has the length."""

from collections.abc import Iterable, Iterator
from dataclasses import replace
from datetime import date
from itertools import cycle

import pytest
from cpm import dates_of
from hypothesis import assume, given
from hypothesis import strategies as st
from plans import Feature, plans
from test_carry import DATES, PROGRAMS, has_exact_links, property_settings

from pert_companion.carry import carry
from pert_companion.importing.pauses import CurvePauses, check_curve, pausing_tasks
from pert_companion.model.amounts import Measure
from pert_companion.model.calendar import Calendar
from pert_companion.model.cards import AfterCard, ItemCard, ProjectCard, TaskCard
from pert_companion.model.deck import Deck
from pert_companion.model.plan import Link, LinkKind, Plan
from pert_companion.model.sidefile import SideFile, SideTask
from pert_companion.state.project import ProjectState


def card(code: str, normal: int, crash: int | None = None, slope: int = 0) -> TaskCard:
    """Returns a TASK card."""
    least = normal if crash is None else crash
    return TaskCard(code, "W.1", normal, normal, normal, normal, least, 0, slope, code)


def side_task(
    code: str, start_moment: str | None = None, finish_moment: str | None = None
) -> SideTask:
    """Returns a real task with one part."""
    return SideTask(code, code, None, code, (), (code,), start_moment, finish_moment)


DAYS = Measure(480, 480)
DECK = Deck(
    project=ProjectCard("W", "start", "end", date(2026, 9, 1)),
    items=(ItemCard("W", ""), ItemCard("W.1", "W")),
    tasks=(
        card("PREP", 4, 1, 1),
        card("STEEL", 14),
        card("DECK.S", 0),
        card("DECK", 10, 9, 100),
        card("DECK.F", 0),
        card("SERVE", 20),
    ),
    afters=(
        AfterCard("DECK.S", "PREP"),
        AfterCard("DECK", "DECK.S"),
        AfterCard("DECK.F", "DECK"),
        AfterCard("DECK.F", "STEEL"),
        AfterCard("SERVE", "DECK.S"),
    ),
)
"""Services begin with the decking, which ends no earlier than the steel: a deck lets it pause."""

SIDE = SideFile(
    deck_sha256="",
    deck_name="",
    start=date(2026, 9, 1),
    calendar=Calendar(),
    unit_minutes=480,
    tasks=(
        side_task("PREP"),
        side_task("STEEL"),
        side_task("DECK", start_moment="DECK.S", finish_moment="DECK.F"),
        side_task("SERVE"),
    ),
)


def test_the_least_length_in_one_piece_is_found() -> None:
    """The curve goes to 21, in one piece 24 is the least, and the decking is named."""
    found = check_curve(ProjectState(PROGRAMS, DECK, SIDE).plan)
    assert found.least == 24
    assert [entry.length for entry in found.pausing] == [21]
    assert [task.code for task in found.pausing[0].tasks] == ["DECK"]
    assert found.line(DAYS) == (
        "24 days is the least length in one piece: at shorter lengths of the curve these tasks"
        " pause: 'DECK'"
    )


def test_a_task_that_just_fits_does_not_pause() -> None:
    """In 21 days the railing begins on day 1, lasts 13 and may end on day 14, as the steel does."""
    house = decking("1", "14", "9", "20")
    links = [("RAIL.S", "PREP"), ("RAIL", "RAIL.S"), ("RAIL.F", "RAIL"), ("RAIL.F", "STEEL")]
    afters = [AfterCard(*link) for link in (*links, ("SERVE", "RAIL.S"))]
    railing = (card("RAIL.S", 0), card("RAIL", 13), card("RAIL.F", 0))
    deck = replace(house, tasks=house.tasks + railing, afters=(*house.afters, *afters))
    side = replace(SIDE, tasks=(*SIDE.tasks, side_task("RAIL", "RAIL.S", "RAIL.F")))
    durations = {each.code: each.normal for each in deck.tasks}
    assert [task.code for task in pausing_tasks(deck, side, durations, 21)] == ["DECK"]


def test_a_task_that_can_begin_later_does_not_pause() -> None:
    """The decking may begin on day 4 of 21, in one piece to day 14; of 20 it has to pause."""
    deck = decking("1", "14", "10", "17")
    durations = {each.code: each.normal for each in deck.tasks}
    assert pausing_tasks(deck, SIDE, durations, 21) == ()
    assert [task.code for task in pausing_tasks(deck, SIDE, durations, 20)] == ["DECK"]


def decking(prep: str, steel: str, deck: str, serve: str) -> Deck:
    """Returns the deck with other durations: `5/2@3` can take 2, at 3 a unit."""
    words = {"PREP": prep, "STEEL": steel, "DECK": deck, "SERVE": serve}
    tasks = []
    for each in DECK.tasks:
        if each.code in words:
            lasting, _, slope = words[each.code].partition("@")
            normal, _, crash = lasting.partition("/")
            each = card(each.code, int(normal), int(crash or normal), int(slope or 0))
        tasks.append(each)
    return replace(DECK, tasks=tuple(tasks))


@pytest.mark.parametrize(
    "deck, least, pausing",
    [
        (decking("4/1@1", "14", "10/9@100", "20"), 24, [21]),
        (decking("4/1@1", "20", "10/9@100", "20"), 24, [24, 21]),
        (decking("4/1@1", "14", "10/9@100", "20/17@5"), 24, [21, 18]),
        (decking("6/1@1", "14", "10/9@100", "20/17@5"), 24, [21, 18]),
        (decking("4/1@9", "14", "10/9@1", "20/15@5"), 19, [16]),
        (decking("4/1@1", "9", "10/9@100", "20/17@5"), 18, []),
        (decking("4", "20", "10", "20"), 24, [24]),
    ],
)
def test_breakpoints_with_a_pause_and_the_least_length_without(
    deck: Deck, least: int, pausing: list[int]
) -> None:
    """Each length of the curve by itself says the same."""
    work = ProjectState(PROGRAMS, deck, SIDE).plan
    found = check_curve(work)
    assert (found.least, [entry.length for entry in found.pausing]) == (least, pausing)
    apart = []
    for length in range(work.shortest, work.longest + 1):
        if pausing_tasks(deck, SIDE, work.point(length).durations, length):
            apart.append(length)
    assert set(pausing) == {point.length for point in work.curve} & set(apart)
    assert least == (min(max(apart) + 1, work.longest) if apart else work.shortest)


def test_plans_that_cannot_pause_are_not_asked_about() -> None:
    """Without a finish that waits for others, or if no schedule needs it, nothing pauses."""
    plain = replace(SIDE, tasks=tuple(side_task(task.code) for task in DECK.tasks))
    assert check_curve(ProjectState(PROGRAMS, DECK, plain).plan) == CurvePauses(21, ())
    fixed = replace(DECK, tasks=tuple(replace(task, crash=task.normal) for task in DECK.tasks))
    assert check_curve(ProjectState(PROGRAMS, fixed, SIDE).plan) == CurvePauses(24, ())
    assert check_curve(ProjectState(PROGRAMS, fixed, SIDE).plan).line(DAYS) == ""
    normal = {task.code: task.normal for task in DECK.tasks}
    assert not pausing_tasks(DECK, SIDE, normal, 24)
    assert pausing_tasks(DECK, SIDE, normal, 23)


def test_tasks_that_wait_for_each_other_pause() -> None:
    """Two tasks that each end after the other's start and work are in no schedule in one piece."""
    tasks = (card("A", 2), card("A.S", 0), card("A.F", 0), card("B", 5), card("B.S", 0))
    afters = (
        AfterCard("A", "A.S"),
        AfterCard("A.F", "A"),
        AfterCard("B", "B.S"),
        AfterCard("B.S", "A.S"),
        AfterCard("A.F", "B"),
    )
    deck = replace(DECK, tasks=tasks, afters=afters)
    both = (
        side_task("A", start_moment="A.S", finish_moment="A.F"),
        side_task("B", start_moment="B.S"),
    )
    durations = {task.code: task.normal for task in tasks}
    side = replace(SIDE, tasks=both)
    assert [task.code for task in pausing_tasks(deck, side, durations, 5)] == ["A"]


def card_length(deck: Deck, durations: dict[str, int]) -> int:
    """Returns the length of the deck's cards with these durations, pauses allowed."""
    ends = dict.fromkeys(durations, 0)
    for _ in durations:
        for task in deck.tasks:
            before = [ends[after.before] for after in deck.afters if after.task == task.code]
            ends[task.code] = max([0, *before]) + durations[task.code]
    return max(ends.values())


def finish_to_finish(links: Iterable[Link]) -> Iterator[Link]:
    """Yields the links, every second one from finish to finish and the others start to start."""
    kinds = cycle((LinkKind.FINISH_FINISH, LinkKind.START_START))
    for link, kind in zip(links, kinds):
        yield replace(link, kind=kind)


@given(st.data(), plans(DATES - {Feature.SHARE_LAGS}))
@property_settings()
def test_no_task_pauses_exactly_if_one_piece_is_as_short(data: st.DataObject, plan: Plan) -> None:
    """A plain CPM over tasks in one piece agrees at any durations."""
    plan = replace(plan, links=tuple(finish_to_finish(plan.links)))
    carried = carry(plan)
    assume(has_exact_links(carried))
    durations = {}
    for each in carried.deck.tasks:
        durations[each.code] = data.draw(st.integers(each.crash, each.normal))
    unit = carried.side.unit_minutes
    minutes = {}
    for task in carried.side.tasks:
        minutes[task.uid] = sum(durations[part] for part in task.parts) * unit
    origin = plan.calendar.position(plan.calendar.morning(plan.start))
    finishes = [dates.finish - origin for dates in dates_of(plan, minutes).values()]
    length = card_length(carried.deck, durations)
    pausing = pausing_tasks(carried.deck, carried.side, durations, length)
    assert bool(pausing) == (max(finishes) > length * unit)
