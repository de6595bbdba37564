"""The move of a forecast end, divided among tasks: by hand, and on random pairs of states."""

from collections.abc import Mapping
from dataclasses import replace
from datetime import date, timedelta
from random import Random
from typing import TypeVar

from hypothesis import given, settings
from hypothesis import strategies as st

from examples import example_count
from pert_companion.analysis.end_moves import (
    EndMoves,
    EndState,
    Links,
    Work,
    end_moves,
    replace_along,
)
from pert_companion.analysis.forecast import finished_end
from pert_companion.model.cards import ActivityCard, StatusCard, TaskCard
from pert_companion.model.clock import Clock
from pert_companion.model.deck import Deck
from pert_companion.state.project import ProjectState
from pert_companion.state.remaining import State, remaining
from running import plan_of
from status_decks import FIRST_DAY, random_network, random_tasks, side_file_of

Card = TypeVar("Card", TaskCard, ActivityCard)
HEAD = "PROJECT,P,S,E,2026-03-02,1,,Plan\nASOF,{}\nWBS,W,,Plan\nWBS,X,W,Work\n"


def plan(as_of: str, tasks: str, links: str = "", statuses: str = "") -> ProjectState:
    """Returns a plan from words such as `A5 B10`, `A-B` for a link, and `A=02` or `A=02:05`.

    A task has the days that it lasts; a status has the days of March on which it began and ended.
    """
    lines = []
    for word in tasks.split():
        code, days = word[0], word[1:]
        lines.append(f"TASK,{code},X,{days},{days},{days},{days},{days},0,0,Task {code}")
    for word in links.split():
        before, task = word.split("-")
        lines.append(f"AFTER,{task},{before}")
    for word in statuses.split():
        code, days = word.split("=")
        for letter, day in zip("SF", days.split(":")):
            lines.append(f"STATUS,{code},{letter},2026-03-{day}")
    return plan_of(HEAD.format(as_of) + "\n".join([*lines, "END", ""]))


def length_of(deck: Deck) -> int:
    """Returns the longest walk through a deck, by going over all cards until nothing grows."""
    before: dict[str, list[str]] = {}
    lasting = {card.code: card.normal for card in deck.work}
    for link in deck.afters:
        before.setdefault(link.task, []).append(link.before)
    for card in deck.activities:
        ending = [each.code for each in deck.activities if each.ends == card.begins]
        before[card.code] = ending
    ends = dict(lasting)
    has_grown = True
    while has_grown:
        has_grown = False
        for code, units in lasting.items():
            end = units + max((ends[each] for each in before.get(code, [])), default=0)
            if end > ends[code]:
                ends[code] = end
                has_grown = True
    return max(ends.values())


def end_state(state: ProjectState) -> EndState:
    """Returns a state with its forecast end, as `forecast` has it."""
    rest = state.remaining
    if all(left.state is State.FINISHED for left in rest.left):
        return EndState(state, finished_end(state))
    end = Clock(rest.side).end(length_of(rest.deck))
    assert end is not None
    return EndState(state, end)


def moves_of(old: ProjectState, new: ProjectState) -> EndMoves:
    """Returns the moves between two plans, which add up to that of the end."""
    before, after = end_state(old), end_state(new)
    found = end_moves(before, after)
    assert found.days == new.side.calendar.count_days(before.end, after.end)
    assert all(move.days for move in found.tasks)
    return found


def by_code(moves: EndMoves) -> dict[str, int]:
    """Returns the days of each task that moved the end, by its code, with `-` if it is gone."""
    found = {}
    for move in moves.tasks:
        code = f"-{move.old.code}" if move.new is None and move.old is not None else ""
        code = move.new.code if move.new is not None else code
        found[code] = move.days
    return found


CHAIN = "A5 B10 C10"
IN_A_ROW = "A-B B-C"


def test_a_task_without_progress_costs_the_days_that_passed() -> None:
    old = plan("2026-03-02", CHAIN, IN_A_ROW)
    new = plan("2026-03-09", CHAIN, IN_A_ROW)
    assert by_code(moves_of(old, new)) == {"A": 7}
    assert moves_of(old, new).others == 0


def test_the_late_finish_of_one_task_is_not_the_delay_of_the_next() -> None:
    """A ends on the 10th instead of the 6th; B begins two days later than it could."""
    old = plan("2026-03-02", CHAIN, IN_A_ROW)
    new = plan("2026-03-16", CHAIN, IN_A_ROW, "A=02:11 B=13")
    assert by_code(moves_of(old, new)) == {"A": 4, "B": 2}


def test_days_that_are_won_and_lost_are_each_shown() -> None:
    """A ends three days early; B is not begun in time, and C is now said to last a day more."""
    old = plan("2026-03-02", CHAIN, IN_A_ROW)
    new = plan("2026-03-09", "A5 B10 C11", IN_A_ROW, "A=02:04")
    assert by_code(moves_of(old, new)) == {"B": 5, "A": -3, "C": 1}


def test_only_tasks_that_drive_the_end_move_it() -> None:
    """B has two days of slack and lasts four days more; A drives with five days more."""
    old = plan("2026-03-02", "B8 A10 C3", "A-C B-C")
    new = plan("2026-03-02", "B12 A15 C3", "A-C B-C")
    assert by_code(moves_of(old, new)) == {"A": 5}


def test_another_path_drives_once_the_first_is_shorter() -> None:
    """A and B last ten days less; the end is that of D, which did not change."""
    old = plan("2026-03-02", "A30 B29 D21")
    new = plan("2026-03-02", "A20 B19 D21")
    assert by_code(moves_of(old, new)) == {"B": -8, "A": -1}


def test_a_task_that_is_renamed_moves_nothing() -> None:
    old = plan("2026-03-02", CHAIN, IN_A_ROW)
    new = plan("2026-03-02", CHAIN.replace("B", "X"), "A-X X-C")
    tasks = [replace(task, uid="B") if task.code == "X" else task for task in new.side.tasks]
    new = replace(new, side=replace(new.side, tasks=tuple(tasks)))
    assert moves_of(old, new) == EndMoves((), 0)


def test_dropped_and_new_tasks() -> None:
    old = plan("2026-03-02", CHAIN, IN_A_ROW)
    assert by_code(moves_of(old, plan("2026-03-02", "A5 C10", "A-C"))) == {"-B": -10}
    assert by_code(moves_of(plan("2026-03-02", "A5 C10", "A-C"), old)) == {"B": 10}
    found = moves_of(old, plan("2026-03-02", "A5 C10"))
    assert (by_code(found), found.others) == ({"-B": -10}, -5)


def test_all_tasks_are_new() -> None:
    old = plan("2026-03-02", CHAIN, IN_A_ROW)
    found = moves_of(old, plan("2026-03-04", "K4 L9 M2", "K-L"))
    assert by_code(found) == {"-B": -10, "-C": -10, "L": 9, "K": 6, "-A": -5}
    assert found.others == 0


def test_an_end_that_is_earlier_now() -> None:
    old = plan("2026-03-02", CHAIN, IN_A_ROW)
    new = plan("2026-03-09", "A5 B4 C9", IN_A_ROW, "A=02:06 B=06")
    assert by_code(moves_of(old, new)) == {"B": -6, "C": -1, "A": -1}


def test_a_project_that_has_ended() -> None:
    old = plan("2026-03-02", CHAIN, IN_A_ROW)
    new = plan("2026-03-30", CHAIN, IN_A_ROW, "A=02:07 B=07:18 C=18:26")
    assert by_code(moves_of(old, new)) == {"C": -2, "B": 1}


def test_links_that_changed_move_the_end_together() -> None:
    old = plan("2026-03-02", CHAIN, IN_A_ROW)
    found = moves_of(old, plan("2026-03-02", CHAIN, "A-B A-C"))
    assert found == EndMoves((), -10)


def test_the_calendar_is_no_task() -> None:
    old = plan("2026-03-02", CHAIN, IN_A_ROW)
    calendar = replace(old.side.calendar, week=old.side.calendar.week[:5] + ((), ()))
    new = replace(old, side=replace(old.side, calendar=calendar))
    found = moves_of(old, new)
    assert found.tasks == ()
    assert found.others == 25 - calendar.count_days(date(2026, 3, 2), date(2026, 3, 27))


def test_a_task_that_is_split_otherwise_keeps_its_days() -> None:
    """B is in two parts now, as a start of its half lets D begin; it lasts two days more."""
    old = plan("2026-03-02", "A5 B10 C10 D1", "A-B B-C A-D")
    new = plan("2026-03-02", "A5 B6 H6 C10 D1", "A-B B-H H-C A-D")
    tasks = [task for task in new.side.tasks if task.code != "H"]
    parts = [replace(t, parts=("B", "H")) if t.code == "B" else t for t in tasks]
    new = replace(new, side=replace(new.side, tasks=tuple(parts)))
    assert by_code(moves_of(old, new)) == {"B": 2}
    assert by_code(moves_of(new, old)) == {"B": -2}


def test_moments_move_with_their_task() -> None:
    """C starts with B and ends after it: the moments at both ends of B are cards of B."""
    words = "A5 s0 B10 f0 C12", "A-s s-B B-f s-C"
    old, new = plan("2026-03-02", *words), plan("2026-03-09", *words, "A=02:09 s=09:09 B=09")
    states = []
    for each in (old, new):
        tasks = [task for task in each.side.tasks if task.code not in "sf"]
        held = [
            replace(task, start_moment="s", finish_moment="f") if task.code == "B" else task
            for task in tasks
        ]
        states.append(replace(each, side=replace(each.side, tasks=tuple(held))))
    assert by_code(moves_of(states[0], states[1])) == {"A": 2}


def plan_at(deck: Deck, seed: int | None = None) -> ProjectState:
    """Returns the plan of a deck, with a random side file if there is a seed for it."""
    found = plan_of(deck.to_bytes().decode())
    if seed is None:
        return found
    return replace(found, side=side_file_of(Random(seed), deck))


def later(random: Random, deck: Deck) -> Deck:
    """Returns a deck as of a later day, with other statuses and durations and the same links."""
    as_of = deck.as_of_day + timedelta(days=random.randint(0, 9))
    statuses = []
    for card in deck.work:
        if random.random() < 0.5:
            continue
        began = random.randint(0, (as_of - FIRST_DAY).days)
        statuses.append(StatusCard(card.code, "S", FIRST_DAY + timedelta(days=began)))
        if random.random() < 0.6:
            ended = random.randint(began, (as_of - FIRST_DAY).days)
            statuses.append(StatusCard(card.code, "F", FIRST_DAY + timedelta(days=ended)))
    return replace(
        deck,
        as_of=as_of,
        statuses=tuple(statuses),
        pieces=(),
        tasks=tuple(lasting(random, card) for card in deck.tasks),
        activities=tuple(lasting(random, card) for card in deck.activities),
    )


def lasting(random: Random, card: Card) -> Card:
    """Returns a card that lasts longer or shorter, or as long as it did."""
    normal = max(0, card.normal + random.choice((0, 0, -3, 1, 4)))
    return replace(card, normal=normal, crash=min(card.crash, normal))


def is_over_at_once(plan_now: ProjectState) -> bool:
    """Says whether nothing is left of a plan but milestones: its end is a morning, no evening."""
    rest = remaining(plan_now.deck, plan_now.side)
    is_done = all(left.state is State.FINISHED for left in rest.left)
    return not is_done and length_of(rest.deck) == 0


@settings(max_examples=example_count(80))
@given(seed=st.integers(0, 2**32), is_of_tasks=st.booleans())
def test_other_work_with_the_same_links_is_moved_by_tasks_alone(
    seed: int, is_of_tasks: bool
) -> None:
    random = Random(seed)
    deck = random_tasks(random) if is_of_tasks else random_network(random)
    old, new = plan_at(deck), plan_at(later(random, deck))
    found = moves_of(old, new)
    dummies = {card.code for card in deck.activities if card.is_dummy}
    if not dummies and not is_over_at_once(old) and not is_over_at_once(new):
        assert found.others == 0


@settings(max_examples=example_count(80))
@given(seed=st.integers(0, 2**32))
def test_the_moves_of_any_two_states_add_up(seed: int) -> None:
    """Tasks come and go, are split, wait for others, and are counted by another calendar."""
    random = Random(seed)
    decks = [random_tasks(random), random_tasks(random)]
    decks.sort(key=lambda deck: deck.as_of_day)
    seeds = random.choice(((None, None), (seed, None), (seed, seed), (seed, seed + 1)))
    old, new = (plan_at(deck, number) for deck, number in zip(decks, seeds))
    if old.side.tasks and new.side.tasks:
        moves_of(old, new)


@settings(max_examples=example_count(60))
@given(seed=st.integers(0, 2**32), has_side_file=st.booleans())
def test_a_state_does_not_differ_from_itself(seed: int, has_side_file: bool) -> None:
    deck = random_tasks(Random(seed))
    same = plan_at(deck, seed if has_side_file else None)
    if same.side.tasks:
        found = moves_of(same, same)
        assert found.tasks == ()
        assert found.others == 0


def ends_by_hand(links: Links, works: Mapping[str, Work]) -> int:
    """Returns the latest finish of a network, from one card back to those before it."""

    def finish(card: str) -> int:
        begin = max([finish(before) for before in links[card]], default=0)
        return max(begin, works[card].ready) + works[card].minutes

    return max(finish(card) for card in links)


@settings(max_examples=example_count(100))
@given(seed=st.integers(0, 2**32))
def test_each_step_is_a_forecast_and_the_last_one_has_all_newer_work(seed: int) -> None:
    random = Random(seed)
    cards = [f"C{at}" for at in range(random.randint(1, 9))]
    links = {c: random.sample(cards[:at], random.randint(0, at)) for at, c in enumerate(cards)}
    works = {card: Work(random.randint(0, 9), random.randint(0, 9)) for card in cards}
    new: dict[str, dict[str, Work]] = {}
    for card in cards:
        task = new.setdefault(random.choice("KLMNO"), {})
        task[card] = works[card] if random.random() < 0.3 else Work(random.randint(0, 15), 3)
    current = dict(works)
    end = ends_by_hand(links, works)
    for task_code, end in replace_along(links, works, new):
        current.update(new[task_code])
        assert end == ends_by_hand(links, current)
    for each in new.values():
        current.update(each)
    assert end == ends_by_hand(links, current)
