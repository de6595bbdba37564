"""Tasks that are added and removed, and links that are written: the deck is that of an import."""

from dataclasses import replace
from datetime import timedelta
from decimal import Decimal
from itertools import product
from typing import Any

import pytest
from hypothesis import given, settings
from hypothesis import strategies as st
from plans import ALL_FEATURES, FIRST_DAY, Feature, plans
from test_two_calendars import site_plan

from examples import example_count
from pert_companion.analysis.passes import spans
from pert_companion.carry import CarryOptions, carry, logic_of
from pert_companion.desk.edits import Edit, edit_of, with_edits
from pert_companion.desk.projects import books_of
from pert_companion.desk.remaking import ties_of, with_logic
from pert_companion.desk.saving import read_files
from pert_companion.desk.views import Rows
from pert_companion.importing.month_end import Books
from pert_companion.model.calendar import Calendar
from pert_companion.model.errors import InputError
from pert_companion.model.fitting import fitted_to
from pert_companion.model.ledger import Ledger
from pert_companion.model.plan import Crash, Group, Lag, Link, LinkKind, Plan, Progress, Task
from running import EXAMPLES

DAY = 480
Outline = tuple[Task | Group, ...]
FOUR = tuple(Task(name, f"row {name}", name, 4 * DAY) for name in ("Dig", "Pour", "Walls", "Roof"))
KINDS = ("FS", "SS", "FF", "SF")


def books_of_plan(plan: Plan, unit: str = "auto") -> Books:
    """Returns what an import makes of a plan."""
    options = CarryOptions(unit)
    logic = logic_of(plan, options)
    dates = () if logic is None else (spans(plan.calendar, *logic),)
    carried = carry(plan, options, "plan.csv", *dates)
    return Books(carried.deck, carried.side, True, Ledger(), False)


def plan_of(*links: Link, tasks: Outline = FOUR) -> Plan:
    """Returns a plan of four tasks of 4 days."""
    return Plan("Chain", FIRST_DAY, Calendar(), tasks, links)


def link(before: str, after: str, kind: str = "FS", days: int = 0) -> Link:
    return Link(before, after, LinkKind(kind), Lag(days * DAY))


def edited(books: Books, *words: str) -> Books:
    return with_edits(books, [edit_of(word) for word in words])


def links_text(books: Books, code: str) -> str:
    """Returns the links of a task as the table has them."""
    row = Rows(books, {}).row(next(task for task in books.side.tasks if task.code == code))
    return str(row["links_text"])


@pytest.mark.parametrize(
    ("kind", "days"), [*product(KINDS, (0, 1, 2)), ("FS", -1), ("FS", -3), ("FF", -1), ("FF", -2)]
)
def test_each_kind_of_link_is_that_of_an_import(kind: str, days: int) -> None:
    """A link that is written is the link that the planner's file has, and can be taken back."""
    fixed = link("Dig", "Pour"), link("Pour", "Walls")
    before = books_of_plan(plan_of(*fixed))
    wanted = books_of_plan(plan_of(*fixed, link("Pour", "Roof", kind, days)))
    lag = f"{days:+d}d" if days else ""
    after = edited(before, f"Roof.links=Pour{kind}{lag}")
    assert (after.deck, after.side) == (wanted.deck, wanted.side)
    shown = f"Pour{kind}{lag}" if (kind, days) != ("FS", 0) else "Pour"
    assert links_text(after, "Roof") == shown
    assert edited(after, "Roof.links=").deck == before.deck


@pytest.mark.parametrize(
    ("value", "why"),
    [
        ("PourSS-1d", "no lead before a start"),
        ("Dig-9d", "says nothing"),
        ("PourFS+0.5d", "steps of 1 day"),
        ("PourFS+50%", "say the lag in days"),
        ("PourFS+2ed", "days of one calendar"),
        ("Roof", "after itself"),
        ("Cellar", "no task 'Cellar'"),
        ("PourFS+two", "no duration"),
    ],
)
def test_what_a_deck_cannot_hold_is_refused(value: str, why: str) -> None:
    books = books_of_plan(plan_of(link("Dig", "Pour")))
    with pytest.raises(InputError, match=f"^Roof: .*{why}"):
        edited(books, f"Roof.links={value}")


def test_links_in_a_circle_are_refused() -> None:
    books = books_of_plan(plan_of(link("Dig", "Pour"), link("Pour", "Walls")))
    with pytest.raises(InputError, match="in a circle: 'Dig', 'Pour', 'Walls'"):
        edited(books, "Dig.links=WallsSS+1d")


def test_links_name_tasks_by_row_too() -> None:
    """A planner knows the number of the row; the deck has the code."""
    tasks = tuple(Task(f"T{row}", "", f"Task {row}", DAY, row=row) for row in (1, 2, 3))
    books = edited(books_of_plan(plan_of(tasks=tasks)), "T3.links=1SS+2d; 2")
    assert links_text(books, "T3") == "T2, T1SS+2d"


@settings(max_examples=example_count(60))
@given(plans(ALL_FEATURES))
def test_an_unchanged_deck_is_made_again(plan: Plan) -> None:
    """The deck that is made of the ties of a deck is the same, and its side file."""
    try:
        before = books_of_plan(plan, "60")
    except InputError:
        return
    after = with_logic(before, before, ties_of(before).logic())
    assert after.deck == before.deck
    assert sorted(after.side.waits) == sorted(before.side.waits)
    side = replace(after.side, waits=before.side.waits)
    assert fitted_to(side, after.deck) == before.side


def test_a_new_task_is_that_of_an_import() -> None:
    """It takes a day, follows another one in the table and is in its group."""
    tasks: Outline = (Group("g", "", "Ground"), *(replace(each, parent="g") for each in FOUR))
    links = link("Dig", "Pour"), link("Pour", "Walls", "SS", 2)
    before = books_of_plan(plan_of(*links, tasks=tasks))
    new = Task("NEW", "", "New task", DAY, "g")
    wanted = books_of_plan(plan_of(*links, tasks=(*tasks[:3], new, *tasks[3:])))
    after = edited(before, "NEW.new=Pour")
    assert (after.deck, after.side) == (wanted.deck, wanted.side)
    more = edited(after, "NEW.name=Drain", "NEW.normal=3", "NEW.links=DigFF+1d", "Walls.links=NEW")
    drained = link("Dig", "Pour"), link("Dig", "NEW", "FF", 1), link("NEW", "Walls")
    drain = replace(new, name="Drain", minutes=3 * DAY)
    assert more.deck == books_of_plan(plan_of(*drained, tasks=(*tasks[:3], drain, *tasks[3:]))).deck
    assert edited(after, "NEW.remove=").deck == before.deck


@pytest.mark.parametrize("code", ["Dig", "dig", "_new", "a b", "seventeen-letters", ""])
def test_a_new_task_needs_a_code_of_its_own(code: str) -> None:
    with pytest.raises(InputError, match="a code of its own"):
        with_edits(books_of_plan(plan_of()), [Edit("new", "Pour", code)])


def test_a_task_is_removed_with_its_links_and_its_cost() -> None:
    """The deck is that of an import of the plan without the task."""
    tasks = tuple(replace(each, cost=Decimal(100)) for each in FOUR)
    links = link("Dig", "Pour", "SS", 1), link("Pour", "Walls", "FS", -2), link("Dig", "Roof")
    after = edited(books_of_plan(plan_of(*links, tasks=tasks)), "Pour.remove=")
    left = (tasks[0], *tasks[2:])
    wanted = books_of_plan(plan_of(link("Dig", "Roof"), tasks=left))
    assert (after.deck, after.side) == (wanted.deck, wanted.side)
    assert sum(account.budget for account in after.deck.accounts) == 300
    with pytest.raises(InputError, match="no task 'Pour'"):
        edited(after, "Pour.normal=3")


def test_new_cards_have_the_progress_of_their_task() -> None:
    """The start of a begun task, which a new link needs, began with it: as an import has it."""
    begun = Progress(Decimal(50), FIRST_DAY, remaining=2 * DAY)
    tasks = (replace(FOUR[0], progress=begun), *FOUR[1:])
    plan = replace(plan_of(tasks=tasks), data_date=FIRST_DAY + timedelta(days=1))
    after = edited(books_of_plan(plan), "Pour.links=DigSS+3d")
    wanted = books_of_plan(replace(plan, links=(link("Dig", "Pour", "SS", 3),)))
    assert "Dig.S" in {card.activity for card in after.deck.statuses}
    assert (after.deck, after.side) == (wanted.deck, wanted.side)


def test_the_last_task_stays() -> None:
    books = edited(books_of_plan(plan_of()), "Dig.remove=", "Pour.remove=", "Walls.remove=")
    with pytest.raises(InputError, match="a project has a task"):
        edited(books, "Roof.remove=")


def test_the_end_of_a_group_goes_with_its_last_task() -> None:
    """What waited for the group waits for nothing then."""
    tasks: Outline = (
        FOUR[0],
        Group("g", "", "Ground"),
        replace(FOUR[1], parent="g"),
        *FOUR[2:],
    )
    before = books_of_plan(plan_of(link("Dig", "Pour"), link("g", "Walls"), tasks=tasks))
    after = edited(before, "Pour.remove=")
    assert after.deck.afters == () and len(after.deck.tasks) == 3


def test_cards_that_a_person_wrote_stay_as_they_are() -> None:
    """Their order and their titles are kept; only the link that is written is new."""
    path = EXAMPLES / "tasks.csv"
    before = books_of(read_files(path), path)
    deck = replace(before.deck, afters=tuple(reversed(before.deck.afters)))
    after = edited(replace(before, deck=deck), "DIG.links=CLEAR, SURVEY").deck
    assert after.tasks == deck.tasks
    assert [each for each in after.afters if each in deck.afters] == [
        each for each in deck.afters if each in after.afters
    ]
    assert {each.before for each in after.afters if each.task == "DIG"} == {"CLEAR", "SURVEY"}


def test_links_of_a_network_are_in_its_deck() -> None:
    path = EXAMPLES / "shed.csv"
    with pytest.raises(InputError, match="links of a network are events"):
        edited(books_of(read_files(path), path), "A.remove=")


@pytest.mark.parametrize("uid", ["2", "4"])
def test_durations_of_a_task_with_its_own_calendar_are_those_of_an_import(uid: str) -> None:
    """Days of its own calendar become the days of the plan in which they are done."""
    plan = site_plan()
    before = books_of_plan(plan, "60")
    code = {task.uid: task.code for task in before.side.tasks}[uid]
    crash = Crash(16 * 60, cost=Decimal(1000 * int(uid) + 7 * 160))
    longer = _with_task(plan, uid, minutes=72 * 60)
    shorter = _with_task(longer, uid, crash=crash)
    after = edited(before, f"{code}.normal=9")
    assert after.deck == books_of_plan(longer, "60").deck
    after = edited(after, f"{code}.shortest=2", f"{code}.price=160")
    wanted = books_of_plan(shorter, "60")
    assert after.deck == wanted.deck
    row = Rows(after, {}).row(next(task for task in after.side.tasks if task.uid == uid))
    assert (row["normal"], row["shortest"], row["price"]) == ("9", "2", "160")
    with pytest.raises(InputError, match="above 1"):
        edited(after, f"{code}.normal=1")
    with pytest.raises(InputError, match="change its estimates in the planner"):
        edited(after, f"{code}.likely=1")


def test_other_calendars_follow_a_duration_of_the_plan() -> None:
    """A task of the plan's calendar that takes longer moves those after it to other days."""
    plan = site_plan()
    before = books_of_plan(plan, "60")
    code = {task.uid: task.code for task in before.side.tasks}["1"]
    after = edited(before, f"{code}.normal=8")
    assert after.deck == books_of_plan(_with_task(plan, "1", minutes=64 * 60), "60").deck


def _with_task(plan: Plan, uid: str, **values: Any) -> Plan:
    """Returns a plan with other values of a task."""
    outline = tuple(replace(each, **values) if each.uid == uid else each for each in plan.outline)
    return replace(plan, outline=outline)


LEFT_OUT = {
    Feature.LEADS,
    Feature.ELAPSED_LAGS,
    Feature.SHARE_LAGS,
    Feature.GROUP_LINKS,
    Feature.PROGRESS,
}
"""What a deck says by links of other tasks than the planner's file; and days that contradict."""
SOME = st.tuples(st.integers(0, 11), st.sampled_from(KINDS), st.integers(0, 4))


def _place(wanted: tuple[int, str, int]) -> int:
    return wanted[0]


@settings(max_examples=example_count(60))
@given(
    plans(ALL_FEATURES - LEFT_OUT),
    st.integers(0, 11),
    st.lists(SOME, max_size=3, unique_by=_place),
)
def test_links_of_a_task_are_those_of_an_import(
    plan: Plan, place: int, wanted: list[tuple[int, str, int]]
) -> None:
    """The deck with links that are written is that of the planner's file with these links."""
    tasks = list(plan.tasks())
    task = tasks[place % len(tasks)]
    before = [(tasks[at], kind, days) for at, kind, days in wanted if at < place % len(tasks)]
    others = tuple(each for each in plan.links if each.successor != task.uid)
    new = tuple(link(each.uid, task.uid, kind, days) for each, kind, days in before)
    try:
        books = books_of_plan(plan, "60")
        expected = books_of_plan(replace(plan, links=(*others, *new)), "60")
    except InputError:
        return
    if any(each.start_moment and each.finish_moment for each in books.side.tasks):
        return  # an import ties the start of such a task to its finish, and the tie stays
    codes = {each.uid: each.code for each in books.side.tasks}
    texts = [f"{codes[each.uid]}{kind}+{days}d" for each, kind, days in before]
    try:
        after = edited(books, f"{codes[task.uid]}.links={', '.join(texts)}")
    except InputError as error:
        assert "says nothing" in str(error)
        return
    assert set(after.deck.work) == set(expected.deck.work)
    assert after.deck == expected.deck
