"""Leads: of many predecessors, of groups, and inside of groups that are linked themselves."""

from collections.abc import Mapping
from datetime import date
from pathlib import Path

from hypothesis import assume, given, settings

from cpm import dates_of
from plans import linked_groups
from pert_companion import readers
from pert_companion.carry import Carried, carry, moments
from pert_companion.carry.model import End, Moment, Node
from pert_companion.model.calendar import Calendar
from pert_companion.model.deck import Deck
from pert_companion.model.plan import Group, Lag, Link, LinkKind, Plan, Task
from pert_companion.model.source import Source
from pert_companion.readers.base import ReaderOptions
from timing import within

CASES = Path(__file__).resolve().parent / "cases" / "leads"
DAY = 480
MONDAY = date(2026, 3, 2)


def early_of_cards(deck: Deck) -> dict[str, int]:
    """Returns the early start of each card of a deck of tasks, by passes over its links."""
    normal = {card.code: card.normal for card in deck.tasks}
    early = dict.fromkeys(normal, 0)
    for _ in range(len(early) + 1):
        before = dict(early)
        for link in deck.afters:
            early[link.task] = max(early[link.task], early[link.before] + normal[link.before])
        if before == early:
            return early
    raise AssertionError("a circle")


def finishes_of(carried: Carried) -> dict[str, int]:
    """Returns the early finish of each real task in units, by its uid."""
    early = early_of_cards(carried.deck)
    normal = {card.code: card.normal for card in carried.deck.tasks}
    found = {}
    for task in carried.side.tasks:
        last = task.finish_moment or task.parts[-1]
        found[task.uid] = early[last] + normal[last]
    return found


def wanted_finishes(plan: Plan, unit_minutes: int) -> Mapping[str, int]:
    """Returns the early finishes of the tests' own method in units."""
    origin = plan.calendar.position(plan.calendar.morning(plan.start))
    return {uid: (each.finish - origin) // unit_minutes for uid, each in dates_of(plan).items()}


def plan_of(name: str) -> Plan:
    """Returns the plan of a case, of which nothing is lost."""
    path = CASES / name
    reading = readers.read(Source(path, path.read_bytes()), ReaderOptions(start=MONDAY))
    assert reading.losses == ()
    return reading.plan


def check_case(name: str) -> None:
    """Imports a case without a loss, in seconds, to the dates of the tests' own method."""
    plan = plan_of(name)
    with within(10):
        carried = carry(plan)
    assert carried.losses == ()
    assert finishes_of(carried) == wanted_finishes(plan, carried.side.unit_minutes)


def test_a_task_after_301_others_with_leads() -> None:
    """Each lead ends in its own predecessor: none reaches back over a task."""
    check_case("leads301.csv")


def test_a_lead_after_a_group_of_many_tasks() -> None:
    """The lead is before the end of each of the group's tasks."""
    check_case("group.csv")


def test_a_start_of_a_group_that_no_deck_has_is_one_line() -> None:
    """Of a group of many first tasks a deck cannot say the earliest start."""
    inside = [Task(f"g{n}", f"row {n}", f"Task {n}", 5 * DAY, "g") for n in range(400)]
    last = Task("9", "row 9", "After", DAY)
    outline: tuple[Task | Group, ...] = (Group("g", "row g", "Group"), *inside, last)
    link = Link("g", "9", LinkKind.START_START, Lag(-DAY), "row 9", "gSS-1d")
    carried = carry(Plan("P", MONDAY, Calendar(), outline, (link,)))
    (loss,) = carried.losses
    assert loss.why == "it ties the start of a group, which is not that of one task"


def group_plan(first: int, second: int, lead: int, before: int = 10) -> Plan:
    """Returns a group of two tasks with a lead between them, a task before it and one after."""
    outline = (
        Task("x", "row x", "Before", before * DAY),
        Group("g", "row g", "Group"),
        Task("a", "row a", "First", first * DAY, "g"),
        Task("b", "row b", "Second", second * DAY, "g"),
        Task("y", "row y", "After", DAY),
    )
    links = (Link("a", "b", lag=Lag(-lead * DAY)), Link("x", "g"), Link("g", "y"))
    return Plan("P", MONDAY, Calendar(), outline, links)


def test_a_task_with_a_lead_may_be_the_first_of_its_group() -> None:
    """A lead longer than its predecessor lets the second begin first, but not before the group."""
    carried = carry(group_plan(first=3, second=3, lead=5))
    assert finishes_of(carried) == {"x": 10, "a": 13, "b": 13, "y": 14}


def test_a_task_before_one_with_a_lead_may_be_the_last_of_its_group() -> None:
    """The second may end first: what comes after the group waits for both."""
    assert finishes_of(carry(group_plan(first=10, second=2, lead=9)))["y"] == 21


@settings(max_examples=200)
@given(plan=linked_groups())
def test_links_of_groups_with_leads_inside(plan: Plan) -> None:
    """Every task ends when a plain CPM over all links says so."""
    carried = carry(plan)
    assume(not any(loss.field == "link" for loss in carried.losses))
    assert finishes_of(carried) == wanted_finishes(plan, carried.side.unit_minutes)


def test_leads_that_together_reach_back_over_many_tasks() -> None:
    """Two leads of 200 tasks each are carried over one by one: together they pass 400."""
    tasks = [Task("0", "row 0", "Wait", 300 * DAY)]
    links = []
    for name in ("a", "b"):
        before = "0"
        for number in range(200):
            uid = f"{name}{number}"
            tasks.append(Task(uid, f"row {uid}", f"Task {uid}", DAY))
            links.append(Link(before, uid))
            before = uid
        links.append(Link(before, "9", lag=Lag(-190 * DAY)))
    tasks.append(Task("9", "row 9", "After", DAY))
    plan = Plan("P", MONDAY, Calendar(), tuple(tasks), tuple(links))
    carried = carry(plan)
    assert carried.losses == ()
    assert finishes_of(carried) == wanted_finishes(plan, carried.side.unit_minutes)


def test_the_latest_moment_of_each_end_counts() -> None:
    """A cut nearer to the finish is later; so is a longer lag after an end."""
    node = Node("A", "W", "A", "row 1", DAY)
    cuts = [Moment(node, End.CUT, units) for units in (3, 1, 2)]
    waits = [Moment(node, End.FINISH, units) for units in (2, 5, 4)]
    found = moments.longest([*cuts, *waits])
    assert found == [Moment(node, End.CUT, 1), Moment(node, End.FINISH, 5)]
