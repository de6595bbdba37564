"""What follows the chosen length: the bridge, dates by several calendars, slack by latest dates."""

from collections.abc import Iterator
from dataclasses import replace
from datetime import date
from decimal import Decimal
from pathlib import Path

import pytest

from page.browser import CHROMIUM, Browser, Page
from page.reports import day, moves, number, open_drawn, plan_without_status, redrawn, write_page
from page.certificates import TERMS
from pert_companion.analysis.scheduling import schedule_at
from pert_companion.carry import carry
from pert_companion.model.calendar import Calendar
from pert_companion.model.cards import AfterCard
from pert_companion.model.fitting import fitted_to
from pert_companion.model.plan import Constraint, ConstraintKind, Crash, Link, LinkKind, Plan, Task
from pert_companion.model.sidefile import to_json
from test_pauses import SIDE, card, decking, side_task
from test_two_calendars import site_plan

pytestmark = pytest.mark.skipif(CHROMIUM is None, reason="chromium is missing")


@pytest.fixture(name="browser", scope="module")
def _browser() -> Iterator[Browser]:
    with Browser() as started:
        yield started


def write_plan(folder: Path, plan: Plan, directed: int | None = None) -> Path:
    """Writes the deck of a plan with its side file, and returns the deck's path."""
    carried = carry(plan)
    deck = replace(carried.deck, project=replace(carried.deck.project, directed=directed))
    (folder / "plan.csv").write_bytes(deck.to_bytes())
    (folder / "plan.json").write_bytes(to_json(carried.side))
    return folder / "plan.csv"


def bridge_of(page: Page) -> list[int]:
    """Returns the amounts of the bridge in the order of its rows."""
    script = "[...document.querySelectorAll('table.bridge td')].map((it) => it.textContent)"
    texts: list[str] = page.run(script)
    return [number(text.replace("+", "")) for text in texts]


def test_the_bridge_follows_the_chosen_length(browser: Browser, tmp_path: Path) -> None:
    """At 27 days the work costs 13,690 - 12,600 more, the time 27 * 90 less 3 * 40."""
    deck = plan_without_status().replace(b"\nEND\n", b"\n" + TERMS + b"END\n")
    (tmp_path / "deck.csv").write_bytes(deck)
    write_page(tmp_path / "deck.csv", tmp_path / "page.html")
    page = open_drawn(browser, tmp_path / "page.html")
    assert bridge_of(page) == [12600, 0, 1000, 13600, 590, 2700, 16890]
    moves(page, range(27, 28))
    assert bridge_of(page) == [12600, 0, 1000, 13600, 1090, 2310, 17000]


def test_the_reserve_is_the_last_line_of_the_bridge(browser: Browser, tmp_path: Path) -> None:
    """Of 200 in reserve, 50 went to a package; 150 more at each length."""
    deck = plan_without_status().replace(b"\nEND\n", b"\n" + TERMS + b"END\n")
    (tmp_path / "deck.csv").write_bytes(deck)
    (tmp_path / "packages.csv").write_text("item,technique,budget\nMR,reserve,200\n")
    (tmp_path / "changes.csv").write_text(
        "date,from,to,amount,reason,approved\n2024-01-10,reserve,1.4,50,Permits,Ada\n"
    )
    write_page(tmp_path / "deck.csv", tmp_path / "page.html")
    page = open_drawn(browser, tmp_path / "page.html")
    assert bridge_of(page) == [12600, 0, 1000, 13600, 590, 2700, 16890, 150, 17040]
    moves(page, range(27, 28))
    assert bridge_of(page) == [12600, 0, 1000, 13600, 1090, 2310, 17000, 150, 17150]


def test_dates_by_several_calendars_are_those_of_the_schedule(
    browser: Browser, tmp_path: Path
) -> None:
    """The script counts in units of one calendar, so the page holds the dates of the others."""
    crash = Crash(60 * 60, slope=Decimal(425))
    deck = write_plan(tmp_path, site_plan(t2=crash))
    gathered = write_page(deck, tmp_path / "page.html")
    page = open_drawn(browser, tmp_path / "page.html")
    assert redrawn(page, tmp_path / "page.html") == []
    work = gathered.state.rest
    lengths = range(work.shortest, work.longest + 1)
    assert len(lengths) > 10
    for length, shown in zip(lengths, moves(page, lengths), strict=True):
        for place, task in enumerate(schedule_at(work, length).tasks):
            _, start, finish, _ = shown["rows"][f"t{place}"]
            assert (day(start), day(finish)) == (task.first_day, task.last_day), (length, place)
    assert page.run("document.getElementById('out-counted').hidden")


def test_slack_goes_by_latest_dates_and_the_contract(browser: Browser, tmp_path: Path) -> None:
    """B has to end on Friday and the project after 9 days: at 12 days both are broken.

    A of 4 days, then B of 4 to 2 and C of 4; D of 3 beside B. B ends on Wednesday of week 2, and by
    its constraint has a slack of -3; C has -3 by the contract, and D, which ends a day before B
    does, -2.
    """
    no_later = Constraint(ConstraintKind.FINISH_NO_LATER, date(2026, 9, 4))
    tasks = (
        Task("A", "A", "A", 4 * 480),
        Task("B", "B", "B", 4 * 480, crash=Crash(2 * 480, slope=Decimal(10)), constraint=no_later),
        Task("C", "C", "C", 4 * 480),
        Task("D", "D", "D", 3 * 480),
    )
    ends = (("A", "B"), ("B", "C"), ("A", "D"), ("D", "C"))
    links = tuple(Link(before, after, LinkKind.FINISH_START) for before, after in ends)
    plan = Plan("P", date(2026, 8, 31), Calendar(), tasks, links)
    gathered = write_page(write_plan(tmp_path, plan, directed=9), tmp_path / "page.html")
    assert gathered.broken == (
        "B finishes on 2026-09-09, 3 days after 2026-09-04 (finish no later than)",
    )
    page = open_drawn(browser, tmp_path / "page.html")
    assert redrawn(page, tmp_path / "page.html") == []
    found = {}
    for length, shown in zip((11, 12), moves(page, range(11, 13)), strict=True):
        found[length] = [number(shown["rows"][f"t{place}"][3]) for place in range(4)]
        schedule = schedule_at(gathered.state.rest, length)
        assert found[length] == [task.total_float_minutes // 480 for task in schedule.tasks]
    assert found[12] == [-3, -3, -3, -2]


def test_slack_goes_by_a_finish_that_waits(browser: Browser, tmp_path: Path) -> None:
    """The decking may begin late, but it ends with the steel, and has the slack of its end.

    It begins after a day, lasts 10 and ends no earlier than the steel on day 14. The services of 17
    begin with it, so that of 21 days it may begin on day 4; but the roof of 6 comes after its end,
    which may be on day 15: one day of slack, and one more for each day that the project may take.
    """
    house = decking("1", "14", "10/9@100", "17")
    tasks = (*house.tasks, card("LONG", 23, 21, 10), card("ROOF", 6))
    deck = replace(house, tasks=tasks, afters=(*house.afters, AfterCard("ROOF", "DECK.F")))
    normal = {each.code: each.normal for each in deck.tasks}
    named = (*SIDE.tasks, side_task("LONG"), side_task("ROOF"))
    entries = tuple(replace(task, normal=normal[task.code]) for task in named)
    side = fitted_to(replace(SIDE, tasks=entries), deck)
    (tmp_path / "plan.csv").write_bytes(deck.to_bytes())
    (tmp_path / "plan.json").write_bytes(to_json(side))
    gathered = write_page(tmp_path / "plan.csv", tmp_path / "page.html")
    page = open_drawn(browser, tmp_path / "page.html")
    found = {}
    for length, shown in zip((21, 22, 23), moves(page, range(21, 24)), strict=True):
        floats = [number(shown["rows"][f"t{place}"][3]) for place in range(6)]
        schedule = schedule_at(gathered.state.rest, length)
        assert floats == [task.total_float_minutes // 480 for task in schedule.tasks]
        found[length] = floats[2]
    assert found == {21: 1, 22: 2, 23: 3}
