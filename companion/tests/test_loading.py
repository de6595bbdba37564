"""Resources above their capacity: by day, for the chosen length, and of what is left."""

import csv
import io
from collections.abc import Callable, Mapping
from dataclasses import dataclass, replace
from datetime import date, timedelta
from decimal import Decimal
from fractions import Fraction
from functools import partial
from pathlib import Path

import pytest
from openpyxl import load_workbook

from hourly import FIRST, Hours
from lists import US, xlsx_bytes
from pert_companion.analysis.lengths import LengthChoice
from pert_companion.analysis.loading import Loading, chosen_loading
from pert_companion.carry import CarryOptions
from pert_companion.cli import exporting, importing, report, schedule
from pert_companion.cli.common import run_command
from pert_companion.importing.conversion import import_plan, state_of
from pert_companion.model.calendar import STANDARD_DAY, Calendar, free_days
from pert_companion.model.plan import (
    Assignment,
    Crash,
    Link,
    Plan,
    Progress,
    Resource,
    Task,
)
from pert_companion.model.source import Source
from pert_companion.programs.client import Programs
from pert_companion.readers.base import ReaderOptions
from pert_companion.state.project import ProjectState
from planner_files import gan_bytes, mspdi_bytes, pmxml_bytes, xer_bytes

PROGRAMS = Programs()
MONDAY = date(2026, 3, 2)
HOLIDAY = date(2026, 3, 6)
DAY = 480
WORKED = frozenset((8, 9, 10, 11, 13, 14, 15, 16))
OFFICE_HOURS = Hours(frozenset(range(5)), WORKED, frozenset((HOLIDAY,)))
SITE_HOURS = Hours(frozenset(range(6)), WORKED, frozenset((HOLIDAY,)))
OFFICE = Calendar(exceptions=free_days([HOLIDAY]))
SITE = replace(OFFICE, name="Site", week=(STANDARD_DAY,) * 6 + ((),))
Capture = pytest.CaptureFixture[str]


def crew_plan(capacity: str = "2") -> Plan:
    """Returns three tasks of a crew, two of them at once, and one of a crane on the site."""
    tasks = (
        Task("1", "", "Dig", 5 * DAY),
        Task("2", "", "Wall", 4 * DAY, crash=Crash(2 * DAY, slope=Decimal(10))),
        Task("3", "", "Roof", 6 * DAY, crash=Crash(3 * DAY, slope=Decimal(50))),
        Task("4", "", "Lift", 6 * DAY, calendar="Site"),
    )
    used = (("1", "Crew", 5), ("2", "Crew", 8), ("3", "Crew", 9), ("4", "Crane", 6))
    return Plan(
        "Barn",
        MONDAY,
        OFFICE,
        tasks,
        links=(Link("2", "3"),),
        resources=(
            Resource("Crew", "Crew", capacity=Decimal(capacity)),
            Resource("Crane", "Crane", capacity=Decimal(1)),
        ),
        assignments=tuple(Assignment(task, name, Decimal(days * DAY)) for task, name, days in used),
        calendars=(SITE,),
    )


def state_from(
    data: bytes, options: ReaderOptions = ReaderOptions(), units: str = "auto"
) -> ProjectState:
    """Returns the state of a planner's file, which has a side file."""
    source = Source(Path("barn.xml"), data)
    imported = import_plan(source, options, CarryOptions(units), Path("barn.csv"))
    assert imported.losses == ()
    return state_of(imported, PROGRAMS)


@dataclass(frozen=True)
class Used:
    """A task as the hours of the test know it: its dates and its work, all in hours."""

    name: str
    begin: int
    end: int
    work: int
    calendar: Hours


def above_by_hours(tasks: list[Used], capacity: Fraction) -> dict[date, tuple[Fraction, set[str]]]:
    """Returns the days on which tasks use more than a capacity: how many at once, and who."""
    found = {}
    for number in range(60):
        day = number * 24
        amount, most, names = Fraction(0), 0, set()
        for task in tasks:
            hours = task.calendar.worked(max(day, task.begin), min(day + 24, task.end))
            if hours:
                amount += Fraction(task.work * hours, task.calendar.worked(task.begin, task.end))
                most = max(most, task.calendar.worked(day, day + 24))
                names.add(task.name)
        if names and amount / most > capacity:
            found[FIRST.date() + timedelta(days=number)] = (amount / most, names)
    return found


def crew_by_hours(wall: int, roof: int) -> list[Used]:
    """Returns the tasks of the crew if the wall and the roof take so many days."""
    begin = OFFICE_HOURS.next_work(0)
    between = OFFICE_HOURS.end_of(begin, 8 * wall)
    start = OFFICE_HOURS.next_work(between)
    return [
        Used("T1", begin, OFFICE_HOURS.end_of(begin, 40), 40, OFFICE_HOURS),
        Used("T2", begin, between, 64, OFFICE_HOURS),
        Used("T3", start, OFFICE_HOURS.end_of(start, 8 * roof), 72, OFFICE_HOURS),
    ]


def check(found: Loading, days: Mapping[date, tuple[Fraction, set[str]]]) -> None:
    """Compares what is above a capacity with days by hours, period by period."""
    wanted: dict[date, list[tuple[Fraction, set[str]]]] = {}
    for day, use in days.items():
        first = max(start for start in found.periods if start <= day)
        wanted.setdefault(first, []).append(use)
    assert [each.first for each in found.overloads] == list(wanted)
    for each in found.overloads:
        uses = wanted[each.first]
        assert (each.resource, each.days) == ("Crew", len(uses))
        assert each.most == max(most for most, _ in uses)
        assert set(each.tasks) == set().union(*(names for _, names in uses))


@pytest.mark.parametrize("length, wall, roof", ((10, 4, 6), (8, 2, 6), (5, 2, 3)))
def test_days_above_by_the_hour(length: int, wall: int, roof: int) -> None:
    """At each length the crew's days are those that hours say; six crane days are one crane."""
    state = state_from(mspdi_bytes(crew_plan()))
    found = chosen_loading(state, LengthChoice(Decimal(length)))
    assert found.length == length and found.overloads
    assert found.periods == (MONDAY, date(2026, 3, 10), date(2026, 3, 17))[: len(found.periods)]
    check(found, above_by_hours(crew_by_hours(wall, roof), Fraction(2)))
    crew, crane = found.resources
    assert (sum(crew.amounts), crew.available) == (40 + 64 + 72, 80)
    assert (sum(crane.amounts), crane.available) == (48, 40)


def test_a_capacity_that_holds() -> None:
    """Four are enough at normal durations: nothing is above, and the days are counted up to it."""
    plan = crew_plan("3")
    assert chosen_loading(state_from(mspdi_bytes(plan)), LengthChoice()).overloads == ()
    days = above_by_hours(crew_by_hours(4, 6), Fraction(299, 100))
    assert {most for most, _ in days.values()} == {Fraction(3)}


@pytest.mark.parametrize("name", ("mspdi", "xer", "pmxml", "gan", "xlsx"))
def test_capacities_of_files(name: str) -> None:
    """Every format that has capacities says the same; GanttProject has one of each."""
    plan = crew_plan("1")
    outline = tuple(task for task in plan.tasks() if task.calendar is None)
    used = tuple(
        replace(each, quantity=Decimal(task.minutes))
        for each, task in zip(plan.assignments, outline)
    )
    crew = plan.resources[:1]
    plan = replace(plan, outline=outline, calendars=(), assignments=used, resources=crew)
    writers: dict[str, Callable[[Plan], bytes]] = {
        "mspdi": mspdi_bytes,
        "xer": xer_bytes,
        "pmxml": pmxml_bytes,
        "gan": gan_bytes,
        "xlsx": partial(xlsx_bytes, form=US),
    }
    data = writers[name](plan)
    state = state_from(data, ReaderOptions(name="Barn", start=MONDAY))
    (capacity,) = state.side.capacities
    assert (capacity.name, capacity.units, capacity.hourly) == ("Crew", Decimal(1), 1)
    assert not capacity.is_said
    (above,) = chosen_loading(state, LengthChoice()).overloads
    assert (above.first, above.days, above.most, len(above.tasks)) == (MONDAY, 5, Fraction(2), 3)


def test_what_is_left_of_a_running_project() -> None:
    """On the second Tuesday the digging is done, and a fourth of the wall and the roof is left."""
    plan = crew_plan()
    dig, wall, roof, lift = plan.tasks()
    done = Progress(Decimal(100), MONDAY, date(2026, 3, 9), 0)
    half = Progress(Decimal(75), MONDAY, None, DAY)
    lifted = Progress(Decimal(100), MONDAY, date(2026, 3, 9), 0)
    tasks = (
        replace(dig, progress=done),
        replace(wall, progress=half),
        roof,
        replace(lift, progress=lifted),
    )
    running = replace(plan, outline=tasks, data_date=date(2026, 3, 10))
    state = state_from(mspdi_bytes(running))
    found = chosen_loading(state, LengthChoice())
    assert (found.rest_of, found.length) == (date(2026, 3, 11), 7)
    assert found.periods[0] == date(2026, 3, 11)
    crew, crane = found.resources
    assert (sum(crew.amounts), sum(crane.amounts)) == (16 + 72, 0)
    assert found.overloads == ()
    (above,) = chosen_loading(state, LengthChoice(Decimal(4))).overloads
    assert (above.tasks, above.days, above.most) == (("T3",), 3, Fraction(3))
    before = chosen_loading(state, LengthChoice(), of_plan=True)
    assert before.is_past_plan and [each.tasks for each in before.overloads] == [("T1", "T2", "T3")]


def test_days_of_seven_and_a_half_hours() -> None:
    """What is left of a task is rounded up in its card to 23 hours; the crew of one is enough."""
    shift = ((8 * 60, 12 * 60), (13 * 60, 16 * 60 + 30))
    calendar = Calendar(week=(shift,) * 5 + ((), ()), day_minutes=450, week_minutes=2250)
    task = Task("1", "", "Dig", 6 * 450, progress=Progress(Decimal(50), MONDAY, None, 3 * 450))
    plan = Plan(
        "Ditch",
        MONDAY,
        calendar,
        (task,),
        resources=(Resource("Crew", "Crew", capacity=Decimal(1)),),
        assignments=(Assignment("1", "Crew", Decimal(6 * 450)),),
        data_date=date(2026, 3, 4),
    )
    state = state_from(mspdi_bytes(plan))
    found = chosen_loading(state, LengthChoice())
    assert sum(found.resources[0].amounts) == 23 and found.overloads == ()


# Commands


def call(capture: Capture, module: object, *words: object) -> tuple[int, str, str]:
    """Runs a command in this process; returns its status, output and errors."""
    capture.readouterr()
    name, parser, run = (getattr(module, part) for part in ("NAME", "parser", "run"))
    status = run_command(name, parser(), run, [str(word) for word in words])
    captured = capture.readouterr()
    return status, captured.out, captured.err


@pytest.fixture(name="barn")
def fixture_barn(tmp_path: Path, capsys: Capture) -> Path:
    """Returns the deck of the plan, imported as a user does."""
    (tmp_path / "barn.xml").write_bytes(mspdi_bytes(crew_plan()))
    deck = tmp_path / "barn.csv"
    status, _, _ = call(capsys, importing, tmp_path / "barn.xml", "-o", deck)
    assert status == 0
    return deck


def test_table(barn: Path, capsys: Capture) -> None:
    """The table marks the week; the line has load, capacity and tasks; CSV has a row for each."""
    status, output, _ = call(capsys, schedule, barn, "--load", "--length", 8)
    assert status == 0
    assert output.splitlines() == [
        "Barn: 8 days, 2026-03-02 to 2026-03-12, load by periods of 5 days",
        "FROM        COST  Crew (hours)    Crane (hours)",
        "2026-03-02    20           140 !             48",
        "2026-03-10     0            36                0",
        "! 2026-03-02 Crew (hours): 140 of 80; 5 at once on 5 days, 2 available: T1, T2, T3",
    ]
    status, output, _ = call(capsys, schedule, barn, "--load", "--csv", "--resource", "crew")
    rows = list(csv.reader(io.StringIO(output)))
    assert rows[0] == [
        *("From", "Resource", "Load", "Available", "Capacity", "Most at once"),
        "Tasks above it",
    ]
    assert rows[2] == ["2026-03-02", "Crew (hours)", "116", "80", "2", "3", "T1; T2; T3"]
    status, _, error = call(capsys, schedule, barn, "--load", "--gantt")
    assert status == 2 and "--load has no --gantt" in error


def test_capacities_that_people_say(barn: Path, capsys: Capture) -> None:
    """They are in the side file, and hold for later imports; a wrong name offers the names."""
    plan = barn.with_suffix(".xml")
    later = barn.with_name("later.csv")
    words = (plan, "--capacity", "CREW=350%", "-o", barn, "--overwrite")
    assert call(capsys, importing, *words)[0] == 0
    assert call(capsys, importing, plan, "--with", barn, "-o", later)[0] == 0
    for deck in (barn, later):
        output = call(capsys, schedule, deck, "--load")[1]
        assert output.endswith("no resource is above its capacity\n")
    status, _, error = call(capsys, importing, plan, "--capacity", "Crews=2", "-o", later)
    assert status == 2 and "there is no resource 'Crews'; there are Crane, Crew" in error
    for wrong in ("Crew", "Crew=0", "Crew=x", "=2", "Crew=1.", "Crew=-1"):
        assert call(capsys, importing, plan, "--capacity", wrong, "-o", later)[0] == 2


def test_workbook_and_page(barn: Path, capsys: Capture) -> None:
    """The workbook marks the cell and lists the week; the page draws it at the length it opens."""
    book_path, page = barn.with_name("barn.xlsx"), barn.with_name("barn.html")
    assert call(capsys, exporting, barn, "--length", 8, "-o", book_path)[0] == 0
    book = load_workbook(book_path)
    sheet = book["Load"]
    assert [cell.value for cell in sheet[1]][1:] == [
        "Cost in 8 days",
        "Crew (hours)",
        "Crane (hours)",
    ]
    fills = {cell.coordinate for row in sheet for cell in row if cell.fill.fill_type == "solid"}
    assert fills == {"C2"}
    rows = list(book["Above capacity"].values)[1:]
    assert [row[0] for row in rows] == ["Crew (hours)"]
    assert rows[0][2:] == (140, 80, 5, 2, 5, "T1, T2, T3")
    assert call(capsys, report, barn, "--length", 8, "-o", page)[0] == 0
    text = page.read_text("utf-8")
    assert "in the schedule of 8 days that the page opens with" in text
    assert text.count('class="column above"') == 1 and "140, above capacity" in text
    assert "<caption>Above capacity</caption>" in text and ">T1, T2, T3</td>" in text
