"""Lengths of what is left: by days, by date, the cheapest; finished work keeps its dates."""

import csv
import io
from datetime import date
from decimal import Decimal
from pathlib import Path

import pytest

from pert_companion.analysis.lengths import LengthChoice, chosen_length, next_step
from pert_companion.analysis.scheduling import plan_schedule, rest_schedule
from pert_companion.cli import exporting, importing, schedule
from pert_companion.cli.common import run_command
from pert_companion.model.amounts import Measure
from pert_companion.model.errors import InputError
from pert_companion.programs.results import cost_at
from pert_companion.state.project import ProjectState, open_state
from pert_companion.state.remaining import State
from running import EXAMPLES, HOUSE, PROGRAMS, Outcome, plan_of, run_words

Capture = pytest.CaptureFixture[bytes]
SCHEDULE = (schedule.parser, schedule.run)
EXPORT = (exporting.parser, exporting.run)

RUNNING = """\
PROJECT,P1,start,end,2026-09-07,1,,Wing,2
ASOF,2026-09-17
TERMS,200,0,0,0
WBS,1,,Wing
WBS,1.1,1,Works
TASK,DIG,1.1,4,4,4,4,2,400,300,Dig
TASK,FOOT,1.1,8,8,8,8,3,800,100,Footings
TASK,WALL,1.1,10,10,10,10,6,1000,150,Walls
TASK,ROOF,1.1,5,5,5,5,3,500,250,Roof
AFTER,FOOT,DIG
AFTER,WALL,FOOT
AFTER,ROOF,WALL
ACCT,A1,1.1,2700,
STATUS,DIG,S,2026-09-07
STATUS,DIG,F,2026-09-12
STATUS,FOOT,S,2026-09-12
END
"""


@pytest.fixture(name="running", scope="module")
def fixture_running() -> ProjectState:
    """Returns a plan of 27 days; after 10, the first task is done and 3 days of the next are left.

    What is left: FOOT 3 (2 at least), WALL 10 (6), ROOF 5 (3).
    """
    return plan_of(RUNNING)


def test_what_is_left_has_its_own_lengths(running: ProjectState) -> None:
    """18 days are left, 11 at least; the plan had 27."""
    work = running.rest
    assert (work.longest, work.shortest, running.plan.longest) == (18, 11, 27)
    whole = rest_schedule(running)
    assert (whole.length, whole.start, whole.end) == (18, date(2026, 9, 7), date(2026, 10, 4))
    shortest = rest_schedule(running, LengthChoice(days=Decimal(11)))
    assert shortest.end == date(2026, 9, 27)
    assert plan_schedule(running, LengthChoice()).end == date(2026, 10, 3)


@pytest.mark.parametrize("length", range(11, 19))
def test_finished_work_is_never_shortened(running: ProjectState, length: int) -> None:
    """It has its actual dates at each length; work under way keeps its start."""
    found = rest_schedule(running, LengthChoice(days=Decimal(length)))
    tasks = {task.code: task for task in found.tasks}
    dig, foot = tasks["DIG"], tasks["FOOT"]
    assert (dig.state, dig.first_day, dig.last_day) == (
        State.FINISHED,
        date(2026, 9, 7),
        date(2026, 9, 11),
    )
    assert (dig.shortened_minutes, dig.left_minutes, dig.extra_cost) == (0, 0, 0)
    assert (foot.state, foot.first_day) == (State.BEGUN, date(2026, 9, 12))
    assert foot.left_start is not None and foot.left_start.date() == date(2026, 9, 17)
    assert min(task.last_day for task in found.tasks if task.code != "DIG") >= date(2026, 9, 17)
    assert sum(task.extra_cost for task in found.tasks) == found.cost - running.rest.normal.cost


@pytest.mark.parametrize("length", range(11, 19))
def test_length_and_date_are_inverse(running: ProjectState, length: int) -> None:
    """The longest length that ends by the last day of a length is that length."""
    work = running.rest
    day = work.clock.end(length)
    assert day is not None
    assert chosen_length(work, LengthChoice(by=day)) == length
    assert chosen_length(work, LengthChoice(days=Decimal(length))) == length


def test_dates_that_cannot_be_kept(running: ProjectState) -> None:
    """The earliest end is named; a day after the normal end takes normal durations."""
    with pytest.raises(InputError, match="the earliest ends on 2026-09-27, after 11 days"):
        chosen_length(running.rest, LengthChoice(by=date(2026, 9, 26)))
    with pytest.raises(InputError, match="the earliest ends on 2026-09-27"):
        chosen_length(running.rest, LengthChoice(by=date(2026, 1, 1)))
    assert chosen_length(running.rest, LengthChoice(by=date(2027, 1, 1))) == 18
    with pytest.raises(InputError, match="no schedule of 27 days: .* 11 days .* 18 days"):
        chosen_length(running.rest, LengthChoice(days=Decimal(27)))


def test_the_cheapest_length_is_not_in_the_past(running: ProjectState) -> None:
    """Days that cost less than a day of overhead are bought, from the as-of date on."""
    cheapest = rest_schedule(running, LengthChoice(cheapest=True))
    assert cheapest.length == 13 and cheapest.end >= running.as_of


def test_the_price_of_a_day(running: ProjectState) -> None:
    """It is what the curve rises by; at the end of the curve there is none."""
    step = next_step(running.rest, 18)
    assert step is not None and step.cost == 100
    curve = running.rest.curve
    for length in range(12, 19):
        found = next_step(running.rest, length)
        assert found is not None
        assert found.cost == cost_at(curve, length - 1)[0] - cost_at(curve, length)[0]
    assert next_step(running.rest, 11) is None


@pytest.mark.parametrize(
    ("unit", "days", "units"),
    ((480, "160", 160), (120, "82.5", 330), (240, "0.5", 1), (160, "0.33", 1), (60, "1.12", 9)),
)
def test_days_and_units(unit: int, days: str, units: int) -> None:
    """Days that are shown can be said."""
    measure = Measure(unit, 480)
    assert measure.units(Decimal(days)) == units
    assert measure.units(Decimal(measure.days(units))) == units


def test_days_that_are_no_units() -> None:
    """The nearest ones are named."""
    with pytest.raises(InputError, match="steps of 2 hours: 82.25 or 82.5 days, not 82.3"):
        Measure(120, 480).units(Decimal("82.30"))
    with pytest.raises(InputError, match="steps of 1 day: 82 or 83 days, not 82.5"):
        Measure(480, 480).units(Decimal("82.5"))


def test_commands_say_what_they_show(tmp_path: Path, capfdbinary: Capture) -> None:
    """A schedule of what is left says from when on; `--plan` says that it is the plan."""
    deck = tmp_path / "wing.csv"
    deck.write_text(RUNNING)
    left = run_words(capfdbinary, "s", SCHEDULE, [deck, "--by", "2026-09-30"])
    first = left.output.split("\n", 1)[0]
    assert first == (
        "Wing: 14 days left from 2026-09-17 on, 2026-09-07 to 2026-09-30, cost 3250, a day less"
        " costs 150"
    )
    planned = run_words(capfdbinary, "s", SCHEDULE, [deck, "--plan"])
    assert planned.output.startswith("Wing: as planned 27 days, 2026-09-07 to 2026-10-03, cost ")
    refused = run_words(capfdbinary, "s", SCHEDULE, [deck, "--length", "27"])
    assert refused.status == 1 and "no schedule of 27 days" in refused.errors
    assert run_words(capfdbinary, "s", SCHEDULE, [deck, "--length", "1e3"]).status == 2


def rows(outcome: Outcome) -> list[dict[str, str]]:
    """Returns the rows of CSV."""
    assert outcome.status == 0, outcome.errors
    return list(csv.DictReader(io.StringIO(outcome.output)))


@pytest.mark.parametrize("deck", [HOUSE, EXAMPLES / "months" / "april.csv"])
def test_both_commands_have_the_same_lengths(deck: Path, capfdbinary: Capture) -> None:
    """`pert-schedule` and `pert-export` print the same tasks at the lengths of what is left."""
    work = open_state(deck, PROGRAMS).rest
    for length in (work.shortest, work.longest):
        words = [deck, "--length", str(length)]
        shown = rows(run_words(capfdbinary, "s", SCHEDULE, [*words, "--order", "plan", "--csv"]))
        assert shown == rows(run_words(capfdbinary, "e", EXPORT, [*words, "-o", "-"]))
        assert max(row["Finish"] for row in shown) == str(work.clock.end(length))


def test_deadlines(tmp_path: Path, capfdbinary: Capture) -> None:
    """Slack against a deadline is in working days; one that is missed is named first."""
    source = tmp_path / "list.csv"
    source.write_text(
        "ID,Task,Duration,Predecessors,Deadline,Start,Resource\n"
        "1,Dig,5d,,2026-09-10,2026-09-07,Crew\n2,Wall,5d,1,2026-09-22,,Crew\n3,Roof,2d,2,,,\n"
    )
    deck = tmp_path / "wing.csv"
    words = [str(source), "-o", str(deck), "--accept", "all"]
    assert run_command(importing.NAME, importing.parser(), importing.run, words) == 0
    shown = run_words(capfdbinary, "s", SCHEDULE, [deck, "--order", "plan"]).output.split("\n")
    assert shown[1].startswith("1 deadline is missed: ") and shown[1].endswith(" by 1 day")
    assert (
        " ".join(shown[2].split())
        == "ROW CODE START FINISH DAYS FLOAT DAYS DEADLINE DAYS TO DEADLINE NAME"
    )
    table = rows(run_words(capfdbinary, "s", SCHEDULE, [deck, "--order", "plan", "--csv"]))
    assert [row["Days to deadline"] for row in table] == ["-1", "2", ""]
    assert [row["Deadline"] for row in table] == ["2026-09-10", "2026-09-22", ""]
    found = rows(run_words(capfdbinary, "s", SCHEDULE, [deck, "--resource", "crew", "--csv"]))
    assert len(found) == 2
    refused = run_words(capfdbinary, "s", SCHEDULE, [deck, "--resource", "Crane"])
    assert refused.status == 2 and "there are Crew" in refused.errors
