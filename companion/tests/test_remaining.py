"""What is left of each activity, by the stated rule, one case after the other."""

import re
from dataclasses import replace
from datetime import date
from decimal import Decimal
from pathlib import Path

import pytest

from pert_companion.cli import remaining as command
from pert_companion.model.calendar import Calendar
from pert_companion.model.deck import Deck, parse_deck
from pert_companion.model.errors import InputError
from pert_companion.model.sidefile import SideFile, SideTask, side_path
from pert_companion.state.project import ProjectState
from pert_companion.state.remaining import (
    Basis,
    Left,
    Remaining,
    Said,
    State,
    read_left,
    remaining,
)
from running import CASES, HOUSE, PROGRAMS, imported, opened, plan_of, run_words

PLAN = """PROJECT,P,s,e,2026-03-02,1,,Plan,2
ASOF,2026-03-12
WBS,W,,Work
WBS,A,W,Work
TASK,DIG,A,8,10,12,10,6,1000,50,Dig
TASK,POUR,A,4,4,4,4,3,400,20,Pour
TASK,OPEN,A,0,0,0,0,0,0,0,Open
AFTER,POUR,DIG
AFTER,OPEN,POUR
PIECE,DIG,2,80
ACCT,A,A,1400,
STATUS,DIG,S,2026-03-06
RES,CREW,Crew
LOAD,DIG,CREW,15
LOAD,POUR,CREW,7
END
"""


def rest_of(plan: ProjectState, said: dict[str, Said] | None = None) -> Remaining:
    """Returns what is left of a plan."""
    return remaining(plan.deck, plan.side, said)


def left_of(rest: Remaining, code: str) -> Left:
    """Returns what is left of an activity."""
    return next(left for left in rest.left if left.code == code)


def with_side(plan: ProjectState, **fields: object) -> SideFile:
    """Returns the side file of a plan with other fields of its first task."""
    first, *others = plan.side.tasks
    return replace(plan.side, tasks=(replace(first, **fields), *others))


def test_begun_work_loses_the_time_worked() -> None:
    """Six of ten days are worked: four are left, three at the shortest, the dear units go."""
    rest = rest_of(plan_of(PLAN))
    left = left_of(rest, "DIG")
    assert left == Left("DIG", State.BEGUN, 4, 3, Basis.WORKED, 600)
    card = rest.deck.tasks[0]
    assert (card.optimistic, card.likely, card.pessimistic) == (3, 4, 5)
    assert card.cost == 1000 and card.slope == 50
    assert rest.deck.pieces == ()
    assert [load.quantity for load in rest.deck.loads] == [6, 7]
    assert rest.notes == ("DIG: 4 of 10 left, by normal duration less time worked",)
    assert rest.deck.project.start_date == date(2026, 3, 12)


def test_what_is_left_by_source_percent_and_list() -> None:
    """The list is asked first, then the source's remaining duration, then the percent."""
    plan = plan_of(PLAN)
    side = with_side(plan, percent=Decimal(25), remaining=5 * 480)
    both = remaining(plan.deck, side)
    assert left_of(both, "DIG").normal == 5 and left_of(both, "DIG").basis is Basis.SOURCE
    assert both.notes == ()
    percent = remaining(plan.deck, with_side(plan, percent=Decimal(25)))
    assert left_of(percent, "DIG").normal == 8 and left_of(percent, "DIG").basis is Basis.PERCENT
    listed = remaining(plan.deck, side, {"DIG": Said(9, 7), "POUR": Said(0)})
    assert left_of(listed, "DIG") == Left("DIG", State.BEGUN, 9, 7, Basis.LEFT, 100)
    assert left_of(listed, "POUR") == Left("POUR", State.WAITING, 1, 1, Basis.LEFT, 0)
    fixed = remaining(plan.deck, side, {"DIG": Said(9, 9)})
    assert left_of(fixed, "DIG") == Left("DIG", State.BEGUN, 9, 9, Basis.LEFT, 100)


def test_at_least_a_unit_is_left_and_no_more_than_a_card_may_have() -> None:
    """Overdue work has a unit left; a source may say more than a card can."""
    plan = plan_of(PLAN)
    none = remaining(plan.deck, with_side(plan, remaining=0))
    assert left_of(none, "DIG").normal == 1
    assert "1 left, the least of unfinished work" in none.notes[0]
    much = remaining(plan.deck, with_side(plan, remaining=200_000 * 480))
    assert left_of(much, "DIG").normal == 100_000
    assert left_of(much, "DIG").crash == 100_000 - 4
    assert "the most that a card may have" in much.notes[0]


def test_more_left_than_planned_shortens_by_no_more_than_the_plan() -> None:
    """Twenty days are left of ten: four units can be bought, at the prices of the plan."""
    plan = plan_of(PLAN)
    rest = remaining(plan.deck, plan.side, {"DIG": Said(20)})
    assert (left_of(rest, "DIG").normal, left_of(rest, "DIG").crash) == (20, 16)
    assert [(piece.units, piece.slope) for piece in rest.deck.pieces] == [(2, 80)]
    shorter = remaining(plan.deck, plan.side, {"DIG": Said(20, 2)})
    assert left_of(shorter, "DIG").crash == 16


def test_finished_work_lasts_nothing() -> None:
    """Its cost stays, it cannot be shortened and uses no resources."""
    plan = plan_of(PLAN.replace("RES,CREW", "STATUS,DIG,F,2026-03-12\nRES,CREW"))
    rest = rest_of(plan)
    card = rest.deck.tasks[0]
    assert left_of(rest, "DIG") == Left("DIG", State.FINISHED, 0, 0, Basis.STATUS, 1000)
    assert (card.normal, card.crash, card.slope, card.cost) == (0, 0, 0, 1000)
    assert [load.activity for load in rest.deck.loads] == ["POUR"]
    assert rest.deck.pieces == ()


def test_parts_are_done_in_order() -> None:
    """Of a task in two parts the second is left in full, the first has the rest."""
    plan = plan_of(PLAN)
    parts = SideTask("DIG", "1", None, "Dig", (), ("DIG", "POUR"), normal=14, minutes=14 * 480)
    side = replace(plan.side, tasks=(replace(parts, remaining=9 * 480), plan.side.tasks[2]))
    rest = remaining(plan.deck, side)
    assert (left_of(rest, "DIG").normal, left_of(rest, "POUR").normal) == (5, 4)
    assert rest.side.tasks[0].normal == 9 and rest.side.tasks[0].minutes == 9 * 480
    assert rest.side.start == date(2026, 3, 12)


def test_a_wait_that_has_begun_keeps_what_is_left_of_it() -> None:
    """It is no assumption, so it has no note."""
    plan = plan_of(PLAN)
    side = replace(plan.side, waits=("DIG",), tasks=plan.side.tasks[1:])
    rest = remaining(plan.deck, side)
    assert left_of(rest, "DIG").normal == 4 and left_of(rest, "DIG").basis is Basis.WAIT
    assert rest.notes == ()


def test_a_working_calendar_counts_the_days_worked() -> None:
    """From Friday the 6th to Thursday the 12th are four working days."""
    plan = plan_of(PLAN)
    rest = remaining(plan.deck, replace(plan.side, calendar=Calendar()))
    assert left_of(rest, "DIG").normal == 6


def test_targets_are_counted_from_the_as_of_date() -> None:
    """Ten days have passed: of directed day 12 two are left, of day 8 none, which is said."""
    text = PLAN.replace("2026-03-02,1,,", "2026-03-02,1,12,")
    deck = parse_deck(text.replace("WBS,W,,", "TERMS,5,12,1,9\nWBS,W,,").encode(), "x")
    plan = plan_of(PLAN)
    rest = remaining(deck, plan.side)
    assert rest.deck.project.directed == 2
    assert rest.deck.terms is not None and rest.deck.terms.target == 2
    late = replace(deck, project=replace(deck.project, directed=8))
    assert deck.terms is not None
    late = replace(late, terms=replace(deck.terms, target=8))
    passed = remaining(late, plan.side)
    assert passed.deck.project.directed == 0
    assert passed.deck.terms is not None and passed.deck.terms.target == 0
    assert "the directed end, day 8, has passed" in passed.notes
    assert any("the penalty of 2 units, 18, is certain" in note for note in passed.notes)


@pytest.mark.parametrize(
    "code, said, why",
    [
        ("NONE", Said(1), "no activity"),
        ("OPEN", Said(1), "lasts 0"),
        ("DIG", Said(1, 2), "crash above left"),
        ("DIG", Said(100_001), "more than 100000"),
    ],
)
def test_lists_that_make_no_sense(code: str, said: Said, why: str) -> None:
    """Each is refused by one line."""
    plan = plan_of(PLAN)
    with pytest.raises(InputError, match=why):
        remaining(plan.deck, plan.side, {code: said})


def test_a_list_that_names_finished_work() -> None:
    """SITE of the house is finished."""
    plan = opened(HOUSE)
    with pytest.raises(InputError, match="SITE, which is finished"):
        remaining(plan.deck, plan.side, {"SITE": Said(1)})


def test_lists_of_what_is_left() -> None:
    """With and without a heading, with empty rows and an empty crash."""
    assert read_left(b"activity,left,crash\nA,3\n\n B , 4 ,2\nC,5,\n", "x") == {
        "A": Said(3),
        "B": Said(4, 2),
        "C": Said(5),
    }
    for bad in (
        b"A\n",
        b"A,1\nA,2\n",
        b"A,x\n",
        b"A,1.5\n",
        b"A,1,2,3\n",
        b"A,-1\n",
        b"\xff,1\n",
    ):
        with pytest.raises(InputError, match="^x: "):
            read_left(bad, "x")


def test_retained_logic() -> None:
    """POUR is finished before DIG, which it follows: OPEN still waits for DIG."""
    text = PLAN.replace("RES,CREW", "STATUS,POUR,S,2026-03-03\nSTATUS,POUR,F,2026-03-07\nRES,CREW")
    rest = rest_of(plan_of(text))
    network = PROGRAMS.network(rest.deck)
    assert PROGRAMS.normal(network).length == 4


def test_late(tmp_path: Path) -> None:
    """10 % of 40 days done in a month: 36 days are left, as a planner says."""
    plan = imported(tmp_path, "late.csv", "--as-of", "2026-10-01")
    rest = rest_of(plan)
    assert [(left.code, left.normal) for left in rest.left] == [
        ("Fabricate", 36),
        ("Install", 10),
    ]


def test_on_time(tmp_path: Path) -> None:
    """75 % of 8 days done in six: two days are left in all of its parts."""
    plan = imported(tmp_path, "ontime.csv", "--as-of", "2026-09-08")
    rest = rest_of(plan)
    first = rest.side.tasks[0]
    assert first.minutes == 2 * 480
    assert first.remaining == 2 * 480


def test_done_and_early() -> None:
    """Nothing is left of a finished house; of one ahead of the plan the rest of the plan is."""
    done = rest_of(opened(CASES / "done.csv"))
    assert {left.normal for left in done.left} == {0}
    assert PROGRAMS.normal(done.deck).length == 0
    early = rest_of(opened(CASES / "early.csv"))
    assert PROGRAMS.normal(early.deck).length == 10 + 5 + 6 + 3
    assert left_of(early, "ORDER").normal == 25 - 8


def run(capture: pytest.CaptureFixture[bytes], *words: object) -> tuple[int, str, str]:
    """Runs pert-remaining."""
    outcome = run_words(capture, command.NAME, (command.parser, command.run), words)
    return outcome.status, outcome.output, outcome.errors


def test_command_prints_a_table(capfdbinary: pytest.CaptureFixture[bytes]) -> None:
    """A row for each activity, the total, and the assumptions on standard error."""
    status, output, errors = run(capfdbinary, HOUSE)
    assert status == 0
    lines = output.split("\n")
    assert lines[0] == "REMAINING H1 2024-03-18"
    assert lines[3].split() == "FOUND begun 1 1 900 771 normal duration less time worked".split()
    assert lines[-2].split() == ["TOTAL", "1", "of", "10", "finished", "12600", "3771"]
    assert errors.count("\n") == 2 and errors.startswith("pert-remaining: FOUND: 1 left")


def test_command_has_a_row_for_each_real_task(
    tmp_path: Path, capfdbinary: pytest.CaptureFixture[bytes]
) -> None:
    """A task in parts is one row with what is left of all of them; waits are none."""
    plan = imported(tmp_path, "ontime.csv", "--as-of", "2026-09-08")
    assert len(plan.deck.tasks) > len(plan.side.tasks)
    status, output, _ = run(capfdbinary, tmp_path / "ontime.csv")
    assert status == 0
    rows = [line.split() for line in output.split("\n")[1:-2]]
    assert rows[0] == ["ACTIVITY", "STATE", "LEFT", "CRASH", "COST", "SUNK", "BY"]
    assert [row[0] for row in rows[1:]] == [task.code for task in plan.side.tasks]
    rest = rest_of(plan)
    for task, row in zip(plan.side.tasks, rows[1:], strict=True):
        parts = [left_of(rest, part) for part in task.parts]
        assert int(row[2]) == sum(part.normal for part in parts)
        assert int(row[3]) == sum(part.crash for part in parts)
    divided = next(task for task in plan.side.tasks if len(task.parts) > 1)
    states = [left_of(rest, part).state for part in divided.parts]
    assert states == [State.FINISHED, State.FINISHED, State.BEGUN]
    assert rows[1 + plan.side.tasks.index(divided)][1:3] == ["begun", "2"]
    last = output.split("\n")[-2].split()
    assert last[1:5] == ["0", "of", str(len(plan.side.tasks)), "finished"]


def test_command_writes_the_deck_with_its_side_file(
    tmp_path: Path, capfdbinary: pytest.CaptureFixture[bytes]
) -> None:
    """The rest of an imported plan is a plan again; that of a deck alone is a deck alone."""
    imported(tmp_path, "late.csv", "--as-of", "2026-10-01")
    rest = tmp_path / "rest.csv"
    left = tmp_path / "left.csv"
    left.write_text("Fabricate,30\n")
    status, output, errors = run(capfdbinary, tmp_path / "late.csv", "--left", left, "-o", rest)
    assert status == 0, errors
    assert "list of what is left" in output
    state = opened(rest)
    assert state.has_side_file and state.side.deck_name == "rest.csv"
    assert state.deck.tasks[0].normal == 30
    alone = tmp_path / "alone.csv"
    assert run(capfdbinary, HOUSE, "-o", alone)[0] == 0
    assert not side_path(alone).exists()
    written: Deck = parse_deck(alone.read_bytes(), "alone")
    assert written.statuses == ()


def test_command_refuses_to_write_over_its_deck(
    tmp_path: Path, capfdbinary: pytest.CaptureFixture[bytes]
) -> None:
    """The status would be lost."""
    deck = tmp_path / "house.csv"
    deck.write_bytes(HOUSE.read_bytes())
    status, _, errors = run(capfdbinary, deck, "-o", deck)
    assert status == 2
    assert "this is read by the same command" in errors
    assert deck.read_bytes() == HOUSE.read_bytes()


def test_command_names_a_side_file_that_does_not_fit(
    tmp_path: Path, capfdbinary: pytest.CaptureFixture[bytes]
) -> None:
    """The line says which card differs."""
    imported(tmp_path, "late.csv", "--as-of", "2026-10-01")
    deck = tmp_path / "late.csv"
    deck.write_bytes(re.sub(rb"\nAFTER,([^,]*),.*\n", rb"\n", deck.read_bytes(), count=1))
    status, _, errors = run(capfdbinary, deck)
    assert status == 1
    assert "it does not fit late.csv: the links of TASK " in errors
