"""States of a project compared, against what was worked out by hand from their lists."""

import re
from collections.abc import Callable
from dataclasses import replace
from datetime import date
from decimal import Decimal
from functools import cache
from pathlib import Path

import pytest

from pert_companion.analysis.changes import ChangeKind, has_only_totals
from pert_companion.analysis.compare import (
    Comparison,
    CurveSide,
    History,
    compare,
    curve_side,
)
from pert_companion.cli import compare as command
from pert_companion.model.cards import ChargeCard, ToGoCard
from pert_companion.model.deck import Deck
from pert_companion.model.errors import InputError, UsageError
from pert_companion.state.folder import open_states
from pert_companion.state.matching import match_tasks
from pert_companion.state.project import ProjectState
from pert_companion.state.remaining import Said
from pert_companion.writers import compare_csv, compare_text
from running import CASES, HOUSE, MONTHS, PROGRAMS, imported, opened, plan_of, run_words

PLAN = """PROJECT,P,s,e,2026-03-02,1,,Plan,2
ASOF,2026-03-12
WBS,W,,Work
WBS,A,W,Ground
WBS,B,W,Shell
WBS,S,W,Supervision
TASK,DIG,A,10,10,10,10,6,1000,50,Dig
TASK,POUR,A,4,4,4,4,3,400,20,Pour
TASK,WALL,B,6,6,6,6,6,600,0,Wall
AFTER,POUR,DIG
ACCT,A,A,1400,
ACCT,B,B,600,
ACCT,S,S,300,Supervision
CHARGE,A,2026-03-05,300
CHARGE,A,2026-03-10,200
TOGO,A,2026-03-10,900
STATUS,DIG,S,2026-03-06
RES,CREW,Crew
LOAD,DIG,CREW,15
END
"""


def compared(old: ProjectState, new: ProjectState) -> Comparison:
    """Returns what changed from one state to the next."""
    return compare([old, new]).comparisons[0]


def edited(*edits: tuple[str, str]) -> Comparison:
    """Returns what changed from PLAN to PLAN with texts of it replaced."""
    text = PLAN
    for old, new in edits:
        assert old in text, old
        text = text.replace(old, new)
    return compared(plan_of(PLAN), plan_of(text))


def lines(comparison: Comparison) -> list[tuple[str, str, str, str]]:
    """Returns the changes as texts."""
    return [(c.kind.value, c.code, c.old, c.new) for c in comparison.changes]


def restated(comparison: Comparison) -> list[tuple[str, str, str, str]]:
    """Returns what was restated as texts."""
    return [(r.what, r.subject, r.old, r.new) for r in comparison.restated]


def test_the_same_state_has_no_changes() -> None:
    """Nothing is reported but the curves."""
    found = edited()
    assert found.changes == () and found.restated == ()
    assert found.joined == () and found.left == () and found.slack_used == ()
    assert found.end_moved_minutes == 0
    assert all(row.old == row.new for row in found.curves)


CHANGES = {
    "normal": (
        ("TASK,DIG,A,10,10,10,10,6", "TASK,DIG,A,12,12,12,12,6"),
        [("normal duration", "DIG", "10", "12")],
    ),
    "crash": (
        ("10,10,6,1000", "10,10,7,1000"),
        [("shortest duration", "DIG", "6", "7")],
    ),
    "estimates": (
        ("TASK,DIG,A,10,10,10,10", "TASK,DIG,A,8,10,12,10"),
        [("estimates", "DIG", "", "8 10 12")],
    ),
    "slope": (("1000,50,", "1000,60,"), [("cost of a day less", "DIG", "50", "60")]),
    "piece": (
        ("ACCT,A", "PIECE,DIG,2,80\nACCT,A"),
        [("cost of a day less", "DIG", "50", "50, then 80 for 2")],
    ),
    "links": (
        ("AFTER,POUR,DIG", "AFTER,POUR,WALL"),
        [("links", "POUR", "DIG", "WALL")],
    ),
    "name": ((",Pour\n", ",Cast\n"), [("name", "POUR", "Pour", "Cast")]),
    "resources": (("CREW,15", "CREW,16"), [("resources", "DIG", "Crew 15", "Crew 16")]),
    "budget": (("ACCT,S,S,300", "ACCT,S,S,350"), [("budget", "S", "300", "350")]),
    "package": (
        ("TASK,WALL,B,6,6,6,6,6,600,0,Wall\n", "TASK,WALL,S,6,6,6,6,6,0,0,Wall\n"),
        [("cost", "WALL", "600", "0"), ("package", "WALL", "Shell", "Supervision")],
    ),
}


@pytest.mark.parametrize("name", sorted(CHANGES))
def test_each_kind_of_change(name: str) -> None:
    """One edit of the deck is one row."""
    (old, new), wanted = CHANGES[name]
    edits = [(old, new)]
    if name == "package":
        edits += [("ACCT,B,B,600,", "ACCT,B,B,0,"), ("ACCT,S,S,300,", "ACCT,S,S,0,")]
        edits += [("TASK,POUR,A,", "TASK,MORE,B,1,1,1,1,1,0,0,More\nTASK,POUR,A,")]
        found = lines(edited(*edits))
        assert [line for line in found if line[1] == "WALL"] == wanted
        return
    assert lines(edited(*edits)) == wanted


def test_new_and_gone_tasks() -> None:
    """They are first, with what they are."""
    found = edited(
        ("TASK,WALL,B,6,6,6,6,6,600,0,Wall\n", "TASK,ROOF,B,3,3,3,3,3,600,0,Roof\n"),
    )
    assert lines(found) == [
        ("new", "ROOF", "", "3 days, cost 600"),
        ("gone", "WALL", "6 days, cost 600", ""),
    ]


def test_matching_by_source_id_then_code() -> None:
    """A task whose code became that of another one is still itself."""
    tasks = plan_of(PLAN).side.tasks
    new = (
        replace(tasks[0], uid="x1"),
        replace(tasks[1], code="DIG2"),
        replace(tasks[2], uid="x2"),
    )
    found = match_tasks(tasks, new)
    assert [(old.code, new.code) for old, new in found.pairs] == [
        ("DIG", "DIG"),
        ("POUR", "DIG2"),
        ("WALL", "WALL"),
    ]
    assert found.gone == () and found.new == ()


def test_codes_of_the_next_month(tmp_path: Path) -> None:
    """A new task takes the code of an older one: the ids of the rows say which is which."""
    old = imported(tmp_path, "m1.csv", "--start", "2026-09-01")
    new = imported(tmp_path, "m2.csv", "--start", "2026-09-01")
    found = match_tasks(old.side.tasks, new.side.tasks)
    assert len(found.pairs) == 2 and len(found.new) == 1 and found.gone == ()


STATUSES: dict[str, tuple[tuple[str, str], list[tuple[str, str, str, str]]]] = {
    "start moved": (
        ("DIG,S,2026-03-06", "DIG,S,2026-03-04"),
        [("start", "DIG", "2026-03-06", "2026-03-04")],
    ),
    "start gone": (
        ("STATUS,DIG,S,2026-03-06\n", ""),
        [("start", "DIG", "2026-03-06", "none")],
    ),
    "start reported late": (
        ("RES,", "STATUS,WALL,S,2026-03-11\nRES,"),
        [("start", "WALL", "none", "2026-03-11")],
    ),
    "start on the day": (("RES,", "STATUS,WALL,S,2026-03-12\nRES,"), []),
    "finish reported late": (
        ("RES,", "STATUS,DIG,F,2026-03-12\nRES,"),
        [("finish", "DIG", "none", "2026-03-11")],
    ),
    "charge changed": (
        ("CHARGE,A,2026-03-05,300", "CHARGE,A,2026-03-05,310"),
        [("charges", "A", "300", "310")],
    ),
    "charge added": (
        ("TOGO", "CHARGE,S,2026-03-07,5\nTOGO"),
        [("charges", "S", "none", "5")],
    ),
    "charge gone": (
        ("CHARGE,A,2026-03-10,200\n", ""),
        [("charges", "A", "200", "none")],
    ),
    "to go changed": (
        ("TOGO,A,2026-03-10,900", "TOGO,A,2026-03-10,950"),
        [("amount to go", "A", "900", "950")],
    ),
}


@pytest.mark.parametrize("name", sorted(STATUSES))
def test_what_is_restated(name: str) -> None:
    """A charge or status of the time before the older as-of date that the newer state has not."""
    edit, wanted = STATUSES[name]
    assert restated(edited(edit)) == wanted


def test_what_came_since_is_not_restated() -> None:
    """Later charges and statuses are news."""
    found = edited(
        ("ASOF,2026-03-12", "ASOF,2026-03-20"),
        ("TOGO", "CHARGE,A,2026-03-13,5\nTOGO,A,2026-03-15,800\nTOGO"),
        ("RES,", "STATUS,DIG,F,2026-03-18\nRES,"),
    )
    assert found.restated == ()
    assert ("status", "DIG", "begun 2026-03-06", "finished 2026-03-17") in lines(found)
    assert [(each.code, each.why) for each in found.left] == [
        ("DIG", "finished"),
        ("POUR", "has 2 days of slack"),
    ]


def test_totals_alone_are_compared_as_totals() -> None:
    """A list dates all that was spent on its data date: only a smaller sum is restated."""
    old = plan_of(PLAN)
    day = old.deck.as_of_day
    spent = (ChargeCard("A", day, 500), ChargeCard("B", day, 50))
    to_go = (ToGoCard("A", day, 900),)
    old = replace(old, deck=replace(old.deck, charges=spent, to_go=to_go))
    assert has_only_totals(old.deck) and not has_only_totals(plan_of(PLAN).deck)
    later = date(2026, 3, 20)
    charges = (ChargeCard("A", later, 800), ChargeCard("B", later, 40))
    new = replace(old, deck=replace(old.deck, as_of=later, charges=charges, to_go=()))
    assert restated(compared(old, new)) == [("charges", "B", "50", "40")]
    percent = replace(old.side.tasks[0], percent=Decimal(60))
    side = replace(old.side, tasks=(percent, *old.side.tasks[1:]), data_date=date(2026, 3, 11))
    found = compared(replace(old, side=side), new)
    assert found.restated[0].what == "percent complete"
    assert (found.restated[0].old, found.restated[0].new) == ("60 %", "0 %")
    assert found.restated[0].day == date(2026, 3, 11)


def test_the_critical_path_and_slack() -> None:
    """DIG and POUR have 8 days left, WALL 6 and 2 of slack; 5 more of WALL take them."""
    found = edited(
        ("TASK,WALL,B,6,6,6,6,6", "TASK,WALL,B,11,11,11,11,11"),
    )
    assert [(each.code, each.why) for each in found.joined] == [("WALL", "had 2 days of slack")]
    assert [(each.code, each.why) for each in found.left] == [
        ("DIG", "has 3 days of slack"),
        ("POUR", "has 3 days of slack"),
    ]
    (used,) = found.slack_used
    assert (used.code, used.old_minutes, used.new_minutes) == ("WALL", 960, 0)
    assert used.is_used_up
    assert found.end_moved_minutes == 3 * 480
    gone = edited(
        (
            "TASK,POUR,A,4,4,4,4,3,400,20,Pour\nTASK",
            "TASK,CAST,A,9,9,9,9,3,400,20,Cast\nTASK",
        ),
        ("AFTER,POUR,DIG", "AFTER,CAST,DIG"),
    )
    assert [(each.code, each.why) for each in gone.left] == [("POUR", "gone")]
    assert [(each.code, each.why) for each in gone.joined] == [("CAST", "new")]
    again = compared(plan_of(PLAN.replace("RES,", "STATUS,DIG,F,2026-03-12\nRES,")), plan_of(PLAN))
    assert [(each.code, each.why) for each in again.joined] == [
        ("DIG", "was finished"),
        ("POUR", "had 2 days of slack"),
    ]


def test_curves_side_by_side() -> None:
    """PLAN has 8 days left, of which 2 can be bought: 20 for POUR, then 50 for DIG."""
    found = edited(("1000,50,", "1000,70,"))
    rows = [(row.end, row.old, row.new) for row in found.curves]
    assert rows == [
        (date(2026, 3, 19), CurveSide(2000, 20), CurveSide(2000, 20)),
        (date(2026, 3, 18), CurveSide(2020, 50), CurveSide(2020, 70)),
        (date(2026, 3, 17), CurveSide(2070, None), CurveSide(2090, None)),
    ]
    assert curve_side(found.old, date(2026, 3, 16)) is None
    assert curve_side(found.old, date(2026, 4, 1)) == CurveSide(2000, 0)


def test_the_day_that_is_asked_for() -> None:
    """The directed end of the deck, or another day."""
    plan = plan_of(PLAN.replace("2026-03-02,1,,", "2026-03-02,1,17,"))
    (state,) = compare([plan]).states
    assert state.directed == date(2026, 3, 18)
    assert state.recovery_cost == 20
    assert state.earliest_end == date(2026, 3, 17)
    (other,) = compare([plan], by=date(2026, 3, 16)).states
    assert other.recovery_cost is None
    (none,) = compare([plan_of(PLAN)]).states
    assert none.directed is None and none.recovery_cost is None


@cache
def months() -> History:
    """Returns the history of examples/months, with what ending by 10 June costs."""
    return compare(open_states([MONTHS], PROGRAMS), by=date(2026, 6, 10))


def test_three_months_by_hand() -> None:
    """Ten figures of docs/cost-engineer.md, worked out from the lists and the calendar."""
    plan, march, april, may = months().states
    # 73 working days from Monday 2 March: 5+15+20+10+5+10+8
    assert plan.left_minutes == 73 * 480 and plan.end == date(2026, 6, 10)
    # 22 days have passed, 4 of the foundation are left: 22+4+20+10+5+10+8 = 79
    assert march.left_minutes == 57 * 480 and march.end == date(2026, 6, 18)
    # six days back: three of plaster, two of paint, one of windows
    assert march.recovery_cost == 3 * 400 + 2 * 450 + 500
    # 44 days have passed, six of the walls are left: 44+6+10+5+7+8 = 80
    assert april.left_minutes == 36 * 480 and april.end == date(2026, 6, 19)
    # six of the seven days can be bought: two of paint, one of windows, one of walls, two of roof
    assert april.recovery_cost is None and april.earliest_end == date(2026, 6, 11)
    assert april.curve[-1].cost - april.curve[0].cost == 2 * 450 + 500 + 700 + 2 * 900
    # 65 days have passed, one of the windows is left: 65+1+7+6 = 79
    assert may.left_minutes == 14 * 480 and may.end == date(2026, 6, 18)
    assert (april.budget, may.budget) == (142000 + 1200, 143200 + 500 + 900)
    assert march.latest == 27800 + 3600 + 21000 + 56000 + 16000 + 17000
    assert may.actual == 2300 + 18900 + 37500 + 20600 + 30000 + 6900 + 9100 + 2600


def test_what_may_restates() -> None:
    """The site was cleared a day later than April said, and the ground cost 500 less."""
    last = months().comparisons[-1]
    assert restated(last) == [
        ("finish", "Clear-site", "2026-03-09", "2026-03-10"),
        ("start", "Foundation", "2026-03-10", "2026-03-11"),
        ("charges", "Ground", "21700", "21200"),
    ]


def test_states_in_cents() -> None:
    """All amounts are in the smallest unit of any state, and texts have them in the currency."""
    old, new = plan_of(PLAN), plan_of(PLAN)
    new = replace(new, side=replace(new.side, money_scale=100, currency="EUR"))
    history = compare([old, new])
    assert history.money_scale == 100
    assert history.states[0].budget == 230_000 and history.states[1].budget == 2300
    assert history.states[0].curve[0].cost == 200_000
    costs = [c for c in history.comparisons[0].changes if c.kind is ChangeKind.COST]
    assert (costs[0].old, costs[0].new) == ("1000.00", "10.00")
    text = compare_text.to_text(history)
    assert "amounts in EUR" in text and " 2300.00 " in text and "230000" not in text


def test_a_baseline_and_a_list_of_what_is_left() -> None:
    """The baseline is another deck; the list is about the last state."""
    house = opened(HOUSE)
    early = opened(CASES / "early.csv")
    history = compare([house.with_said({"FOUND": Said(5)})], early)
    assert history.baseline.name == "early.csv"
    assert history.states[0].end == date(2024, 4, 15)
    assert history.states[0].earned is not None and history.baseline.earned is None


def test_states_out_of_order() -> None:
    """The earlier one is named first."""
    with pytest.raises(UsageError, match="name the earlier state first"):
        compare([opened(HOUSE), opened(CASES / "early.csv")])


def test_folders(tmp_path: Path) -> None:
    """Decks by as-of date; other files are passed over."""
    for name in ("house", "early"):
        source = HOUSE if name == "house" else CASES / "early.csv"
        (tmp_path / f"a-{name}.csv").write_bytes(source.read_bytes())
    (tmp_path / "left.csv").write_text("activity,left\n")
    assert [plan.path.name for plan in open_states([tmp_path], PROGRAMS)] == [
        "a-early.csv",
        "a-house.csv",
    ]
    empty = tmp_path / "empty"
    empty.mkdir()
    with pytest.raises(InputError, match="no deck in this folder"):
        open_states([empty], PROGRAMS)


def test_text_and_csv_say_the_same() -> None:
    """The parts of a comparison, for people and for sheets."""
    history = months()
    text = compare_text.to_text(history)
    assert text.startswith("COMPARE House, baseline plan.csv\n")
    assert "march.csv -> april.csv\nEND 2026-06-19, 1 day later than 2026-06-18\n" in text
    assert "BY 2026-06-10: before in time; now for 2600 more\n" in text
    assert "now impossible (2026-06-11 at the earliest)\n" in text
    assert "RESTATED: since the report of 2026-04-30\n" in text
    rows = compare_csv.to_csv(history).decode().split("\n")
    assert rows[0] == "From,To,Part,Code,Name,What,Old,New"
    assert ",march.csv,state,,,cost of keeping it,,2600" in rows
    assert "march.csv,april.csv,end,,,days later,,1" in rows
    assert "april.csv,may.csv,end,,,days later,,-1" in rows
    assert "march.csv,april.csv,change,Plaster,Plaster,normal duration,10,7" in rows
    assert "march.csv,april.csv,curve,,,a day less than 2026-06-16,400,700" in rows
    assert "march.csv,april.csv,slack,Make-windows,Make the windows,slack,10,4" in rows
    assert "april.csv,may.csv,restated,Ground,,charges 2026-04-30,21700,21200" in rows


Run = Callable[..., tuple[int, str, str]]


@pytest.fixture
def run(capfdbinary: pytest.CaptureFixture[bytes]) -> Run:
    """Returns a function that runs pert-compare."""

    def run_command(*words: object) -> tuple[int, str, str]:
        outcome = run_words(capfdbinary, command.NAME, (command.parser, command.run), words)
        return outcome.status, outcome.output, outcome.errors

    return run_command


def test_command(run: Run, tmp_path: Path) -> None:
    """Text, CSV, earned value and money of the same states."""
    words = (MONTHS / "plan.csv", MONTHS / "march.csv")
    status, output, errors = run(*words, "--by", "2026-06-10")
    assert (status, errors) == (0, "")
    assert "now for 2600 more" in output
    assert run(*words, "--csv")[1].startswith("From,To,Part")
    assert run(*words, "--earned")[1].startswith("EARNED VALUE House 2026-03-31, baseline plan.csv")
    assert run(*words, "--earned", "--csv")[1].startswith("Package,Title")
    status, output, _ = run(*words, "--money")
    assert output.startswith("MONEY House 2026-03-31, baseline plan.csv\nDAY ")
    assert "note: The source has totals alone" in output
    assert run(*words, "--money", "--csv")[1].startswith("Day,Planned,Spent,Forecast\n")
    left = tmp_path / "left.csv"
    left.write_text("FOUND,5\n")
    status, output, errors = run(HOUSE, "--baseline", CASES / "early.csv", "--left", left)
    assert status == 0 and "2024-04-15" in output
    assert "ORDER: 12 of 25 left" in errors
    status, output, _ = run(HOUSE, "--earned")
    assert status == 0 and "SPI 0.782 = EV 3771 / PV 4820" in output


def test_command_refusals(run: Run, tmp_path: Path) -> None:
    """One state alone, a day that is none, a folder without decks, no file."""
    assert run(HOUSE) == (
        2,
        "",
        "pert-compare: one state alone: name two, a folder, or --baseline\n",
    )
    status, _, errors = run(HOUSE, HOUSE, "--by", "10.6.2026")
    assert status == 2 and "is no date such as" in errors
    status, _, errors = run(tmp_path)
    assert status == 1 and "no deck in this folder" in errors
    status, _, errors = run(HOUSE, tmp_path / "none.csv")
    assert status == 1 and errors.count("\n") == 1


def test_command_names_side_files_that_do_not_fit(run: Run, tmp_path: Path) -> None:
    """The first one that does not fit is named."""
    imported(tmp_path, "late.csv", "--as-of", "2026-10-01")
    deck = tmp_path / "late.csv"
    deck.write_bytes(re.sub(rb"\nAFTER,([^,]*),.*\n", rb"\n", deck.read_bytes(), count=1))
    status, _, errors = run(deck, deck)
    assert status == 1
    assert errors.count("it does not fit late.csv: the links of TASK ") == 1


def test_a_deck_that_only_looks_changed() -> None:
    """The order of cards is no change."""
    plan = plan_of(PLAN)
    deck: Deck = replace(plan.deck, loads=plan.deck.loads[::-1], charges=plan.deck.charges[::-1])
    found = compared(plan, replace(plan, deck=deck))
    assert found.changes == () and found.restated == ()
