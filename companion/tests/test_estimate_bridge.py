"""The bridge from the cost of the work to the latest estimate, against sums by hand."""

from dataclasses import replace
from pathlib import Path

from page.certificates import PROGRAMS, house_with_terms
from pert_companion.analysis.estimate_bridge import Step, estimate_bridge
from pert_companion.analysis.options import Mark, Option, Reason, options, options_at
from pert_companion.cli.opening import opened
from pert_companion.model.deck import parse_deck
from pert_companion.state.project import ProjectState, state_of
from running import EXAMPLES

YARD = """PROJECT,Y,S,T,2026-03-02,1,,Yard
WBS,Y,,Yard
WBS,W,Y,Work
WBS,F,Y,Fees
WBS,R,Y,Reserve
WBS,U,Y,Not distributed yet
TASK,A,W,2,3,5,3,2,500,60,Dig
ACCT,W,W,500,
ACCT,F,F,40,
ACCT,R,R,70,
ACCT,U,U,20,
TERMS,10,2,0,30
END
"""
RULES = """item,technique,budget
R,reserve,70
U,undistributed,20
MR,reserve,9
MR2,reserve,1
UB,undistributed,5
"""


def today(state: ProjectState) -> Option:
    """Returns the option of today's plan."""
    return options_at(state.rest, [Mark(state.rest.longest, Reason.TODAY)])[0]


def amounts(steps: tuple[Step, ...]) -> list[tuple[str, int]]:
    return [(step.name, step.amount) for step in steps]


def test_it_adds_up_to_the_estimate_and_to_the_option() -> None:
    state = state_of(parse_deck(house_with_terms(), "house.csv"), PROGRAMS)
    option = options(state)[-1]
    assert option.has(Reason.SHORTEST)
    steps = estimate_bridge(state, option)
    tasks, spent, packages, latest, work, time, whole = (step.amount for step in steps)
    assert latest == tasks + spent + packages == state.plan.summary["1"].latest
    assert packages == state.plan.summary["1.4"].latest
    assert whole == latest + work + time
    assert (work, time) == (option.work_against_today, option.time)
    assert [step.name for step in steps if step.is_sum] == ["latest estimate", "in all"]
    assert estimate_bridge(replace(state, deck=replace(state.deck, accounts=())), option) == ()


def test_the_reserve_of_the_pump_station_is_in_no_estimate() -> None:
    """April, in cents, from the lists by hand.

    Vouchers and amounts to go: Ground 76,950 + 0, Shaft 117,500.75 + 6,000, Pumps 75,000 + 39,000,
    Electrical 32,330.65 + 23,000; Supervision 38,600, whose budget is spent. The tasks cost
    324,000. Of 15,000 in reserve 6,000 went to Shaft.
    """
    (state,) = opened([EXAMPLES / "pump" / "april.csv"], PROGRAMS)
    steps = estimate_bridge(state, today(state))
    assert amounts(steps) == [
        ("the tasks at their normal costs", 32400000),
        ("what was spent and re-estimated beyond that", 36978140 - 32400000),
        ("packages without tasks", 3860000),
        ("latest estimate", 40838140),
        ("the shorter work", 0),
        ("in all", 40838140),
        ("undistributed budget without an account", 800000),
        ("management reserve without an account", 900000),
        ("in all, undistributed budget and management reserve included", 42538140),
    ]


def test_a_reserve_with_an_account_is_in_the_estimate(tmp_path: Path) -> None:
    """Nothing is counted twice; the end is one day after the target, the second."""
    (tmp_path / "yard.csv").write_text(YARD)
    (tmp_path / "packages.csv").write_text(RULES)
    (state,) = opened([tmp_path / "yard.csv"], PROGRAMS)
    steps = estimate_bridge(state, today(state))
    assert amounts(steps) == [
        ("the tasks at their normal costs", 500),
        ("what was spent and re-estimated beyond that", 0),
        ("packages without tasks", 40),
        ("undistributed budget with an account", 20),
        ("management reserve with an account", 70),
        ("latest estimate", 630),
        ("the shorter work", 0),
        ("the price of time", 3 * 10 + 1 * 30),
        ("in all", 690),
        ("undistributed budget without an account", 5),
        ("management reserve without an account", 10),
        ("in all, undistributed budget and management reserve included", 705),
    ]
