"""Earned value against figures worked out by hand."""

from dataclasses import replace
from decimal import Decimal
from fractions import Fraction
from pathlib import Path

from hypothesis import given, settings
from hypothesis import strategies as st
from running import CASES, HOUSE, MONTHS, imported, opened, plan_of

from pert_companion.analysis.earned_value import (
    EarnedValue,
    Figures,
    done_shares,
    earned_value,
)
from pert_companion.analysis.measuring import Piece, time_of_value
from pert_companion.state.project import ProjectState
from pert_companion.writers import earned_text

MILESTONES = """PROJECT,P,s,e,2026-03-02,1,,Plan,2
ASOF,2026-03-12
WBS,W,,Work
WBS,A,W,Work
WBS,B,W,Payments
TASK,DIG,A,4,4,4,4,4,1000,0,Dig
TASK,PAY,B,0,0,0,0,0,500,0,Pay
TASK,LAST,B,0,0,0,0,0,70,0,Last payment
AFTER,PAY,DIG
AFTER,LAST,PAY
ACCT,A,A,1000,
ACCT,B,B,570,
STATUS,DIG,S,2026-03-02
STATUS,DIG,F,2026-03-06
END
"""


def own(plan: ProjectState) -> EarnedValue:
    """Returns the earned value of a plan against itself."""
    return earned_value(plan, plan)


def amounts(earned: EarnedValue) -> dict[str, tuple[int, int, int, int]]:
    """Returns BAC, PV, EV and AC of each package."""
    found = {}
    for package in earned.packages:
        figures = package.figures
        found[package.code] = (figures.bac, figures.pv, figures.ev, figures.ac)
    return found


def test_the_house_by_hand() -> None:
    """14 days have passed: SITE done, FOUND 6 of 7, ORDER 13 of 25; WALLS should have 3 of 10."""
    earned = own(opened(HOUSE))
    found = amounts(earned)
    assert found["1.1.1"] == (400, 400, 400, 420)
    assert found["1.1.2"] == (900, 900, 771, 600)  # 900 x 6 / 7
    assert found["1.2.1"] == (2400, 720, 0, 0)  # 2400 x 3 / 10
    assert found["1.3.3"] == (5000, 2800, 2600, 1000)  # 14 and 13 of 25 days
    assert found["1.4"] == (0, 0, 0, 200)
    total = earned.total
    assert (total.bac, total.pv, total.ev, total.ac) == (12600, 4820, 3771, 2020)
    assert total.cpi == Fraction(3771, 2020) and total.spi == Fraction(3771, 4820)
    assert round(total.eac_by_plan) == 2020 + 12600 - 3771
    assert total.eac_by_cpi == Fraction(12600 * 2020, 3771)
    assert total.eac_by_both == 2020 + Fraction(8829 * 2020 * 4820, 3771 * 3771)
    assert total.tcpi == Fraction(8829, 10580)
    assert earned.actual_time == 14
    # by day 11 2200 are planned for ORDER and 1300 for the ground; then 440 a day
    assert earned.earned_schedule == 11 + Fraction(3771 - 3500, 440)
    assert earned.schedule_variance == earned.earned_schedule - 14
    assert earned.spi_of_time == earned.earned_schedule / 14
    assert earned.notes == ("1.4: no tasks of the baseline, so its money is in no ratio",)


def test_dummies_without_status_hold_no_package_back() -> None:
    """Roof has a dummy; all else of it is finished, so it has earned its budget."""
    plan = opened(CASES / "done.csv")
    statuses = tuple(card for card in plan.deck.statuses if card.activity != "D1")
    earned = own(replace(plan, deck=replace(plan.deck, statuses=statuses)))
    assert amounts(earned)["1.2.2"] == (1500, 1500, 1500, 0)
    assert earned.total.spi == 1


def test_time_stops_when_the_work_is_finished() -> None:
    """The house of 35 days was done after 42; later data dates do not make it later."""
    earned = own(opened(CASES / "done.csv"))
    assert earned.actual_time == 42
    assert earned.earned_schedule == 35
    assert earned.total.ev == earned.total.bac == 12600
    assert earned.total.eac_by_plan == earned.total.ac
    assert earned.total.tcpi == 0


def test_a_house_that_is_ahead() -> None:
    """FOUND was done in 5 days: on day 9 900 are earned where 5 / 7 of them were planned."""
    earned = own(opened(CASES / "early.csv"))
    assert amounts(earned)["1.1.2"] == (900, 643, 900, 0)
    assert earned.total.pv == 400 + 643 + 1800
    assert earned.total.ev == 400 + 900 + 1600
    assert earned.spi_of_time is not None and earned.spi_of_time > 1


def test_a_plan_of_totals() -> None:
    """Procure has a day left of 40 and Build 21 of 60; on day 67 Build should have 47."""
    earned = own(opened(CASES / "sh.csv"))
    total = earned.total
    assert total.pv == 20000 + 60000 + 70500
    assert total.ev == 20000 + 58500 + 58500
    assert total.ac == 76000


def test_percent_is_used_where_the_source_has_it(tmp_path: Path) -> None:
    """A task in parts, 75 % done, has earned 75 % of its cost."""
    plan = imported(tmp_path, "ontime.csv", "--as-of", "2026-09-08")
    assert done_shares(plan)["Demolish"] == Fraction(3, 4)


def test_milestones_without_status_are_reached_with_the_work_before_them() -> None:
    """Both payments are earned when DIG is finished, one after the other; neither before."""
    earned = own(plan_of(MILESTONES))
    assert amounts(earned)["B"] == (570, 570, 570, 0)
    assert sum("a milestone without status" in note for note in earned.notes) == 2
    begun = MILESTONES.replace("STATUS,DIG,F,2026-03-06\n", "").replace(
        "4,4,4,4,4", "20,20,20,20,4"
    )
    waiting = own(plan_of(begun))
    assert amounts(waiting)["B"] == (570, 0, 0, 0)
    reported = begun.replace("END", "STATUS,PAY,S,2026-03-03\nSTATUS,PAY,F,2026-03-03\nEND")
    assert amounts(own(plan_of(reported)))["B"] == (570, 0, 570, 0)
    assert amounts(own(plan_of(begun.replace("END", "STATUS,PAY,S,2026-03-03\nEND"))))["B"][2] == 0


def test_new_and_gone_tasks_are_named() -> None:
    """Work without a baseline earns nothing; what is in the baseline alone is in no figure."""
    old = plan_of(MILESTONES)
    text = MILESTONES.replace("TASK,LAST,B,0,0,0,0,0,70", "TASK,MORE,B,0,0,0,0,0,70")
    earned = earned_value(plan_of(text.replace("AFTER,LAST", "AFTER,MORE")), old)
    assert earned.total.bac == 1500
    assert any(note.startswith("MORE: not in the baseline") for note in earned.notes)
    assert any(note.startswith("LAST: in the baseline alone") for note in earned.notes)


def test_units_of_money_of_the_baseline_do_not_matter() -> None:
    """A baseline in whole euros measures a deck in cents."""
    old = plan_of(MILESTONES)
    new = plan_of(MILESTONES)
    new = replace(new, side=replace(new.side, money_scale=100))
    assert earned_value(new, old).total.bac == 157_000


def test_ratios_of_nothing_are_none() -> None:
    """Nothing is divided by 0."""
    nothing = Figures(0, 0, 0, 0)
    found = (
        nothing.cpi,
        nothing.spi,
        nothing.eac_by_cpi,
        nothing.eac_by_both,
        nothing.tcpi,
    )
    assert found == (None,) * 5
    assert Figures(10, 5, 0, 5).eac_by_both is None


def test_three_months_by_hand() -> None:
    """What stands in docs/cost-engineer.md, worked out from the lists."""
    baseline = opened(MONTHS / "plan.csv")
    march = earned_value(opened(MONTHS / "march.csv"), baseline).total
    assert march.pv == 2000 + 18000 + 36000 * 2 // 20 + 30000 * 17 // 40
    assert march.ev == 2000 + 18000 * 80 // 100 + 30000 * 40 // 100
    assert march.ac == 2300 + 15500 + 10000
    april = earned_value(opened(MONTHS / "april.csv"), baseline).total
    assert april.ev == 2000 + 18000 + 36000 * 70 // 100 + 30000 * 75 // 100
    assert april.ac == 2300 + 19400 + 27000 + 20000


PLANNED = st.lists(
    st.tuples(st.integers(0, 100), st.integers(0, 12), st.integers(0, 6)),
    min_size=1,
    max_size=6,
)


@given(PLANNED, st.integers(0, 100))
@settings(max_examples=200, deadline=None)
def test_the_earned_schedule_is_when_that_much_was_planned(
    drawn: list[tuple[int, int, int]], percent: int
) -> None:
    """At that time the planned value is reached, and no time before reaches it."""
    tasks = [Piece(Fraction(c), Fraction(at), Fraction(at + days)) for c, at, days in drawn]
    whole = sum((task.amount for task in tasks), Fraction(0))
    earned = whole * percent / 100
    time = time_of_value(tasks, earned)

    def value(at: Fraction) -> Fraction:
        return sum((task.value_at(at) for task in tasks), Fraction(0))

    assert value(time) >= earned
    for before in (time - Fraction(1, 1000), time * Fraction(999, 1000), time / 2):
        if 0 <= before < time:
            assert value(before) < earned


def test_texts() -> None:
    """Each ratio is next to the two numbers that it divides."""
    earned = own(opened(HOUSE))
    text = earned_text.to_text(earned, "EARNED", 480, 2051)
    assert "SPI 0.782 = EV 3771 / PV 4820\n" in text
    assert "CPI 1.867 = EV 3771 / AC 2020\n" in text
    assert "EAC 6749 = BAC 12600 x AC 2020 / EV 3771" in text
    assert "VALUE 2051 of pert value" in text
    table = earned_text.to_csv(earned).decode().split("\n")
    assert table[0].startswith("Package,Title,Scope,Technique,Manager,BAC,PV,EV,AC,SV,CV,SPI,CPI,")
    assert table[0].endswith("VAC,TCPI,SPI(t)")
    assert "1.4,Supervision,not measured,percent,,,,,200,,,,,,,,,," in table
    total = next(row for row in table if row.startswith("TOTAL,"))
    assert total.startswith(
        "TOTAL,,work,percent,,12600,4820,3771,2020,-1049,1751,0.782,1.867,6749,"
    )
    assert total.endswith("5851,0.834,0.830")


def test_a_task_with_percent_that_has_begun() -> None:
    """The percent of the side file comes before the time worked."""
    plan = plan_of(MILESTONES.replace("STATUS,DIG,F,2026-03-06\n", ""))
    first, *others = plan.side.tasks
    side = replace(plan.side, tasks=(replace(first, percent=Decimal("12.5")), *others))
    assert done_shares(replace(plan, side=side))["DIG"] == Fraction(1, 8)
