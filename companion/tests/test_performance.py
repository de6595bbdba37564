"""Earned value by structure, account and manager, its scopes, and over time: worked out by hand."""

from dataclasses import replace
from datetime import date
from decimal import Decimal
from fractions import Fraction

import pytest
from hypothesis import given
from hypothesis import strategies as st
from running import plan_of

from pert_companion.analysis.budgets import budget_moves, unlogged_moves
from pert_companion.analysis.earned_value import Figures, Scope, earned_value, total_of
from pert_companion.analysis.performance import MEASURED, UNNAMED, Line, performance
from pert_companion.analysis.time_phased import end_of_month, time_phased
from pert_companion.model.errors import InputError
from pert_companion.model.ledger import Ledger, Voucher
from pert_companion.model.registers import (
    BudgetChange,
    PackageRule,
    Registers,
    Rename,
    Renames,
    Technique,
)
from pert_companion.model.text_form import PLAIN
from pert_companion.state.project import ProjectState
from pert_companion.writers import performance_text

PLAN = """PROJECT,P,s,e,2026-03-02,1,,Plan,2
WBS,W,,Work
WBS,G,W,Ground
WBS,A,G,Dig
WBS,B,G,Drain
WBS,C,W,Walls
WBS,I,W,Inspection
WBS,S,W,Supervision
TASK,DIG,A,4,4,4,4,4,1000,0,Dig
TASK,DRAIN,B,4,4,4,4,4,600,0,Drain
TASK,LOW,C,10,10,10,10,10,2000,0,Low walls
TASK,HIGH,C,10,10,10,10,10,3000,0,High walls
TASK,LOOK,I,0,0,0,0,0,0,0,Inspection
AFTER,DRAIN,DIG
AFTER,LOW,DIG
AFTER,HIGH,LOW
AFTER,LOOK,HIGH
ACCT,FND,A,1000,Ground works
ACCT,DRN,B,600,Drainage
ACCT,WAL-L,C,3500,Labour
ACCT,WAL-M,C,1500,Bricks
ACCT,INS,I,0,Inspection
ACCT,SUP,S,480,Supervision
END
"""
"""DIG days 0 to 4, DRAIN 4 to 8, LOW 4 to 14, HIGH 14 to 24: all days count."""

APRIL = (
    PLAN.replace("WBS,W,,", "ASOF,2026-03-22\nWBS,W,,", 1).removesuffix("END\n")
    + """CHARGE,FND,2026-03-07,1100
CHARGE,WAL-L,2026-03-20,900
CHARGE,WAL-M,2026-03-21,700
CHARGE,SUP,2026-03-22,250
CHARGE,SUP,2026-03-23,999
TOGO,WAL-M,2026-03-22,850
STATUS,DIG,S,2026-03-02
STATUS,DIG,F,2026-03-06
STATUS,LOW,S,2026-03-06
STATUS,LOW,F,2026-03-16
STATUS,HIGH,S,2026-03-16
END
"""
)
"""20 days have passed: of HIGH 6 days are worked and 4 are left; DRAIN has not begun."""


def state(text: str = APRIL, *rules: PackageRule, **registers: object) -> ProjectState:
    """Returns the state of a deck with some rules of packages and other tables."""
    tables = Registers(packages=rules, **registers)  # type: ignore[arg-type]
    return replace(plan_of(text), registers=tables)


def figures(line: Line) -> tuple[int, int, int, int]:
    """Returns BAC, PV, EV and AC of a line."""
    return line.figures.bac, line.figures.pv, line.figures.ev, line.figures.ac


def by_code(lines: tuple[Line, ...]) -> dict[str, tuple[int, int, int, int]]:
    """Returns the figures of each line."""
    return {line.code: figures(line) for line in lines}


def test_the_structure_by_hand() -> None:
    """Each item has the sum of the packages below it; supervision is measured by nothing."""
    found = performance(state(), state(PLAN))
    assert by_code(found.structure) == {
        "W": (6600, 1000 + 600 + 2000 + 1800, 1000 + 2000 + 1800, 1100 + 1600),
        "G": (1600, 1600, 1000, 1100),
        "A": (1000, 1000, 1000, 1100),
        "B": (600, 600, 0, 0),
        "C": (5000, 3800, 3800, 1600),
        "I": (0, 0, 0, 0),
    }
    assert [line.level for line in found.structure] == [1, 2, 3, 3, 2, 2]
    latest = {line.code: line.latest for line in found.structure}
    assert latest["A"] == 1100 and latest["B"] == 600
    assert latest["C"] == 900 + (3500 - 900) + 700 + 850
    scopes = {line.scope: figures(line) for line in found.totals}
    assert scopes == {
        "work": (6600, 5400, 4800, 2700),
        MEASURED: (6600, 5400, 4800, 2700),
        "not measured": (0, 0, 0, 250),
    }


def test_the_accounts_by_hand() -> None:
    """The walls' accounts share their value 35 to 15, and have their own costs."""
    found = performance(state(), state(PLAN))
    assert by_code(found.accounts) == {
        "FND": (1000, 1000, 1000, 1100),
        "DRN": (600, 600, 0, 0),
        "WAL-L": (3500, 2660, 2660, 900),
        "WAL-M": (1500, 1140, 1140, 700),
        "INS": (0, 0, 0, 0),
    }
    latest = {line.code: line.latest for line in found.accounts}
    assert latest == {"FND": 1100, "DRN": 600, "WAL-L": 3500, "WAL-M": 1550, "INS": 0}
    assert total_of(line.figures for line in found.accounts) == found.earned.total


def test_level_of_effort_is_earned_as_planned() -> None:
    """480 over 24 days: after 20 days 400 are planned and earned, 250 were spent."""
    found = performance(state(APRIL, PackageRule("S", Technique.EFFORT)), state(PLAN))
    scopes = {line.scope: figures(line) for line in found.totals}
    assert scopes["level of effort"] == (480, 400, 400, 250)
    assert scopes["work"] == (6600, 5400, 4800, 2700)
    assert scopes[MEASURED] == (7080, 5800, 5200, 2950)
    assert by_code(found.structure)["S"] == (480, 400, 400, 250)
    dated = PackageRule("S", Technique.EFFORT, start=date(2026, 3, 12), finish=date(2026, 3, 31))
    effort = earned_value(state(APRIL, dated), state(PLAN)).of(Scope.EFFORT)
    assert effort == Figures(480, 240, 240, 250)  # 10 of 20 days
    own = replace(dated, budget=Decimal(1000))
    assert earned_value(state(APRIL, own), state(PLAN)).of(Scope.EFFORT).pv == 500


def test_techniques_of_packages() -> None:
    """0/100 and 50/50 of the walls, milestones of the inspection, drainage as the walls."""
    plan = state(PLAN)
    whole = state(APRIL, PackageRule("C", Technique.AT_FINISH))
    assert by_code(performance(whole, plan).structure)["C"] == (5000, 2000, 2000, 1600)
    half = state(APRIL, PackageRule("C", Technique.HALVES))
    assert by_code(performance(half, plan).structure)["C"] == (5000, 3500, 3500, 1600)
    weights = (("DIG", 30), ("HIGH", 70))
    rule = PackageRule("I", Technique.MILESTONES, weights=weights, budget=Decimal(200))
    assert by_code(performance(state(APRIL, rule), plan).structure)["I"] == (
        200,
        60,
        60,
        0,
    )
    like = PackageRule("S", Technique.APPORTIONED, base="C")
    found = by_code(performance(state(APRIL, like), plan).structure)["S"]
    assert found == (480, round(480 * 3800 / 5000), round(480 * 3800 / 5000), 250)


def test_rules_that_cannot_be_followed_are_named() -> None:
    """A milestone that is no task, a base that nothing measures; an item of another deck."""
    plan = state(PLAN)
    weights = (("GONE", 100),)
    with pytest.raises(InputError, match="'GONE' is no task of the baseline"):
        earned_value(state(APRIL, PackageRule("I", Technique.MILESTONES, weights=weights)), plan)
    with pytest.raises(InputError, match="nothing measures its base, 'S'"):
        earned_value(state(APRIL, PackageRule("I", Technique.APPORTIONED, base="S")), plan)
    other = PackageRule("X", Technique.PERCENT, place="packages.csv: row 2")
    notes = earned_value(state(APRIL, other), plan).notes
    assert "packages.csv: row 2: the deck has no item X" in notes


def test_reserve_is_in_no_baseline() -> None:
    """Undistributed budget is in the baseline's budget; reserve is apart; changes move both."""
    rules = (
        PackageRule("UB", Technique.UNDISTRIBUTED, budget=Decimal(500)),
        PackageRule("MR", Technique.RESERVE, budget=Decimal(800)),
    )
    changes = (
        BudgetChange(date(2026, 3, 10), "reserve", "C", Decimal(300)),
        BudgetChange(date(2026, 3, 11), "", "UB", Decimal(50)),
        BudgetChange(date(2026, 4, 11), "reserve", "C", Decimal(100)),
    )
    earned = earned_value(state(APRIL, *rules, changes=changes), state(PLAN))
    assert earned.of(Scope.UNDISTRIBUTED) == Figures(550, 0, 0, 0)
    assert earned.of(Scope.RESERVE) == Figures(500, 0, 0, 0)
    assert earned.total.bac == 6600 and earned.changed == 300
    assert earned.baseline_budget == 6600 + 550 + 300
    whole = earned.baseline_budget + earned.of(Scope.RESERVE).bac
    assert whole == 6600 + 500 + 800 + 50  # all there was, and the new money


def test_managers_answer_for_what_is_below() -> None:
    """Miller has the ground; nobody is named for the rest."""
    rules = (PackageRule("G", manager="Miller"), PackageRule("B", manager="Smith"))
    found = performance(state(APRIL, *rules), state(PLAN))
    assert by_code(found.managers) == {
        "Miller": (1000, 1000, 1000, 1100),
        "Smith": (600, 600, 0, 0),
        UNNAMED: (5000, 3800, 3800, 1600),
    }
    assert not performance(state(), state(PLAN)).managers


def test_the_period_is_what_came_since_the_state_before() -> None:
    """Ten days before, DIG was done and LOW was in its seventh day."""
    before = APRIL.replace("ASOF,2026-03-22", "ASOF,2026-03-12")
    for card in ("STATUS,LOW,F,2026-03-16\n", "STATUS,HIGH,S,2026-03-16\n"):
        before = before.replace(card, "")
    found = performance(state(), state(PLAN), state(before))
    period = {line.code: line.period for line in found.structure}
    assert period["C"] == Figures(5000, 3800 - 1200, 3800 - 1200, 1600)
    assert period["B"] == Figures(600, 0, 0, 0)
    assert period["A"] == Figures(1000, 0, 0, 0)
    accounts = {line.code: line.period for line in found.accounts}
    assert accounts["WAL-L"] == Figures(3500, 1820, 1820, 900)
    assert accounts["FND"] == Figures(1000, 0, 0, 0)


def renamed(text: str) -> str:
    """Returns a deck in which a task, its account and its package have other codes."""
    for old, new in (
        ("WBS,A,G", "WBS,A1,G"),
        ("TASK,DIG,A,", "TASK,EXC,A1,"),
        ("ACCT,FND,A,", "ACCT,GRD,A1,"),
        ("CHARGE,FND", "CHARGE,GRD"),
        (",DIG\n", ",EXC\n"),
        ("STATUS,DIG", "STATUS,EXC"),
    ):
        text = text.replace(old, new)
    return text


RENAMES = Renames((Rename("DIG", "EXC"), Rename("FND", "GRD"), Rename("A", "A1")))


def test_a_rename_changes_no_total() -> None:
    """Task, account and package have other codes: BAC, PV, EV, AC and periods stay."""
    plan = state(PLAN)
    before = state(APRIL.replace("ASOF,2026-03-22", "ASOF,2026-03-16"))
    plain = performance(state(), plan, before)
    other = performance(state(renamed(APRIL), renames=RENAMES), plan, before)
    assert other.earned.total == plain.earned.total
    assert other.earned.notes == plain.earned.notes
    assert other.earned.earned_schedule == plain.earned.earned_schedule
    for mine, theirs in zip(other.accounts, plain.accounts):
        assert (mine.figures, mine.period, mine.latest) == (
            theirs.figures,
            theirs.period,
            theirs.latest,
        )
    for mine, theirs in zip(other.structure, plain.structure):
        assert (mine.figures, mine.period) == (theirs.figures, theirs.period)
    lost = performance(state(renamed(APRIL)), plan)
    assert lost.earned.total.bac == plain.earned.total.bac - 1000


def test_budgets_that_moved_without_a_change_are_named() -> None:
    """The walls got 400: 300 from the reserve by a row, 100 by none."""
    now = APRIL.replace("HIGH,C,10,10,10,10,10,3000", "HIGH,C,10,10,10,10,10,3400")
    now = now.replace("ACCT,WAL-L,C,3500", "ACCT,WAL-L,C,3900")
    changes = (
        BudgetChange(date(2026, 3, 10), "reserve", "C", Decimal(300)),
        BudgetChange(date(2026, 4, 10), "reserve", "C", Decimal(100)),
    )
    moves = list(budget_moves(state(now, changes=changes), state(PLAN)))
    assert [(m.item, m.before, m.now, m.logged, m.unlogged) for m in moves] == [
        ("C", 5000, 5400, 300, 100)
    ]
    all_logged = (*changes, BudgetChange(date(2026, 3, 11), "B", "C", Decimal(100)))
    found = unlogged_moves(state(now, changes=all_logged), state(PLAN))
    assert [(m.item, m.unlogged) for m in found] == [("B", 100)]
    same = state(renamed(APRIL), renames=RENAMES)
    assert not list(budget_moves(same, state(PLAN)))


def test_time_phased_by_hand() -> None:
    """At the data date the figures are those of every other table; by 31 March all is planned."""
    plan, now = state(PLAN), state()
    months = time_phased([plan, now], [plan])
    closes = sorted({month.close for month in months})
    assert closes == [date(2026, 3, 22), date(2026, 3, 31)]
    first = {m.account: (m.pv, m.ev, m.ac) for m in months if m.close == closes[0]}
    accounts = performance(now, plan).accounts
    assert first == {line.code: figures(line)[1:] for line in accounts}
    assert first["WAL-L"] == (3500 * 38 // 50, 2660, 900)  # 20 days: 2000 + 1800 of 5000
    last = {m.account: (m.pv, m.ev, m.ac) for m in months if m.close == closes[1]}
    assert last["WAL-L"] == (3500, None, None)
    assert sum(pv for pv, _, _ in last.values()) == 6600


def test_the_end_of_a_month_is_its_evening() -> None:
    """By the evening of 31 March, the morning of 1 April, charges of that morning count."""
    later = APRIL.replace("ASOF,2026-03-22", "ASOF,2026-04-05")
    later = later.replace(
        "CHARGE,SUP", "CHARGE,FND,2026-04-01,30\nCHARGE,FND,2026-04-02,4\nCHARGE,SUP", 1
    )
    months = time_phased([state(later)], [state(PLAN)])
    spent = {month.close: month.ac for month in months if month.account == "FND"}
    wanted = {date(2026, 3, 31): 1130, date(2026, 4, 5): 1134, date(2026, 4, 30): None}
    assert spent == wanted
    first = APRIL.replace("ASOF,2026-03-22", "ASOF,2026-04-01")
    months = time_phased([state(first)], [state(PLAN)])
    assert {month.close for month in months} == {date(2026, 4, 1)}


def test_time_phased_keeps_what_was_reported() -> None:
    """By a new plan in which LOW lasts 20 days, less was planned; the report of then stays."""
    plan = state(PLAN)
    replan = state(
        PLAN.replace("WBS,W,,", "ASOF,2026-03-23\nWBS,W,,", 1).replace(
            "LOW,C,10,10,10,10,10", "LOW,C,20,20,20,20,20"
        )
    )
    then, now = state(), state(APRIL.replace("ASOF,2026-03-22", "ASOF,2026-03-24"))
    months = [m for m in time_phased([plan, then, now], [plan, replan]) if m.account == "WAL-L"]
    first, second = months[:2]
    assert (first.close, first.reported_pv, first.reported_ev) == (date(2026, 3, 22), 2660, 2660)
    assert first.pv == 3500 * 16 // 50  # 16 of 20 days of LOW
    assert (second.close, second.reported_pv) == (date(2026, 3, 24), None)
    plain = time_phased([plan, then, now], [plan])
    assert not any(month.reported_ev for month in plain)
    text = performance_text.months_to_text(months, "MONTHS", PLAIN)
    assert "REPORTED PV" in text
    assert "REPORTED" not in performance_text.months_to_text(plain, "MONTHS", PLAIN)


def test_time_phased_costs_are_the_ledgers() -> None:
    """A voucher counts in the month of its day, also a credit; nothing is known after today.

    With a ledger the morning of 22 March is the close of the 21st: vouchers of the 22nd are later.
    """
    ledger = Ledger(
        (
            Voucher(date(2026, 2, 28), "FND", Decimal("100")),
            Voucher(date(2026, 3, 5), "FND", Decimal("1000.40")),
            Voucher(date(2026, 3, 21), "FND", Decimal("-0.40")),
            Voucher(date(2026, 3, 22), "FND", Decimal("5")),
        )
    )
    now = replace(state(), ledger=ledger)
    months = time_phased([now], [state(PLAN)])
    spent = {month.close: month.ac for month in months if month.account == "FND"}
    assert spent == {date(2026, 3, 21): 1100, date(2026, 3, 31): None}


@given(st.dates(date(1900, 1, 1), date(2199, 12, 31)))
def test_the_end_of_a_month(day: date) -> None:
    """The day after it is the first of a month, and it is in the month of the day."""
    last = end_of_month(day)
    assert last >= day and (last.year, last.month) == (day.year, day.month)
    assert date.fromordinal(last.toordinal() + 1).day == 1


def test_every_table_has_every_figure() -> None:
    """CSV has all columns; text has the period below; cents are money."""
    found = performance(
        state(), state(PLAN), state(APRIL.replace("2026-03-22\nWBS", "2026-03-16\nWBS"))
    )
    rows = performance_text.to_csv(found.structure, 100).decode().splitlines()
    assert rows[0].split(",")[5:12] == ["BAC", "PV", "EV", "AC", "SV", "CV", "SPI"]
    assert rows[1].startswith("W,Work,1,,work,66.00,54.00,48.00,27.00,-6.00,21.00,0.889,1.778,")
    text = performance_text.to_text(found.accounts, "ACCOUNTS", PLAIN)
    assert "SINCE THE STATE BEFORE" in text and "Labour" in text
    assert Fraction(4800, 5400) == found.earned.total.spi
