"""The five months of examples/pump, computed a second time from their lists."""

import csv
from datetime import date, timedelta
from decimal import Decimal
from pathlib import Path

import pytest
from running import EXAMPLES, PROGRAMS

from pert_companion.analysis.compare import compare
from pert_companion.analysis.earned_value import Scope
from pert_companion.analysis.performance import performance
from pert_companion.cli.opening import opened
from pert_companion.model.ledger import find_ledger
from pert_companion.state.project import ProjectState

PUMP = EXAMPLES / "pump"
MONTHS = ("january", "february", "march", "april", "may")
CLOSES = {
    "january": date(2026, 1, 31),
    "february": date(2026, 2, 28),
    "march": date(2026, 3, 31),
    "april": date(2026, 4, 30),
    "may": date(2026, 5, 31),
}
COSTS = {"EXC": 45000, "SLAB": 30000, "WALLS": 64000, "COVER": 20000}
COSTS |= {"ORDER": 90000, "FIT": 24000, "CABINET": 36000, "COMM": 9000}
PACKAGES = {"Ground": ("EXC", "SLAB"), "Shaft": ("WALLS", "COVER"), "Pumps": ("ORDER", "FIT")}
PACKAGES |= {"Controls": ("CABINET", "COMM")}
PLANNED = {"EXC": (0, 15), "SLAB": (15, 25), "WALLS": (25, 45), "COVER": (45, 53)}
PLANNED |= {"ORDER": (0, 60), "FIT": (60, 70), "CABINET": (15, 40), "COMM": (70, 75)}
"""By hand from lists/plan.csv: the days of work before each task begins and ends."""
DONE = {
    "january": {"EXC": 100, "SLAB": 30, "ORDER": 30, "CABINET": 8},
    "february": {"EXC": 100, "SLAB": 100, "WALLS": 15, "ORDER": 60, "CABINET": 60},
    "march": {"EXC": 100, "SLAB": 100, "WALLS": 60, "ORDER": 100, "CABINET": 100},
    "april": {"EXC": 100, "SLAB": 100, "WALLS": 100, "COVER": 75, "ORDER": 100, "CABINET": 100},
    "may": dict.fromkeys(COSTS, 100),
}
EFFORT = 31800
EFFORT_DAYS = 75


def days_until(close: date) -> int:
    """Returns the working days, Monday to Friday, up to a close of business."""
    day, count = date(2026, 1, 5), 0
    while day <= close:
        count += day.weekday() < 5
        day += timedelta(days=1)
    return count


def planned(task: str, days: int) -> Decimal:
    """Returns the planned value of a task: evenly, or half and half for the pumps."""
    begin, end = PLANNED[task]
    cost = Decimal(COSTS[task])
    if task in PACKAGES["Pumps"]:
        return cost / 2 * ((days > begin) + (days >= end))
    return cost * min(max(days - begin, 0), end - begin) / (end - begin)


def earned(task: str, month: str) -> Decimal:
    """Returns the earned value of a task by the list of a month."""
    share = DONE[month].get(task, 0)
    if task in PACKAGES["Pumps"]:
        return Decimal(COSTS[task]) / 2 * ((share > 0) + (share == 100))
    return Decimal(COSTS[task]) * share / 100


def spent(package: str, close: date) -> Decimal:
    """Returns the vouchers of all lists up to a close, each number once."""
    names = {"Controls": ("Controls", "Electrical")}.get(package, (package,))
    amounts = {}
    for month in MONTHS:
        with (PUMP / "lists" / f"{month}-vouchers.csv").open(encoding="utf-8") as file:
            for row in csv.DictReader(file, delimiter=";"):
                day, number = row["Posting date"].split("."), row["Voucher"]
                amount = row["Amount"].replace(".", "").replace(",", ".").removesuffix(" €")
                booked = date(int(day[2]), int(day[1]), int(day[0]))
                if row["Account"] in names and booked <= close:
                    amounts[number] = Decimal(amount)
    return sum(amounts.values(), Decimal(0))


@pytest.fixture(name="states", scope="module")
def fixture_states() -> dict[str, ProjectState]:
    """Returns the plan and the state of each month."""
    paths = [PUMP / f"{name}.csv" for name in ("plan", *MONTHS)]
    return {state.path.stem: state for state in opened(paths, PROGRAMS)}


@pytest.mark.parametrize("month", MONTHS)
def test_each_month_by_package(month: str, states: dict[str, ProjectState]) -> None:
    """BAC, PV, EV and AC of each package in cents; Controls was renamed to Electrical in April."""
    found = performance(states[month], states["plan"]).earned
    by_code = {package.code: package.figures for package in found.packages}
    close = CLOSES[month]
    days = days_until(close)
    for package, tasks in PACKAGES.items():
        code = package if package in by_code else "Electrical"
        figures = by_code[code]
        assert figures.bac == 100 * sum(COSTS[task] for task in tasks)
        assert figures.pv == 100 * sum(planned(task, days) for task in tasks)
        assert figures.ev == 100 * sum(earned(task, month) for task in tasks)
        assert figures.ac == 100 * spent(package, close)
    effort = by_code["Super"]
    share = Decimal(EFFORT) * min(days, EFFORT_DAYS) / EFFORT_DAYS
    assert effort.pv == effort.ev == 100 * share
    assert effort.ac == 100 * spent("Super", close)
    assert found.total.bac == 100 * (sum(COSTS.values()) + EFFORT)
    reserve = 15000 if close < date(2026, 3, 10) else 9000
    assert found.of(Scope.RESERVE).bac == 100 * reserve
    assert found.of(Scope.UNDISTRIBUTED).bac == 800_000


def test_the_close_of_march(states: dict[str, ProjectState]) -> None:
    """The voucher of 50,000 of 1 April is in the ledger of March, and in the costs of April."""
    ledger = find_ledger(PUMP / "march.csv")
    assert ledger is not None and ledger.vouchers[-1].day == date(2026, 4, 1)
    for month, spent in (("march", 26_908_140), ("april", 34_038_140)):
        assert sum(card.amount for card in states[month].deck.charges) == spent


def test_credits_are_no_restated_past(states: dict[str, ProjectState]) -> None:
    """February takes 1800.50 and the accrual of January back: both are credits, and no more."""
    months = [states["january"], states["february"]]
    found = compare(months, states["plan"]).comparisons[0]
    assert [(each.account, each.amount) for each in found.credits] == [
        ("Controls", 250_000),
        ("Ground", 180_050),
    ]
    assert not found.restated


def test_a_rename_is_no_change_of_scope(states: dict[str, ProjectState]) -> None:
    """The walls and the controls have other codes in April: no task is new or gone."""
    found = compare([states["march"], states["april"]], states["plan"]).comparisons[0]
    kinds = {change.kind.value for change in found.changes}
    assert not kinds & {"new", "gone"} and "cost" in kinds
    assert not found.restated


def test_a_new_baseline_keeps_what_was_reported(states: dict[str, ProjectState]) -> None:
    """With April as a new baseline, March and April are measured by the plan, and by April too."""
    months = [states[name] for name in ("plan", "march", "april", "may")]
    plain = compare(months).states
    found = compare(months, None, None, [states["april"]])
    assert found.baselines == ("plan.csv", "april.csv")
    for old, new in zip(plain[1:3], found.states[1:3]):
        assert old.earned is not None and new.earned is not None
        assert new.earned.total == old.earned.total
    assert found.states[1].by_newest is not None
    assert found.states[1].by_newest.total.bac == 100 * (sum(COSTS.values()) + EFFORT + 6000)
    may = found.states[3]
    assert may.by_newest is None and may.earned is not None
    assert may.earned.total.bac == 100 * (sum(COSTS.values()) + EFFORT + 6000)


def test_the_lists_are_all_in_the_example() -> None:
    """The script names every list, so that the example can be made again."""
    script = (PUMP / "make.sh").read_text()
    assert all(f"lists/{path.name}" in script for path in Path(PUMP / "lists").iterdir())
