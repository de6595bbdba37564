"""What of a state is hard to believe: each doubt on a deck that has it, and not on one without."""

from dataclasses import replace
from datetime import date
from decimal import Decimal

import pytest
from running import plan_of
from test_performance import APRIL, PLAN

from pert_companion.analysis.plausibility import Doubt, DoubtKind, doubts
from pert_companion.model.registers import BudgetChange, Registers
from pert_companion.model.sidefile import SideTask
from pert_companion.state.project import ProjectState
from pert_companion.writers import doubts_text


def with_cards(*cards: str, text: str = APRIL) -> ProjectState:
    """Returns the state of a deck with further cards."""
    return plan_of(text.removesuffix("END\n") + "".join(f"{card}\n" for card in cards) + "END\n")


def with_task(state: ProjectState, code: str, **said: object) -> ProjectState:
    """Returns a state whose side file says something of a task."""
    tasks = []
    for task in state.side.tasks:
        tasks.append(replace(task, **said) if task.code == code else task)
    return replace(state, side=replace(state.side, tasks=tuple(tasks)))


def of_kind(found: tuple[Doubt, ...], kind: DoubtKind) -> list[tuple[str, str, int | None]]:
    """Returns code, figure and amount of the doubts of a kind."""
    return [(doubt.code, doubt.figure, doubt.amount) for doubt in found if doubt.kind is kind]


def test_a_state_that_is_believed() -> None:
    """DIG was done and closed, the walls are on their way."""
    state = with_cards("TOGO,FND,2026-03-22,0")
    assert not doubts(state)
    assert doubts_text.to_text((), "STATUS") == "STATUS\nnothing is hard to believe\n"


@pytest.mark.parametrize(
    ("cards", "kind", "wanted"),
    (
        (
            ("TOGO,DRN,2026-03-22,0",),
            DoubtKind.NOTHING_TO_GO,
            ("DRN", "0 to go of 600", -600),
        ),
        (
            ("CHARGE,DRN,2026-03-20,70",),
            DoubtKind.SPENT_BEFORE,
            ("DRN", "70 spent", 0),
        ),
        (
            ("TOGO,FND,2026-03-22,40",),
            DoubtKind.FINISHED_TO_GO,
            ("FND", "40 to go (said)", 40),
        ),
        (
            ("STATUS,DRAIN,S,2026-03-04",),
            DoubtKind.OUT_OF_SEQUENCE,
            (
                "DRAIN",
                "began 2026-03-04; DIG, which it comes after, was finished later",
                None,
            ),
        ),
    ),
)
def test_each_doubt_of_one_state(
    cards: tuple[str, ...], kind: DoubtKind, wanted: tuple[str, str, int | None]
) -> None:
    """The doubt has its account or task, what is said, and what that does to the estimate."""
    assert of_kind(doubts(with_cards(*cards)), kind) == [wanted]
    assert kind not in {doubt.kind for doubt in doubts(with_cards("TOGO,FND,2026-03-22,0"))}


def test_work_that_follows_unfinished_work() -> None:
    """HIGH has begun although LOW is not finished: what is left of it waits."""
    state = plan_of(APRIL.replace("STATUS,LOW,F,2026-03-16\n", ""))
    found = [doubt for doubt in doubts(state) if doubt.kind is DoubtKind.OUT_OF_SEQUENCE]
    assert [(doubt.code, doubt.effect) for doubt in found] == [("HIGH", "what is left of it waits")]


def test_finished_work_with_a_budget_that_is_not_spent() -> None:
    """FND has spent 1100 of 1000; with 900 spent and no amount to go 100 are in the estimate."""
    state = plan_of(APRIL.replace("CHARGE,FND,2026-03-07,1100", "CHARGE,FND,2026-03-07,900"))
    assert of_kind(doubts(state), DoubtKind.FINISHED_TO_GO) == [
        ("FND", "100 to go (budget not spent)", 100)
    ]


def test_progress_that_does_not_agree() -> None:
    """HIGH: 60 % of 10 days are 4 days; DIG is finished and has a day left."""
    state = plan_of(APRIL)
    day = 480
    for left, wanted in (
        (4 * day, []),
        (5 * day, []),
        (6 * day, [("HIGH", "60 % done; 6 of 10 days left", None)]),
        (2 * day, [("HIGH", "60 % done; 2 of 10 days left", None)]),
    ):
        said = with_task(state, "HIGH", percent=Decimal(60), remaining=left)
        assert of_kind(doubts(said), DoubtKind.PERCENT_APART) == wanted
    open_end = with_task(state, "HIGH", percent=Decimal(100), remaining=0)
    assert of_kind(doubts(open_end), DoubtKind.FINISHED_LEFT) == [
        ("HIGH", "100 % and not finished", None)
    ]
    done = with_task(state, "DIG", remaining=day)
    assert of_kind(doubts(done), DoubtKind.FINISHED_LEFT) == [("DIG", "1 day left", None)]


def test_amounts_to_go_that_do_not_fall() -> None:
    """WAL-M had 1200 to go and spent 700 since: 500 would be left, and 850 are."""
    before = with_cards(
        "TOGO,WAL-M,2026-03-20,1200",
        text=APRIL.replace("ASOF,2026-03-22", "ASOF,2026-03-20").replace(
            "TOGO,WAL-M,2026-03-22,850\n", ""
        ),
    )
    found = doubts(plan_of(APRIL), before)
    assert of_kind(found, DoubtKind.TO_GO_STAYS) == [
        ("WAL-M", "700 spent; to go 1200 before, 850 now", 350)
    ]
    fallen = plan_of(APRIL.replace("TOGO,WAL-M,2026-03-22,850", "TOGO,WAL-M,2026-03-22,500"))
    assert not of_kind(doubts(fallen, before), DoubtKind.TO_GO_STAYS)


def test_critical_work_that_stands_still() -> None:
    """HIGH was critical and begun ten days ago, and nothing is said of it since."""
    text = APRIL.replace("ASOF,2026-03-22", "ASOF,2026-03-19")
    before = with_task(plan_of(text), "HIGH", percent=Decimal(20), remaining=8 * 480)
    still = with_task(plan_of(APRIL), "HIGH", percent=Decimal(20), remaining=8 * 480)
    found = of_kind(doubts(still, before), DoubtKind.STANDS_STILL)
    assert found == [("HIGH", "as on 2026-03-19: 20 % done", None)]
    moved = with_task(plan_of(APRIL), "HIGH", percent=Decimal(50), remaining=5 * 480)
    assert not of_kind(doubts(moved, before), DoubtKind.STANDS_STILL)


def test_budgets_without_a_change() -> None:
    """The drainage got 100 and no row says why."""
    more = APRIL.replace("4,4,4,4,4,600", "4,4,4,4,4,700").replace("DRN,B,600", "DRN,B,700")
    found = doubts(plan_of(more), baseline=plan_of(PLAN))
    figure = "budget 600 before, 700 now; changes have 0"
    assert of_kind(found, DoubtKind.UNLOGGED) == [("B", figure, 100)]
    change = BudgetChange(date(2026, 3, 10), "reserve", "B", Decimal(100))
    logged = replace(plan_of(more), registers=Registers(changes=(change,)))
    assert not of_kind(doubts(logged, baseline=plan_of(PLAN)), DoubtKind.UNLOGGED)
    missed = replace(plan_of(APRIL), registers=Registers(changes=(change,)))
    effects = [doubt.effect for doubt in doubts(missed, baseline=plan_of(PLAN))]
    assert effects == ["100 of changes.csv are not in its budget"]


def test_the_texts_have_row_figure_and_effect() -> None:
    """A row of the source, amounts in the currency, and no formula in a cell."""
    state = with_task(with_cards("TOGO,DRN,2026-03-22,0", "TOGO,FND,2026-03-22,0"), "HIGH", row=7)
    still: SideTask = state.side.tasks[3]
    assert still.row == 7
    found = doubts(with_task(state, "HIGH", percent=Decimal(100), remaining=0))
    text = doubts_text.to_text(found, "STATUS P")
    assert text.splitlines()[:2] == [
        "STATUS P",
        "NOTHING TO GO ON WORK THAT HAS NOT BEGUN: 1",
    ]
    assert "the estimate is lower by 600" in text
    rows = doubts_text.to_csv(found, 100).decode().splitlines()
    assert rows[1].endswith(",-6.00")
    assert rows[2].split(",")[1:3] == ["HIGH", "7"]
