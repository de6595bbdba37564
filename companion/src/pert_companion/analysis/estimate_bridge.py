"""The bridge from the cost of the work to the latest estimate, and to what a length costs in all.

The latest estimate is that of the accounts. Budget that no account has, such as the management
reserve of `packages.csv`, is in no estimate, so it has lines of its own after all others.
"""

from collections.abc import Iterator, Mapping, Sequence
from dataclasses import dataclass

from pert_companion.analysis.earned_value import Package, budgets_alone, package_rules
from pert_companion.analysis.options import Option
from pert_companion.model.deck import leaves
from pert_companion.model.registers import Technique
from pert_companion.programs.results import SummaryRow
from pert_companion.state.project import ProjectState

NAMES = {
    Technique.UNDISTRIBUTED: "undistributed budget",
    Technique.RESERVE: "management reserve",
}


@dataclass(frozen=True)
class Step:
    """A line of a bridge between two amounts."""

    name: str
    amount: int
    is_sum: bool = False
    key: str = ""
    """What depends on the length: `work`, `time`, `whole` or `covered`."""


def estimate_bridge(state: ProjectState, option: Option) -> tuple[Step, ...]:
    """Returns how the cost of the work becomes the latest estimate, and that what an option costs.

    Each sum is that of the lines since the one before, which counts too. It is empty for a deck
    without accounts.
    """
    if not state.deck.accounts:
        return ()
    latest = state.plan.summary[state.plan.top].latest
    steps = [*_work_steps(state), Step("latest estimate", latest, is_sum=True)]
    steps.append(Step("the shorter work", option.work_against_today, key="work"))
    if option.time is not None:
        steps.append(Step("the price of time", option.time, key="time"))
    whole = latest + option.work_against_today + (option.time or 0)
    steps.append(Step("in all", whole, is_sum=True, key="whole"))
    return (*steps, *_covered_steps(uncharged_budgets(state), whole))


def _work_steps(state: ProjectState) -> Iterator[Step]:
    """Yields the lines from the cost of the work to the latest estimate."""
    summary, today = state.plan.summary, state.rest.curve[0].cost
    rules = package_rules(state)
    with_tasks = {card.item for card in state.deck.work}
    tasks, others = 0, 0
    alone = dict.fromkeys(NAMES, 0)
    for code in _packages(state, summary):
        latest, technique = summary[code].latest, rules[code].technique
        if code in with_tasks:
            tasks += latest
        elif technique in alone:
            alone[technique] += latest
        else:
            others += latest
    yield Step("the tasks at their normal costs", today)
    yield Step("what was spent and re-estimated beyond that", tasks - today)
    yield Step("packages without tasks", others)
    for technique, amount in alone.items():
        if amount:
            yield Step(f"{NAMES[technique]} with an account", amount)


def _packages(state: ProjectState, summary: Mapping[str, SummaryRow]) -> list[str]:
    """Returns the packages that have amounts."""
    return [item.code for item in leaves(state.deck.items) if item.code in summary]


def uncharged_budgets(state: ProjectState) -> tuple[Package, ...]:
    """Returns undistributed budget and management reserve that no account of the deck has."""
    with_account = {account.item for account in state.deck.accounts}
    names = state.registers.renames.names_of(item.code for item in state.deck.items)
    return tuple(
        package
        for package in budgets_alone(state)
        if package.figures.bac and names.get(package.code, package.code) not in with_account
    )


def _covered_steps(budgets: Sequence[Package], whole: int) -> Iterator[Step]:
    """Yields a line for each kind of budget that no account has, and the sum with all of them."""
    names = []
    for technique, name in NAMES.items():
        parts = [it.figures.bac for it in budgets if it.technique is technique]
        if parts:
            names.append(name)
            whole += sum(parts)
            yield Step(f"{name} without an account", sum(parts))
    if names:
        name = f"in all, {' and '.join(names)} included"
        yield Step(name, whole, is_sum=True, key="covered")
