"""From a plan to its deck and side file."""

from dataclasses import dataclass, replace
from fractions import Fraction

from pert_companion.carry import loads, outline, units
from pert_companion.carry.arrows import network_of
from pert_companion.carry.codes import Codes, one_line, shortened, task_codes, title
from pert_companion.carry.kept import constraint_notes, side_file, side_losses
from pert_companion.carry.logic import (
    elapsed_ties,
    has_logic,
    logic_from,
    with_days_of_own,
    with_lags,
)
from pert_companion.carry.model import Node
from pert_companion.carry.moments import resolve
from pert_companion.carry.money import Money, accounts, charges
from pert_companion.carry.network import Network
from pert_companion.carry.order import find_early_dates, in_order
from pert_companion.carry.progress import Statuses, Times, has_progress
from pert_companion.carry.terms import Prices, terms_card
from pert_companion.carry.ties import Ties
from pert_companion.model.capacities import Capacity
from pert_companion.model.cards import ProjectCard, TermsCard
from pert_companion.model.deck import Deck
from pert_companion.model.errors import InputError
from pert_companion.model.fitting import fitted_to
from pert_companion.model.logic import CLOCK, CLOCK_NAME, Lasting, Logic, OwnTime, Spans
from pert_companion.model.logic import first_moment
from pert_companion.model.losses import Loss, LossKind
from pert_companion.model.plan import Plan, Task
from pert_companion.model.sidefile import SideFile
from pert_companion.model.terms import NO_TERMS, Terms

LIMITS = {"WBS": 9_999, "RES": 1_000, "LOAD": 40_000, "STATUS": 40_000}
"""The most cards of each kind that a deck has, next to those of its tasks."""
TASK_LIMITS = {"TASK": 4_000, "AFTER": 8_000}
"""The most cards of tasks and links that a deck of tasks has. A larger plan becomes a network."""
NETWORK_LIMITS = {"EVENT": 10_000, "ACT": 20_000}
"""The most events and activities that a network has."""
MAX_BUDGET = 10**12


@dataclass(frozen=True)
class CarryOptions:
    """How a plan becomes a deck."""

    unit: str = "auto"
    """`auto`, `days`, `hours`, or a number of minutes: what the deck counts durations in."""
    cents: bool = False
    """Whether the deck has cents instead of whole units of the currency."""
    progress: bool = True
    """Whether progress is carried over."""
    terms: Terms = NO_TERMS
    """What time costs; the date of its contract comes before that of the plan."""


@dataclass(frozen=True)
class Carried:
    """A deck, its side file, and what neither of them says."""

    deck: Deck
    data: bytes
    """The bytes of the deck."""
    side: SideFile
    losses: tuple[Loss, ...]
    side_losses: tuple[Loss, ...]
    """What the side file says and the deck does not: lost if no side file is written."""
    notes: tuple[str, ...]


def carry(
    plan: Plan,
    options: CarryOptions = CarryOptions(),
    deck_name: str = "",
    spans: Spans = Spans(),
) -> Carried:
    """Returns the deck and the side file of a plan, with what is lost.

    `deck_name` is the name of the deck's file for the side file. `spans` says when the tasks of a
    plan with a logic are done; without them each task is counted from the first day. Raises
    `InputError` if the plan has no task, links in a circle, progress without a data date, or more
    than a deck can have.
    """
    _check_days(plan)
    return _Carrier(plan, options, spans).carried(deck_name)


def logic_of(
    plan: Plan, options: CarryOptions = CarryOptions()
) -> tuple[Logic, list[Lasting]] | None:
    """Returns the logic of a plan, and how long its tasks take; None if it has none.

    Errors are those of `carry`.
    """
    _check_days(plan)
    return _Carrier(plan, options, Spans()).logic_with_tasks()


class _Carrier:
    """Takes the steps from a plan to its deck; each adds its losses and notes."""

    def __init__(self, plan: Plan, options: CarryOptions, spans: Spans) -> None:
        self.options = options
        self.spans = spans
        self.logic: Logic | None = None
        self.capacities: tuple[Capacity, ...] = ()
        self.losses: list[Loss] = []
        self.notes: list[str] = []
        self.plan = plan = self._since_the_start(_with_contract(plan, options.terms))
        self.codes = Codes()
        self.outline = outline.build(plan)
        self.losses += self.outline.losses
        self.money = Money(100 if options.cents else 1, self.losses)
        self.nodes = self._nodes()
        self.all_nodes: list[Node] = list(self.nodes.values())
        self.order: list[Node] = []
        self.unit_minutes = plan.calendar.day_minutes
        self.unit_name = "days"

    def logic_with_tasks(self) -> tuple[Logic, list[Lasting]] | None:
        """Returns the logic and how long tasks take; None if units of one calendar say it all."""
        self._add_ties()
        if not has_logic(self.all_nodes):
            return None
        return logic_from(self.plan, self.all_nodes), [_lasting(node) for node in self.all_nodes]

    def carried(self, deck_name: str) -> Carried:
        """Returns the deck, the side file and the losses."""
        self._tie()
        self._set_numbers()
        self.losses += resolve(self.order)
        calendar = self.plan.calendar
        network = Network(self.codes, self.unit_name, self.unit_minutes, calendar)
        network.build(self.all_nodes, self.plan.start)
        deck = within_limits(self._with_progress(self._deck(network), network), network)
        data = deck.to_bytes()
        side = side_file(self.plan, self.nodes, network, self.outline.groups, self.unit_minutes)
        side = replace(side, deck_name=deck_name, money_scale=self.money.scale)
        side = replace(side, terms=self.options.terms, logic=self.logic)
        side = replace(side, capacities=self.capacities)
        side = fitted_to(side, deck)
        self.notes += constraint_notes(self.plan, self.nodes, self.spans.starts)
        kept = side_losses(self.plan)
        return Carried(deck, data, side, tuple(self.losses), kept, tuple(self.notes))

    def _since_the_start(self, plan: Plan) -> Plan:
        """Returns a plan whose data date is before its first day as one that has not begun.

        Raises `InputError` if it says of progress: then one of the two days is wrong.
        """
        if plan.data_date is None or plan.data_date >= plan.start:
            return plan
        what = f"the data date {plan.data_date} is before the first day {plan.start}"
        begun = next(filter(has_progress, plan.tasks()), None)
        if begun is not None and self.options.progress:
            raise InputError(f"{what}, and {begun.where}, task {begun.name!r}, has progress")
        self.notes.append(f"{what}: the plan has not begun, and is as of its first day")
        return replace(plan, data_date=None)

    def _nodes(self) -> dict[str, Node]:
        """Returns a node for each task by uid, with its code and item."""
        found, notes = task_codes(self.plan, self.codes)
        self.notes += notes
        nodes = {}
        for task in self.plan.tasks():
            if task.uid in nodes:
                raise InputError(f"{task.where}: a second task has the id {task.uid!r}")
            item = self.outline.item_of[task.parent]
            name = one_line(task.name)
            code = found[task.uid]
            own = self._own_time(task, code)
            nodes[task.uid] = Node(code, item, name, task.where, task.minutes, task, own)
        return nodes

    def _own_time(self, task: Task, code: str) -> OwnTime | None:
        """Returns the time of a task with a calendar of its own; one that is not there is lost."""
        plan = self.plan
        if task.calendar is None or task.calendar == plan.calendar.name:
            return None
        known = {CLOCK_NAME: CLOCK, **{calendar.name: calendar for calendar in plan.calendars}}
        calendar = known.get(task.calendar)
        if calendar is None:
            why = f"the calendar {plan.calendar.name!r} of the plan is used"
            self._lose(LossKind.CALENDAR, task, "calendar", task.calendar, why)
            return None
        start = self.spans.starts.get(code) or first_moment(plan.calendar, plan.start)
        return OwnTime(plan.calendar, calendar, start)

    def _add_ties(self) -> None:
        """Adds the ties of links and constraints, and puts all nodes into their order."""
        plan = self.plan
        items = {group.uid: group.code for group in self.outline.groups}
        ties = Ties(plan, self.nodes, self.codes, items)
        ties.add_links()
        ties.add_constraints()
        self.losses += ties.losses
        ends = ties.milestones
        self.all_nodes += [ends[group.uid] for group in plan.groups() if group.uid in ends]
        with_days_of_own(self.all_nodes, plan.start)
        for place, node in enumerate(self.all_nodes):
            node.place = place
        self.order = in_order(self.all_nodes)

    def _tie(self) -> None:
        """Adds the ties, and gives each its lag in working time of the plan's calendar."""
        plan = self.plan
        self._add_ties()
        if has_logic(self.all_nodes):
            self.logic = logic_from(plan, self.all_nodes)
        for node in self.all_nodes:
            node.minutes = node.plan_minutes(node.minutes)
        elapsed = elapsed_ties(self.all_nodes)
        with_lags(self.all_nodes, self.spans.lags)
        origin = plan.calendar.position(plan.calendar.morning(plan.start))
        find_early_dates(self.order, plan.calendar, origin)
        if elapsed:
            number = "1 elapsed lag is" if elapsed == 1 else f"{elapsed} elapsed lags are"
            self.notes.append(f"{number} counted in the working time of its normal dates")

    def _set_numbers(self) -> None:
        """Chooses the unit, and gives all nodes their durations, costs and lags in it."""
        calendar = self.plan.calendar
        self.unit_minutes = units.minutes_of_unit(self.options.unit, calendar, self.all_nodes)
        self.unit_name = units.unit_name(self.unit_minutes, calendar)
        rounding = units.Rounding(self.unit_minutes, calendar.day_minutes, self.losses)
        for node in self.all_nodes:
            rounding.set_durations(node)
            self.money.set_cost(node, calendar, rounding)
            for tie in node.starts + node.finishes:
                rounding.set_lag(node, tie)
        if self.options.unit != "auto" and self.unit_minutes != calendar.day_minutes:
            self.notes.append(f"durations are counted in {self.unit_name}")

    def _deck(self, network: Network) -> Deck:
        """Returns the deck without progress."""
        plan = self.plan
        used = loads.build(plan, self.nodes, network)
        self.losses += used.losses
        self.capacities = used.capacities
        code = Codes().make(shortened(plan.name))
        name = title(plan.name)
        return Deck(
            project=ProjectCard(code, "start", "end", plan.start, 1, self._directed(), name, 2),
            items=tuple(self.outline.items),
            tasks=network.tasks(),
            afters=network.afters(),
            accounts=accounts(self.all_nodes),
            resources=used.resources,
            loads=used.loads,
            terms=self._terms(),
        )

    def _terms(self) -> TermsCard | None:
        """Returns what a unit of time costs, or None if nobody said it."""
        day_units = Fraction(self.plan.calendar.day_minutes, self.unit_minutes)
        prices = Prices(day_units, self.money.scale, self.losses)
        return terms_card(self.options.terms, self._directed(), prices)

    def _directed(self) -> int | None:
        """Returns the units until the evening of the contract's date, or None without one."""
        day = self.plan.must_finish
        if day is None:
            return None
        calendar = self.plan.calendar
        minutes = calendar.between(calendar.morning(self.plan.start), calendar.evening(day))
        return max(0, minutes // self.unit_minutes)

    def _with_progress(self, deck: Deck, network: Network) -> Deck:
        """Returns the deck with the cards of progress, if the plan has a data date."""
        plan = self.plan
        begun = [task for task in plan.tasks() if has_progress(task)]
        if not self.options.progress:
            self.notes += ["progress is not carried over, as --no-progress says"] if begun else []
            return deck
        if plan.data_date is None:
            if begun:
                raise InputError(
                    f"{begun[0].where}, task {begun[0].name!r} has progress: say the data date, the"
                    " last day that it is about, with --as-of YYYY-MM-DD"
                )
            return deck
        times = Times(plan.calendar, plan.start, plan.data_date, self.unit_minutes)
        statuses = Statuses(times, network)
        statuses.build(self.order, network.followers(self.all_nodes))
        charged, to_go = charges(self.all_nodes, times.as_of, self.money)
        self.losses += statuses.losses
        self._note_pace(statuses.off_pace())
        if to_go and not charged:
            self.notes.append("there are no actual costs: reports take nothing to be spent")
        return replace(
            deck,
            as_of=times.as_of,
            statuses=statuses.cards(),
            charges=charged,
            to_go=to_go,
        )

    def _note_pace(self, tasks: list[tuple[Task, int]]) -> None:
        """Notes that remaining durations are in the side file alone."""
        if tasks:
            task, remaining = tasks[0]
            days = remaining / self.plan.calendar.day_minutes
            number = "1 task is" if len(tasks) == 1 else f"{len(tasks)} tasks are"
            self.notes.append(
                f"{number} ahead of or behind the normal duration, first: {task.where}"
                f" {task.name}, {days:.4g} days remain; pert-remaining forecasts with that"
            )

    def _lose(self, kind: LossKind, task: Task, name: str, text: str, why: str) -> None:
        self.losses.append(Loss(kind, task.where, task.name, name, text, why))


def _lasting(node: Node) -> Lasting:
    return Lasting(node.code, node.minutes, "" if node.own is None else node.own.calendar.name)


def _with_contract(plan: Plan, terms: Terms) -> Plan:
    """Returns the plan with the contract's date as the day by which it must finish."""
    return plan if terms.contract is None else replace(plan, must_finish=terms.contract)


def _check_days(plan: Plan) -> None:
    """Refuses a plan without a task, and days that no deck has."""
    if not any(True for _ in plan.tasks()):
        raise InputError("there is no task")
    for what, day in (("first day", plan.start), ("data date", plan.data_date)):
        if day is not None and not 1900 <= day.year <= 2198:
            raise InputError(f"the {what} {day} is not in the years 1900 to 2198")


def within_limits(deck: Deck, network: Network) -> Deck:
    """Returns a deck of tasks, or its network if it has more tasks or links than such a deck may.

    Raises `InputError` that says why a plan is more than any deck can have.
    """
    links, cards = len(deck.afters), len(deck.tasks)
    if cards > TASK_LIMITS["TASK"] or links > TASK_LIMITS["AFTER"]:
        deck = network_of(deck)
    counts = {
        "WBS": len(deck.items) - bool(deck.events),
        "EVENT": len(deck.events),
        "ACT": len(deck.activities),
        "RES": len(deck.resources),
        "LOAD": len(deck.loads),
        "STATUS": len(deck.statuses),
    }
    for kind, most in {**LIMITS, **NETWORK_LIMITS}.items():
        if counts[kind] > most:
            raise InputError(
                f"the plan needs {counts[kind]} {kind} cards, and a deck has at most {most}"
                f" ({network.counts()}); carry over a part of the plan"
            )
    _check_budgets(deck)
    return deck


def _check_budgets(deck: Deck) -> None:
    """Raises `InputError` if the costs of an item are more than an account can have."""
    for account in deck.accounts:
        if account.budget > MAX_BUDGET:
            raise InputError(
                f"the costs of item {account.item} add up to {account.budget}, and a deck has"
                f" amounts up to {MAX_BUDGET}"
            )
