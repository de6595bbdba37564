"""The JSON of a project: its rows, its curve, a length, a schedule (types/desk.d.ts).

Amounts and times are texts of decimal numbers, dates those of ISO 8601; the browser only sets them.
"""

from collections import Counter
from collections.abc import Iterator, Mapping
from datetime import date
from fractions import Fraction

from pert_companion.analysis.actuals import ONE_DAY
from pert_companion.analysis.contract import Contract, contract_of, held_dates
from pert_companion.analysis.options import (
    Option,
    chosen_option,
    options,
    time_price,
    total_cost,
)
from pert_companion.analysis.own_baseline import own_baseline
from pert_companion.analysis.schedule import ScheduledTask
from pert_companion.analysis.lengths import choice_of
from pert_companion.analysis.scheduling import rest_schedule
from pert_companion.analysis.sureness import NOTHING_KNOWN, Sureness, percent_text, sureness
from pert_companion.desk.amounts import Amounts, amounts_of, decimal_text
from pert_companion.desk import own_time, plan_edits
from pert_companion.desk.figures import FIELDS, cards_of, further_units
from pert_companion.desk.project_edits import contract_day
from pert_companion.desk.remaking import tie_text, ties_of
from pert_companion.desk.status_edits import FIELDS as STATUS
from pert_companion.desk.status_edits import actual_days, fixed_status, status_days
from pert_companion.importing.month_end import Books
from pert_companion.model.cards import ActivityCard, TaskCard
from pert_companion.model.predecessors import LinkSearch, RealLink
from pert_companion.model.sidefile import SideTask
from pert_companion.page.chooser import stretches
from pert_companion.page.words import day_text, words_of
from pert_companion.state.project import ProjectState
from pert_companion.state.remaining import State
from pert_companion.state.work import Work

Json = dict[str, object]
EDITED = [name.replace("-", "_") for name in (*FIELDS, plan_edits.LINKS, *STATUS)]
"""The fields of a row that may be edited, as JSON has them."""


def day_json(day: date | None) -> str | None:
    """Returns a day as JSON has it."""
    return None if day is None else day.isoformat()


def data_date(books: Books) -> date | None:
    """Returns the evening that progress is as of; None if there is none."""
    if books.side.data_date is not None:
        return books.side.data_date
    if books.deck.as_of is None or books.deck.as_of <= books.deck.project.start_date:
        return None
    return books.deck.as_of - ONE_DAY


def nearest_length(work: Work, units: int | None) -> int:
    """Returns the length that is chosen, or the nearest that there is; without one the longest."""
    if units is None:
        return work.longest
    return min(max(units, work.shortest), work.longest)


# ------------------------------------------------------------------------------------- rows


class Rows:
    """The rows of the table of tasks of one project as it is."""

    def __init__(self, books: Books, states: Mapping[str, State]) -> None:
        """Takes the deck with its side file, and how far each card is."""
        self.books = books
        self.amounts = amounts_of(books.side)
        self.links = LinkSearch(books.deck, books.side)
        self.ties = ties_of(books)
        self.items_with_accounts = Counter(account.item for account in books.deck.accounts)
        self.cards = cards_of(books.deck)
        self.states = states
        self.days = status_days(books.deck)
        self.resources: dict[str, list[str]] = {}
        titles = {card.code: card.title or card.code for card in books.deck.resources}
        for load in books.deck.loads:
            self.resources.setdefault(load.activity, []).append(titles[load.resource])

    def all(self) -> Iterator[Json]:
        """Yields the rows in the order of the plan: a group before the first of its tasks."""
        open_groups: tuple[str, ...] = ()
        for task in self.books.side.tasks:
            shared = _shared(open_groups, task.outline)
            for level in range(shared, len(task.outline)):
                yield {"kind": "group", "name": task.outline[level], "level": level}
            open_groups = task.outline
            yield self.row(task)

    def row(self, task: SideTask) -> Json:
        """Returns the row of a task."""
        card, further = self.cards[task.code], further_units(self.cards, task)
        start, finish = actual_days(task, self.days)
        links, amounts, fixed = self.links.links_to(task), self.amounts, self._fixed(task)
        return {
            "kind": "task",
            "code": task.code,
            "row": task.row,
            "name": task.name or task.code,
            "level": len(task.outline),
            "links": [_link_json(link, amounts) for link in links],
            "links_text": ", ".join(self._link_texts(task)),
            **self._durations(task, card, further),
            "cost": amounts.money(sum(self.cards[part].cost for part in task.parts)),
            **self._estimates(card, further),
            "percent": "" if task.percent is None else f"{task.percent.normalize():f}",
            "actual_start": day_json(start),
            "actual_finish": day_json(finish),
            "remaining": None if task.remaining is None else amounts.minutes(task.remaining),
            "state": self._state(task).value,
            "is_milestone": task.normal == 0,
            "deadline": day_json(task.deadline),
            "resources": self.resources.get(task.code, []),
            "editable": [field for field in EDITED if field not in fixed],
            "fixed": fixed,
        }

    def _link_texts(self, task: SideTask) -> Iterator[str]:
        """Yields the links of a task as they are edited."""
        for tie in self.ties.to(task):
            if tie.day is None:
                yield tie_text(tie, self.books.side)

    def _durations(self, task: SideTask, card: TaskCard | ActivityCard, further: int) -> Json:
        """Returns how long a task takes in days of work of its calendar, and what a day costs."""
        amounts = self.amounts
        if task.own is None:
            return {
                "normal": amounts.days(card.normal + further),
                "shortest": amounts.days(card.crash + further),
                "price": amounts.price(card.slope),
            }
        return {
            "normal": amounts.minutes(task.minutes),
            "shortest": amounts.minutes(own_time.shortest_minutes(task)),
            "price": decimal_text(Fraction(own_time.day_price(self.books.side, task))),
        }

    def _estimates(self, card: TaskCard | ActivityCard, further: int) -> Json:
        days = self.amounts.days
        return {
            "optimistic": days(card.optimistic + further),
            "likely": days(card.likely + further),
            "pessimistic": days(card.pessimistic + further),
        }

    def _state(self, task: SideTask) -> State:
        found = {self.states.get(part, State.WAITING) for part in task.parts}
        return found.pop() if len(found) == 1 else State.BEGUN

    def _fixed(self, task: SideTask) -> dict[str, str]:
        """Returns why fields of a task cannot be edited, by field."""
        found = dict(own_time.fixed_fields(task))
        found.update(fixed_status(self.books))
        card = self.cards[task.code]
        accounts = self.items_with_accounts[card.item]
        if accounts > 1:
            found["cost"] = f"its package {card.item} has {accounts} accounts: change their budgets"
        if card.crash == card.normal:
            found["price"] = "it cannot be shortened: give it a shortest duration first"
        why = plan_edits.why_links_are_fixed(self.books)
        if why:
            found[plan_edits.LINKS] = why
        return found


def states_of(state: ProjectState) -> dict[str, State]:
    """Returns how far each card is, by code; empty without status."""
    if not state.has_begun:
        return {}
    return {left.code: left.state for left in state.remaining.left}


def _shared(one: tuple[str, ...], other: tuple[str, ...]) -> int:
    """Returns how many groups two outlines share from the top."""
    count = 0
    for name, same in zip(one, other):
        if name != same:
            break
        count += 1
    return count


def _link_json(link: RealLink, amounts: Amounts) -> Json:
    return {"task": link.predecessor, "kind": link.kind.value, "lag": amounts.days(link.lag)}


# --------------------------------------------------------------------------- curve and length


def held_contract(state: ProjectState) -> Contract | None:
    """Returns the date that the project is held to, as its page has it."""
    own = own_baseline(state.side)
    end = max(task.last_day for task in own.values()) if own else state.plan.end
    return contract_of(state, end)


def curve_json(state: ProjectState) -> Json:
    """Returns the curve of what is left, with the lengths that somebody may want."""
    work, amounts = state.rest, amounts_of(state.side)
    contract = held_contract(state)
    points = []
    for point in work.curve:
        price = None if point.slope is None else amounts.price(point.slope)
        found: Json = {
            "units": point.length,
            "days": amounts.days(point.length),
            "end": day_json(work.clock.end(point.length)),
            "work": amounts.money(point.cost),
            "total": amounts.money(total_cost(work, point.length)),
            "day_less": price,
        }
        points.append(found)
    marks = [
        {"units": option.length, "name": ", ".join(option_names(option))}
        for option in options(state, held_dates(contract))
    ]
    return {
        "shortest": work.shortest,
        "longest": work.longest,
        "points": points,
        "marks": marks,
        "contract": None if contract is None else _contract_json(work, contract),
    }


def _contract_json(work: Work, contract: Contract) -> Json:
    units = work.clock.units_until(contract.day)
    return {"day": day_json(contract.day), "name": contract.name, "units": units}


def option_names(option: Option) -> list[str]:
    """Returns why a length is an option."""
    names = []
    for mark in option.marks:
        names.append(f"{mark.reason.value} of {mark.name}" if mark.name else mark.reason.value)
    return names


def length_json(
    state: ProjectState, units: int, version: int, sure: Sureness | None = None
) -> Json:
    """Returns what a length of what is left costs, and when it ends.

    `sure` is how sure this length is; None if that is not known or was not asked.
    """
    work, amounts = state.rest, amounts_of(state.side)
    option = chosen_option(work, units)
    price = None if work.deck.terms is None else time_price(work.deck.terms, units)
    return {
        "version": version,
        "units": units,
        "days": amounts.days(units),
        "end": day_json(option.end),
        "work": amounts.money(option.work),
        "overhead": None if price is None else amounts.money(price.overhead),
        "bonus": None if price is None else amounts.money(price.bonus),
        "penalty": None if price is None else amounts.money(price.penalty),
        "total": amounts.money(option.total),
        "against_today": amounts.money(option.against_today),
        "next": None if option.next is None else amounts.money(option.next),
        "late": _late_text(state, units),
        "hint": _hint(state, units),
        "chance": None if sure is None else percent_text(sure.runs.chance_of(units)),
    }


def _late_text(state: ProjectState, units: int) -> str:
    """Returns how a length is to the date that the project is held to: `3 days after the ..`."""
    contract = held_contract(state)
    if contract is None:
        return ""
    late = units - state.rest.clock.units_until(contract.day)
    if late == 0:
        return f"on the {contract.name}"
    words = words_of(state.side, None)
    return f"{words.length(abs(late))} {'after' if late > 0 else 'before'} the {contract.name}"


def _hint(state: ProjectState, units: int) -> str:
    """Returns that other lengths cost the same, with what to take; else an empty text."""
    found = stretches(state.rest, words_of(state.side, None))
    return next((each.text for each in found if each.lower <= units <= each.upper), "")


def options_json(state: ProjectState, version: int) -> Json:
    """Returns certain lengths with their chances, which are simulated."""
    work, contract = state.rest, held_contract(state)
    found = []
    for option in options(state, held_dates(contract)):
        sure = sureness(work, work.point(option.length).durations)
        shown = length_json(state, option.length, version, sure)
        shown["names"] = option_names(option)
        found.append(shown)
    return {"version": version, "options": found, "sureness": _sure_text(work)}


def _sure_text(work: Work) -> str:
    found, end = sureness(work), work.end
    if found is None or end is None:
        return NOTHING_KNOWN
    return (
        f"By normal durations the end is {day_text(end)}, with a chance of"
        f" {percent_text(found.chance_by(end))}; even chance is {day_text(found.even_end)}, and"
        f" four in five {day_text(found.likely_end)} (simulated)."
    )


def terms_json(state: ProjectState) -> Json | None:
    """Returns what time costs by working day; None if nobody said it."""
    terms, amounts = state.deck.terms, amounts_of(state.side)
    if terms is None:
        return None
    return {
        "overhead": amounts.price(terms.overhead),
        "bonus": amounts.price(terms.bonus),
        "penalty": amounts.price(terms.penalty),
        "target": day_json(contract_day(state.deck, state.side)),
    }


# ---------------------------------------------------------------------------------- schedule


def schedule_json(state: ProjectState, units: int, version: int) -> Json:
    """Returns the dates of all tasks at a length, with the actual dates of what is done."""
    work = state.rest
    schedule = rest_schedule(state, choice_of(work, units))
    amounts = amounts_of(state.side)
    return {
        "version": version,
        "length": length_json(state, units, version),
        "end": day_json(schedule.end),
        "first_day": day_json(min(schedule.start, work.clock.first_day)),
        "tasks": [_dated(task, amounts) for task in schedule.tasks],
    }


def _dated(task: ScheduledTask, amounts: Amounts) -> Json:
    note = f"days of the calendar {task.calendar}" if task.calendar else ""
    return {
        "code": task.code,
        "start": day_json(task.first_day),
        "finish": day_json(task.last_day),
        "start_time": task.start.isoformat(timespec="minutes"),
        "finish_time": task.finish.isoformat(timespec="minutes"),
        "duration": amounts.minutes(task.chosen_minutes),
        "shortened": amounts.minutes(task.shortened_minutes),
        "float": amounts.minutes(task.total_float_minutes),
        "cost": amounts.money(task.cost),
        "is_critical": task.is_critical,
        "is_late": task.is_late,
        "note": note,
    }
