"""Changes the durations of a task with a calendar of its own.

They are days of work of that calendar. The deck counts the days of the plan's calendar in which it
is done, so it is made again.
"""

from dataclasses import replace
from decimal import Decimal

from pert_companion.desk.amounts import amounts_of, read_number
from pert_companion.desk.remaking import with_entry, with_logic
from pert_companion.importing.month_end import Books
from pert_companion.model.errors import InputError
from pert_companion.model.sidefile import SideFile, SideTask

FIELDS = ("normal", "shortest", "price")
ESTIMATES = ("optimistic", "likely", "pessimistic")
_PLACES = 9
"""The decimals of what shortening costs."""


def changed(books: Books, task: SideTask, field: str, value: str) -> Books:
    """Returns the deck in which a duration of such a task, or the price of a day less, is another.

    Raises `InputError` for one that makes no sense.
    """
    amounts, side = amounts_of(books.side), books.side
    normal, shortest, price = task.minutes, shortest_minutes(task), day_price(side, task)
    if field == "normal":
        normal = amounts.read_minutes(value)
        shortest = normal if shortest == task.minutes else shortest
    elif field == "shortest":
        shortest = amounts.read_minutes(value) if value.strip() else normal
    else:
        price = read_number(value or "0", "money")
    if shortest > normal:
        texts = amounts.minutes(shortest), amounts.minutes(normal)
        raise InputError(f"its shortest duration, {texts[0]} days, is above {texts[1]}")
    if shortest == normal and field == "price" and price:
        raise InputError("it cannot be shortened: give it a shortest duration first")
    entry = _with_shortest(replace(task, minutes=normal), shortest, price, side)
    logic = side.logic
    assert logic is not None, "a task with a calendar of its own is part of a logic"
    return with_logic(books, replace(books, side=with_entry(side, entry)), logic)


def fixed_fields(task: SideTask) -> dict[str, str]:
    """Returns why the estimates of a task with a calendar of its own cannot be changed."""
    if task.own is None:
        return {}
    why = f"it has the calendar {task.own.calendar}: change its estimates in the planner"
    return dict.fromkeys(ESTIMATES, why)


def shortest_minutes(task: SideTask) -> int:
    """Returns the shortest duration of a task with a calendar of its own, in minutes of that."""
    if task.own is None or task.own.shortest is None:
        return task.minutes
    return task.own.shortest


def day_price(side: SideFile, task: SideTask) -> Decimal:
    """Returns what each day less of such a task costs, in the currency."""
    saved = task.minutes - shortest_minutes(task)
    if task.own is None or task.own.shortening is None or saved <= 0:
        return Decimal(0)
    return task.own.shortening * side.calendar.day_minutes / saved


def _with_shortest(task: SideTask, shortest: int, price: Decimal, side: SideFile) -> SideTask:
    """Returns the entry of a task with a shortest duration and what shortening to it costs."""
    assert task.own is not None
    if shortest == task.minutes:
        return replace(task, own=replace(task.own, shortest=None, shortening=None))
    cost = price * (task.minutes - shortest) / side.calendar.day_minutes
    own = replace(task.own, shortest=shortest, shortening=round(cost, _PLACES).normalize())
    return replace(task, own=own)
