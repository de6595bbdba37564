"""Puts tasks in an order of their ties, and finds their early dates, which elapsed lags need."""

from collections.abc import Sequence
from graphlib import CycleError, TopologicalSorter

from pert_companion.carry.model import End, Node, Tie
from pert_companion.model.calendar import Calendar
from pert_companion.model.errors import InputError

MAX_NAMES = 8
"""How many tasks of a circle are named."""


def in_order(nodes: Sequence[Node]) -> list[Node]:
    """Returns the nodes so that each comes after those that it is tied to, and numbers them.

    Raises `InputError` that names the tasks if they are tied in a circle.
    """
    sorter: TopologicalSorter[Node] = TopologicalSorter()
    for node in nodes:
        before = [tie.before for tie in node.starts + node.finishes if tie.before is not None]
        sorter.add(node, *before)
    try:
        order = list(sorter.static_order())
    except CycleError as error:
        circle: list[Node] = error.args[1][:-1]
        names = ", ".join(map(_named, circle[:MAX_NAMES]))
        more = f" and {len(circle) - MAX_NAMES} more" if len(circle) > MAX_NAMES else ""
        raise InputError(f"these tasks are linked in a circle: {names}{more}") from None
    for index, node in enumerate(order):
        node.index = index
    return order


def _named(node: Node) -> str:
    return f"{node.name!r} ({node.where})" if node.where else repr(node.name)


def find_early_dates(order: Sequence[Node], calendar: Calendar, origin: int) -> None:
    """Gives each node its early start, and each elapsed lag the working minutes that it is then.

    `origin` is the position of the project's start.
    """
    for node in order:
        for tie in node.starts + node.finishes:
            if tie.elapsed:
                tie.lag = _working_lag(tie, calendar, origin)
                tie.elapsed = False
        bounds = [source_of(tie) + tie.lag for tie in node.starts]
        bounds.extend(source_of(tie) + tie.lag - node.minutes for tie in node.finishes)
        node.early = max([0, *bounds])


def source_of(tie: Tie) -> int:
    """Returns the early date of the end that a tie comes after, in minutes after the start."""
    if tie.before is None:
        return 0
    return tie.before.early + (tie.before.minutes if tie.end is End.FINISH else 0)


def _working_lag(tie: Tie, calendar: Calendar, origin: int) -> int:
    """Returns the working minutes between the end of a task and the end of an elapsed lag."""
    position = origin + source_of(tie)
    is_evening = tie.end is End.FINISH and tie.before is not None and tie.before.minutes > 0
    moment = calendar.end_at(position) if is_evening else calendar.at(position)
    return calendar.position(calendar.add_elapsed(moment, tie.lag)) - position
