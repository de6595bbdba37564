"""The logic of a plan: its ties with lags as the source has them, before a deck counts them."""

from collections.abc import Iterator, Sequence
from datetime import date

from pert_companion.carry.model import End, Node, Tie
from pert_companion.model.logic import CLOCK_NAME, Logic, LogicTie, first_moment
from pert_companion.model.plan import LinkKind, Plan


def has_logic(nodes: Sequence[Node]) -> bool:
    """Says whether a task has a calendar of its own, or a lag goes by the clock."""
    return any(node.own is not None for node in nodes) or elapsed_ties(nodes) > 0


def elapsed_ties(nodes: Sequence[Node]) -> int:
    """Returns how many ties have a lag by the clock."""
    return sum(1 for tie in _ties(nodes) if tie.elapsed and tie.lag)


def logic_from(plan: Plan, nodes: Sequence[Node]) -> Logic:
    """Returns the logic of a plan whose nodes have all their ties."""
    used = {node.own.calendar.name for node in nodes if node.own is not None}
    return Logic(
        begin=plan.begin or first_moment(plan.calendar, plan.start),
        calendars=tuple(calendar for calendar in plan.calendars if calendar.name in used),
        ties=tuple(_logic_ties(nodes)),
    )


def with_days_of_own(nodes: Sequence[Node], start: date) -> None:
    """Lets each task with a calendar of its own that waits for no other begin on its first day."""
    for node in nodes:
        if node.own is not None and not any(tie.before for tie in node.starts):
            node.starts.append(Tie(None, End.START, 0, day=start))


def with_lags(nodes: Sequence[Node], lags: Sequence[int]) -> None:
    """Gives each tie its lag in working minutes of the plan's calendar, if they are known."""
    for tie, minutes in zip(_ties(nodes), lags):
        tie.lag = minutes
        tie.elapsed = False


def _ties(nodes: Sequence[Node]) -> Iterator[Tie]:
    """Yields the ties of nodes, as the logic has them."""
    for node in nodes:
        yield from node.starts
        yield from node.finishes


def _logic_ties(nodes: Sequence[Node]) -> Iterator[LogicTie]:
    for node in nodes:
        for end, ties in (("S", node.starts), ("F", node.finishes)):
            for tie in ties:
                yield _logic_tie(node, tie, LinkKind(tie.end.value + end))


def _logic_tie(node: Node, tie: Tie, kind: LinkKind) -> LogicTie:
    if tie.before is None:
        return LogicTie(node.code, kind, day=tie.day)
    if not tie.lag:
        return LogicTie(node.code, kind, tie.before.code)
    calendar = CLOCK_NAME if tie.elapsed else tie.calendar
    return LogicTie(node.code, kind, tie.before.code, tie.lag, calendar)
