"""What the JSON of `pert-remaining` has: what is left of each task, and on what that rests."""

from collections.abc import Sequence
from dataclasses import dataclass
from datetime import date

from pert_companion.state.remaining import Basis, Left, Remaining, State


@dataclass(frozen=True)
class TaskLeft:
    """What is left of a task, in units of the deck and of money."""

    code: str
    state: State
    left: int
    crash: int
    """The shortest that what is left can take."""
    cost: int
    sunk: int
    """The part of the cost that belongs to the work done."""
    basis: Basis


@dataclass(frozen=True)
class RemainingSummary:
    """What is left of a project at its data date."""

    code: str
    as_of: date
    """The morning from which on the work that is left is done."""
    data_date: date
    unit_minutes: int
    tasks: tuple[TaskLeft, ...]
    notes: tuple[str, ...]
    """What was assumed."""


def summary_of(
    rest: Remaining, rows: Sequence[tuple[Left, int]], data_date: date
) -> RemainingSummary:
    """Returns what the JSON has of the work that is left; a row has a task and its cost."""
    return RemainingSummary(
        code=rest.deck.project.code,
        as_of=rest.deck.as_of_day,
        data_date=data_date,
        unit_minutes=rest.side.unit_minutes,
        tasks=tuple(_task(left, cost) for left, cost in rows),
        notes=rest.notes,
    )


def _task(left: Left, cost: int) -> TaskLeft:
    return TaskLeft(left.code, left.state, left.normal, left.crash, cost, left.sunk, left.basis)
