"""When work was done: the actual dates of tasks, by their source or else by STATUS cards."""

from collections.abc import Mapping
from datetime import date, datetime, timedelta
from functools import cached_property

from pert_companion.model.sidefile import SideTask
from pert_companion.state.project import ProjectState
from pert_companion.state.remaining import State

ONE_DAY = timedelta(days=1)


class Actuals:
    """The actual dates of the real tasks of a state."""

    def __init__(self, state: ProjectState) -> None:
        """Takes the state."""
        self.state = state

    @cached_property
    def states(self) -> Mapping[str, State]:
        """Returns how far each real task is, by code: it is finished if all of its parts are."""
        parts = {left.code: left.state for left in self.state.remaining.left}
        return {task.code: _state(task, parts) for task in self.state.side.tasks}

    def start_day(self, task: SideTask) -> date | None:
        """Returns the day on which a task began, or None."""
        if task.actual_start is not None:
            return task.actual_start
        return min(self._days(task, "S"), default=None)

    def start(self, task: SideTask) -> datetime | None:
        """Returns the first working moment of the day on which a task began, or None."""
        day = self.start_day(task)
        return None if day is None else self.state.side.calendar_of(task).morning(day)

    def finish(self, task: SideTask) -> datetime | None:
        """Returns the end of the day on which a task was finished, or None if it is not.

        A STATUS card has the morning after it.
        """
        calendar = self.state.side.calendar_of(task)
        day = task.actual_finish
        if day is None:
            morning = max(self._days(task, "F"), default=None)
            if morning is None:
                return None
            day = morning - ONE_DAY
        ended = calendar.evening(day)
        begun = self.start(task)
        if begun is None:
            return ended
        is_same = calendar.position(begun) == calendar.position(ended)
        if is_same and ended.date() >= self.state.deck.project.start_date:
            return ended
        return max(begun, ended)

    def _days(self, task: SideTask, letter: str) -> list[date]:
        days: list[date] = []
        for part in task.parts:
            days.extend(self._cards.get((part, letter), ()))
        return days

    @cached_property
    def _cards(self) -> Mapping[tuple[str, str], list[date]]:
        found: dict[tuple[str, str], list[date]] = {}
        for card in self.state.deck.statuses:
            found.setdefault((card.activity, card.letter), []).append(card.day)
        return found


def _state(task: SideTask, parts: Mapping[str, State]) -> State:
    found = {parts[part] for part in task.parts}
    if found == {State.FINISHED}:
        return State.FINISHED
    return State.WAITING if found == {State.WAITING} else State.BEGUN
