"""Total float as planners count it: each real task is done in one piece, in late dates too.

In the network of a deck the finish of a task that waits for others is an event of its own. Its late
time may be later than the late start of the task allows, as if the task could pause, and whatever
it waits for would have that float too. Here such a finish comes no later than the late start plus
the work of the task, and the backward pass goes on from there.

Latest dates (`analysis.latest`) bound the late dates too: a schedule that breaks one has negative
float.

Times are sixths of a unit, as `pert times` has them. A latest date may be a part of one.
"""

from collections.abc import Mapping
from datetime import datetime
from fractions import Fraction

from pert_companion.analysis.latest import contract_minutes, latest_of
from pert_companion.model.cards import ActivityCard
from pert_companion.model.deck import Deck
from pert_companion.model.sidefile import SideFile, SideTask
from pert_companion.programs.results import Times

SIXTHS = 6

Time = int | Fraction
"""A number of sixths of a unit."""


class LateDates:
    """The late dates of the real tasks of a network in one schedule."""

    def __init__(
        self, network: Deck, side: SideFile, durations: Mapping[str, int], times: Times
    ) -> None:
        """Takes the durations in units, and the times of the network with these durations."""
        self._side = side
        self._latest: dict[str, Time] = {}
        self._cards = {card.code: card for card in network.activities}
        self._lasting = {code: SIXTHS * units for code, units in durations.items()}
        self._early = {code: event.early for code, event in times.events.items()}
        self._late: dict[str, Time] = {code: event.late for code, event in times.events.items()}
        self._entering: dict[str, list[ActivityCard]] = {}
        for card in network.activities:
            self._entering.setdefault(card.ends, []).append(card)
        tied = [task for task in side.tasks if task.finish_moment is not None]
        self._bound_end(network)
        for task in side.tasks:
            self._bound(task)
        self._hold_together(tied[::-1])  # from the end, as what waits mostly comes later

    def total_float(self, task: SideTask, start: int, finish: int) -> Time:
        """Returns by how much a task that begins and ends at these times may be later."""
        late = self._late_start(task) - start
        if task.finish_moment is None:
            return late
        return min(late, self._late_end(task.finish_moment) - finish)

    def _bound_end(self, network: Deck) -> None:
        """Lets the project end by its directed end, if that is earlier than its early end."""
        minutes = contract_minutes(self._side, network)
        end = network.project.end
        if minutes is None or end not in self._late:
            return
        latest = Fraction(SIXTHS * minutes, self._side.unit_minutes)
        if latest < self._early[end]:
            self._late[end] = latest
            self._push_back(end)

    def _bound(self, task: SideTask) -> None:
        """Lets a task begin by its latest dates, and all before it end in time."""
        latest = latest_of(self._side, task)
        work = sum(self._lasting[part] for part in task.parts)
        starts: list[Time] = []
        if latest.start is not None:
            starts.append(self._time_of(latest.start))
        if latest.finish is not None:
            starts.append(self._time_of(latest.finish) - work)
        if not starts:
            return
        self._latest[task.code] = min(starts)
        self._lower(self._cards[task.start_moment or task.parts[0]].begins, min(starts))
        if task.finish_moment is not None:
            self._lower(self._cards[task.finish_moment].begins, min(starts) + work)

    def _time_of(self, moment: datetime) -> Time:
        """Returns the time of a moment."""
        calendar = self._side.calendar
        minutes = calendar.between(calendar.morning(self._side.start), moment)
        return Fraction(SIXTHS * minutes, self._side.unit_minutes)

    def _lower(self, event: str, latest: Time) -> None:
        if latest < self._late[event]:
            self._late[event] = latest
            self._push_back(event)

    def _late_end(self, code: str) -> Time:
        return self._late[self._cards[code].ends]

    def _late_start(self, task: SideTask) -> Time:
        """Returns the latest start after which the task ends in time, and so do its parts."""
        done = 0
        late: list[Time] = [self._latest[task.code]] if task.code in self._latest else []
        if task.start_moment is not None:
            late.append(self._late_end(task.start_moment))
        for part in task.parts:
            done += self._lasting[part]
            late.append(self._late_end(part) - done)
        if task.finish_moment is not None:
            late.append(self._late_end(task.finish_moment) - done)
        return min(late)

    def _hold_together(self, tasks: list[SideTask]) -> None:
        """Bounds the finishes that wait for others until no late time changes any more.

        Late times never fall below early ones: a task that has to pause keeps what float it has.
        """
        has_changed = True
        while has_changed:
            has_changed = False
            for task in tasks:
                assert task.finish_moment is not None
                event = self._cards[task.finish_moment].begins
                work = sum(self._lasting[part] for part in task.parts)
                latest = max(self._early[event], self._late_start(task) + work)
                if latest < self._late[event]:
                    self._late[event] = latest
                    self._push_back(event)
                    has_changed = True

    def _push_back(self, changed: str) -> None:
        """Lets everything that leads to an event end in time."""
        waiting = [changed]
        while waiting:
            event = waiting.pop()
            for card in self._entering.get(event, []):
                latest = self._late[event] - self._lasting[card.code]
                if latest < self._late[card.begins]:
                    self._late[card.begins] = latest
                    waiting.append(card.begins)
