"""When the real tasks of a network begin and end: each is done in one piece."""

from collections.abc import Mapping

from pert_companion.model.cards import ActivityCard
from pert_companion.model.sidefile import SideTask


def span(
    task: SideTask,
    cards: Mapping[str, ActivityCard],
    events: Mapping[str, int],
    durations: Mapping[str, int],
) -> tuple[int, int]:
    """Returns when a task begins and ends, in units after the start.

    A task whose end waits for another one is done in one piece, as late as that allows, unless its
    start moment ties its beginning. `cards` are those of the network, `events` its early times.
    """
    last = cards[task.parts[-1]]
    finish = events[last.begins] + durations[last.code]
    if task.finish_moment is not None:
        finish = events[cards[task.finish_moment].begins]
        if task.start_moment is None:
            return finish - sum(durations[part] for part in task.parts), finish
    return events[cards[task.parts[0]].begins], finish
