"""What a side file would say of a deck that has none."""

from collections.abc import Sequence

from pert_companion.model.calendar import EVERY_DAY, Calendar
from pert_companion.model.cards import ActivityCard, TaskCard
from pert_companion.model.deck import Deck
from pert_companion.model.sidefile import SideFile, SideTask
from pert_companion.programs import results

EVERY_DAY_CALENDAR = Calendar("Every day", EVERY_DAY, (), 480, 3360, 30)


def implied_side_file(deck: Deck, calendar: Calendar = EVERY_DAY_CALENDAR) -> SideFile:
    """Returns what a side file would say of a deck written by hand: each task is a real one.

    Without a calendar of its own every day counts, as in `pert`.
    """
    shown = _real_cards(deck)
    outlines = _outlines(deck)
    unit_minutes = calendar.day_minutes * deck.project.unit_days
    tasks = tuple(
        SideTask(
            code=card.code,
            uid=card.code,
            row=None,
            name=card.title,
            outline=outlines.get(card.item, ()),
            parts=(card.code,),
            normal=card.normal,
            minutes=card.normal * unit_minutes,
        )
        for card in shown
    )
    return SideFile("", "", deck.project.start_date, calendar, unit_minutes, tasks)


def _real_cards(deck: Deck) -> Sequence[TaskCard | ActivityCard]:
    """Returns the tasks, or the activities that are no dummies."""
    if deck.is_of_tasks:
        return deck.tasks
    return [card for card in deck.activities if not card.is_dummy or card.normal > 0]


def _outlines(deck: Deck) -> dict[str, tuple[str, ...]]:
    """Returns the titles from below the top down to each item."""
    parents = {item.code: item for item in deck.items}
    outlines: dict[str, tuple[str, ...]] = {}
    for code, _ in results.preorder(deck):
        item = parents[code]
        above = outlines.get(item.parent)
        outlines[code] = () if above is None else (*above, item.title or item.code)
    return outlines
