"""Makes the deck of a project again with other ties, as the import would have made it."""

from collections.abc import Iterable
from dataclasses import replace
from itertools import chain

from pert_companion.analysis.passes import spans
from pert_companion.carry.relinking import DeckTies, remade, waits_of_cards
from pert_companion.desk import status_edits
from pert_companion.importing.month_end import Books
from pert_companion.model.calendar import MINUTES_OF_DAY
from pert_companion.model.deck import Deck
from pert_companion.model.errors import InputError
from pert_companion.model.figures import days_text
from pert_companion.model.logic import CLOCK_NAME, Lasting, Logic, LogicTie, Recount, TieWait
from pert_companion.model.losses import Loss
from pert_companion.model.sidefile import SideFile, SideTask


def ties_of(books: Books) -> DeckTies:
    """Returns what the tasks of a project wait for."""
    return DeckTies(books.deck, books.side)


def check_remakable(books: Books, logic: Logic) -> None:
    """Raises `InputError` if the cards of a deck are not those that an import makes of its ties."""
    if books.side.logic is not None:
        return
    deck, *_ = remade(books.deck, books.side, logic, waits_of_cards(logic))
    if _cards(deck) != _cards(books.deck):
        raise InputError("the cards of its links are not those of an import: change them there")


def _cards(deck: Deck) -> tuple[frozenset[object], ...]:
    """Returns the cards of work, links and loads of a deck, in any order."""
    return frozenset(deck.work), frozenset(deck.afters), frozenset(deck.loads)


def with_logic(before: Books, books: Books, logic: Logic) -> Books:
    """Returns a deck that is made of a logic, with the progress of its tasks.

    Raises `InputError` that says why if the deck cannot hold a link, unless it did not before: such
    links were accepted as losses of the import.
    """
    deck, side, losses = _remade(books, logic)
    if losses:
        *_, known = _remade(before, ties_of(before).logic())
        losses = tuple(loss for loss in losses if loss not in known)
    if losses:
        raise InputError(losses[0].why)
    made = replace(books, deck=deck, side=side)
    if side.logic is None:
        _check_kept(logic.ties, made)
    return _with_progress(books.side, made)


def _remade(books: Books, logic: Logic) -> tuple[Deck, SideFile, tuple[Loss, ...]]:
    return remade(books.deck, books.side, logic, _dates(books.side, logic))


def _dates(side: SideFile, logic: Logic) -> Recount:
    """Returns when tasks begin at normal durations, and what their ties wait."""
    if side.logic is None:
        return waits_of_cards(logic)
    lasting = {tie.task: Lasting(tie.task, 0) for tie in logic.ties}
    for task in side.tasks:
        calendar = "" if task.own is None else task.own.calendar
        lasting[task.code] = Lasting(task.code, task.minutes, calendar)
    found = spans(side.calendar, logic, lasting.values())
    waits = (TieWait(lag, tie.day is not None) for tie, lag in zip(logic.ties, found.lags))
    return Recount(found.starts, tuple(waits), {})


def _check_kept(wanted: Iterable[LogicTie], made: Books) -> None:
    """Raises `InputError` if the cards of a deck do not say one of its ties."""
    kept = set(ties_of(made).logic().ties)
    for tie in wanted:
        if tie in kept:
            continue
        text = tie_text(tie, made.side)
        if tie.lag < 0 and tie.is_from_start:
            raise InputError(
                f"{text}: a deck has no lead before a start; link it to what {tie.before} waits for"
            )
        raise InputError(
            f"{text} says nothing next to the other links and the first day, so a deck does not"
            " keep it"
        )


def _with_progress(before: SideFile, made: Books) -> Books:
    """Returns a deck whose new cards have the progress of their tasks."""
    if not made.deck.statuses:
        return made
    cards = {task.code: _cards_of(task) for task in before.tasks}
    begun = {card.activity for card in made.deck.statuses}
    changed = {
        task.code: dict[str, str]()
        for task in made.side.tasks
        if cards.get(task.code) != _cards_of(task) and begun & set(cards.get(task.code, ()))
    }
    return status_edits.changed(made, changed)


def _cards_of(task: SideTask) -> tuple[str, ...]:
    """Returns the codes of the cards of a task."""
    return tuple(filter(None, chain(task.parts, (task.start_moment, task.finish_moment))))


def tie_text(tie: LogicTie, side: SideFile) -> str:
    """Returns a link as planners write it: `DIG`, `DIGSS+2d`, `DIGFS-0.5d`, `DIGFS+3ed`."""
    kind = tie.kind.value
    if not tie.lag:
        return tie.before if kind == "FS" else f"{tie.before}{kind}"
    is_elapsed = tie.calendar == CLOCK_NAME
    days = days_text(tie.lag, MINUTES_OF_DAY if is_elapsed else side.calendar.day_minutes)
    sign = "" if days.startswith("-") else "+"
    return f"{tie.before}{kind}{sign}{days}{'ed' if is_elapsed else 'd'}"


def with_entry(side: SideFile, task: SideTask) -> SideFile:
    """Returns the side file with another entry of a task."""
    tasks = tuple(task if each.code == task.code else each for each in side.tasks)
    return replace(side, tasks=tasks)
