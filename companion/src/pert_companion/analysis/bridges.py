"""The bridges of an end: from the forecast of one state to that of the next, by cause and by task.

The bridge by cause goes in steps, each of them a deck of the work that is left: the older plan with
what is now said of the past, with the progress since, with today's durations, and today's plan.
Another order of steps would divide the same move otherwise.
"""

from collections.abc import Iterator, Mapping
from dataclasses import dataclass, replace
from datetime import date
from typing import TypeVar

from pert_companion.analysis.compare import StateFigures
from pert_companion.analysis.end_moves import EndMoves, EndState, end_moves
from pert_companion.analysis.forecast import finished_end, is_done
from pert_companion.model.cards import ActivityCard, StatusCard, TaskCard
from pert_companion.model.clock import Clock
from pert_companion.model.deck import Deck
from pert_companion.model.errors import CompanionError, InputError
from pert_companion.model.sidefile import SideFile, SideTask
from pert_companion.state.matching import Matching, match_states
from pert_companion.state.project import ProjectState
from pert_companion.state.remaining import WorkCard, remaining

Card = TypeVar("Card", TaskCard, ActivityCard)


@dataclass(frozen=True)
class EndStep:
    """One step of the bridge of the end date by cause."""

    cause: str
    end: date


@dataclass(frozen=True)
class Bridges:
    """The steps between two ends."""

    steps: tuple[EndStep, ...]
    """From the older end to the newer one; empty if the steps cannot be made."""
    moves: EndMoves | None
    """The tasks that moved the end; None if a step is after the year 9999."""


def bridges(old: StateFigures, new: StateFigures) -> Bridges:
    """Returns the bridges of the end from an older state to a newer one."""
    try:
        steps = tuple(_end_steps(old, new))
    except CompanionError:
        steps = ()  # a deck between two states may be none that the programs accept
    return Bridges(steps, _moves(old, new))


def _moves(old: StateFigures, new: StateFigures) -> EndMoves | None:
    try:
        return end_moves(EndState(old.state, old.end), EndState(new.state, new.end))
    except InputError:
        return None


def _end_steps(before: StateFigures, now: StateFigures) -> Iterator[EndStep]:
    """Yields the steps from the older forecast of the end to the newer one."""
    old, new = before.state, now.state
    matching = match_states(old, new)
    codes = dict(_part_codes(matching))
    known = {**codes, **_other_codes(matching, old.side, new.side)}
    yield EndStep("forecast of the report before", before.end)
    restated = _with_status(old, new, known, old.as_of)
    yield EndStep("restated past", _end_of(old, *restated))
    progressed = _with_status(old, new, known, new.as_of)
    yield EndStep("progress since", _end_of(old, *progressed))
    estimated = _with_durations(progressed[0], new.deck, codes), progressed[1]
    yield EndStep("re-estimates", _end_of(old, *estimated))
    yield EndStep("scope and links", now.end)


def _end_of(old: ProjectState, deck: Deck, side: SideFile) -> date:
    """Returns the last day of work of a deck that has the older state's links, done or left."""
    state = replace(old, deck=deck, side=side, data=b"")
    if is_done(state):
        return finished_end(state)
    rest = remaining(deck, side)
    length = old.rest.length_with({left.code: left.normal for left in rest.left})
    return Clock(rest.side).end(length) or date.max


def _part_codes(matching: Matching) -> Iterator[tuple[str, str]]:
    """Yields the older and the newer code of each part of matched tasks."""
    for old, new in matching.pairs:
        if len(old.parts) == len(new.parts):
            yield from zip(old.parts, new.parts)


def _other_codes(matching: Matching, old: SideFile, new: SideFile) -> dict[str, str]:
    """Returns the newer code of each card that is no work but has status: moments, and waits.

    A wait of a lag or a date that has begun or is over is progress, not a change of links.
    """
    waits = set(new.waits)
    codes = {code: code for code in old.waits if code in waits}
    for before, now in matching.pairs:
        moments = (before.start_moment, now.start_moment), (before.finish_moment, now.finish_moment)
        codes.update({then: here for then, here in moments if then and here})
    return codes


def _with_status(
    old: ProjectState, new: ProjectState, codes: Mapping[str, str], as_of: date
) -> tuple[Deck, SideFile]:
    """Returns the older plan as of a day, with what the newer one says of the time before it."""
    names = {newer: older for older, newer in codes.items()}
    statuses = tuple(
        StatusCard(names[card.activity], card.letter, card.day)
        for card in new.deck.statuses
        if card.activity in names and card.day <= as_of
    )
    deck = replace(old.deck, as_of=as_of, statuses=statuses, charges=(), to_go=())
    if as_of != new.as_of:
        return deck, old.side
    entries = {task.parts[0]: task for task in new.side.tasks}
    tasks = tuple(_progressed(task, entries, codes) for task in old.side.tasks)
    return deck, replace(old.side, tasks=tasks)


def _progressed(
    task: SideTask, entries: Mapping[str, SideTask], codes: Mapping[str, str]
) -> SideTask:
    now = entries.get(codes.get(task.parts[0], ""))
    if now is None:
        return task
    return replace(
        task,
        percent=now.percent,
        remaining=None if now.minutes != task.minutes else now.remaining,
        actual_start=now.actual_start,
        actual_finish=now.actual_finish,
    )


def _with_durations(deck: Deck, new: Deck, codes: Mapping[str, str]) -> Deck:
    """Returns a deck with the durations of the newer one, for the cards that both have."""
    cards = {card.code: card for card in new.work}
    now = {code: cards[newer] for code, newer in codes.items() if newer in cards}
    return replace(
        deck,
        tasks=tuple(_lasting(card, now.get(card.code, card)) for card in deck.tasks),
        activities=tuple(_lasting(card, now.get(card.code, card)) for card in deck.activities),
        pieces=tuple(piece for piece in deck.pieces if piece.activity not in now),
    )


def _lasting(card: Card, now: WorkCard) -> Card:
    """Returns a card with the durations of another one."""
    return replace(
        card,
        optimistic=now.optimistic,
        likely=now.likely,
        pessimistic=now.pessimistic,
        normal=now.normal,
        crash=now.crash,
        slope=card.slope if now.normal > now.crash else 0,
    )
