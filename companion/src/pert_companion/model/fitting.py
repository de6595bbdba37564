"""Finds the side file of a deck, and says whether it fits.

A side file belongs to the tasks, links and calendar of its deck: to its codes, to the TASK, AFTER
and ACT cards, to the first day and to the days of a unit. Everything else may be edited: TERMS, the
directed end, accounts, charges, estimates to go, the as-of date and status.
"""

from collections.abc import Iterator
from dataclasses import replace
from datetime import timedelta
from hashlib import sha256
from pathlib import Path

from pert_companion.model.cards import ActivityCard, TaskCard
from pert_companion.model.deck import Deck, checksum
from pert_companion.model.errors import InputError
from pert_companion.model.sidefile import (
    MAX_BYTES,
    SideFile,
    as_of,
    card_codes,
    from_json,
    side_path,
)
from pert_companion.model.source import STANDARD_STREAM, read_bytes

WorkCard = TaskCard | ActivityCard
_DIGITS = 8
"""The hexadecimal digits of a digest: enough to tell an edited card from another."""


def find(path: Path, deck: Deck, data: bytes) -> SideFile | None:
    """Returns the side file next to the deck of a file, or None if there is none.

    If the as-of date of the deck was edited, its progress is what was known on that day. `data` are
    the bytes of the deck. Raises `InputError` for a file that is no side file, that a later version
    of this package wrote, or that does not fit the deck.
    """
    place = side_path(path)
    if path in (STANDARD_STREAM, place) or not place.exists():
        return None
    side = from_json(read_bytes(place, MAX_BYTES, "side file"), str(place))
    check_fits(side, deck, path, data)
    return known_on(side, deck)


def known_on(side: SideFile, deck: Deck) -> SideFile:
    """Returns a side file with the progress that was known on the as-of date of its deck."""
    if side.data_date is None or side.data_date + timedelta(days=1) == deck.as_of_day:
        return side
    return as_of(side, deck.as_of_day)


def fitted_to(side: SideFile, deck: Deck) -> SideFile:
    """Returns the same side file as one that belongs to this deck."""
    unit_days = deck.project.unit_days
    return replace(side, deck_sha256="", unit_days=unit_days, cards=card_digests(deck))


def card_digests(deck: Deck) -> dict[str, str]:
    """Returns what identifies each task or activity by code: a digest of its card without its
    title, and one of its links.

    The links of a task are the tasks before it, in any order, and those of an activity its events.
    """
    before: dict[str, list[str]] = {}
    for after in deck.afters:
        before.setdefault(after.task, []).append(after.before)
    digests = {}
    for card in deck.work:
        links = sorted(before.get(card.code, []))
        if isinstance(card, ActivityCard):
            links = [card.begins, card.ends]
        digests[card.code] = f"{_digest(*_numbers(card))} {_digest(*links)}"
    return digests


def _numbers(card: WorkCard) -> Iterator[object]:
    """Yields what a card says of its work."""
    yield card.item
    yield from (card.optimistic, card.likely, card.pessimistic, card.normal)
    yield from (card.crash, card.cost, card.slope)


def _digest(*values: object) -> str:
    return sha256(",".join(map(str, values)).encode()).hexdigest()[:_DIGITS]


def check_fits(side: SideFile, deck: Deck, path: Path, data: bytes) -> None:
    """Raises `InputError` if a side file does not fit the deck of a file, whose bytes are `data`.

    The line names the side file, the card that differs, and the command that makes a new one.
    """
    why = misfit(side, deck, data)
    if why:
        remedy = _remedy(side, path)
        raise InputError(f"{side_path(path)}: it does not fit {path.name}: {why}; {remedy}")


def misfit(side: SideFile, deck: Deck, data: bytes) -> str:
    """Returns what of a deck is not as its side file has it, or an empty text if it fits."""
    if side.start != deck.project.start_date:
        return f"PROJECT begins on {deck.project.start_date}, not on {side.start}"
    why = _other_codes(side, deck) or _other_durations(side, deck)
    if why:
        return why
    if side.cards is not None:
        return _other_cards(side, deck)
    if side.deck_sha256 != checksum(data):
        return "the deck was edited, and a side file of version 1 does not say what may change"
    return ""


def _other_codes(side: SideFile, deck: Deck) -> str:
    """Returns the first card that one of the two has and the other has not."""
    kind = _kind(deck)
    codes = {card.code for card in deck.work}
    known = card_codes(side)
    for code in known:
        if code not in codes:
            return f"{kind} {code} is not in the deck"
    listed = set(known)
    for card in deck.work:
        is_arrow = isinstance(card, ActivityCard) and card.is_dummy and card.normal == 0
        if card.code not in listed and not is_arrow:
            return f"{kind} {card.code} is not in the side file"
    return ""


def _other_durations(side: SideFile, deck: Deck) -> str:
    """Returns the first task whose cards do not add up to its duration."""
    normal = {card.code: card.normal for card in deck.work}
    for task in side.tasks:
        units = sum(normal[part] for part in task.parts)
        if units != task.normal:
            return f"{_kind(deck)} {task.code} has a duration of {units}, not of {task.normal}"
    return ""


def _other_cards(side: SideFile, deck: Deck) -> str:
    """Returns the first card that is not as it was when the side file was written."""
    kind = _kind(deck)
    if side.unit_days != deck.project.unit_days:
        return f"PROJECT has units of {deck.project.unit_days} days, not of {side.unit_days}"
    for code, digest in card_digests(deck).items():
        known = (side.cards or {}).get(code, "")
        if known == digest:
            continue
        if known.partition(" ")[0] == digest.partition(" ")[0]:
            return f"the links of {kind} {code} were changed"
        return f"{kind} {code} was changed"
    return ""


def _kind(deck: Deck) -> str:
    return "TASK" if deck.is_of_tasks else "ACT"


def _remedy(side: SideFile, path: Path) -> str:
    """Returns the command that makes a side file which fits."""
    if side.source:
        plan = side.source_name or "PLAN"
        return f"change the plan and import it again (pert-import {plan} -o {path.name})"
    return f"make it again (pert-days {path.name} --calendar)"
