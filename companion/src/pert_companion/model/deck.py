"""Reads and writes decks: the only place that knows their format (docs/deck.md).

`pert` judges a deck; this module reads what `pert` accepts, and refuses the rest in one line. What
it writes is the canonical form of `pert migrate`, and for a deck of tasks the same order of kinds
with TASK and AFTER in the place of EVENT and ACT.
"""

import csv
import io
import re
from collections.abc import Callable, Iterable, Iterator, Sequence
from dataclasses import dataclass, field, fields
from datetime import date
from functools import cached_property
from hashlib import sha256
from operator import attrgetter
from pathlib import Path
from typing import Any, get_type_hints

from pert_companion.model import cards, source
from pert_companion.model.errors import InputError
from pert_companion.model.lines import csv_bytes

MOST_BYTES = 67_108_864
MOST_DIGITS = 13

KINDS: dict[str, type[Any]] = {
    "PROJECT": cards.ProjectCard,
    "ASOF": cards.AsOfCard,
    "TERMS": cards.TermsCard,
    "WBS": cards.ItemCard,
    "EVENT": cards.EventCard,
    "ACT": cards.ActivityCard,
    "TASK": cards.TaskCard,
    "AFTER": cards.AfterCard,
    "PIECE": cards.PieceCard,
    "ACCT": cards.AccountCard,
    "CHARGE": cards.ChargeCard,
    "TOGO": cards.ToGoCard,
    "STATUS": cards.StatusCard,
    "RES": cards.ResourceCard,
    "LOAD": cards.LoadCard,
}
"""The class of each kind of card, in the order in which decks are written."""

_CODE = re.compile(r"[A-Za-z0-9._-]{1,16}")
_NUMBER = re.compile(r"0|[1-9][0-9]{0,12}")
_DATE = re.compile(r"[0-9]{4}-[0-9]{2}-[0-9]{2}")
_CONTROL = re.compile("[\x00-\x1f\x7f]")
_TITLES = {"title"}
_OPTIONAL_CODES = {"parent"}
_OTHER_FILES = "pert-import makes a deck of a planner's file or a list"
"""What to say of a file that does not begin as a deck does."""


@dataclass(frozen=True)
class Deck:
    """A deck, or a deck of tasks, as its cards in the order of each kind."""

    project: cards.ProjectCard
    as_of: date | None = None
    terms: cards.TermsCard | None = None
    items: tuple[cards.ItemCard, ...] = ()
    events: tuple[cards.EventCard, ...] = ()
    activities: tuple[cards.ActivityCard, ...] = ()
    tasks: tuple[cards.TaskCard, ...] = ()
    afters: tuple[cards.AfterCard, ...] = ()
    pieces: tuple[cards.PieceCard, ...] = ()
    accounts: tuple[cards.AccountCard, ...] = ()
    charges: tuple[cards.ChargeCard, ...] = ()
    to_go: tuple[cards.ToGoCard, ...] = ()
    statuses: tuple[cards.StatusCard, ...] = ()
    resources: tuple[cards.ResourceCard, ...] = ()
    loads: tuple[cards.LoadCard, ...] = field(default=())

    @property
    def is_of_tasks(self) -> bool:
        """Says whether this is a deck of tasks, which `pert arrows` reads."""
        return bool(self.tasks) or not self.events

    @property
    def work(self) -> tuple[cards.TaskCard | cards.ActivityCard, ...]:
        """Returns the tasks of a deck of tasks, or the activities of a network."""
        return (*self.tasks, *self.activities)

    @property
    def as_of_day(self) -> date:
        """Returns the day of reports: of the ASOF card, or the first day."""
        return self.as_of or self.project.start_date

    def to_bytes(self) -> bytes:
        """Returns the deck in canonical form."""
        return self._text

    @cached_property
    def _text(self) -> bytes:
        return csv_bytes(self._rows())

    def _rows(self) -> Iterator[Sequence[object]]:
        """Yields the rows of the cards; a date is written as ISO 8601 has it."""
        yield "PROJECT", *_project_fields(self.project)
        yield "ASOF", self.as_of_day
        if self.terms not in (None, cards.TermsCard()):
            yield "TERMS", *_FIELDS["TERMS"](self.terms)
        for kind, held in _LISTS.items():
            fields_of = _FIELDS[kind]
            for card in getattr(self, held):
                yield kind, *fields_of(card)
        yield ("END",)


_LISTS = {
    "WBS": "items",
    "EVENT": "events",
    "ACT": "activities",
    "TASK": "tasks",
    "AFTER": "afters",
    "PIECE": "pieces",
    "ACCT": "accounts",
    "CHARGE": "charges",
    "TOGO": "to_go",
    "STATUS": "statuses",
    "RES": "resources",
    "LOAD": "loads",
}


def _getter(kind: str) -> Callable[[object], tuple[object, ...]]:
    """Returns what returns the fields of a card of a kind, in order."""
    return attrgetter(*(field.name for field in fields(KINDS[kind])))


_FIELDS = {kind: _getter(kind) for kind in ("TERMS", *_LISTS)}
"""What returns the fields of a card of each kind, in order."""


def _project_fields(card: cards.ProjectCard) -> list[str]:
    directed = "" if card.directed is None else str(card.directed)
    day = card.start_date.isoformat()
    return [
        card.code,
        card.start,
        card.end,
        day,
        str(card.unit_days),
        directed,
        card.title,
        "2",
    ]


def checksum(data: bytes) -> str:
    """Returns the SHA-256 of the bytes of a deck, as the side file has it."""
    return sha256(data).hexdigest()


def read_bytes(path: Path) -> bytes:
    """Returns the bytes of a deck file or of standard input; `InputError` if there are too many."""
    return source.read_bytes(path, MOST_BYTES)


def read_deck(path: Path) -> Deck:
    """Returns the deck of a file."""
    return parse_deck(read_bytes(path), source.shown_name(path))


def parse_deck(data: bytes, name: str) -> Deck:
    """Returns the deck of these bytes, or raises `InputError` with the first wrong record."""
    reader = _DeckReader(name)
    for number, record in enumerate(records(data, name), 1):
        reader.take(number, record)
    return reader.deck()


def records(data: bytes, name: str) -> Iterator[list[str]]:
    """Yields the records of a deck. Blank lines are none; rows of commas are.

    Lines end with LF, CR LF or CR, and with nothing else: other line ends of Unicode are text. Two
    byte order marks in front are dropped, as `pert` does.
    """
    try:
        text = data.decode("utf-8")
    except UnicodeDecodeError as error:
        raise InputError(f"{name}: {_not_text(data, error.start)}") from error
    text = text.removeprefix("\ufeff").removeprefix("\ufeff")
    text = text.replace("\r\n", "\n").replace("\r", "\n")
    try:
        for record in csv.reader(io.StringIO(text, newline="")):
            if record:
                yield record
    except csv.Error as error:
        raise InputError(f"{name}: {error}") from error


def _not_text(data: bytes, at: int) -> str:
    """Returns what to say of bytes that are not UTF-8 from this one on."""
    if data.startswith(b"PROJECT"):
        return f"not UTF-8 at byte {at}; export it in UTF-8"
    return f"no deck, and not UTF-8 at byte {at}; {_OTHER_FILES}"


class _DeckReader:
    """Gathers the cards of a deck, record by record."""

    def __init__(self, name: str) -> None:
        self.name = name
        self.number = 0
        self.ended = False
        self.single: dict[str, Any] = {}
        self.lists: dict[str, list[Any]] = {kind: [] for kind in _LISTS}

    def take(self, number: int, record: list[str]) -> None:
        """Adds one record; rows of empty fields are passed over."""
        self.number = number
        if not any(record):
            return
        if self.ended:
            raise self.fault("card after END")
        kind = record[0]
        if not self.single and kind != "PROJECT":
            raise self.fault(f"first card is not PROJECT; {_OTHER_FILES}")
        if kind == "END":
            self.ended = True
        elif kind in _LISTS:
            self.lists[kind].append(self.card(kind, record[1:]))
        elif kind in KINDS:
            self.take_single(kind, record[1:])
        else:
            raise self.fault(f"unknown kind {kind[:16]!r}")

    def take_single(self, kind: str, texts: list[str]) -> None:
        """Adds a card of which a deck has one."""
        if kind in self.single:
            raise self.fault(f"second {kind}")
        if kind == "PROJECT":
            texts = _with_version(texts)
        self.single[kind] = self.card(kind, texts)

    def card(self, kind: str, texts: list[str]) -> Any:
        """Returns the card of a record's fields."""
        made = KINDS[kind]
        names = [f.name for f in fields(made)]
        while len(texts) > len(names) and not texts[-1]:
            texts = texts[:-1]
        if len(texts) != len(names):
            raise self.fault(f"{len(texts) + 1} fields, {kind} has {len(names) + 1}")
        hints = _HINTS[made]
        values = [self.value(at, hints[n], n, t) for at, (n, t) in enumerate(zip(names, texts), 2)]
        return made(*values)

    def value(self, at: int, hint: Any, name: str, text: str) -> Any:
        """Returns the value of field `at` of a record."""
        if hint is date:
            return self.day(at, text)
        if hint is int:
            return self.whole(at, text)
        if hint == int | None:
            return self.whole(at, text) if text else None
        if name in _TITLES:
            if _CONTROL.search(text):
                raise self.fault(f"field {at} has a control character")
            return text
        if not _CODE.fullmatch(text) and not (name in _OPTIONAL_CODES and not text):
            raise self.fault(f"field {at} is no code: {text[:20]!r}")
        return text

    def whole(self, at: int, text: str) -> int:
        """Returns a number of at most 13 digits."""
        if not _NUMBER.fullmatch(text):
            raise self.fault(f"field {at} is no number: {text[:20]!r}")
        return int(text)

    def day(self, at: int, text: str) -> date:
        """Returns a day of the years 1900 to 2199."""
        try:
            day = date.fromisoformat(text) if _DATE.fullmatch(text) else None
        except ValueError:
            day = None
        if day is None or not 1900 <= day.year <= 2199:
            raise self.fault(f"field {at} is no date: {text[:20]!r}")
        return day

    def fault(self, what: str) -> InputError:
        """Returns the error for the record that is being read."""
        return InputError(f"{self.name}: record {self.number}: {what}")

    def deck(self) -> Deck:
        """Returns the complete deck."""
        if not self.ended:
            self.number += 1
            raise self.fault("no END")
        as_of = self.single.get("ASOF")
        held: dict[str, Any] = {_LISTS[kind]: tuple(listed) for kind, listed in self.lists.items()}
        return Deck(
            project=self.single["PROJECT"],
            as_of=as_of.day if as_of else None,
            terms=self.single.get("TERMS"),
            **held,
        )


def _with_version(texts: list[str]) -> list[str]:
    """Returns the fields of a PROJECT card with its version, which is 1 if it is left out."""
    if len(texts) == 7:
        return [*texts, "1"]
    if len(texts) > 7 and not texts[7]:
        return [*texts[:7], "1", *texts[8:]]
    return texts


_HINTS = {made: get_type_hints(made) for made in KINDS.values()}


def leaves(items: Iterable[cards.ItemCard]) -> list[cards.ItemCard]:
    """Returns the items with no item below them, in card order."""
    listed = list(items)
    parents = {item.parent for item in listed}
    return [item for item in listed if item.code not in parents]
