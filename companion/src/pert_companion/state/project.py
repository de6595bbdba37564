"""The state of a project at its data date, opened once: what was planned, and what is left of it.

Where nothing has begun, what is left is the plan. A length without a further word is one of what is
left.
"""

from collections.abc import Mapping
from dataclasses import dataclass, field, replace
from datetime import date, timedelta
from functools import cached_property
from pathlib import Path

from pert_companion.model import deck as decks
from pert_companion.model import fitting
from pert_companion.model.deck import Deck
from pert_companion.model.ledger import Ledger
from pert_companion.model.registers import Registers
from pert_companion.model.sidefile import SideFile
from pert_companion.model.source import shown_name
from pert_companion.programs.client import Programs
from pert_companion.state.implied import implied_side_file
from pert_companion.state.remaining import Remaining, Said, remaining
from pert_companion.state.work import Work


@dataclass(frozen=True, eq=False)
class ProjectState:
    """A deck with what is known about it, and the answers of the programs."""

    programs: Programs
    deck: Deck
    """The deck as it is in its file, with real dates."""
    side: SideFile
    """Its side file, or the one that a deck without one implies."""
    has_side_file: bool = True
    path: Path = Path()
    data: bytes = b""
    """The bytes of the deck's file."""
    said: Mapping[str, Said] = field(default_factory=dict)
    """What somebody says is left of activities, by code."""
    ledger: Ledger | None = None
    """The vouchers next to the deck; None if there are none."""
    registers: Registers = Registers()
    """The tables next to the deck."""

    @property
    def name(self) -> str:
        """Returns the file name of the deck."""
        return self.path.name

    @property
    def as_of(self) -> date:
        """Returns the morning from which on the work that is left is done."""
        return self.deck.as_of_day

    @property
    def close(self) -> date:
        """Returns the day whose close of business it reports: the one before the as-of morning."""
        return self.deck.as_of_day - timedelta(days=1)

    @property
    def counts_closes(self) -> bool:
        """Says whether people know its days by their evenings, as a source or a ledger has them.

        The days of a deck written by hand are mornings, and are shown as they were written.
        """
        return self.side.data_date is not None or self.ledger is not None

    @property
    def data_day(self) -> date:
        """Returns the day that people know it by: its close of business, or the as-of date."""
        return self.close if self.counts_closes else self.deck.as_of_day

    @property
    def has_begun(self) -> bool:
        """Says whether any work has begun, or the day has passed on which it was to begin."""
        return bool(self.deck.statuses) or self.deck.as_of_day > self.deck.project.start_date

    @cached_property
    def plan(self) -> Work:
        """Returns the work as it was planned, with what was spent on it."""
        source = None if self.deck.is_of_tasks or not self.data else self.data
        return Work(self.programs, self.deck, self.side, self.has_side_file, source)

    @cached_property
    def remaining(self) -> Remaining:
        """Returns the deck of the work that is left, and on what it rests."""
        return remaining(self.deck, self.side, self.said)

    @cached_property
    def rest(self) -> Work:
        """Returns the work that is left; the plan itself if nothing has begun."""
        if not self.has_begun and not self.said:
            return self.plan
        rest = self.remaining
        return Work(self.programs, rest.deck, rest.side, self.has_side_file)

    def with_said(self, said: Mapping[str, Said]) -> "ProjectState":
        """Returns the same state with what somebody says is left of activities."""
        return replace(self, said=said) if said else self


def open_state(path: Path, programs: Programs) -> ProjectState:
    """Returns the state of the project in a deck's file.

    A deck without a side file is read as one written by hand: each task is a real one, and every
    day of the calendar counts, as in `pert`. Raises `InputError` for a side file that does not fit.
    """
    data = decks.read_bytes(path)
    deck = decks.parse_deck(data, shown_name(path))
    side = fitting.find(path, deck, data)
    if side is None:
        return ProjectState(programs, deck, implied_side_file(deck), False, path, data)
    return ProjectState(programs, deck, side, True, path, data)


def state_of(deck: Deck, programs: Programs) -> ProjectState:
    """Returns the state of a deck that has no file, and so no side file."""
    return ProjectState(programs, deck, implied_side_file(deck), False)
