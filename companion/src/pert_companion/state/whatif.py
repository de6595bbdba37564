"""Asks one session of `pert_whatif` about works that differ by a few numbers.

Somebody who edits a plan changes a duration or a price at a time. The session gets the difference
between the network that it has and the one that is asked about, as its lines; a network that
differs in more than these lines can say gets a session of its own.
"""

from collections.abc import Iterator
from dataclasses import replace

from pert_companion.model.cards import ActivityCard
from pert_companion.model.deck import Deck
from pert_companion.model.errors import ProgramError
from pert_companion.programs import results
from pert_companion.programs.client import Programs
from pert_companion.programs.whatif import WhatIf
from pert_companion.state.work import Work

Line = tuple[object, ...]


class Questions:
    """The curves of works, one after the other, by as few sessions as their differences allow."""

    def __init__(self, programs: Programs) -> None:
        """Takes the programs."""
        self._programs = programs
        self._session: WhatIf | None = None
        self._network: Deck | None = None
        self.sessions = 0
        """How many sessions were started."""

    def curve(self, work: Work) -> tuple[results.Breakpoint, ...]:
        """Returns the curve of a work, which keeps it.

        Raises `ProgramError` if the programs refuse it.
        """
        network = work.network
        lines = None if self._network is None else session_lines(self._network, network)
        if self._session is None or lines is None:
            return self._begin(work)
        try:
            for line in lines:
                self._session.edit(*line)
            curve = self._session.curve()
        except ProgramError:
            return self._begin(work)
        self._network = network
        work.take_curve(curve)
        return curve

    def close(self) -> None:
        """Ends the session, if there is one."""
        if self._session is not None:
            self._session.close()
        self._session = self._network = None

    def _begin(self, work: Work) -> tuple[results.Breakpoint, ...]:
        """Returns the curve by a new session."""
        self.close()
        self.sessions += 1
        self._session = WhatIf(self._programs, work.network.to_bytes())
        self._network = work.network
        curve = self._session.curve()
        work.take_curve(curve)
        return curve


def session_lines(old: Deck, new: Deck) -> list[Line] | None:
    """Returns the lines that make an old network the new one for its curve.

    None if lines cannot do it: if the networks differ in more than estimates, durations and slopes.
    """
    if len(old.activities) != len(new.activities) or old.pieces != new.pieces:
        return None
    if old.project != new.project or old.events != new.events or old.terms != new.terms:
        return None
    lines: list[Line] = []
    for before, after in zip(old.activities, new.activities):
        if before is after or before == after:
            continue
        if _frame(before) != _frame(after):
            return None
        lines.extend(_card_lines(before, after))
    return lines


def _frame(card: ActivityCard) -> ActivityCard:
    """Returns what of a card no line can change, and what the curve does depend on."""
    blank = dict.fromkeys(("optimistic", "likely", "pessimistic", "normal", "crash", "slope"), 0)
    return replace(card, **blank, title="", item="")


def _card_lines(before: ActivityCard, after: ActivityCard) -> Iterator[Line]:
    """Yields the lines of one activity; the shortest duration is never above the normal one."""
    code = after.code
    if _estimates(before) != _estimates(after):
        yield ("ESTIMATE", code, *_estimates(after))
    lines: list[Line] = []
    if before.normal != after.normal:
        lines.append(("NORMAL", code, after.normal))
    if before.crash != after.crash:
        lines.append(("CRASH", code, after.crash))
    yield from lines if after.normal >= before.crash else reversed(lines)
    if before.slope != after.slope:
        yield ("SLOPE", code, after.slope)


def _estimates(card: ActivityCard) -> tuple[int, int, int]:
    return card.optimistic, card.likely, card.pessimistic
