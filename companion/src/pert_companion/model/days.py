"""Turns the dates of a deck into counts of working time, as the programs need them, and back.

`pert` counts every day of the calendar. If durations are working days (or hours), each date has to
be a count too: the start date and one day for each unit of working time before that morning. A deck
keeps its real dates; commands give the programs the counted deck.

A date is the morning of its day. So a date on a free day is the moment of the next working morning,
and what was finished on a Friday evening and is dated Saturday counts as finished by then. What is
dated after the as-of date stays after it. A date before the start date stays as it is.
"""

from dataclasses import dataclass, replace
from datetime import date, datetime, timedelta

from pert_companion.model.cards import ToGoCard
from pert_companion.model.deck import Deck
from pert_companion.model.errors import InputError
from pert_companion.model.moments import midnight
from pert_companion.model.sidefile import SideFile

LAST_DAY = date(2199, 12, 31)
"""The last day that a deck can have."""


@dataclass(frozen=True)
class DayCount:
    """How many whole units of working time there are from a project's start to a morning."""

    day: date
    start: date
    unit_minutes: int
    units: int


@dataclass(frozen=True)
class Counts:
    """The counts of a deck: units of working time from its start to a morning."""

    side: SideFile
    start: date
    """The first day of the deck, to which a count is added."""

    @property
    def origin(self) -> int:
        """Returns the position of the first working moment."""
        calendar = self.side.calendar
        return calendar.position(calendar.morning(self.start))

    def count(self, day: date) -> int:
        """Returns the whole units of working time from the start to the morning of a day."""
        passed = self.side.calendar.position(midnight(day)) - self.origin
        return max(0, passed // self.side.unit_minutes)

    def day(self, count: int) -> date:
        """Returns the date that a deck has for a count.

        Raises `InputError` if it is after the last day of decks, as many small units may be.
        """
        if count > (LAST_DAY - self.start).days:
            raise InputError(
                f"{count} units of {self.side.unit_minutes} minutes are more than the dates of a"
                " deck can count; carry the plan over in longer units"
            )
        return self.start + timedelta(days=count)

    def morning(self, count: int) -> datetime | None:
        """Returns the moment at which work goes on after a count; None after the year 9999."""
        try:
            return self.side.calendar.at(self.origin + count * self.side.unit_minutes)
        except InputError:
            return None

    def counted(self, day: date, as_of: date) -> date:
        """Returns the date that the counted deck has for a real one."""
        if day < self.start:
            return day
        count = self.count(day)
        if self.start <= as_of < day:
            count = max(count, self.count(as_of) + 1)
        return self.day(count)

    def real(self, day: date) -> date | None:
        """Returns the working day whose morning a date of a counted report means.

        It is None after the year 9999. A date before the start stays as it is.
        """
        if day < self.start:
            return day
        moment = self.morning((day - self.start).days)
        return None if moment is None else moment.date()


def counted(deck: Deck, side: SideFile) -> Deck:
    """Returns the deck with its dates as counts of the side file's units.

    Of two amounts to go of an account on one counted date the later one holds.
    """
    counts = Counts(side, deck.project.start_date)
    as_of = deck.as_of_day

    def date_of(day: date) -> date:
        return counts.counted(day, as_of)

    return replace(
        deck,
        as_of=date_of(as_of),
        statuses=tuple(replace(card, day=date_of(card.day)) for card in deck.statuses),
        charges=tuple(replace(card, day=date_of(card.day)) for card in deck.charges),
        to_go=_last_to_go(deck, counts),
    )


def _last_to_go(deck: Deck, counts: Counts) -> tuple[ToGoCard, ...]:
    """Returns the amounts to go with counted dates, the last one for each account and date."""
    found: dict[tuple[str, date], ToGoCard] = {}
    for card in deck.to_go:
        key = card.account, counts.counted(card.day, deck.as_of_day)
        if key not in found or found[key].day <= card.day:
            found[key] = card
    return tuple(replace(card, day=day) for (_, day), card in found.items())
