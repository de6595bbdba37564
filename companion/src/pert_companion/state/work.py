"""Work to be done, and what the programs say of it: each question is asked when it is first wanted.

A `Work` is the plan of a project, or what is left of it. Its deck has real dates; where it counts
working time, the programs get its dates as counts of units (`model.days`), since they count every
day of the calendar.
"""

from collections.abc import Callable, Collection, Iterator, Mapping
from dataclasses import dataclass, field, replace
from datetime import date
from functools import cached_property

from pert_companion.model.cards import ActivityCard
from pert_companion.model.clock import Clock
from pert_companion.model.days import counted
from pert_companion.model.deck import Deck
from pert_companion.model.sidefile import SideFile
from pert_companion.programs import results
from pert_companion.programs.certificate import PointReader, Segment, segments
from pert_companion.programs.client import Programs


@dataclass(frozen=True, eq=False)
class Work:
    """A deck with its calendar, and the answers of the programs about it."""

    programs: Programs
    deck: Deck
    side: SideFile
    counts_units: bool = True
    """Whether dates are days of the side file's calendar, not of one that works every day."""
    source: bytes | None = None
    """The bytes of the deck as they are in its file, if it is a network; None if it was made."""
    _points: dict[int, results.Point] = field(default_factory=dict, repr=False)
    _times: dict[tuple[int, ...], results.Times] = field(default_factory=dict, repr=False)
    _lengths: dict[tuple[int, ...], int] = field(default_factory=dict, repr=False)

    @cached_property
    def clock(self) -> Clock:
        """Returns the clock that turns units of this work into days."""
        return Clock(self.side)

    @cached_property
    def network(self) -> Deck:
        """Returns the network: the deck itself, or for one of tasks what `arrows` makes of it."""
        return self.programs.network(self.deck)

    def check(self) -> None:
        """Raises `ProgramError` with the first fault if the programs do not accept the deck."""
        if self.deck.is_of_tasks:
            self.programs.pert(self.deck.to_bytes(), "arrows")
        else:
            self.programs.pert(self.deck.to_bytes(), "check")

    @cached_property
    def counted_network(self) -> Deck:
        """Returns the network with its dates as the programs count them."""
        return counted(self.network, self.side) if self.counts_units else self.network

    @cached_property
    def text(self) -> bytes:
        """Returns what the programs read to make the certificate."""
        return self.network.to_bytes() if self.source is None else self.source

    @cached_property
    def curve(self) -> tuple[results.Breakpoint, ...]:
        """Returns the curve, from the longest length down."""
        return tuple(self.programs.curve(self.network))

    def take_curve(self, curve: tuple[results.Breakpoint, ...]) -> None:
        """Keeps the curve that somebody has asked another program for."""
        self.__dict__["curve"] = curve

    @property
    def longest(self) -> int:
        """Returns the length at which nothing is shortened."""
        return self.curve[0].length

    @property
    def shortest(self) -> int:
        """Returns the all-crash length."""
        return self.curve[-1].length

    @cached_property
    def normal(self) -> results.Point:
        """Returns the schedule in which nothing is shortened."""
        return self.programs.normal(self.network)

    @cached_property
    def optimum(self) -> results.Optimum:
        """Returns the cheapest length with the price of time.

        Raises `ProgramError` if the deck has no TERMS to say what that is.
        """
        return self.programs.optimum(self.network)

    @cached_property
    def times(self) -> results.Times:
        """Returns the report `times` by the three estimates."""
        return self.programs.times(self.network)

    @cached_property
    def summary(self) -> dict[str, results.SummaryRow]:
        """Returns the report `summary` by item."""
        return self.programs.summary(self.counted_network)

    @cached_property
    def value(self) -> results.Value:
        """Returns the report `value`."""
        return self.programs.value(self.counted_network)

    @property
    def top(self) -> str:
        """Returns the code of the item that is the project."""
        return next(item.code for item in self.deck.items if not item.parent)

    @property
    def end(self) -> date | None:
        """Returns the last day of work if nothing is shortened; None after the year 9999."""
        return self.clock.end(self.normal.length)

    def point(self, length: int) -> results.Point:
        """Returns a cheapest schedule for a length in units.

        Where nothing is shortened it is the normal one; a certificate that was made for this length
        has it too.
        """
        if length not in self._points:
            self._points[length] = self.programs.point(self.network, length)
        return self._points[length]

    def times_at(self, point: results.Point) -> results.Times:
        """Returns early and late times with these durations as the only estimates."""
        key = tuple(point.durations.values())
        if key not in self._times:
            self._times[key] = self.programs.times(with_durations(self.network, point.durations))
        return self._times[key]

    def length_with(self, durations: Mapping[str, int]) -> int:
        """Returns the length if activities last so many units, by code; others as they are."""
        cards = self.network.activities
        units = tuple(durations.get(card.code, card.normal) for card in cards)
        if units == tuple(card.normal for card in cards):
            return self.normal.length
        if units not in self._lengths:
            lasting = zip(cards, units)
            activities = tuple(replace(card, normal=n, crash=n, slope=0) for card, n in lasting)
            network = replace(self.network, activities=activities, pieces=())
            self._lengths[units] = self.programs.normal(network).length
        return self._lengths[units]

    def load(self, network: Deck, period: int) -> results.Load:
        """Returns what a network made from this one loads in each period of so many units."""
        return self.programs.load(network, period)

    def certificate(self) -> Iterator[bytes]:
        """Yields the certificate of the curve in parts, as `pert certify` prints it."""
        return self.programs.certify(self.text)

    def segments(self) -> Iterator[Segment]:
        """Yields the segments of the certificate as they are found, from the longest length down.

        Nothing more is computed when the caller stops.
        """
        return segments(self.certificate())

    def certified(self, lengths: Collection[int], listen: Callable[[bytes], None]) -> str:
        """Returns what `pert_check` says of the certificate. `listen` gets its parts as they come.

        From then on `point` has the schedules of `lengths` from the certificate.
        """
        reader = PointReader(self.network, lengths)
        answer = self.programs.check(self.text, self._heard(reader, listen))
        self._points.update(reader.points)
        return answer

    def _heard(self, reader: PointReader, listen: Callable[[bytes], None]) -> Iterator[bytes]:
        for part in self.certificate():
            reader.take(part)
            listen(part)
            yield part


def with_durations(network: Deck, durations: Mapping[str, int]) -> Deck:
    """Returns the network with these durations as the only estimates, and no directed end."""
    activities = tuple(
        _lasting(card, durations.get(card.code, card.normal)) for card in network.activities
    )
    project = replace(network.project, directed=None, unit_days=1)
    return replace(network, project=project, activities=activities)


def _lasting(card: ActivityCard, units: int) -> ActivityCard:
    """Returns a card with one duration as its three estimates."""
    return replace(card, optimistic=units, likely=units, pessimistic=units)
