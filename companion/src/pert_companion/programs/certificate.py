"""Reads schedules from a certificate as its parts come, so that a large one is never held whole.

A segment of a certificate has the schedule of its upper end; an event that moves is a unit earlier
for each unit less. So a segment gives a cheapest schedule for each length that it covers. At a
breakpoint that is the one of the segment above.
"""

import re
from collections.abc import Collection, Iterable, Iterator, Mapping
from dataclasses import dataclass
from functools import cached_property

from pert_companion.model.deck import Deck
from pert_companion.programs.results import Point

_CLOSE = b"\nCLOSE\n"
_ENDS = re.compile(rb"^SEGMENT (\d+) (\d+) (\d+) (\d+)$", re.MULTILINE)


def parts(chunks: Iterable[bytes]) -> Iterator[bytes]:
    """Yields a certificate in parts, of which each but the last ends with a segment.

    The first part also has what is before the first segment, the last what follows all segments.
    """
    rest = b""
    for chunk in chunks:
        *complete, rest = (rest + chunk).split(_CLOSE)
        for part in complete:
            yield part + _CLOSE
    if rest:
        yield rest


@dataclass(frozen=True)
class Segment:
    """A stretch of lengths, in units, along which the same events move."""

    upper: int
    lower: int
    cost: int
    """The cost of the upper end."""
    slope: int
    text: bytes
    """Its lines, the first of which has the numbers above."""

    @cached_property
    def events(self) -> Mapping[str, tuple[int, bool]]:
        """Returns the time of each event at the upper end, and whether it moves, by code."""
        words = self.text.partition(b"\nACT ")[0].decode().split()
        events = words[5:]  # those of SEGMENT are before
        times = map(int, events[2::4])
        moves = map("1".__eq__, events[3::4])
        return dict(zip(events[1::4], zip(times, moves)))

    def point(self, network: Deck, length: int) -> Point:
        """Returns the schedule of a length between both ends."""
        less = self.upper - length
        times = {
            code: time - less if moves else time for code, (time, moves) in self.events.items()
        }
        durations = {
            card.code: min(card.normal, times[card.ends] - times[card.begins])
            for card in network.activities
        }
        return Point(length, self.cost + self.slope * less, times, durations)


def segment_of(part: bytes) -> Segment | None:
    """Returns the segment of a part of a certificate; None if the part has none."""
    ends = _ENDS.search(part)
    if ends is None:
        return None
    upper, lower, cost, slope = map(int, ends.groups())
    return Segment(upper, lower, cost, slope, part[ends.start() :])


def segments(certificate: Iterable[bytes]) -> Iterator[Segment]:
    """Yields the segments of a certificate in parts, from the longest length down."""
    for part in certificate:
        segment = segment_of(part)
        if segment is not None:
            yield segment


class PointReader:
    """Takes the parts of a certificate, and finds the schedules of some lengths."""

    def __init__(self, network: Deck, lengths: Collection[int]) -> None:
        """Takes the network that the certificate is of, and lengths of its curve in units."""
        self.points: dict[int, Point] = {}
        self._network = network
        self._wanted = set(lengths)

    def take(self, part: bytes) -> None:
        """Takes the next part."""
        if not self._wanted:
            return
        segment = segment_of(part)
        if segment is None:
            return
        for length in [each for each in self._wanted if segment.lower <= each <= segment.upper]:
            self.points[length] = segment.point(self._network, length)
            self._wanted.remove(length)
