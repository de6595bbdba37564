"""How sure a length is: runs of a network in which each duration is drawn from its three estimates.

A task lasts a PERT-beta time: between its optimistic and its pessimistic estimate, with the mean
(a + 4 m + b) / 6 that `pert times` uses (Malcolm, Roseboom, Clark and Fazar 1959). Tasks are drawn
independently of each other, and each run has the longest walk through all of them. So where walks
meet, the mean end is later than that of the critical path alone (merge bias), with no rule for it.
The criticality index is the share of runs in which a task is on a longest walk (Van Slyke 1963).

The same network gives the same numbers on every machine: the seed is fixed, the bits are those of
PCG64, whose stream numpy keeps, and times are whole ticks, so that no sum is rounded.
"""

from collections.abc import Iterator, Mapping, Sequence
from dataclasses import dataclass
from fractions import Fraction
from functools import lru_cache
from graphlib import TopologicalSorter
from itertools import chain, islice

import numpy as np
from numpy.typing import NDArray

from pert_companion.model.cards import ActivityCard
from pert_companion.model.deck import Deck

RUNS = 4000
EVEN = Fraction(1, 2)
LIKELY = Fraction(4, 5)
"""The chances of the ends that are called P50 and P80."""

_BATCH = 500
"""Runs at a time: what a batch of a big network takes fits the cache of a processor."""
_SEED = 1959
_TICKS = 1000
"""Ticks of a unit of the deck."""
_BITS = 10
_QUANTILES = 1 << _BITS
"""Equally likely durations of a task: the means of so many slices of its distribution."""
_STEPS = 4096
"""Steps in which a distribution is added up."""
_PLACES = np.linspace(0.0, 1.0, _STEPS + 1)
_MIDDLES = (np.arange(_QUANTILES) + 0.5) / _QUANTILES

Times = NDArray[np.int64]
"""A time in ticks for each run of a batch."""


@dataclass(frozen=True)
class Simulation:
    """The ends of all runs, and how often each task was critical."""

    lengths: tuple[int, ...]
    """The length of each run in units of the deck, rounded up to whole units, in rising order."""
    criticality: Mapping[str, Fraction]
    """The share of runs in which a task with work, by the code of its first card, was critical.

    It is empty if nobody asked for it.
    """
    uncertain: int
    """How many tasks have estimates that differ."""
    tasks: int
    """How many tasks have work."""

    def chance_of(self, length: int) -> Fraction:
        """Returns the share of runs that end within a length in units."""
        return Fraction(int(np.searchsorted(self.lengths, length, "right")), len(self.lengths))

    def length_with(self, chance: Fraction) -> int:
        """Returns the least length in units within which at least this share of the runs ends."""
        count = -(-chance.numerator * len(self.lengths) // chance.denominator)
        return self.lengths[max(count, 1) - 1]


def simulate(
    network: Deck,
    tasks: Sequence[Sequence[str]],
    durations: Mapping[str, int] | None = None,
    counts_critical: bool = True,
) -> Simulation | None:
    """Returns what happens in 4,000 runs, or None if no estimates differ: then nothing is known.

    `tasks` has the codes of the activities that are one task, which are all early or all late in a
    run; what is in no task, such as a wait, is drawn alone. With `durations`, those of a schedule
    in units, the estimates of a shortened activity shrink in proportion. Two calls for one network
    draw the same chances, so that their differences are those of the durations. Without
    `counts_critical` there is no criticality, and half the work.
    """
    drawn = [_Drawn.of(card, durations) for card in network.activities]
    groups = _groups(network, drawn, tasks)
    uncertain = sum(_is_uncertain(group, drawn) for group in groups)
    if not any(each.is_uncertain for each in drawn):
        return None
    runner = _Runner(network, drawn, groups, counts_critical)
    lengths: list[int] = []
    for ends in islice(runner.batches(), RUNS // _BATCH):
        lengths.extend((-(-ends // _TICKS)).tolist())
    counts = zip(groups, runner.critical) if counts_critical else ()
    shares = {network.activities[group[0]].code: Fraction(count, RUNS) for group, count in counts}
    return Simulation(tuple(sorted(lengths)), shares, uncertain, len(groups))


def _groups(
    network: Deck, drawn: "Sequence[_Drawn]", tasks: Sequence[Sequence[str]]
) -> list[list[int]]:
    """Returns the places of the activities of each task that has work."""
    places = {card.code: place for place, card in enumerate(network.activities)}
    groups = []
    for codes in tasks:
        group = [places[code] for code in codes]
        if any(drawn[place].has_work for place in group):
            groups.append(group)
    return groups


def _is_uncertain(group: Sequence[int], drawn: "Sequence[_Drawn]") -> bool:
    """Returns whether an activity of a group has estimates that differ."""
    return any(drawn[place].is_uncertain for place in group)


@dataclass(frozen=True)
class _Drawn:
    """The durations of an activity, all equally likely, in ticks."""

    low: int
    spread: int
    mode: Fraction
    """Where the likely duration is between the least and the greatest one."""

    @staticmethod
    def of(card: ActivityCard, durations: Mapping[str, int] | None) -> "_Drawn":
        """Returns the durations of a card; those of a shortened one are shorter in proportion."""
        low, likely, high = (
            units * _TICKS for units in (card.optimistic, card.likely, card.pessimistic)
        )
        mode = Fraction(likely - low, high - low) if high > low else Fraction(0)
        if durations is not None and card.normal > 0:
            low = low * durations[card.code] // card.normal
            high = high * durations[card.code] // card.normal
        return _Drawn(low, high - low, mode)

    @property
    def is_uncertain(self) -> bool:
        """Says whether its estimates differ."""
        return self.spread > 0

    @property
    def has_work(self) -> bool:
        """Says whether it is more than a link."""
        return self.low + self.spread > 0

    def ticks(self) -> Times | np.int64:
        """Returns the duration for each slice of the distribution, or the only one."""
        if not self.is_uncertain:
            return np.int64(self.low)
        ticks: Times = self.low + np.rint(quantiles(self.mode) * self.spread).astype(np.int64)
        return ticks


@lru_cache(maxsize=8192)
def quantiles(mode: Fraction) -> NDArray[np.float64]:
    """Returns equally likely values of the PERT-beta distribution on 0 to 1 with this mode.

    They are its quantiles in the middle of slices of the same chance, in rising order.
    """
    rising, falling = 4 * float(mode), 4 * (1 - float(mode))
    density = _PLACES**rising * (1 - _PLACES) ** falling
    sums = np.concatenate(([0.0], np.cumsum((density[1:] + density[:-1]) / 2)))
    return np.interp(_MIDDLES, sums / sums[-1], _PLACES)


class _Runner:
    """Runs a network in batches, and counts how often each task is critical."""

    def __init__(
        self,
        network: Deck,
        drawn: Sequence[_Drawn],
        groups: Sequence[list[int]],
        counts_critical: bool,
    ) -> None:
        self.counts_critical = counts_critical
        events = {event.code: place for place, event in enumerate(network.events)}
        self.arcs = [(events[it.begins], events[it.ends]) for it in network.activities]
        self.end = events[network.project.end]
        self.events = len(events)
        self.order = _in_order(self.events, self.arcs)
        self.tables = [each.ticks() for each in drawn]
        self.groups = groups
        grouped = set(chain.from_iterable(groups))
        self.alone = [[place] for place in range(len(self.arcs)) if place not in grouped]
        self.critical = [0] * len(groups)

    def batches(self) -> Iterator[Times]:
        """Yields the ends of each batch of runs in ticks."""
        source = np.random.PCG64(_SEED)
        while True:
            durations = self.durations(source)
            early = self.early(durations)
            if self.counts_critical:
                self.count(durations, early, self.late(durations, early[self.end]))
            yield early[self.end]

    def durations(self, source: np.random.PCG64) -> list[Times | np.int64]:
        """Returns the durations of a batch: one draw for each task, whether it is certain or not.

        So a task has the same chances as before if the estimates of another one change.
        """
        found = list(self.tables)
        for group in (*self.groups, *self.alone):
            slices = (source.random_raw(_BATCH) >> np.uint64(64 - _BITS)).astype(np.intp)
            for place in group:
                table = self.tables[place]
                if isinstance(table, np.ndarray):
                    found[place] = table[slices]
        return found

    def early(self, durations: Sequence[Times | np.int64]) -> Times:
        """Returns the time of each event, as early as its activities allow."""
        times = np.zeros((self.events, _BATCH), np.int64)
        for place in self.order:
            begins, ends = self.arcs[place]
            np.maximum(times[ends], times[begins] + durations[place], out=times[ends])
        return times

    def late(self, durations: Sequence[Times | np.int64], ends_at: Times) -> Times:
        """Returns the time of each event, as late as the end of each run allows."""
        times = np.tile(ends_at, (self.events, 1))
        for place in reversed(self.order):
            begins, ends = self.arcs[place]
            np.minimum(times[begins], times[ends] - durations[place], out=times[begins])
        return times

    def count(self, durations: Sequence[Times | np.int64], early: Times, late: Times) -> None:
        """Counts the runs in which an activity of a task has no slack."""
        for number, group in enumerate(self.groups):
            is_critical = np.zeros(_BATCH, bool)
            for place in group:
                begins, ends = self.arcs[place]
                is_critical |= late[ends] - early[begins] == durations[place]
            self.critical[number] += int(np.count_nonzero(is_critical))


def _in_order(events: int, arcs: Sequence[tuple[int, int]]) -> list[int]:
    """Returns the activities so that each comes after all that end where it begins."""
    before: dict[int, list[int]] = {event: [] for event in range(events)}
    for begins, ends in arcs:
        before[ends].append(begins)
    rank = {event: at for at, event in enumerate(TopologicalSorter(before).static_order())}
    return sorted(range(len(arcs)), key=lambda place: rank[arcs[place][0]])
