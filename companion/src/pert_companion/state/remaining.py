"""Makes the deck of the work that is left, as of the as-of date, which becomes its first day.

The rule, for each activity or task:

- finished: it lasts 0 and cannot be shortened;
- begun: it lasts what is left of it, as somebody said (`left.csv`), as the side file says (the
  remaining duration of the source), by its percent, or else its normal duration less the time
  worked; at least one unit. Its crash duration shrinks in proportion, rounded up, and it can be
  shortened by no more units than the plan has. The dearest units of its cost are those that go;
- waiting: it stays as it is. A wait that has begun keeps what is left of it.

The logic is retained: what is left of begun work waits for unfinished work before it, and so does
what comes after finished work. Costs stay whole, so that packages still add up and totals compare;
resources are cut to the part of the work that is left. The result is a plain deck: its curve is
certified like any other. What is stated here, and not proved, are the remaining durations.
"""

import math
import csv
import io
from collections.abc import Iterator, Mapping
from dataclasses import dataclass, replace
from datetime import date, datetime, timedelta
from enum import Enum
from fractions import Fraction

from pert_companion.model.cards import (
    ActivityCard,
    LoadCard,
    PieceCard,
    ProjectCard,
    TaskCard,
    TermsCard,
)
from pert_companion.model.days import Counts
from pert_companion.model.deck import Deck
from pert_companion.model.errors import InputError
from pert_companion.model.logic import Logic, OwnTime
from pert_companion.model.moments import midnight
from pert_companion.model.sidefile import SideFile, SideTask

WorkCard = ActivityCard | TaskCard
ONE_DAY = timedelta(days=1)
MOST_UNITS = 100_000
"""The longest duration that a card may have."""


class State(Enum):
    """How far an activity is."""

    WAITING = "waiting"
    BEGUN = "begun"
    FINISHED = "finished"


class Basis(Enum):
    """What a remaining duration rests on, as the list of assumptions says it."""

    STATUS = "status"
    LEFT = "list of what is left"
    SOURCE = "remaining duration in the source"
    PERCENT = "percent complete"
    WORKED = "normal duration less time worked"
    WAIT = "wait that has begun"
    PLAN = "plan"


@dataclass(frozen=True)
class Left:
    """What is left of an activity, in units of the deck, and why."""

    code: str
    state: State
    normal: int
    crash: int
    basis: Basis
    sunk: int
    """The part of its cost that belongs to the work done, in units of money."""


@dataclass(frozen=True)
class Said:
    """What `left.csv` says of an activity: units that are left, and the shortest they can be."""

    left: int
    crash: int | None = None


@dataclass(frozen=True)
class Remaining:
    """The deck of the work that is left, and how it came about."""

    deck: Deck
    side: SideFile
    left: tuple[Left, ...]
    """One for each activity or task card, in card order."""
    notes: tuple[str, ...]
    """What was assumed, one line each."""


def remaining(deck: Deck, side: SideFile, said: Mapping[str, Said] | None = None) -> Remaining:
    """Returns the deck of the work that is left of a deck with status.

    `side` is its side file, or what one would say (`implied_side_file`). Raises `InputError` if
    `said` names no activity of the deck, a finished one or a milestone, or more units than a card
    may have.
    """
    return _Maker(deck, side, said or {}).remaining()


def left_of_tasks(rest: Remaining) -> tuple[Left, ...]:
    """Returns what is left of each real task, in the order of the plan: the sum of its cards.

    It rests on what its first unfinished card rests on; waits and moments belong to no task.
    """
    by_code = {left.code: left for left in rest.left}
    return tuple(_left_of(task, by_code) for task in rest.side.tasks)


def _left_of(task: SideTask, by_code: Mapping[str, Left]) -> Left:
    """Returns what is left of a task in parts, of which the first gives its code."""
    parts = [by_code[part] for part in task.parts]
    states = {part.state for part in parts}
    state = states.pop() if len(states) == 1 else State.BEGUN
    unfinished = [part for part in parts if part.state is not State.FINISHED]
    return Left(
        code=parts[0].code,
        state=state,
        normal=sum(part.normal for part in parts),
        crash=sum(part.crash for part in parts),
        basis=unfinished[0].basis if unfinished else Basis.STATUS,
        sunk=sum(part.sunk for part in parts),
    )


def read_left(data: bytes, name: str) -> dict[str, Said]:
    """Returns what a `left.csv` says: rows `activity,left[,crash]`, with or without a heading."""
    try:
        text = data.decode("utf-8-sig")
        rows = list(csv.reader(io.StringIO(text, newline="")))
    except (UnicodeDecodeError, csv.Error) as error:
        raise InputError(f"{name}: no CSV in UTF-8: {error}") from error
    said: dict[str, Said] = {}
    for number, row in enumerate(rows, 1):
        cells = [cell.strip() for cell in row]
        if not any(cells) or (
            number == 1 and [c.lower() for c in cells[:2]] == ["activity", "left"]
        ):
            continue
        if len(cells) not in (2, 3) or cells[0] in said:
            raise InputError(
                f"{name}: row {number} is not activity,left[,crash], each activity once"
            )
        crash = _units(cells[2], name, number) if len(cells) == 3 and cells[2] else None
        said[cells[0]] = Said(_units(cells[1], name, number), crash)
    return said


def _units(text: str, name: str, number: int) -> int:
    if not (text.isascii() and text.isdigit() and len(text) <= 6):
        raise InputError(f"{name}: row {number}: {text[:20]!r} is no whole number of units")
    return int(text)


class _Maker:
    """Makes the remaining deck of one deck."""

    def __init__(self, deck: Deck, side: SideFile, said: Mapping[str, Said]) -> None:
        self.deck = deck
        self.side = side
        self.said = said
        self.counts = Counts(side, deck.project.start_date)
        self.cards = deck.work
        self.by_code = {card.code: card for card in self.cards}
        self.started = self.dates("S")
        self.finished = self.dates("F")
        self.pieces: dict[str, list[PieceCard]] = {}
        for piece in deck.pieces:
            self.pieces.setdefault(piece.activity, []).append(piece)
        self.owner: dict[str, SideTask] = {}
        for task in side.tasks:
            self.owner.update(dict.fromkeys(task.parts, task))
        self.notes: list[str] = []

    def dates(self, letter: str) -> dict[str, date]:
        """Returns the dates of STATUS cards with a letter, by activity."""
        return {card.activity: card.day for card in self.deck.statuses if card.letter == letter}

    def remaining(self) -> Remaining:
        """Returns the deck, its side file and the list."""
        self.check_said()
        lefts = tuple(self.left(card) for card in self.cards)
        by_code = {left.code: left for left in lefts}
        made = [self.card(card, by_code[card.code]) for card in self.cards]
        deck = replace(
            self.deck,
            project=self.project(),
            as_of=self.deck.as_of_day,
            terms=self.terms(),
            tasks=tuple(card for card in made if isinstance(card, TaskCard)),
            activities=tuple(card for card in made if isinstance(card, ActivityCard)),
            pieces=tuple(self.all_pieces(by_code)),
            statuses=(),
            loads=tuple(self.loads(by_code)),
        )
        return Remaining(deck, self.side_file(by_code), lefts, tuple(self.notes))

    def check_said(self) -> None:
        """Refuses what `left.csv` says of activities that are not there, or finished."""
        for code, said in self.said.items():
            if code not in self.by_code:
                raise InputError(f"the list of what is left names {code[:16]!r}, no activity")
            if code in self.finished:
                raise InputError(f"the list of what is left names {code}, which is finished")
            if self.by_code[code].normal == 0:
                raise InputError(f"the list of what is left names {code}, which lasts 0")
            if said.crash is not None and said.crash > said.left:
                raise InputError(f"the list of what is left has {code} with crash above left")
            if said.left > MOST_UNITS:
                raise InputError(f"the list of what is left has {code} with more than {MOST_UNITS}")

    def left(self, card: WorkCard) -> Left:
        """Returns what is left of an activity."""
        if card.code in self.finished:
            return Left(card.code, State.FINISHED, 0, 0, Basis.STATUS, card.cost)
        if card.code in self.started:
            return self.begun(card)
        if card.code in self.said:
            units = max(1, self.said[card.code].left)
            return self.left_of(card, State.WAITING, units, Basis.LEFT)
        return Left(card.code, State.WAITING, card.normal, card.crash, Basis.PLAN, 0)

    def begun(self, card: WorkCard) -> Left:
        """Returns what is left of an activity that has begun, and notes on what it rests."""
        exact, basis = self.units_left(card)
        units = min(max(1, exact), MOST_UNITS) if card.normal else 0
        self.note(card, units, exact, basis)
        return self.left_of(card, State.BEGUN, units, basis)

    def note(self, card: WorkCard, units: int, exact: int, basis: Basis) -> None:
        """Notes on what the remaining duration of a begun activity rests, if it is assumed."""
        if units > exact:
            self.notes.append(
                f"{card.code}: {units} left, the least of unfinished work; by {basis.value}"
                f" nothing is left of {card.normal}"
            )
        elif units < exact:
            self.notes.append(f"{card.code}: {units} left, the most that a card may have")
        elif units and basis in (Basis.PERCENT, Basis.WORKED):
            self.notes.append(f"{card.code}: {units} of {card.normal} left, by {basis.value}")

    def units_left(self, card: WorkCard) -> tuple[int, Basis]:
        """Returns the units that are left of a begun activity, and what that rests on."""
        if card.code in self.said:
            return self.said[card.code].left, Basis.LEFT
        task = self.owner.get(card.code)
        if task is not None and task.remaining is not None:
            return self.part_left(card, task, task.remaining), Basis.SOURCE
        if task is not None and task.percent is not None:
            minutes = Fraction(100 - task.percent) * task.minutes / 100
            return self.part_left(card, task, math.ceil(minutes)), Basis.PERCENT
        basis = Basis.WAIT if card.code in self.side.waits else Basis.WORKED
        worked = self.minutes_since(self.started[card.code]) // self.side.unit_minutes
        return card.normal - worked, basis

    def minutes_since(self, day: date) -> int:
        """Returns the working minutes from a morning to that of the as-of date."""
        return self.side.calendar.between(midnight(day), midnight(self.deck.as_of_day))

    def part_left(self, card: WorkCard, task: SideTask, minutes: int) -> int:
        """Returns the units of a part that are left if so many minutes of the task are.

        The parts after it are left in full, since a task is done in order. Those of a calendar of
        its own are counted from the as-of date on.
        """
        own = self.own_time(task)
        if own is not None:
            minutes = own.span(minutes)
        following = task.parts[task.parts.index(card.code) + 1 :]
        units = math.ceil(Fraction(minutes, self.side.unit_minutes))
        return units - sum(self.by_code[part].normal for part in following)

    def own_time(self, task: SideTask) -> OwnTime | None:
        """Returns the time from the as-of date on of a task with a calendar of its own."""
        own = self.side.own_time(task)
        return None if own is None else replace(own, start=midnight(self.deck.as_of_day))

    def left_of(self, card: WorkCard, state: State, units: int, basis: Basis) -> Left:
        """Returns what is left if so many units are: the crash duration in proportion."""
        crash = units
        if card.normal:
            crash = min(units, math.ceil(Fraction(card.crash * units, card.normal)))
            crash = max(crash, units - (card.normal - card.crash))
        said = self.said.get(card.code)
        if said is not None and said.crash is not None:
            crash = max(said.crash, units - (card.normal - card.crash))
        done = max(0, card.normal - units)
        sunk = card.cost * done // card.normal if card.normal else 0
        return Left(card.code, state, units, crash, basis, sunk if state is State.BEGUN else 0)

    def card(self, card: WorkCard, left: Left) -> WorkCard:
        """Returns the card of what is left of an activity."""
        if left.state is State.WAITING and left.basis is Basis.PLAN:
            return card
        low, likely, high = _estimates(card, left.normal)
        slope = card.slope if left.normal > left.crash else 0
        return replace(
            card,
            optimistic=low,
            likely=likely,
            pessimistic=high,
            normal=left.normal,
            crash=left.crash,
            slope=slope,
        )

    def all_pieces(self, lefts: Mapping[str, Left]) -> Iterator[PieceCard]:
        """Yields the pieces of cost that are left: the cheapest units stay, the dearest go."""
        used: dict[str, int] = {}
        for piece in self.deck.pieces:
            left = lefts[piece.activity]
            first = self.first_units(piece.activity)
            taken = used.setdefault(piece.activity, min(first, left.normal - left.crash))
            units = min(piece.units, left.normal - left.crash - taken)
            if units > 0:
                used[piece.activity] = taken + units
                yield replace(piece, units=units)

    def first_units(self, code: str) -> int:
        """Returns the units that the slope of the card itself covers."""
        card = self.by_code[code]
        return card.normal - card.crash - sum(piece.units for piece in self.pieces[code])

    def loads(self, lefts: Mapping[str, Left]) -> Iterator[LoadCard]:
        """Yields what the work that is left uses of each resource, in proportion, rounded up."""
        for load in self.deck.loads:
            left, normal = lefts[load.activity], self.by_code[load.activity].normal
            share = Fraction(left.normal, normal) if normal else Fraction(1)
            if left.state is State.FINISHED:
                share = Fraction(0)
            quantity = math.ceil(min(share, Fraction(1)) * load.quantity)
            if quantity or not load.quantity:
                yield replace(load, quantity=quantity)

    def days_passed(self) -> int:
        """Returns the days that have passed, as the directed end counts them, rounded up."""
        day_minutes = self.side.unit_minutes // self.deck.project.unit_days
        return math.ceil(Fraction(self.passed_minutes(), day_minutes))

    def passed_minutes(self) -> int:
        """Returns the working minutes from the first day to the as-of date."""
        moment = midnight(self.deck.as_of_day)
        return max(0, self.side.calendar.position(moment) - self.counts.origin)

    def project(self) -> ProjectCard:
        """Returns the PROJECT card, from the as-of date on."""
        project = self.deck.project
        directed = project.directed
        if directed is not None:
            passed = self.days_passed()
            if directed < passed:
                self.notes.append(f"the directed end, day {directed}, has passed")
            directed = max(0, directed - passed)
        return replace(project, start_date=self.deck.as_of_day, directed=directed)

    def terms(self) -> TermsCard | None:
        """Returns the TERMS card with its target counted from the as-of date."""
        terms = self.deck.terms
        if terms is None:
            return None
        passed = math.ceil(Fraction(self.passed_minutes(), self.side.unit_minutes))
        if terms.target and terms.target < passed:
            late = passed - terms.target
            self.notes.append(
                f"the target of TERMS, length {terms.target}, has passed: the penalty of {late}"
                f" units, {late * terms.penalty}, is certain and in no figure"
            )
        return replace(terms, target=max(0, terms.target - passed))

    def side_file(self, lefts: Mapping[str, Left]) -> SideFile:
        """Returns the side file of the remaining deck, without its checksum."""
        return replace(
            self.side,
            deck_sha256="",
            start=self.deck.as_of_day,
            tasks=tuple(self.side_task(task, lefts) for task in self.side.tasks),
            logic=self.logic(),
        )

    def logic(self) -> Logic | None:
        """Returns the logic from the as-of date on."""
        logic = self.side.logic
        if logic is None:
            return None
        return replace(logic, begin=datetime.combine(self.deck.as_of_day, logic.begin.time()))

    def dated(self, task: SideTask) -> SideTask:
        """Returns the entry of a real task, with the dates of its STATUS cards where it has none.

        A card of a finish has the morning after the last day of work.
        """
        starts = [self.started[part] for part in task.parts if part in self.started]
        ends = [self.finished[part] for part in task.parts if part in self.finished]
        start, finish = task.actual_start, task.actual_finish
        if start is None and starts:
            start = min(starts)
        if finish is None and len(ends) == len(task.parts):
            finish = max(ends) - ONE_DAY
        return replace(task, actual_start=start, actual_finish=finish)

    def side_task(self, task: SideTask, lefts: Mapping[str, Left]) -> SideTask:
        """Returns the entry of a real task, with what is left of it as its duration."""
        task = self.dated(task)
        normal = sum(lefts[part].normal for part in task.parts)
        minutes = normal * self.side.unit_minutes
        own, start = self.own_time(task), task.own
        if own is None or start is None:
            return replace(task, normal=normal, minutes=minutes)
        states = {lefts[part].state for part in task.parts}
        if states == {State.FINISHED}:
            return replace(task, normal=normal, minutes=0)
        if states == {State.WAITING}:
            waiting = replace(own, start=start.start).minutes_in(minutes)
            return replace(task, normal=normal, minutes=min(task.minutes, waiting))
        left = min(own.minutes_in(minutes), _said_left(task))
        return replace(task, normal=normal, minutes=left, own=replace(start, start=own.start))


def _said_left(task: SideTask) -> int:
    """Returns the most working minutes of its own calendar that are left of a task under way."""
    if task.remaining is not None:
        return task.remaining
    return math.ceil(Fraction(100 - (task.percent or 0)) * task.minutes / 100)


def _estimates(card: WorkCard, left: int) -> tuple[int, int, int]:
    """Returns the three estimates in proportion to what is left, each rounded, in rising order."""
    if card.normal == 0 or left == 0:
        return (0, 0, 0) if left == 0 else (left, left, left)
    share = Fraction(left, card.normal)
    low = _scaled(card.optimistic, share)
    return low, _scaled(card.likely, share), _scaled(card.pessimistic, share)


def _scaled(units: int, share: Fraction) -> int:
    """Returns a share of an estimate, rounded, at least 1 unless it is 0."""
    if units == 0:
        return 0
    return min(MOST_UNITS, max(1, round(share * units)))
