"""What the programs print, read by columns and checked against the deck that they read.

Lines end with LF alone: a title may hold any other line end of Unicode, and must not be able to
pass for a row. Every item, event and activity has to be there once, in the order of the deck, and
sums are computed again. A difference is a `ProgramError`, never a figure.

Units: lengths, durations and event times in units of the deck; `times` and `value` in sixths of a
day; money in units of money of the deck. `deck` is always a network deck (of `pert arrows`, if the
plan is one of tasks).
"""

from collections.abc import Iterable, Iterator, Sequence
from dataclasses import dataclass

from pert_companion.model.deck import Deck
from pert_companion.model.errors import ProgramError


@dataclass(frozen=True)
class Point:
    """A schedule at one length: event times and durations, by code, in card order."""

    length: int
    cost: int
    events: dict[str, int]
    durations: dict[str, int]


@dataclass(frozen=True)
class Breakpoint:
    """A point of the curve; `slope` is the price of the next unit less, None at the shortest."""

    length: int
    cost: int
    slope: int | None

    def scaled(self, factor: int) -> "Breakpoint":
        """Returns the same point with amounts in units of money that are so many times smaller."""
        slope = None if self.slope is None else self.slope * factor
        return Breakpoint(self.length, self.cost * factor, slope)


@dataclass(frozen=True)
class EventTimes:
    """Expected and latest time of an event, in sixths of a day."""

    early: int
    late: int

    @property
    def slack(self) -> int:
        """Returns the slack in sixths of a day."""
        return self.late - self.early


@dataclass(frozen=True)
class ActivityTimes:
    """Expected duration (sixths of a day), variance (thirty-sixths) and slack (sixths)."""

    expected: int
    variance: int
    slack: int


@dataclass(frozen=True)
class Times:
    """The report `times`."""

    events: dict[str, EventTimes]
    activities: dict[str, ActivityTimes]
    critical: tuple[str, ...]
    variance: int


@dataclass(frozen=True)
class SummaryRow:
    """The amounts of an item in `summary`."""

    level: int
    budget: int
    actual: int
    to_go: int
    latest: int
    overrun: int


@dataclass(frozen=True)
class ValueRow:
    """The amounts of an item in `value`; `slack` is in sixths of a day, None without activities."""

    level: int
    budget: int
    actual: int
    value: int
    overrun: int
    slack: int | None


@dataclass(frozen=True)
class Forecast:
    """Forecast time and forecast slack of an event, in sixths of a day."""

    time: int
    slack: int


@dataclass(frozen=True)
class Value:
    """The report `value`."""

    events: dict[str, Forecast]
    items: dict[str, ValueRow]


@dataclass(frozen=True)
class Optimum:
    """The report `optimum`: the cheapest length with the price of time, and its schedule."""

    point: Point
    time_cost: int
    total: int
    below: int | None
    above: int | None


@dataclass(frozen=True)
class Load:
    """The report `load`: amounts by item and by resource, for each period that has any."""

    periods: int
    items: dict[str, dict[int, int]]
    resources: dict[str, dict[int, int]]


class _Lines:
    """The lines of an output, taken one after the other."""

    def __init__(self, output: bytes, report: str) -> None:
        self.report = report
        try:
            text = output.decode("utf-8")
        except UnicodeDecodeError as error:
            raise self.fault("is not UTF-8") from error
        if not text.endswith("\n"):
            raise self.fault("is cut off")
        self.lines = text[:-1].split("\n")
        self.at = 0

    def fault(self, what: str) -> ProgramError:
        """Returns the error for an output that is not what the program prints."""
        return ProgramError(f"the output of `pert {self.report}` {what}")

    def next(self) -> str:
        """Returns the next line."""
        if self.at == len(self.lines):
            raise self.fault("ends too early")
        self.at += 1
        return self.lines[self.at - 1]

    def words(self, least: int) -> list[str]:
        """Returns the next line's words, of which there are at least so many."""
        words = [word for word in self.next().split(" ") if word]
        if len(words) < least:
            raise self.fault(f"has a short line {self.at}")
        return words

    def keyed(self, key: str) -> str:
        """Returns the value of the next line, which is `KEY value`."""
        words = self.words(2)
        if words[0] != key or len(words) != 2:
            raise self.fault(f"has no {key} at line {self.at}")
        return words[1]

    def number(self, text: str) -> int:
        """Returns a whole number, with a sign if it is negative."""
        digits = text.removeprefix("-")
        if not (digits.isascii() and digits.isdigit() and len(digits) <= 40):
            raise self.fault(f"has {text[:20]!r} for a number at line {self.at}")
        return int(text)

    def optional(self, text: str) -> int | None:
        """Returns a number, or None for a hyphen."""
        return None if text == "-" else self.number(text)

    def peek(self) -> str | None:
        """Returns the next line without taking it, or None at the end."""
        return self.lines[self.at] if self.at < len(self.lines) else None

    def heading(self, first: str) -> None:
        """Takes a line that begins with this word."""
        if self.words(1)[0] != first:
            raise self.fault(f"has no {first} at line {self.at}")

    def rows(self, codes: Iterable[str], columns: int) -> Iterator[tuple[str, list[str]]]:
        """Yields one row for each code, in order, with so many columns after the code."""
        for code in codes:
            words = self.words(columns + 1)
            if words[0] != code:
                raise self.fault(f"has {words[0][:16]!r} for {code!r} at line {self.at}")
            yield code, words[1 : columns + 1]

    def end(self) -> None:
        """Refuses further lines."""
        if self.at != len(self.lines):
            raise self.fault(f"has a further line {self.at + 1}")


def preorder(deck: Deck) -> list[tuple[str, int]]:
    """Returns the items in the order of reports, each before those below it, with its level."""
    below: dict[str, list[str]] = {}
    for item in deck.items:
        below.setdefault(item.parent, []).append(item.code)
    ordered: list[tuple[str, int]] = []
    waiting = [(code, 1) for code in reversed(below.get("", []))]
    while waiting:
        code, level = waiting.pop()
        ordered.append((code, level))
        waiting.extend((child, level + 1) for child in reversed(below.get(code, [])))
    return ordered


def read_point(output: bytes, deck: Deck, report: str = "point") -> Point:
    """Returns the schedule that `pert normal` or `pert point` printed."""
    lines = _Lines(output, report)
    length = lines.number(lines.keyed("LENGTH"))
    cost = lines.number(lines.keyed("COST"))
    point = _schedule(lines, deck, length, cost)
    lines.end()
    return point


def _schedule(lines: _Lines, deck: Deck, length: int, cost: int) -> Point:
    events = _code_lines(lines, "EVENT", [event.code for event in deck.events])
    durations = _code_lines(lines, "ACT", [activity.code for activity in deck.activities])
    return Point(length, cost, events, durations)


def _code_lines(lines: _Lines, key: str, codes: Sequence[str]) -> dict[str, int]:
    found: dict[str, int] = {}
    for code in codes:
        words = lines.words(3)
        if words[:2] != [key, code] or len(words) != 3:
            raise lines.fault(f"has no {key} {code} at line {lines.at}")
        found[code] = lines.number(words[2])
    return found


def read_curve(output: bytes) -> list[Breakpoint]:
    """Returns the breakpoints that `pert curve` printed, from the longest length down."""
    lines = _Lines(output, "curve")
    curve: list[Breakpoint] = []
    while lines.peek() is not None:
        words = lines.words(3)
        slope = lines.optional(words[2])
        curve.append(Breakpoint(lines.number(words[0]), lines.number(words[1]), slope))
    for upper, lower in zip(curve, curve[1:]):
        _check_stretch(lines, upper, lower)
    if curve[-1].slope is not None:
        raise lines.fault("has no last length")
    return curve


def _check_stretch(lines: _Lines, upper: Breakpoint, lower: Breakpoint) -> None:
    if upper.slope is None or upper.length <= lower.length:
        raise lines.fault("has lengths out of order")
    if upper.cost + upper.slope * (upper.length - lower.length) != lower.cost:
        raise lines.fault(f"has a cost at {lower.length} that its slope does not give")


def cost_at(curve: Sequence[Breakpoint], length: int) -> tuple[int, int | None]:
    """Returns the least cost of a length and what one unit less costs (None at the shortest)."""
    for upper, lower in zip(curve, curve[1:]):
        if lower.length < length <= upper.length and upper.slope is not None:
            return upper.cost + upper.slope * (upper.length - length), upper.slope
    if length == curve[-1].length:
        return curve[-1].cost, None
    raise ProgramError(f"length {length} is outside {curve[-1].length} to {curve[0].length}")


def read_times(output: bytes, deck: Deck) -> Times:
    """Returns the report `times`."""
    lines = _Lines(output, "times")
    lines.heading("TIMES")
    lines.heading("EVENT")
    events: dict[str, EventTimes] = {}
    for code, cells in lines.rows((event.code for event in deck.events), 4):
        events[code] = EventTimes(lines.number(cells[0]), lines.number(cells[1]))
        if events[code].slack != lines.number(cells[2]):
            raise lines.fault(f"has a wrong slack at line {lines.at}")
    lines.heading("ACTIVITY")
    activities: dict[str, ActivityTimes] = {}
    for code, cells in lines.rows((activity.code for activity in deck.activities), 3):
        activities[code] = ActivityTimes(*(lines.number(cell) for cell in cells))
    critical: list[str] = []
    while (lines.peek() or "").startswith("CRITICAL "):
        critical.append(lines.keyed("CRITICAL"))
    variance = lines.number(lines.keyed("VARIANCE"))
    lines.end()
    return Times(events, activities, tuple(critical), variance)


def read_summary(output: bytes, deck: Deck) -> dict[str, SummaryRow]:
    """Returns the rows of `summary` by item, in the order of the report."""
    lines = _Lines(output, "summary")
    lines.heading("SUMMARY")
    lines.heading("ITEM")
    rows: dict[str, SummaryRow] = {}
    ordered = preorder(deck)
    levels = dict(ordered)
    for code, cells in lines.rows((code for code, _ in ordered), 6):
        row = SummaryRow(*(lines.number(cell) for cell in cells))
        if row.level != levels[code] or row.latest != row.actual + row.to_go:
            raise lines.fault(f"has wrong figures at line {lines.at}")
        rows[code] = row
    _check_sums(lines, deck, {code: (r.budget, r.actual, r.to_go) for code, r in rows.items()})
    for level in range(1, max(levels.values(), default=0) + 1):
        words = lines.words(7)
        if words[:2] != ["LEVEL", str(level)]:
            raise lines.fault(f"has no LEVEL {level} at line {lines.at}")
    lines.end()
    return rows


def _check_sums(lines: _Lines, deck: Deck, amounts: dict[str, tuple[int, ...]]) -> None:
    """Refuses an item whose amounts are not the sums of those right below it."""
    sums: dict[str, list[int]] = {}
    for item in deck.items:
        if item.parent:
            held = sums.setdefault(item.parent, [0] * len(amounts[item.code]))
            for at, amount in enumerate(amounts[item.code]):
                held[at] += amount
    for code, total in sums.items():
        if tuple(total) != amounts[code]:
            raise lines.fault(f"has amounts of item {code} that are not the sums below it")


def read_value(output: bytes, deck: Deck) -> Value:
    """Returns the report `value`."""
    lines = _Lines(output, "value")
    lines.heading("VALUE")
    lines.heading("EVENT")
    events: dict[str, Forecast] = {}
    for code, cells in lines.rows((event.code for event in deck.events), 3):
        events[code] = Forecast(lines.number(cells[0]), lines.number(cells[1]))
    lines.heading("ITEM")
    items: dict[str, ValueRow] = {}
    ordered = preorder(deck)
    levels = dict(ordered)
    for code, cells in lines.rows((code for code, _ in ordered), 6):
        level, budget, actual, value, overrun = (lines.number(cell) for cell in cells[:5])
        row = ValueRow(level, budget, actual, value, overrun, lines.optional(cells[5]))
        if row.level != levels[code] or row.overrun != row.actual - row.value:
            raise lines.fault(f"has wrong figures at line {lines.at}")
        items[code] = row
    _check_sums(lines, deck, {code: (r.budget, r.actual, r.value) for code, r in items.items()})
    lines.end()
    return Value(events, items)


def read_optimum(output: bytes, deck: Deck) -> Optimum:
    """Returns the report `optimum`."""
    lines = _Lines(output, "optimum")
    lines.keyed("OPTIMUM")
    length, direct, time_cost, total = (
        lines.number(lines.keyed(key)) for key in ("LENGTH", "DIRECT", "TIME", "TOTAL")
    )
    below = lines.optional(lines.keyed("BELOW"))
    above = lines.optional(lines.keyed("ABOVE"))
    if direct + time_cost != total:
        raise lines.fault("has a wrong total")
    point = _schedule(lines, deck, length, direct)
    lines.end()
    return Optimum(point, time_cost, total, below, above)


def read_load(output: bytes, deck: Deck) -> Load:
    """Returns the report `load`."""
    lines = _Lines(output, "load")
    lines.heading("LOAD")
    periods = 0
    while (lines.peek() or "").startswith("PERIOD "):
        if lines.number(lines.words(2)[1]) != periods:
            raise lines.fault(f"has periods out of order at line {lines.at}")
        periods += 1
    lines.heading("ITEMS")
    items = _amounts(lines, [code for code, _ in preorder(deck)], periods)
    lines.heading("RESOURCES")
    resources = _amounts(lines, [resource.code for resource in deck.resources], periods)
    lines.end()
    return Load(periods, items, resources)


def _amounts(lines: _Lines, codes: Sequence[str], periods: int) -> dict[str, dict[int, int]]:
    """Returns the amounts by code and period; rows are in the order of the codes and periods."""
    found: dict[str, dict[int, int]] = {code: {} for code in codes}
    last = (-1, -1)
    order = {code: at for at, code in enumerate(codes)}
    while lines.peek() not in (None, "RESOURCES"):
        code, period_text, amount = lines.words(3)[:3]
        place = (order.get(code, -1), lines.number(period_text))
        if place <= last or place[0] < 0 or place[1] >= periods:
            raise lines.fault(f"has a row out of order at line {lines.at}")
        last = place
        found[code][place[1]] = lines.number(amount)
    return found
