"""Reads the cells of the rows of a list; each cell that holds no such value is a loss."""

from collections.abc import Sequence
from datetime import date
from decimal import Decimal
from fractions import Fraction

from pert_companion.model.calendar import MINUTES_OF_DAY
from pert_companion.model.losses import LossKind
from pert_companion.model.plan import (
    Baseline,
    Constraint,
    ConstraintKind,
    Crash,
    Estimates,
    Progress,
)
from pert_companion.readers import values
from pert_companion.readers.base import ReaderOptions
from pert_companion.readers.columns import AMOUNTS, Head
from pert_companion.readers.fields import FieldReader
from pert_companion.readers.grid import clip
from pert_companion.readers.outline import Row
from pert_companion.readers.style import FoundStyle, find_style
from pert_companion.readers.values import (
    Cell,
    Duration,
    Share,
    Style,
    Unreadable,
    is_nothing,
    text_of,
)

CONSTRAINTS = {
    ConstraintKind.START_NO_EARLIER: (
        "start no earlier than",
        "snet",
        "start on or after",
    )
    + ("anfang nicht früher als",),
    ConstraintKind.START_NO_LATER: ("start no later than", "snlt", "start on or before")
    + ("anfang nicht später als",),
    ConstraintKind.FINISH_NO_EARLIER: (
        "finish no earlier than",
        "fnet",
        "finish on or after",
    )
    + ("ende nicht früher als",),
    ConstraintKind.FINISH_NO_LATER: (
        "finish no later than",
        "fnlt",
        "finish on or before",
    )
    + ("ende nicht später als",),
    ConstraintKind.MUST_START: ("must start on", "mso", "start on", "mandatory start")
    + ("muss anfangen am",),
    ConstraintKind.MUST_FINISH: (
        "must finish on",
        "mfo",
        "finish on",
        "mandatory finish",
    )
    + ("muss enden am",),
    ConstraintKind.AS_LATE_AS_POSSIBLE: (
        "as late as possible",
        "alap",
        "so spät wie möglich",
    ),
}
_AS_SOON_AS_POSSIBLE = ("as soon as possible", "asap", "so früh wie möglich")
_CONSTRAINT_OF: dict[str, ConstraintKind] = {}
for _kind, _words in CONSTRAINTS.items():
    _CONSTRAINT_OF.update(dict.fromkeys(_words, _kind))

_KIND_OF_FIELD = {
    "crash": LossKind.CRASH,
    "reduction": LossKind.CRASH,
    "slope": LossKind.CRASH,
    "crashcost": LossKind.CRASH,
    "cost": LossKind.COST,
    "actcost": LossKind.COST,
    "remcost": LossKind.COST,
    "calendar": LossKind.CALENDAR,
    "percent": LossKind.PROGRESS,
    "remaining": LossKind.PROGRESS,
    "actstart": LossKind.PROGRESS,
    "actfinish": LossKind.PROGRESS,
    "start": LossKind.DATE,
    "finish": LossKind.DATE,
    "deadline": LossKind.DEADLINE,
    "constraint": LossKind.CONSTRAINT,
    "condate": LossKind.CONSTRAINT,
    "resources": LossKind.RESOURCE,
    "work": LossKind.RESOURCE,
    "pred": LossKind.LINK,
    "succ": LossKind.LINK,
    "basestart": LossKind.BASELINE,
    "basefinish": LossKind.BASELINE,
    "baseduration": LossKind.BASELINE,
    "basecost": LossKind.BASELINE,
}
GROUP_FIELDS = (
    "resources",
    "constraint",
    "deadline",
    "crash",
    "reduction",
    "slope",
    "crashcost",
)
"""What a group of the list may have, and a group of a plan has not."""


class CellReader(FieldReader[Row, Cell]):
    """Reads cells in the style of a list."""

    def __init__(self, head: Head, found: FoundStyle) -> None:
        super().__init__(_KIND_OF_FIELD, [], LossKind.DURATION)
        self.head = head
        self.style = found.style
        self.style_notes = found.notes
        self.notes: list[str] = []

    def value(self, row: Row, name: str) -> Cell | None:
        """Returns the cell of a field; None if it is empty or says that there is nothing."""
        cell = row.cell(name)
        return None if is_nothing(cell) else cell

    def shown(self, row: Row, name: str) -> str:
        """Returns the cell of a field as a text."""
        return row.text(name)

    def text_of(self, given: Cell) -> str:
        """Returns a cell as a text."""
        return text_of(given).strip()

    def heading(self, name: str) -> str:
        """Returns the heading of a field's column."""
        return self.head.headings.get(name, name)

    def minutes(self, row: Row, name: str) -> int | None:
        """Returns a duration in whole working minutes; None if the cell is empty or unreadable.

        All durations of a task that goes by the clock are minutes of the clock. Otherwise elapsed
        time counts by its share of a working week, and is a loss; so is a rounded minute.
        """
        unit = self.head.units.get(name, "days")
        read = self.read(row, name, lambda cell: _length(cell, self.style, unit))
        if read is None:
            return None
        by_clock = self.is_by_clock(row)
        minutes = read.minutes
        if by_clock and not read.is_elapsed:
            minutes = minutes * MINUTES_OF_DAY / self.style.day_minutes
        if read.is_elapsed and not by_clock:
            minutes = minutes * self.style.week_minutes / (7 * MINUTES_OF_DAY)
            days = float(minutes / self.style.day_minutes)
            why = f"elapsed time counts as {days:g} days of work"
            self.lose(row, name, why, kind=LossKind.ELAPSED)
        whole = values.whole_minutes(minutes)
        if not values.is_whole(minutes) and not read.is_elapsed:
            self.lose(row, name, f"rounded to {whole} minutes of work", kind=LossKind.FRACTION)
        return whole

    def is_by_clock(self, row: Row) -> bool:
        """Says whether the normal duration of a row is elapsed time: `7 edays`."""
        cell = self.value(row, "duration") or self.value(row, "likely")
        if not isinstance(cell, str):
            return False
        try:
            return values.duration(cell, self.style, "days").is_elapsed
        except Unreadable:
            return False

    def amount(self, row: Row, name: str) -> Decimal | None:
        """Returns an amount of money that is not negative; None if there is none."""
        value = self.read(row, name, lambda cell: _price(cell, self.style))
        return value * 1000 if value is not None and name in self.head.multiples else value

    def day(self, row: Row, name: str) -> date | None:
        """Returns the day of a date; None if there is none."""
        return self.read(row, name, lambda cell: values.day(cell, self.style))

    def percent(self, row: Row, name: str = "percent") -> Decimal | None:
        """Returns a percentage; None if there is none."""
        return self.read(row, name, lambda cell: values.percent(cell, self.style))

    def estimates(self, row: Row, normal: int) -> Estimates | None:
        """Returns the three estimates; those that are missing are the normal duration."""
        given = {name: self.minutes(row, name) for name in ("opt", "pess")}
        given["likely"] = normal
        if not is_nothing(row.cell("duration")):
            given["likely"] = self.minutes(row, "likely")
        if given["opt"] is None and given["pess"] is None and given["likely"] in (None, normal):
            return None
        likely = normal if given["likely"] is None else given["likely"]
        optimistic = likely if given["opt"] is None else given["opt"]
        pessimistic = likely if given["pess"] is None else given["pess"]
        if optimistic <= likely <= pessimistic:
            return Estimates(optimistic, likely, pessimistic)
        text = " ".join(row.text(name) for name in ("opt", "likely", "pess") if row.text(name))
        why = "the estimates are not in order; the normal duration is taken three times"
        self.lose(row, "opt" if row.text("opt") else "pess", why, text)
        return None

    def crash(self, row: Row, normal: int, cost: Decimal | None) -> Crash | None:
        """Returns the shortest duration and its price; None if the task is not shortened.

        A shortest duration without a price, a price without one, and one above the normal duration
        are losses.
        """
        slope = self._slope(row)
        crash_cost = self.amount(row, "crashcost")
        known_losses = len(self.losses)
        shortest = self._shortest(row, normal)
        if shortest is None:
            if (slope or crash_cost) and len(self.losses) == known_losses:
                why = "there is no shortest duration; the task is not shortened"
                self.lose(row, "slope" if slope else "crashcost", why)
            return None
        name = "reduction" if is_nothing(row.cell("crash")) else "crash"
        if shortest > normal:
            why = "the shortest duration is above the normal one; the task is not shortened"
            self.lose(row, name, why)
            return None
        if slope is not None:
            return Crash(shortest, slope=slope) if shortest < normal or slope else None
        if shortest == normal:
            return None
        if crash_cost is None:
            why = "no cost of each day less and no cost at it; the task is not shortened"
            self.lose(row, name, why)
            return None
        if cost is None or crash_cost < cost:
            why = "there is no cost at the normal duration to compare with"
            if cost is not None:
                why = "this is less than the cost at the normal duration"
            self.lose(row, "crashcost", f"{why}; the task is not shortened")
            return None
        return Crash(shortest, cost=crash_cost)

    def _slope(self, row: Row) -> Decimal | None:
        """Returns the cost of each working day less, whatever unit the column has."""
        slope = self.amount(row, "slope")
        unit = self.head.units.get("slope", "days")
        if slope is None or unit == "days":
            return slope
        return slope * self.style.day_minutes / self.style.minutes_of(unit)

    def _shortest(self, row: Row, normal: int) -> int | None:
        """Returns the shortest duration; one of 0 is none, as MS Project writes empty ones."""
        cell = row.cell("crash")
        if is_nothing(cell):
            return self._reduced(row, normal)
        if _is_share(cell):
            return self._share_of(row, "crash", normal)
        return self.minutes(row, "crash") or None

    def _reduced(self, row: Row, normal: int) -> int | None:
        cell = row.cell("reduction")
        if is_nothing(cell):
            return None
        less = self._share_of(row, "reduction", normal) if _is_share(cell) else None
        if not _is_share(cell):
            less = self.minutes(row, "reduction")
        if not less:
            return None
        if less > normal:
            self.lose(
                row,
                "reduction",
                "this is longer than the task; the task is not shortened",
            )
            return None
        return normal - less

    def _share_of(self, row: Row, name: str, normal: int) -> int | None:
        """Returns a percentage of the normal duration in minutes, and notes that it is one."""
        share = self.percent(row, name)
        if share is None:
            return None
        minutes = Fraction(share) * normal / 100
        whole = values.whole_minutes(minutes)
        days = float(Fraction(whole, self.style.day_minutes))
        heading = self.head.headings[name]
        self.notes.append(
            f"{row.where}, task {clip(row.name)!r}, {heading} {row.text(name)!r}: "
            f"taken as {days:g} days, this share of the normal duration"
        )
        if not values.is_whole(minutes):
            self.lose(row, name, f"rounded to {whole} minutes of work", kind=LossKind.FRACTION)
        return whole

    def progress(self, row: Row) -> Progress:
        """Returns what the list says of work done."""
        return Progress(
            self.percent(row),
            self.day(row, "actstart"),
            self.day(row, "actfinish"),
            self.minutes(row, "remaining"),
            self.amount(row, "actcost"),
            self.amount(row, "remcost"),
        )

    def baselines(self, row: Row) -> tuple[Baseline, ...]:
        """Returns the baseline of the list; none if its cells are empty."""
        baseline = Baseline(
            0,
            self.day(row, "basestart"),
            self.day(row, "basefinish"),
            self.minutes(row, "baseduration"),
            self.amount(row, "basecost"),
        )
        return () if baseline == Baseline(0) else (baseline,)

    def constraint(self, row: Row) -> Constraint | None:
        """Returns the date constraint; `as soon as possible` is none."""
        if not has_constraint(row):
            if is_nothing(row.cell("constraint")) and not is_nothing(row.cell("condate")):
                self.lose(row, "condate", "the date has no kind of constraint")
            return None
        text = " ".join(row.text("constraint").split()).casefold()
        kind = _CONSTRAINT_OF.get(text)
        if kind is None:
            self.lose(row, "constraint", "this is no kind of constraint")
            return None
        if kind is ConstraintKind.AS_LATE_AS_POSSIBLE:
            return Constraint(kind, None)
        found = self.day(row, "condate")
        if found is None:
            if is_nothing(row.cell("condate")):
                self.lose(row, "constraint", "the constraint has no date")
            return None
        return Constraint(kind, found)

    def check_group(self, row: Row) -> None:
        """Keeps a loss for each thing that the list gives to a group and a plan cannot."""
        for name in GROUP_FIELDS:
            if is_nothing(row.cell(name)) or (name == "constraint" and not has_constraint(row)):
                continue
            is_price = name in ("crash", "reduction", "slope", "crashcost")
            if not is_price or values.has_digit(row.cell(name)):
                self.lose(row, name, "a group has no such thing; give it to a task")


def reader_of(
    rows: Sequence[Row], head: Head, options: ReaderOptions, separator: str, file: str
) -> CellReader:
    """Returns what reads the cells of a list in the style in which its rows are written."""
    return CellReader(head, find_style(rows, head, options, separator, file))


def common_currency(rows: Sequence[Row]) -> str:
    """Returns the currency that all amounts show which show one; none if they differ."""
    found: set[str] = set()
    for row in rows:
        found.update(values.currency_of(row.cell(name)) for name in AMOUNTS)
    found.discard("")
    return found.pop() if len(found) == 1 else ""


def has_constraint(row: Row) -> bool:
    """Says whether a row has a constraint other than `as soon as possible`."""
    cell = row.cell("constraint")
    text = " ".join(text_of(cell).split()).casefold()
    return not is_nothing(cell) and text not in _AS_SOON_AS_POSSIBLE


def _length(cell: Cell, style: Style, unit: str) -> Duration:
    """Returns a duration; a negative one is none."""
    found = values.duration(cell, style, unit)
    if found.minutes < 0:
        raise Unreadable("a duration is not negative")
    return found


def _price(cell: Cell, style: Style) -> Decimal:
    """Returns an amount that is not negative."""
    found = values.amount(cell, style)
    if found < 0:
        raise Unreadable("an amount is not negative")
    return found


def _is_share(cell: Cell) -> bool:
    return isinstance(cell, Share) or (isinstance(cell, str) and cell.rstrip().endswith("%"))
