"""Where things are in charts: round ticks, places in per cent, and labels that have room.

A chart is as wide as its place on the page and as high as it says, in pixels. Places are texts of
per cent or of pixels, rounded, from exact fractions.
"""

from collections.abc import Collection, Sequence
from dataclasses import dataclass
from datetime import date, timedelta
from fractions import Fraction

from pert_companion.page.view import Tick
from pert_companion.page.words import MONTHS

BOX = 1000
"""Points of lines are in a box of so many units on each side."""
LETTER = 7.2
"""About the width of a letter of labels, in pixels."""
GAP = 6
"""The least pixels between two labels."""
WIDE, MIDDLE, NARROW = 580, 420, 260
"""The least pixels of an axis in a window of 721, of 561 and of 360 pixels, and on paper."""
ROUND_STEPS = (1, 2, 5)


def percent(part: Fraction | int, whole: Fraction | int) -> str:
    """Returns a share in per cent with two digits: `12.34%`."""
    return f"{_rounded(Fraction(part, 1) * 10000 / whole if whole else Fraction(0), 2)}%"


def _rounded(hundredths: Fraction, digits: int) -> str:
    number = round(hundredths)
    sign = "-" if number < 0 else ""
    text = f"{abs(number):03d}"
    return sign + f"{text[:-digits]}.{text[-digits:]}".rstrip("0").rstrip(".")


def pixels(share: Fraction, height: int) -> str:
    """Returns a share of a height, from the bottom, as pixels from the top with one digit."""
    return _rounded((1 - share) * height * 100, 2)


@dataclass(frozen=True)
class Scale:
    """An axis from a least to a greatest number."""

    least: int
    most: int

    def share(self, number: Fraction | int) -> Fraction:
        """Returns where a number is, from 0 to 1."""
        if self.most == self.least:
            return Fraction(0)
        return Fraction(number - self.least) / (self.most - self.least)


def round_scale(least: int, most: int, count: int = 4) -> tuple[Scale, list[int]]:
    """Returns a scale from round numbers to round numbers, and its about `count` ticks."""
    span = max(1, most - least)
    step = _round_step(span, count)
    low = least - least % step
    ticks = [low]
    while ticks[-1] < most or len(ticks) < 2:
        ticks.append(ticks[-1] + step)
    return Scale(low, ticks[-1]), ticks


def _round_step(span: int, count: int) -> int:
    power = 1
    while True:
        for step in ROUND_STEPS:
            if step * power * count >= span:
                return step * power
        power *= 10


def y_axis(height: int, texts: Sequence[str]) -> tuple[Tick, ...]:
    """Returns ticks at the places of evenly spread texts from the bottom to the top."""
    steps = max(1, len(texts) - 1)
    return tuple(
        Tick(pixels(Fraction(place, steps), height), text, "end")
        for place, text in enumerate(texts)
    )


def margin_for(texts: Sequence[str]) -> int:
    """Returns the pixels that labels need."""
    return 12 + round(LETTER * max((len(text) for text in texts), default=0))


def anchor(share: Fraction) -> str:
    """Returns how a label at a place of the width is anchored, so that it is not clipped."""
    if share < Fraction(1, 20):
        return "start"
    return "end" if share > Fraction(19, 20) else "middle"


def spread(labels: Sequence[tuple[Fraction, str]]) -> tuple[Tick, ...]:
    """Returns ticks for places from the left to the right of an axis, as many as have room.

    The first and the last one are always there. Of the others, those near the middle go first, and
    each is left out of windows that are too narrow for it. A label's lines are parted by `|`.
    """
    last = len(labels) - 1
    middle = (labels[0][0] + labels[-1][0]) / 2
    others = sorted(range(1, last), key=lambda number: (abs(labels[number][0] - middle), number))
    kept = list(dict.fromkeys((0, last)))
    level = {number: 0 for number in kept}
    for place, width in enumerate((NARROW, MIDDLE, WIDE)):
        for number in others:
            if number not in level and _has_room(labels, number, kept, width):
                kept.append(number)
                level[number] = place
    return tuple(_spread_tick(labels, number, level[number]) for number in sorted(kept))


def _spread_tick(labels: Sequence[tuple[Fraction, str]], number: int, level: int) -> Tick:
    share, label = labels[number]
    side = _side(number, len(labels))
    return Tick(percent(share, 1), label, side, is_minor=level == 1, is_roomy=level == 2)


def _side(number: int, count: int) -> str:
    if number == 0:
        return "start"
    return "end" if number == count - 1 else "middle"


def _has_room(
    labels: Sequence[tuple[Fraction, str]], number: int, kept: Sequence[int], width: int
) -> bool:
    """Says whether a label is clear of those that are kept, on an axis of so many pixels."""
    left, right = _extent(labels, number, width)
    others = [_extent(labels, other, width) for other in kept]
    return all(right + GAP <= begin or end + GAP <= left for begin, end in others)


def _extent(
    labels: Sequence[tuple[Fraction, str]], number: int, width: int
) -> tuple[Fraction, Fraction]:
    share, label = labels[number]
    needed = Fraction(LETTER) * max(len(line) for line in label.split("|"))
    before = {"start": Fraction(0), "middle": needed / 2, "end": needed}
    left = share * width - before[_side(number, len(labels))]
    return left, left + needed


def in_a_row(
    labels: Sequence[tuple[Fraction, str]], widths: tuple[int, int, int]
) -> tuple[Tick, ...]:
    """Returns ticks whose labels begin at their places, as many labels as have room.

    `widths` are the least pixels of the axis on a telephone, in a window of less than 720 pixels
    and in wider ones. Labels with a year go before others; a tick without room has no label.
    """
    order = sorted(range(len(labels)), key=lambda at: (not labels[at][1][-1:].isdigit(), at))
    level: dict[int, int] = {}
    for place, width in enumerate(widths):
        for number in order:
            if number not in level and _fits(labels, number, level, width):
                level[number] = place
    return tuple(
        Tick(
            percent(share, 1),
            label if at in level else "",
            "start",
            level.get(at) == 1,
            level.get(at) == 2,
        )
        for at, (share, label) in enumerate(labels)
    )


def _fits(
    labels: Sequence[tuple[Fraction, str]], number: int, kept: Collection[int], width: int
) -> bool:
    """Says whether a label is inside an axis of so many pixels, and clear of those kept."""
    left, right = _row_extent(labels, number, width)
    others = [_row_extent(labels, other, width) for other in kept]
    is_clear = all(right + GAP <= begin or end + GAP <= left for begin, end in others)
    return is_clear and (right <= width or not kept)


def _row_extent(
    labels: Sequence[tuple[Fraction, str]], number: int, width: int
) -> tuple[Fraction, Fraction]:
    share, label = labels[number]
    return share * width, share * width + Fraction(LETTER) * len(label)


def date_ticks(first: date, days: int) -> list[tuple[int, str, bool]]:
    """Returns days after the first one for an axis of dates, with labels; minor ones have none.

    Ticks are Mondays, or first days of months, or of years, so that there are at most about 12.
    """
    if days <= 84:
        return _weeks(first, days)
    if days <= 366 * 5:
        return _months(first, days)
    return _years(first, days)


def _weeks(first: date, days: int) -> list[tuple[int, str, bool]]:
    ticks: list[tuple[int, str, bool]] = []
    at = (7 - first.weekday()) % 7
    step = 7 if days <= 56 else 14
    for number, offset in enumerate(range(at, days + 1, step)):
        day = first + timedelta(days=offset)
        ticks.append((offset, f"{day.day} {MONTHS[day.month - 1]}", number % 2 == 1))
    return ticks


def _months(first: date, days: int) -> list[tuple[int, str, bool]]:
    step = next(s for s in (1, 2, 3, 6, 12) if days <= 31 * 12 * s or s == 12)
    ticks: list[tuple[int, str, bool]] = []
    month = first.month - 1 + (0 if first.day == 1 else 1)
    number = 0
    while True:
        year = first.year + month // 12
        if year > 9999:
            return ticks
        offset = (date(year, month % 12 + 1, 1) - first).days
        if offset > days:
            return ticks
        if (month % 12) % step == 0:
            label = MONTHS[month % 12]
            named = label if month % 12 and number else f"{label} {year}"
            ticks.append((offset, named, number % 2 == 1))
            number += 1
        month += 1


def _years(first: date, days: int) -> list[tuple[int, str, bool]]:
    last = min(9999, first.year + days // 365 + 1)
    step = _round_step(last - first.year, 10)
    ticks: list[tuple[int, str, bool]] = []
    for year in range(first.year + 1, last + 1):
        offset = (date(year, 1, 1) - first).days
        if year % step == 0 and offset <= days:
            ticks.append((offset, str(year), len(ticks) % 2 == 1))
    return ticks
