"""Reads single values of a list: numbers, amounts, percentages, durations, dates, yes and no.

A cell is a text, or a value that a workbook already has as a number, a percentage or a date. Each
function returns the value or raises `Unreadable` with the reason. The length of a text and the
number of its digits are checked before anything is converted.
"""

import re
from collections.abc import Iterable
from dataclasses import dataclass
from datetime import date
from decimal import Decimal
from fractions import Fraction

from pert_companion.model.figures import plain_number
from pert_companion.model.xmltree import without_noise

MOST_CHARACTERS = 200
MOST_DIGITS = 15
FIRST_YEAR = 1900
LAST_YEAR = 2199

SPACES = "\u00a0\u202f\u2009"
"""Spaces other than the usual one that stand between groups of three digits."""
_GROUP_MARKS = "'’ " + SPACES
_MINUS = "-−"

UNITS: dict[str, tuple[str, ...]] = {
    "minutes": ("min", "mins", "minute", "minutes", "minuten"),
    "hours": ("h", "hr", "hrs", "hour", "hours", "std", "stunde", "stunden"),
    "days": ("d", "dy", "day", "days", "t", "tag", "tage", "tagen", "tg"),
    "weeks": ("w", "wk", "wks", "week", "weeks", "wo", "woche", "wochen"),
    "months": ("mo", "mon", "mons", "month", "months", "monat", "monate", "monaten"),
}
_ELAPSED_MINUTES = {
    "minutes": 1,
    "hours": 60,
    "days": 1440,
    "weeks": 10080,
    "months": 43200,
}

NO = frozenset(("", "no", "nein", "n", "false", "falsch", "0"))
NOTHING = frozenset(("", "na", "nv", "n/a", "-", "--", "–", "none", "keine", "keiner"))


def _numbered(spellings: Iterable[str], start: int) -> dict[str, int]:
    """Returns the number of each word; the words of one number are one text."""
    numbers = {}
    for number, words in enumerate(spellings, start):
        numbers.update(dict.fromkeys(words.split(), number))
    return numbers


WEEKDAYS = _numbered(
    (
        "mon monday mo montag",
        "tue tues tuesday di dienstag",
        "wed wednesday mi mittwoch",
        "thu thur thurs thursday do donnerstag",
        "fri friday fr freitag",
        "sat saturday sa samstag sonnabend",
        "sun sunday so sonntag",
    ),
    start=0,
)
MONTHS = _numbered(
    ("jan jän", "feb", "mar mär mrz", "apr", "may mai", "jun", "jul")
    + ("aug", "sep", "oct okt", "nov", "dec dez"),
    start=1,
)

_ISO = re.compile(r"([0-9]{4})[-/.]([0-9]{1,2})[-/.]([0-9]{1,2})")
_DOTTED = re.compile(r"([0-9]{1,2})\. ?([0-9]{1,2})\. ?([0-9]{4}|[0-9]{2})")
_SLASHED = re.compile(r"([0-9]{1,2})[/-]([0-9]{1,2})[/-]([0-9]{4}|[0-9]{2})")
_DAY_MONTH = re.compile(r"([0-9]{1,2})[-. ]{1,2}([^\W\d_]{3,12})[-., ]{1,3}([0-9]{4}|[0-9]{2})")
_MONTH_DAY = re.compile(r"([^\W\d_]{3,12})[. ]{1,2}([0-9]{1,2}),? ([0-9]{4})")
_CLOCK = re.compile(
    r"[T, ][ ]?[0-9]{1,2}:[0-9]{2}(:[0-9]{2})?(\.[0-9]{1,9})?"
    r"( ?[AP]M)?( Uhr)?(Z|[-+][0-9]{2}:?[0-9]{2})?",
    re.IGNORECASE,
)
_LAST_CLOCK_CHARACTERS = 30
_CURRENCY = r"[^\d\s().,+−-]{1,4}\.?"
_CURRENCY_BEFORE = re.compile(_CURRENCY)
_CURRENCY_AFTER = re.compile(_CURRENCY + r"\Z")
_MULTIPLES = frozenset("k t tsd m mio k€ t€ m€ k$ t$ m$ keur teur kchf tchf".split())
"""What looks like a currency behind an amount and multiplies it."""
_QUANTITY_AND_UNIT = re.compile(
    r"([0-9][0-9.,'’]*)\s*(elapsed |fortl\. ?)?([^\W\d_]*)\.?[\s,]*", re.IGNORECASE
)


class Unreadable(ValueError):
    """A cell that does not hold what its column is for. The text is the reason, for a message."""


@dataclass(frozen=True)
class Share:
    """A number that a workbook shows as a percentage."""

    percent: Decimal


@dataclass(frozen=True)
class Measure:
    """A number that a workbook shows with a unit of time."""

    number: Decimal
    unit: str


Cell = str | Decimal | date | Share | Measure
"""What a cell holds; an empty one is an empty text."""


@dataclass(frozen=True)
class Style:
    """How a list writes its values, and the working time that its units mean."""

    decimal: str = "."
    day_first: bool = False
    percent_factor: int = 1
    """What numbers of percent columns are multiplied by: 100 if they are shares of 1."""
    day_minutes: int = 480
    week_minutes: int = 2400
    month_days: int = 20

    def minutes_of(self, unit: str) -> int:
        """Returns the working minutes of one unit of time."""
        if unit == "minutes":
            return 1
        if unit == "hours":
            return 60
        if unit == "days":
            return self.day_minutes
        if unit == "weeks":
            return self.week_minutes
        return self.month_days * self.day_minutes


@dataclass(frozen=True)
class Duration:
    """A length of time: working minutes, or elapsed ones; negative for a lead."""

    minutes: Fraction
    is_elapsed: bool = False


def _unit_words() -> dict[str, tuple[str, bool]]:
    words: dict[str, tuple[str, bool]] = {}
    for unit, names in UNITS.items():
        for name in names:
            words[name] = (unit, False)
    for unit, names in UNITS.items():
        for name in names:
            words.setdefault("e" + name, (unit, True))
            words.setdefault("f" + name, (unit, True))
    return words


_UNIT_WORDS = _unit_words()


def unit_of(word: str) -> str | None:
    """Returns the unit of working time that a word means (`Tage`: `days`), or None."""
    unit, is_elapsed = _UNIT_WORDS.get(word.casefold().strip(" ."), ("", True))
    return None if is_elapsed else unit


def text_of(cell: Cell) -> str:
    """Returns a cell as a text for messages and for columns of texts."""
    if isinstance(cell, Share):
        return f"{plain_number(cell.percent)}%"
    if isinstance(cell, Measure):
        return f"{plain_number(cell.number)} {cell.unit}"
    if isinstance(cell, Decimal):
        return plain_number(cell)
    return str(cell)


def is_yes(cell: Cell) -> bool:
    """Says whether a cell says yes: everything but an empty one, no, false, 0."""
    return text_of(cell).strip().casefold() not in NO


def is_nothing(cell: Cell) -> bool:
    """Says whether a cell is empty or says that there is nothing (`NA`, `-`)."""
    return isinstance(cell, str) and cell.strip().casefold() in NOTHING


def has_digit(cell: Cell) -> bool:
    """Says whether a cell holds a digit other than 0."""
    return any(character in "123456789" for character in text_of(cell))


def _check_length(text: str) -> None:
    if len(text) > MOST_CHARACTERS:
        raise Unreadable(f"this has more than {MOST_CHARACTERS} characters")


def _is_digits(text: str) -> bool:
    return text.isascii() and text.isdigit()


def _ungrouped(whole: str, other: str) -> str:
    """Returns the digits of a whole number whose groups of three may have marks between them."""
    marks = {character for character in whole if character in _GROUP_MARKS or character == other}
    if len(marks) > 1:
        raise Unreadable("this is no number")
    groups = [whole]
    if marks:
        groups = whole.split(marks.pop())
    if not all(_is_digits(group) for group in groups):
        raise Unreadable("this is no number")
    if len(groups) > 1 and (len(groups[0]) > 3 or any(len(group) != 3 for group in groups[1:])):
        raise Unreadable("this is no number")
    return "".join(groups)


def _unsigned(text: str, decimal: str) -> Decimal:
    whole, mark, part = text.partition(decimal)
    digits = _ungrouped(whole.strip(), "." if decimal == "," else ",")
    if mark and not _is_digits(part):
        raise Unreadable("this is no number")
    if len(digits) > MOST_DIGITS:
        raise Unreadable(f"a number has at most {MOST_DIGITS} digits before its decimals")
    return without_noise(Decimal(f"{digits}.{part}" if part else digits))


def number(cell: Cell, style: Style) -> Decimal:
    """Returns the number of a cell: `1.250,5`, `-40`, `(40)`, `1'250`."""
    if isinstance(cell, Decimal):
        return cell
    if isinstance(cell, Share):
        return cell.percent
    if not isinstance(cell, str):
        raise Unreadable("this is no number")
    text = cell.strip()
    _check_length(text)
    if text.startswith("(") and text.endswith(")"):
        return -_unsigned(text[1:-1].strip(), style.decimal)
    if text[:1] and text[0] in _MINUS:
        return -_unsigned(text[1:].strip(), style.decimal)
    return _unsigned(text, style.decimal)


def currency_of(cell: Cell) -> str:
    """Returns the sign or code of the currency in a cell, or an empty text."""
    if not isinstance(cell, str) or len(cell) > MOST_CHARACTERS:
        return ""
    text = cell.strip().lstrip(_MINUS + "(").strip()
    found = _CURRENCY_BEFORE.match(text) or _CURRENCY_AFTER.search(text.rstrip(") "))
    return found.group() if found else ""


def _without_currency(text: str) -> str:
    """Returns an amount without its currency and without a dash in the place of cents."""
    before = _CURRENCY_BEFORE.match(text)
    after = _CURRENCY_AFTER.search(text)
    for found in (before, after):
        if found and found.group().casefold().strip(".") in _MULTIPLES:
            raise Unreadable(f"{found.group()!r} is a multiple: write the amount out")
    if after and after.start() > 0:
        text = text[: after.start()].strip()
    if before:
        text = text[before.end() :].strip()
    if text[-2:] in (".-", ",-", ".–", ",–"):
        text = text[:-2]
    return text


def amount(cell: Cell, style: Style) -> Decimal:
    """Returns an amount of money, without its currency: `1.250,00 €`, `-$40`, `CHF 1'250.-`."""
    if not isinstance(cell, str):
        return number(cell, style)
    text = cell.strip()
    _check_length(text)
    is_negative = text.startswith(tuple(_MINUS))
    if is_negative:
        text = text[1:].strip()
    text = _without_currency(text)
    if is_negative and text.startswith(("(", *_MINUS)):
        raise Unreadable("this is no amount")
    try:
        value = number(text, style)
    except Unreadable as reason:
        why = str(reason).replace("this is no number", "this is no amount")
        raise Unreadable(why) from reason
    return -value if is_negative else value


def percent(cell: Cell, style: Style) -> Decimal:
    """Returns a percentage from 0 to 100."""
    if isinstance(cell, Share):
        value = cell.percent
    elif isinstance(cell, str) and cell.rstrip().endswith("%"):
        value = number(cell.rstrip()[:-1], style)
    else:
        value = number(cell, style) * style.percent_factor
    if not 0 <= value <= 100:
        raise Unreadable("a percentage is from 0 to 100")
    return value


def _joined_groups(text: str) -> str:
    """Returns a text in which spaces between groups of three digits have become apostrophes."""
    return re.sub(rf"(?<=[0-9])[ {SPACES}](?=[0-9]{{3}}(?![0-9]))", "'", text)


def _without_guess(text: str) -> str:
    """Returns a duration without the sign that it is an estimate (`5 days?`)."""
    text = text.rstrip("? ")
    for word in ("gesch.", "gesch", "est.", "est"):
        if text.casefold().endswith(" " + word):
            return text[: -len(word)].rstrip("? ")
    return text


def _part_minutes(quantity: str, word: str, is_marked: bool, unit: str, style: Style) -> Duration:
    if word in ("m", "M"):
        raise Unreadable(f"{word} may be minutes or months: write min or mon")
    try:
        value = Fraction(number(quantity.rstrip(".,'’"), style))
    except Unreadable as reason:
        if "digits" in str(reason):
            raise
        why = f"{quantity!r} is no number with the decimal mark {style.decimal}"
        raise Unreadable(why) from reason
    named, is_elapsed = _UNIT_WORDS.get(word.casefold(), ("", False)) if word else (unit, False)
    if not named:
        raise Unreadable(f"{word!r} is no unit of time")
    if is_elapsed or is_marked:
        return Duration(value * _ELAPSED_MINUTES[named], True)
    return Duration(value * style.minutes_of(named))


def duration(cell: Cell, style: Style, unit: str = "days") -> Duration:
    """Returns a duration or lag: `5`, `5,5 Tage`, `2w`, `1w 2d`, `5 days?`, `14 edays`, `-4h`.

    A number without a unit is counted in `unit`.
    """
    if isinstance(cell, Decimal):
        return Duration(Fraction(cell) * style.minutes_of(unit))
    if isinstance(cell, Measure):
        return Duration(Fraction(cell.number) * style.minutes_of(cell.unit))
    if not isinstance(cell, str):
        raise Unreadable("this is no duration")
    text = cell.strip()
    _check_length(text)
    sign = 1
    if text[:1] and text[0] in _MINUS + "+":
        sign = 1 if text[0] == "+" else -1
        text = text[1:].strip()
    text = _joined_groups(_without_guess(text))
    parts = []
    position = 0
    while position < len(text):
        found = _QUANTITY_AND_UNIT.match(text, position)
        if found is None:
            raise Unreadable("this is no duration")
        parts.append(_part_minutes(found[1], found[3], bool(found[2]), unit, style))
        position = found.end()
    if not parts:
        raise Unreadable("this is no duration")
    if len({part.is_elapsed for part in parts}) > 1:
        raise Unreadable("working and elapsed time in one duration")
    total = sum((part.minutes for part in parts), Fraction(0))
    return Duration(sign * total, parts[0].is_elapsed)


def whole_minutes(minutes: Fraction) -> int:
    """Returns the nearest whole number of minutes."""
    return int(minutes + Fraction(1, 2)) if minutes >= 0 else -int(-minutes + Fraction(1, 2))


def is_whole(minutes: Fraction) -> bool:
    """Says whether minutes are a whole number, apart from the noise of a workbook's numbers."""
    return abs(minutes - whole_minutes(minutes)) <= Fraction(1, 10_000)


def slashed_parts(cell: Cell) -> tuple[int, int, int, int | None] | None:
    """Returns the numbers of a date such as `03/04/2026` and its weekday, or None for others."""
    if not isinstance(cell, str) or len(cell) > MOST_CHARACTERS:
        return None
    text, weekday = _bare_date(cell)
    found = _SLASHED.fullmatch(text)
    if found is None:
        return None
    return int(found[1]), int(found[2]), _full_year(int(found[3])), weekday


def _full_year(year: int) -> int:
    if year >= 100:
        return year
    return year + (2000 if year < 70 else 1900)


def _bare_date(text: str) -> tuple[str, int | None]:
    """Returns a date without weekday, time of day and marks of P6, and the weekday."""
    text = " ".join(text.split())
    while text.endswith((" A", "*", " a")):
        text = text[:-1].rstrip()
    weekday = None
    head, _, rest = text.partition(" ")
    if head.casefold().strip(".,") in WEEKDAYS and rest:
        weekday = WEEKDAYS[head.casefold().strip(".,")]
        text = rest
    for position in range(max(0, len(text) - _LAST_CLOCK_CHARACTERS), len(text)):
        if text[position] in "T, " and _CLOCK.fullmatch(text, position):
            return text[:position].strip(" ,"), weekday
    return text, weekday


def _date_parts(text: str, style: Style) -> tuple[int, int, int] | None:
    """Returns year, month and day of a bare date, or None."""
    if found := _ISO.fullmatch(text):
        return int(found[1]), int(found[2]), int(found[3])
    if found := _DOTTED.fullmatch(text):
        return int(found[3]), int(found[2]), int(found[1])
    if found := _SLASHED.fullmatch(text):
        first, second = int(found[1]), int(found[2])
        month, day = (second, first) if style.day_first else (first, second)
        return int(found[3]), month, day
    if found := _DAY_MONTH.fullmatch(text):
        return int(found[3]), MONTHS.get(found[2][:3].casefold(), 0), int(found[1])
    if found := _MONTH_DAY.fullmatch(text):
        return int(found[3]), MONTHS.get(found[1][:3].casefold(), 0), int(found[2])
    return None


def day(cell: Cell, style: Style) -> date:
    """Returns the day of a date with or without a time: `2026-12-31`, `Mo 31.12.26`, `12/31/26`."""
    if isinstance(cell, date):
        found = cell
    else:
        if not isinstance(cell, str):
            raise Unreadable("this is no date")
        _check_length(cell)
        parts = _date_parts(_bare_date(cell)[0], style)
        if parts is None:
            raise Unreadable("this is no date")
        try:
            found = date(_full_year(parts[0]), parts[1], parts[2])
        except ValueError as reason:
            raise Unreadable("there is no such day") from reason
    if not FIRST_YEAR <= found.year <= LAST_YEAR:
        raise Unreadable(f"dates are from {FIRST_YEAR} to {LAST_YEAR}")
    return found
