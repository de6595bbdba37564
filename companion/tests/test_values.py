"""Single values of a list: numbers, amounts, percentages, durations, dates."""

from collections.abc import Callable
from datetime import date, datetime, timedelta
from decimal import Decimal
from fractions import Fraction

import pytest
from hypothesis import given
from hypothesis import strategies as st

from pert_companion.readers import values
from pert_companion.readers.values import Duration, Measure, Share, Style, Unreadable

Reader = Callable[[values.Cell, Style], object]
READERS: tuple[Reader, ...] = (
    values.number,
    values.amount,
    values.percent,
    values.duration,
    values.day,
)
POINT = Style()
COMMA = Style(decimal=",")


@pytest.mark.parametrize(
    ("text", "style", "wanted"),
    [
        ("5", POINT, "5"),
        (" 1,250.5 ", POINT, "1250.5"),
        ("1.250,5", COMMA, "1250.5"),
        ("1'250", POINT, "1250"),
        ("1 250 000", POINT, "1250000"),
        ("1\u00a0250,25", COMMA, "1250.25"),
        ("-40", POINT, "-40"),
        ("−40", POINT, "-40"),
        ("(40)", POINT, "-40"),
        ("4480.000000000001", POINT, "4480"),
        ("1.249,9999999999998", COMMA, "1250"),
        ("0.0625", POINT, "0.0625"),
        (Decimal("2.5"), COMMA, "2.5"),
        (Share(Decimal(50)), COMMA, "50"),
    ],
)
def test_number(text: values.Cell, style: Style, wanted: str) -> None:
    """Groups of three digits may have marks between them; a sign or brackets make it negative.

    Decimals after the sixth are the noise of binary fractions.
    """
    assert values.number(text, style) == Decimal(wanted)


@pytest.mark.parametrize(
    "text",
    [
        "",
        "x",
        "1.2.3",
        "1,25",
        "12,3456",
        "1,234'567",
        "1E+05",
        "--5",
        "(5",
        "5)",
        "1..",
        ".",
        "١",
    ]
    + ["1" * 16, "9" * 300, "1,,000", "1.", "+5", "1 25", date(2026, 1, 1)],
)
def test_no_number(text: values.Cell) -> None:
    """What is no number, or has too many digits, is refused with a reason."""
    with pytest.raises(Unreadable):
        values.number(text, POINT)


@pytest.mark.parametrize(
    ("text", "style", "wanted"),
    [
        ("1.250,00 €", COMMA, "1250"),
        ("€ 1.250,00", COMMA, "1250"),
        ("$1,250.00", POINT, "1250"),
        ("-$40", POINT, "-40"),
        ("$-40", POINT, "-40"),
        ("-40,50 €", COMMA, "-40.5"),
        ("CHF 1'250.-", POINT, "1250"),
        ("1250,- €", COMMA, "1250"),
        ("1,250.00 USD", POINT, "1250"),
        ("kr. 1 250,00", COMMA, "1250"),
        ("(1,250.00)", POINT, "-1250"),
        (Decimal("10.5"), COMMA, "10.5"),
    ],
)
def test_amount(text: values.Cell, style: Style, wanted: str) -> None:
    """Currencies before or behind an amount do not matter."""
    assert values.amount(text, style) == Decimal(wanted)


@pytest.mark.parametrize(
    "text",
    ["", "€", "abc", "1E+05", "--40", "-(40)", "5k", "5 T€", "3 Mio.", "7" * 201],
)
def test_no_amount(text: str) -> None:
    """Multiples such as 5k are refused, since they would be taken for 5."""
    with pytest.raises(Unreadable):
        values.amount(text, POINT)


@pytest.mark.parametrize(
    ("text", "wanted"),
    [
        ("1.250,00 €", "€"),
        ("$5", "$"),
        ("-CHF 5", "CHF"),
        ("5", ""),
        ("x" * 300, ""),
        ("", ""),
    ],
)
def test_currency(text: str, wanted: str) -> None:
    """The currency is what stands before or behind the digits."""
    assert values.currency_of(text) == wanted
    assert values.currency_of(Decimal(5)) == ""


@pytest.mark.parametrize(
    ("cell", "factor", "wanted"),
    [
        ("50%", 1, "50"),
        ("50 %", 100, "50"),
        ("50", 1, "50"),
        ("0.5", 100, "50"),
        (Share(Decimal("12.5")), 100, "12.5"),
        (Decimal("0.25"), 100, "25"),
    ],
)
def test_percent(cell: values.Cell, factor: int, wanted: str) -> None:
    """Signs and percentages of workbooks come before the factor of the column."""
    assert values.percent(cell, Style(percent_factor=factor)) == Decimal(wanted)


@pytest.mark.parametrize("cell", ["101%", "-1", "x%", "", Share(Decimal(140))])
def test_no_percent(cell: values.Cell) -> None:
    """Percentages are from 0 to 100."""
    with pytest.raises(Unreadable):
        values.percent(cell, POINT)


@pytest.mark.parametrize(
    ("text", "style", "minutes", "is_elapsed"),
    [
        ("5", POINT, 2400, False),
        ("5.5 days", POINT, 2640, False),
        ("5,5 Tage", COMMA, 2640, False),
        ("2w", POINT, 4800, False),
        ("16h", POINT, 960, False),
        ("1 mo", POINT, 9600, False),
        ("5 days?", POINT, 2400, False),
        ("5 Tage gesch.", COMMA, 2400, False),
        ("14 edays", POINT, 14 * 1440, True),
        ("14 fTage", COMMA, 14 * 1440, True),
        ("2 elapsed weeks", POINT, 20160, True),
        ("2 fortl. Wochen", COMMA, 20160, True),
        ("1w 2d", POINT, 3360, False),
        ("1 wk, 4 hrs.", POINT, 2640, False),
        ("-4h", POINT, -240, False),
        ("+3 Std.", COMMA, 180, False),
        ("1 250 min", POINT, 1250, False),
        ("1'000 min", POINT, 1000, False),
        (Decimal("2.5"), COMMA, 1200, False),
        (Measure(Decimal(6), "hours"), COMMA, 360, False),
    ],
)
def test_duration(text: values.Cell, style: Style, minutes: int, is_elapsed: bool) -> None:
    """Numbers without a unit are days; estimated ones count as others."""
    assert values.duration(text, style) == Duration(Fraction(minutes), is_elapsed)


def test_duration_in_the_unit_of_the_column() -> None:
    """A number without a unit has that of the heading, and days have the hours of the plan."""
    assert values.duration("12", POINT, "hours").minutes == 720
    assert values.duration("1 day", Style(day_minutes=450)).minutes == 450
    assert values.duration("1 week", Style(week_minutes=2250)).minutes == 2250
    assert values.duration("1 month", Style(month_days=22)).minutes == 22 * 480


@pytest.mark.parametrize(
    "text",
    [
        "",
        "soon",
        "5m",
        "4 moons",
        "5 days 1 eday",
        "PT8H",
        "5,5 days",
        "1" * 20,
        "5" * 201,
    ]
    + ["5 days x", "-", date(2026, 1, 1), Share(Decimal(5))],
)
def test_no_duration(text: values.Cell) -> None:
    """Texts that are no durations, minutes or months left open, mixed kinds of time."""
    with pytest.raises(Unreadable):
        values.duration(text, POINT)


@pytest.mark.parametrize(
    ("text", "day_first", "wanted"),
    [
        ("2026-12-31", False, (2026, 12, 31)),
        ("2026/12/31", False, (2026, 12, 31)),
        ("2026-03-02T08:00:00", False, (2026, 3, 2)),
        ("2026-03-02T08:00:00.123+01:00", False, (2026, 3, 2)),
        ("2026-03-02T08:00:00Z", False, (2026, 3, 2)),
        ("31.12.2026", False, (2026, 12, 31)),
        ("1. 2. 26", False, (2026, 2, 1)),
        ("12/31/2026", False, (2026, 12, 31)),
        ("31/12/2026", True, (2026, 12, 31)),
        ("31-12-2026", True, (2026, 12, 31)),
        ("Mon 12/28/26 8:00 AM", False, (2026, 12, 28)),
        ("Mo 28.12.26", False, (2026, 12, 28)),
        ("Mon, March 2, 2026 8:00 AM", False, (2026, 3, 2)),
        ("March 2, 2026 8:00 AM", False, (2026, 3, 2)),
        ("2. März 2026 08:00 Uhr", False, (2026, 3, 2)),
        ("31-Dec-26", False, (2026, 12, 31)),
        ("31-Dec-26 A", False, (2026, 12, 31)),
        ("31-Dec-26 08:00*", False, (2026, 12, 31)),
        ("02.03.2026 17:00", False, (2026, 3, 2)),
        ("5/6/70", False, (1970, 5, 6)),
        (datetime(2026, 3, 2, 8).date(), False, (2026, 3, 2)),
    ],
)
def test_day(text: values.Cell, day_first: bool, wanted: tuple[int, int, int]) -> None:
    """Days with and without weekdays, times of day and marks."""
    assert values.day(text, Style(day_first=day_first)) == date(*wanted)


@pytest.mark.parametrize(
    "text",
    [
        "",
        "5th of May",
        "2026-02-30",
        "13/13/2026",
        "31-Xyz-26",
        "9999-12-31",
        "1899-01-01",
    ]
    + [
        "2026",
        "1/2",
        "8:00",
        "1/1/" + "1" * 500,
        Decimal(46000),
        Share(Decimal(1)),
        "Foo 1, 2026",
    ],
)
def test_no_day(text: values.Cell) -> None:
    """What is no day of the years 1900 to 2199."""
    with pytest.raises(Unreadable):
        values.day(text, POINT)


@given(st.dates(date(1970, 1, 1), date(2069, 12, 31)), st.booleans())
def test_every_day_is_read_back(day: date, day_first: bool) -> None:
    """Every day in each of the usual forms."""
    style = Style(day_first=day_first)
    slashed = "%d/%m/%Y" if day_first else "%m/%d/%Y"
    for form in (
        "%Y-%m-%d",
        "%d.%m.%y",
        slashed,
        "%a " + slashed,
        "%d-%b-%y",
        "%B %d, %Y",
    ):
        assert values.day(day.strftime(form), style) == day


@given(st.integers(-(10**12), 10**12), st.sampled_from(".,"))
def test_every_amount_is_read_back(cents: int, mark: str) -> None:
    """Every amount with groups of three digits, in both styles."""
    amount = Decimal(cents) / 100
    text = f"{amount:,.2f}"
    if mark == ",":
        text = text.translate(str.maketrans(",.", ".,"))
    assert values.amount(text + " €", Style(decimal=mark)) == amount


@given(st.text(max_size=250))
def test_any_text_is_read_or_refused(text: str) -> None:
    """No text raises anything but `Unreadable`."""
    for read in READERS:
        for style in (POINT, COMMA):
            try:
                read(text, style)
            except Unreadable as reason:
                assert str(reason)
    values.slashed_parts(text)
    values.currency_of(text)


def test_words() -> None:
    """Yes, no, nothing, digits, units, and texts of cells."""
    assert values.is_yes("Ja") and values.is_yes(Decimal(1))
    assert not values.is_yes("Nein") and not values.is_yes("") and not values.is_yes(Decimal(0))
    assert values.is_nothing(" NA ") and not values.is_nothing(Decimal(0))
    assert values.has_digit("0,10") and not values.has_digit("0,00")
    assert values.unit_of("Std.") == "hours" and values.unit_of("edays") is None
    assert values.text_of(Share(Decimal("50.0"))) == "50%"
    assert values.text_of(Measure(Decimal(6), "hours")) == "6 hours"
    assert values.text_of(Decimal("5.10")) == "5.1"
    assert values.text_of(date(2026, 3, 2)) == "2026-03-02"


def test_whole_minutes() -> None:
    """Halves go away from zero; noise below a hundredth of a second is whole."""
    assert [values.whole_minutes(Fraction(n, 2)) for n in (-3, -1, 1, 3)] == [
        -2,
        -1,
        1,
        2,
    ]
    assert values.is_whole(Fraction(5) + Fraction(1, 100_000))
    assert not values.is_whole(Fraction(11, 2))


def test_long_texts_are_fast() -> None:
    """A text of a million characters is refused by its length alone."""
    begin = datetime.now()
    for text in (
        "1" * 10**6,
        " " * 10**6 + "1",
        "1 " * 500_000,
        "(" * 10**6,
        "1/1/" * 250_000,
    ):
        for read in READERS:
            try:
                read(text, POINT)
            except Unreadable:
                pass
    assert datetime.now() - begin < timedelta(seconds=5)
