"""How a page writes amounts, dates, lengths and titles; `report.js` writes them the same way."""

from dataclasses import dataclass
from datetime import date

from pert_companion.model.amounts import Measure, measure_of
from pert_companion.model.calendar import works_daily
from pert_companion.model.lines import one_line
from pert_companion.model.sidefile import SideFile

MONTHS = (
    "Jan",
    "Feb",
    "Mar",
    "Apr",
    "May",
    "Jun",
    "Jul",
    "Aug",
    "Sep",
    "Oct",
    "Nov",
    "Dec",
)
MINUS = "\u2212"


def shown(text: str) -> str:
    """Returns a text of a deck with escapes for characters that are unseen or turn the others."""
    return one_line(text)


def day_text(day: date | None) -> str:
    """Returns a date as `8 Apr 2024`, or a dash."""
    if day is None:
        return "\u2013"
    return f"{day.day} {MONTHS[day.month - 1]} {day.year}"


def number_text(number: int) -> str:
    """Returns a whole number with commas between thousands."""
    return f"{number:,}".replace("-", MINUS)


def plural(count: int, word: str) -> str:
    """Returns a count with its word: `1 day`, `30 days`."""
    return f"{number_text(count)} {word}{'' if abs(count) == 1 else 's'}"


@dataclass(frozen=True)
class Words:
    """The words and scales of one page."""

    day: str
    """What a planner's day is called: day, or working day."""
    currency: str
    money_scale: int
    """How many units of money of the deck one of the currency is: 1, or a power of ten."""
    measure: Measure = Measure(1, 1)
    """How many days a unit of the deck is."""

    @property
    def decimals(self) -> int:
        """Returns the digits after the point of amounts."""
        return len(str(self.money_scale)) - 1

    def digits(self, amount: int) -> str:
        """Returns an amount without its currency: `13,190` or `13,190.00`."""
        whole, part = divmod(abs(amount), self.money_scale)
        sign = MINUS if amount < 0 else ""
        return f"{sign}{whole:,}" + (f".{part:0{self.decimals}}" if self.decimals else "")

    def money(self, amount: int) -> str:
        """Returns an amount with its currency."""
        return f"{self.digits(amount)}\u00a0{self.currency}".rstrip()

    def days(self, units: int) -> str:
        """Returns units of the deck as a number of days: `1,030` or `82.5`."""
        whole, point, part = self.measure.days(abs(units)).partition(".")
        sign = MINUS if units < 0 and (whole, part) != ("0", "") else ""
        return f"{sign}{int(whole):,}{point}{part}"

    def length(self, units: int) -> str:
        """Returns units of the deck as a length: `1 day`, `82.5 days`."""
        text = self.days(units)
        return f"{text} {self.day}{'' if text.lstrip(MINUS) == '1' else 's'}"

    @property
    def step(self) -> str:
        """Returns by what lengths are shortened: `day`, or `5 days` if units are longer."""
        text = self.length(self.measure.step)
        return text.removeprefix("1 ")

    @property
    def one_less(self) -> str:
        """Returns the name of the next shortening: `One day less`."""
        step = self.step
        return f"One {step} less" if step == self.day else f"{step} less"


def words_of(side: SideFile, currency: str | None) -> Words:
    """Returns the words of a plan; `currency` replaces that of the side file."""
    scale = side.money_scale
    is_power = str(scale).strip("0") == "1"
    chosen = side.currency if currency is None else currency
    day = "day" if works_daily(side.calendar) else "working day"
    return Words(day, shown(chosen), scale if is_power else 1, measure_of(side))
