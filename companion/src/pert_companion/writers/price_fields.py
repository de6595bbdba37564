"""What the fields that say how a task is shortened have to hold after it was shortened.

The shortest duration and the price of a day have to be what they were. A slope stays. A cost at the
shortest duration counts from the new cost. The shortest duration of work under way is one of the
complete task, from which what is left is computed by its share. A task with a calendar of its own
has its times in minutes of that.
"""

import math
import re
from fractions import Fraction

from pert_companion.analysis.schedule import ScheduledTask
from pert_companion.model.calendar import Calendar
from pert_companion.model.sidefile import SideFile

_NUMBER_AND_UNIT = re.compile(r"[0-9.,]+\s*([a-z]*).*", re.IGNORECASE | re.DOTALL)
_PLACES = 6


def shortest_of_begun(task: ScheduledTask, lasting: int, unit_minutes: int) -> int:
    """Returns the shortest duration of work under way that lasts so many minutes in all.

    What is left of it can be as short as it was: its share of what is left, rounded up to units,
    and shorter by no more than the complete task can become. Of a task with a calendar of its own,
    whose units are not those of the plan, it is a multiple of a time of which the others are.
    """
    if task.calendar:
        share = task.shortest_minutes * lasting // max(1, task.left_minutes)
        return share - share % max(1, math.gcd(lasting, task.shortest_minutes))
    units = -(-lasting // unit_minutes)
    left = task.left_minutes // unit_minutes
    shortest = task.shortest_minutes // unit_minutes
    share = shortest * units // left if left else units
    return max(0, min(share, units - left + shortest)) * unit_minutes


def cost_at_shortest(
    task: ScheduledTask, side: SideFile, cost: Fraction, lasting: int, shortest: int
) -> Fraction:
    """Returns the cost of a task at its shortest duration, in the currency.

    It costs `cost` at a duration of `lasting` minutes.
    """
    units = -(-lasting // side.unit_minutes) - -(-shortest // side.unit_minutes)
    return cost + Fraction(units * task.slope, side.money_scale)


def keeps_cost_at_shortest(task: ScheduledTask) -> bool:
    """Says whether a cost at the shortest duration stays as it is.

    The price of a day of a task with a calendar of its own is spread over what is left to gain.
    """
    return bool(task.calendar)


def duration_like(text: str, minutes: int, calendar: Calendar) -> str:
    """Returns a duration in the form that a text has: a bare number of days, days or hours."""
    found = _NUMBER_AND_UNIT.fullmatch(text.strip())
    unit = "" if found is None else found[1].casefold()
    if not unit or unit.startswith(("d", "t")):
        return number_text(Fraction(minutes, calendar.day_minutes)) + ("d" if unit else "")
    if unit.startswith(("h", "std")):
        return number_text(Fraction(minutes, 60)) + "h"
    return f"{minutes} min"


def number_text(number: Fraction) -> str:
    """Returns a number with the decimals that it has, six at most."""
    if number.denominator == 1:
        return str(number.numerator)
    text = f"{float(round(number, _PLACES)):.{_PLACES}f}"
    return text.rstrip("0").rstrip(".")
