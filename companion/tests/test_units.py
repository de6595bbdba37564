"""The unit of a deck at the longest durations, and the mornings to which units are counted."""

from datetime import date

from pert_companion.carry.model import Node
from pert_companion.carry.progress import Times
from pert_companion.carry.units import MAX_UNITS, minutes_of_unit
from pert_companion.model.calendar import Calendar


def node(minutes: int) -> Node:
    """Returns a task of so many working minutes."""
    return Node("A", "W", "A", "row 1", minutes)


def test_a_unit_is_as_short_as_the_longest_duration_allows() -> None:
    """Half days are counted up to 100,000 of them; with one minute more there are hours or days."""
    half, calendar = 240, Calendar()
    longest = half * MAX_UNITS
    assert minutes_of_unit("auto", calendar, [node(half), node(longest)]) == half
    assert minutes_of_unit("auto", calendar, [node(half), node(longest + half)]) == 480


def test_a_morning_is_the_start_of_the_project_at_the_earliest() -> None:
    """A unit before Tuesday of the first week is its Monday, and not the Saturday before."""
    monday, tuesday = date(2026, 9, 7), date(2026, 9, 8)
    times = Times(Calendar(), monday, date(2026, 9, 30), 480)
    assert times.later(tuesday, -1) == monday
    assert times.later(tuesday, -2) == monday
    assert times.later(tuesday, 1) == date(2026, 9, 9)
    assert times.later(date(2026, 9, 11), 1) == date(2026, 9, 12)
