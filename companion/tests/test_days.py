"""Counted decks: dates are counts of working time, and reports get real dates again."""

from dataclasses import replace
from datetime import date, timedelta

import pytest
from hypothesis import given, settings
from hypothesis import strategies as st

from pert_companion.model.calendar import Calendar, free_days
from pert_companion.model.cards import ChargeCard, ProjectCard, StatusCard, ToGoCard
from pert_companion.model.days import Counts, counted
from pert_companion.model.deck import Deck
from pert_companion.model.errors import InputError
from pert_companion.model.sidefile import SideFile

START = date(2026, 9, 1)
"""A Tuesday."""


def side_file(unit_minutes: int = 480, calendar: Calendar = Calendar()) -> SideFile:
    """Returns a side file without tasks."""
    return SideFile("", "", START, calendar, unit_minutes, ())


def deck(**parts: object) -> Deck:
    """Returns a deck with dates alone."""
    project = ProjectCard("P", "s", "e", START)
    return replace(Deck(project), **parts)


def plain_count(calendar: Calendar, day: date) -> int:
    """Returns the working days before a morning, one by one."""
    days = [START + timedelta(days=number) for number in range((day - START).days)]
    return sum(1 for each in days if calendar.is_working(each))


@given(st.lists(st.integers(0, 90), max_size=20), st.integers(0, 100))
@settings(max_examples=100, deadline=None)
def test_counts_are_working_days(free: list[int], number: int) -> None:
    """A count is the number of working days before the morning, and `real` leads back."""
    calendar = Calendar(exceptions=free_days(START + timedelta(days=day) for day in free))
    counts = Counts(side_file(calendar=calendar), START)
    day = START + timedelta(days=number)
    assert counts.count(day) == plain_count(calendar, day)
    real = counts.real(counts.counted(day, START + timedelta(days=200)))
    assert real == calendar.morning(day).date()


def test_a_friday_evening_is_done_on_the_saturday() -> None:
    """A finish on a Friday, dated Saturday, is at the as-of date of the Saturday."""
    saturday = date(2026, 9, 5)
    given_deck = deck(
        as_of=saturday,
        statuses=(StatusCard("A", "S", START), StatusCard("A", "F", saturday)),
        charges=(
            ChargeCard("X", date(2026, 9, 6), 5),
            ChargeCard("X", date(2026, 8, 30), 5),
        ),
        to_go=(
            ToGoCard("X", saturday, 1),
            ToGoCard("X", date(2026, 9, 7), 2),
            ToGoCard("Y", date(2026, 9, 5), 3),
            ToGoCard("Y", date(2026, 9, 4), 4),
        ),
    )
    found = counted(given_deck, side_file())
    assert found.as_of == date(2026, 9, 5)
    assert [card.day for card in found.statuses] == [START, date(2026, 9, 5)]
    assert [card.day for card in found.charges] == [date(2026, 9, 6), date(2026, 8, 30)]
    assert found.to_go == (
        ToGoCard("X", date(2026, 9, 5), 1),
        ToGoCard("X", date(2026, 9, 6), 2),
        ToGoCard("Y", date(2026, 9, 5), 3),
        ToGoCard("Y", date(2026, 9, 4), 4),
    )


def test_of_two_amounts_on_one_working_day_the_later_one_holds() -> None:
    """Saturday, Sunday and Monday are one morning."""
    days = (date(2026, 9, 6), date(2026, 9, 7), date(2026, 9, 5))
    cards = tuple(ToGoCard("X", day, at) for at, day in enumerate(days))
    found = counted(deck(as_of=date(2026, 9, 30), to_go=cards), side_file())
    assert found.to_go == (ToGoCard("X", date(2026, 9, 5), 1),)


def test_hours_are_counted_too() -> None:
    """In hours, a day is eight counts; too many for a deck's dates are one error line."""
    counts = Counts(side_file(60), START)
    assert counts.count(date(2026, 9, 2)) == 8
    assert counts.counted(date(2026, 9, 3), date(2026, 9, 30)) == START + timedelta(days=16)
    assert counts.real(START + timedelta(days=16)) == date(2026, 9, 3)
    assert counts.real(START - timedelta(days=3)) == START - timedelta(days=3)
    minutes = Counts(side_file(1), START)
    with pytest.raises(InputError, match="carry the plan over in longer units"):
        minutes.counted(date(2027, 9, 1), date(2028, 1, 1))
    free = Calendar(exceptions=free_days([START]), week=((),) * 6 + (((480, 960),),))
    assert Counts(side_file(480, free), START).real(date.max) is None
