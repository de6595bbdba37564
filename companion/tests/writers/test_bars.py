"""The axis over bars has dates where their days begin."""

from datetime import date

import pytest

from pert_companion.writers.bars import Scale

FIRST = date(2026, 3, 3)


@pytest.mark.parametrize(
    ("days", "columns", "axis"),
    (
        (30, 60, "2026-03-03  03-09         03-16         03-23         03-30"),
        (30, 20, "2026-03-03   03-23"),
        (70, 20, "2026-03-03 04-13"),
        (71, 20, "2026-03-03"),
        (200, 60, "2026-03-03       2026-05   2026-06  2026-07  2026-08"),
        (3, 20, "2026-03-03"),
    ),
)
def test_axis(days: int, columns: int, axis: str) -> None:
    """The first day, then Mondays or the first days of months, as many as have room."""
    assert Scale(FIRST, days, columns).axis() == axis


@pytest.mark.parametrize("number, column", ((0, 0), (1, 2), (29, 58), (30, 59), (99, 59)))
def test_days_are_at_their_columns(number: int, column: int) -> None:
    """A day of thirty has two of sixty columns; what is later is in the last one."""
    assert Scale(FIRST, 30, 60).column(date.fromordinal(FIRST.toordinal() + number)) == column
