"""Ranges of free days as people write them in a file for `--holidays`."""

from datetime import date
from pathlib import Path

import pytest

from pert_companion.readers.calendar_files import holidays_of


@pytest.mark.parametrize(
    "text",
    [
        "24.12.2026-31.12.2026",
        "24.12.2026 - 31.12.2026",
        "24/12/2026-31/12/2026",
        "2026-12-24..2026-12-31",
        "24.12.2026 bis 31.12.2026",
    ],
)
def test_a_range_has_its_first_and_last_day(tmp_path: Path, text: str) -> None:
    """With or without spaces around the dash, and with a name after it."""
    file = tmp_path / "free.csv"
    file.write_text(f"Date,Holiday\n{text},Break\n")
    (found,) = holidays_of(file)
    assert (found.first, found.last) == (date(2026, 12, 24), date(2026, 12, 31))
