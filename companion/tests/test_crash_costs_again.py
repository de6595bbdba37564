"""Slopes from a crash cost: what a day less costs follows when durations change."""

from decimal import Decimal
from pathlib import Path

import pytest

from test_importing import pert_import
from pert_companion.model.deck import read_deck

Capture = pytest.CaptureFixture[bytes]
PLAN = """\
ID,Name,Duration,Predecessors,Cost,Crash days,Crash cost
1,Dig,{days} days,,1000,6,1800
2,Build,8 days,1,2000,4,3200
"""


@pytest.mark.parametrize("days", [7, 8, 10, 14])
def test_next_month_has_another_duration(tmp_path: Path, capfdbinary: Capture, days: int) -> None:
    """The slope is what shortening costs, shared among the days of the new duration."""
    source, april, may = (tmp_path / name for name in ("plan.csv", "april.csv", "may.csv"))
    start = ("--start", "2026-09-01")
    source.write_text(PLAN.format(days=10))
    assert pert_import(capfdbinary, source, *start, "-o", april).status == 0
    assert [card.slope for card in read_deck(april).tasks] == [200, 300]
    source.write_text(PLAN.format(days=days))
    assert pert_import(capfdbinary, source, *start, "--with", april, "-o", may).status == 0
    dig, build = read_deck(may).tasks
    assert dig.slope == Decimal(1800 - 1000) / (days - 6)
    assert (dig.normal, dig.crash, build.slope) == (days, 6, 300)
