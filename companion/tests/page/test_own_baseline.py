"""A page without a named baseline takes the one that the source has saved."""

from datetime import date
from pathlib import Path

import pytest

from running import opened
from test_importing import pert_import
from pert_companion.page.gathering import Gathered, gather
from pert_companion.page.render import render
from pert_companion.page.report import page_of
from pert_companion.page.source import Source, Wishes

HEADINGS = "ID,Name,Duration,Predecessors,Baseline Start,Baseline Finish\n"
PLAN = f"""\
{HEADINGS}1,Dig,10 days,,2026-09-01,2026-09-14
2,Build,5 days,1,2026-09-10,2026-09-16
3,Ready,0 days,2,,
"""


def gathered(
    folder: Path,
    capture: pytest.CaptureFixture[bytes],
    *,
    is_saved: bool = True,
    by_itself: bool = False,
) -> Gathered:
    """Returns what a page has of the plan, with the baseline of its file or without."""
    text = PLAN if is_saved else PLAN.replace(HEADINGS, "ID,Name,Duration,Predecessors,X,Y\n")
    (folder / "plan.csv").write_text(text)
    deck = folder / "deck.csv"
    words = (folder / "plan.csv", "--start", "2026-09-01", "-o", deck, "--accept", "field")
    assert pert_import(capture, *words).status == 0
    state = opened(deck)
    return gather(Source(Wishes(), state, state if by_itself else None), lambda text: None)


def test_the_saved_baseline_is_the_baseline(
    tmp_path: Path, capfdbinary: pytest.CaptureFixture[bytes]
) -> None:
    """The plan ends on 21 September, three working days after its baseline."""
    found = gathered(tmp_path, capfdbinary)
    assert found.has_baseline
    assert found.contract is not None and found.contract.day == date(2026, 9, 16)
    days = {code: (task.first_day, task.last_day) for code, task in found.planned.items()}
    assert list(days.values()) == [
        (date(2026, 9, 1), date(2026, 9, 14)),
        (date(2026, 9, 10), date(2026, 9, 16)),
    ]
    page = page_of(found)
    flags = {row.name[0].text: row.flag for row in page.timeline.rows if row.key}
    assert flags == {"Dig": "", "Build": "3 working days behind its baseline", "Ready": ""}
    text = render(page).decode().replace("\u00a0", " ")
    assert "3 working days late against the planned end 16 Sep 2026" in text
    assert "3 working days behind its baseline" in text


def test_a_named_baseline_comes_first(
    tmp_path: Path, capfdbinary: pytest.CaptureFixture[bytes]
) -> None:
    """By its own plan nothing is late, and so without any saved baseline."""
    named = gathered(tmp_path, capfdbinary, by_itself=True)
    assert named.contract is not None and named.contract.day == date(2026, 9, 21)
    none = gathered(tmp_path, capfdbinary, is_saved=False)
    assert not none.has_baseline
    assert none.contract is not None and none.contract.day == date(2026, 9, 21)
    assert "behind its baseline" not in render(page_of(none)).decode()
