"""The layout of report pages and of a portfolio: at four widths, light and dark, and on paper."""

import re
from collections.abc import Iterator
from dataclasses import replace
from pathlib import Path

import pytest

from page.browser import CHROMIUM, Browser
from page.certificates import HOUSE, house_with_terms
from page.layout import faults_of_structure, problems_opened, problems_printed
from page.reports import open_drawn, redrawn, write_page
from pert_companion.model.calendar import Calendar
from pert_companion.model.deck import parse_deck
from pert_companion.model.fitting import fitted_to
from pert_companion.model.sidefile import to_json
from pert_companion.portfolio.page import render
from pert_companion.portfolio.row import Milestone, Row, WeekLoad
from pert_companion.state.implied import implied_side_file
from running import EXAMPLES, MONTHS

pytestmark = pytest.mark.skipif(CHROMIUM is None, reason="chromium is missing")
SIZES = [(width, is_dark) for width in (1400, 1280, 800, 390) for is_dark in (False, True)]
REPORTS = ("house", "terms", "months", "pump", "hours", "single", "millions", "brief")
PUMP = EXAMPLES / "pump"


@pytest.fixture(name="browser", scope="module")
def _browser() -> Iterator[Browser]:
    with Browser() as started:
        yield started


@pytest.fixture(name="place", scope="module")
def _place(tmp_path_factory: pytest.TempPathFactory) -> Path:
    """A folder with the pages."""
    folder = tmp_path_factory.mktemp("layout")
    texts = {
        "house": HOUSE.read_bytes(),
        "terms": re.sub(b"(STATUS|ASOF),[^\n]*\n", b"", house_with_terms()),
        "single": single_estimates(),
        "millions": re.sub(rb"(?<=,)([0-9]{3,4})(?=[,\n])", rb"\g<1>000", HOUSE.read_bytes()),
        "brief": house_with_terms(),
    }
    for name, text in texts.items():
        (folder / f"{name}.csv").write_bytes(text)
        write_page(folder / f"{name}.csv", folder / f"{name}.html", brief=name == "brief")
    before, plan = MONTHS / "april.csv", MONTHS / "plan.csv"
    write_page(MONTHS / "may.csv", folder / "months.html", previous=before, baseline=plan)
    before, plan = PUMP / "april.csv", PUMP / "plan.csv"
    write_page(PUMP / "may.csv", folder / "pump.html", previous=before, baseline=plan)
    write_hours(folder)
    (folder / "portfolio.html").write_bytes(render(ROWS, folder / "portfolio.html", 31))
    return folder


def write_hours(folder: Path) -> None:
    """Writes the page of the house in which a unit is an hour of work."""
    deck = parse_deck(HOUSE.read_bytes(), "hours.csv")
    side = replace(implied_side_file(deck, Calendar()), unit_minutes=60, currency="EUR")
    tasks = tuple(replace(task, minutes=task.normal * 60) for task in side.tasks)
    (folder / "hours.csv").write_bytes(HOUSE.read_bytes())
    side = fitted_to(replace(side, tasks=tasks), deck)
    (folder / "hours.json").write_bytes(to_json(side))
    write_page(folder / "hours.csv", folder / "hours.html")


def single_estimates() -> bytes:
    """Returns the house with one estimate for each activity."""
    lines = []
    for line in HOUSE.read_bytes().split(b"\n"):
        cells = line.split(b",")
        if cells[0] == b"ACT":
            cells[5:8] = [cells[6]] * 3
        lines.append(b",".join(cells))
    return b"\n".join(lines)


@pytest.mark.parametrize(("width", "is_dark"), SIZES)
@pytest.mark.parametrize("name", REPORTS)
def test_a_report_at_each_width(
    browser: Browser, place: Path, name: str, width: int, is_dark: bool
) -> None:
    """No overlap, cut text, broken word or weak contrast; names and order for a screen reader."""
    page = open_drawn(browser, place / f"{name}.html", width=width, dark=is_dark)
    assert redrawn(page, place / f"{name}.html") == []
    assert faults_of_structure(page) == []
    assert problems_opened(page) == []


@pytest.mark.parametrize("name", REPORTS)
def test_a_report_on_paper(browser: Browser, place: Path, name: str) -> None:
    assert problems_printed(open_drawn(browser, place / f"{name}.html")) == []


ROWS = [
    Row(
        "now/pump.csv",
        "PUMP",
        "Pump station Nordhafen, second stage",
        "2026-09-30",
        480,
        "EUR",
        100,
        forecast="2026-12-02",
        likely="2026-12-11",
        contract="2026-11-04",
        contract_name="contract date",
        late=20 * 480,
        missed=3,
        missed_first="Hand over the control cabinet to the operator",
        previous_as_of="2026-08-31",
        moved=3 * 480,
        latest=612345678,
        budget=582000000,
        overrun=30345678,
        first_budget=500000000,
        day_price=1234500,
        milestone=Milestone("Roof closed and inspected by the authority", "2026-10-14"),
        loads=(WeekLoad("C", "Crane", "2026-W40", 20), WeekLoad("C", "Crane", "2026-W41", 4000)),
        note="not carried over, as accepted: 3 calendars, 2 constraints",
    ),
    Row(
        "now/wing.csv",
        "WING",
        "North wing",
        "2026-07-30",
        480,
        "EUR",
        100,
        forecast="2027-02-02",
        contract="2027-02-10",
        contract_name="target date",
        late=-6 * 480,
        previous_as_of="2026-08-31",
        moved=-480,
        latest=112345678,
        budget=122000000,
        overrun=-9654322,
        day_price=234500,
        loads=(WeekLoad("C", "Crane", "2026-W41", 16),),
    ),
    Row("now/refused.csv", fault="record 12: F13 unknown event T9"),
]
"""Projects with long names and large amounts."""


@pytest.mark.parametrize(("width", "is_dark"), SIZES)
def test_a_portfolio_at_each_width(
    browser: Browser, place: Path, width: int, is_dark: bool
) -> None:
    page = browser.open((place / "portfolio.html").as_uri(), width=width, dark=is_dark)
    assert faults_of_structure(page) == []
    assert problems_opened(page) == []
    assert page.messages() == []


def test_a_portfolio_on_paper(browser: Browser, place: Path) -> None:
    assert problems_printed(browser.open((place / "portfolio.html").as_uri())) == []
