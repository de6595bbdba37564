"""A brief page is one sheet of paper, whatever the project."""

import random
from collections.abc import Iterator
from pathlib import Path

import pytest

from page.browser import CHROMIUM, Browser
from page.certificates import TOP, house_with_terms
from page.reports import open_drawn, write_page
from page.test_chosen_length import write_plan
from page.test_report_page import pages_of
from test_two_calendars import site_plan

pytestmark = pytest.mark.skipif(CHROMIUM is None, reason="chromium is missing")
EXAMPLES = TOP / "examples"
PAPERS = {
    "A4": {"paperWidth": 8.27, "paperHeight": 11.69},
    "letter": {"paperWidth": 8.5, "paperHeight": 11.0},
}
TASKS, PACKAGES = 500, 20
SHOWN = """[...document.querySelectorAll('.gantt tr.task')]
    .filter((row) => getComputedStyle(row).display !== 'none').length"""


@pytest.fixture(name="browser", scope="module")
def _browser() -> Iterator[Browser]:
    with Browser() as started:
        yield started


def large_deck() -> str:
    """Returns a deck of 500 tasks, many of them critical, in 20 packages with accounts."""
    chance = random.Random(5)
    budgets = [0] * PACKAGES
    tasks, links = [], []
    for number in range(TASKS):
        days = chance.randint(3, 15)
        slope, code = chance.randint(1, 50), f"T{number:03}"
        estimates = f"{days - 2},{days},{days + 6},{days},{days - 2}"
        package = number % PACKAGES
        tasks.append(f"TASK,{code},W{package},{estimates},{days * 10},{slope},Task {number}")
        budgets[package] += days * 10
        if number >= PACKAGES:
            links.append(f"AFTER,{code},T{number - chance.randint(1, PACKAGES):03}")
    items = [f"WBS,W{package},BIG,Part {package} of the works" for package in range(PACKAGES)]
    accounts = [f"ACCT,A{place},W{place},{budget}," for place, budget in enumerate(budgets)]
    start = ["PROJECT,BIG,S,T,2026-03-02,1,,A large project", "WBS,BIG,,Big"]
    return "\n".join([*start, *items, *tasks, *links, *accounts, "END\n"])


def brief_decks(folder: Path) -> dict[str, Path]:
    """Returns decks by name: examples, one with odd names, several calendars, and a large one."""
    (folder / "terms.csv").write_bytes(house_with_terms())
    (folder / "large.csv").write_text(large_deck())
    return {
        "house": EXAMPLES / "house.csv",
        "months": EXAMPLES / "months" / "may.csv",
        "pump": EXAMPLES / "pump" / "april.csv",
        "odd": TOP / "companion" / "tests" / "cases" / "pages" / "d1-2.csv",
        "terms": folder / "terms.csv",
        "calendars": write_plan(folder, site_plan()),
        "large": folder / "large.csv",
    }


def test_a_brief_page_is_one_sheet(browser: Browser, tmp_path: Path) -> None:
    """Also where many tasks are shortened."""
    counts = {}
    for name, deck in brief_decks(tmp_path).items():
        path = tmp_path / f"{name}.html"
        write_page(deck, path, brief=True)
        page = open_drawn(browser, path)
        for paper, size in PAPERS.items():
            counts[name, paper] = pages_of(page, tmp_path / "brief.pdf", **size)
    assert counts == dict.fromkeys(counts, 1)


def test_a_brief_page_of_many_tasks_has_the_first_of_them(browser: Browser, tmp_path: Path) -> None:
    """It says so, and a screen shows all that are critical."""
    (tmp_path / "large.csv").write_text(large_deck())
    gathered = write_page(tmp_path / "large.csv", tmp_path / "large.html", brief=True)
    page = open_drawn(browser, tmp_path / "large.html")
    critical = sum(task.is_critical for task in gathered.schedule.tasks)
    assert page.run(SHOWN) == critical > 14
    page.call("Emulation.setEmulatedMedia", media="print")
    assert page.run(SHOWN) == 14
    text = page.run("document.querySelector('#schedule .hint').textContent")
    assert text.startswith("On paper the first 14 tasks that are critical, late or near, of 500")
