"""The layout of the desk's pages, measured: each panel in four widths, dark, and on paper."""

from collections.abc import Iterator

import pytest

from desk.opened import complaints, copied, folder_page, has_settled, project_page
from desk.serving import DeskProcess
from page.browser import CHROMIUM, Browser, Page
from page.layout import faults_of_structure, problems, problems_printed
from running import HOUSE, MONTHS

pytestmark = pytest.mark.skipif(CHROMIUM is None, reason="chromium is missing")
PANELS = (
    "tasks",
    "gantt",
    "network",
    "length",
    "load",
    "status",
    "report",
    "compare",
    "changes",
    "hand",
)
SIZES = [(1400, False), (1280, True), (800, False), (390, False)]
LYING = 1025
"""The pixels of an A4 sheet that lies, between its margins of 13 mm."""
CUT = """[...document.querySelectorAll(".entry > .number, .entry > [role='columnheader']")]
    .filter((cell) => cell.checkVisibility() && cell.scrollWidth > cell.clientWidth + 1)
    .map((cell) => cell.textContent)"""
"""Numbers and headings of tables that have no room; names and links that are cut have a title."""


@pytest.fixture(name="desk", scope="module")
def _desk(tmp_path_factory: pytest.TempPathFactory) -> Iterator[DeskProcess]:
    """Runs a desk of a plan in a network and of one with progress."""
    files = [HOUSE, *MONTHS.glob("april.*")]
    with DeskProcess(copied(tmp_path_factory.mktemp("desk") / "plans", files)) as started:
        yield started


@pytest.fixture(name="page", scope="module")
def _page(desk: DeskProcess) -> Iterator[Page]:
    with Browser() as browser:
        yield folder_page(browser, desk)


def sized(page: Page, width: int, is_dark: bool) -> None:
    """Gives a page a window of a width, light or dark."""
    page.call(
        "Emulation.setDeviceMetricsOverride",
        width=width,
        height=900,
        deviceScaleFactor=1,
        mobile=False,
    )
    scheme = {"name": "prefers-color-scheme", "value": "dark" if is_dark else "light"}
    page.call("Emulation.setEmulatedMedia", media="screen", features=[scheme])


def opened(page: Page, panel: str) -> None:
    """Opens a panel, and waits for what it asks the server."""
    page.run(f"document.getElementById('tab-{panel}').click()")
    has_settled(page)
    page.run("new Promise((done) => requestAnimationFrame(() => requestAnimationFrame(done)))")


@pytest.mark.parametrize(("width", "is_dark"), SIZES)
def test_the_folder_at_each_width(page: Page, width: int, is_dark: bool) -> None:
    if page.run("location.pathname") != "/":
        page.run("location.assign('/')")
        page.wait("location.pathname === '/' && document.querySelector('#filters button') !== null")
    sized(page, width, is_dark)
    assert problems(page) == []
    assert faults_of_structure(page) == []


@pytest.mark.parametrize("name", ["house", "april"])
def test_a_project_at_each_width_and_on_paper(page: Page, name: str) -> None:
    """Each panel of a project is measured in each window, and then as it is printed."""
    found = []
    if page.run("location.pathname") != "/":
        page.run("location.assign('/')")
        page.wait("location.pathname === '/' && document.querySelector('#filters button') !== null")
    project_page(page, name)
    for width, is_dark in SIZES:
        sized(page, width, is_dark)
        for panel in PANELS:
            opened(page, panel)
            found += [f"{panel} at {width}: {problem}" for problem in problems(page)]
            found += [f"{panel} at {width}: cut {text}" for text in page.run(CUT)]
    for panel in PANELS:
        opened(page, panel)
        found += [f"{panel} on paper: {problem}" for problem in problems_printed(page, LYING)]
        sized(page, 1280, False)
    assert found == [], "\n".join(found)
    assert complaints(page) == []
