"""The desk in a browser: tutorial, keyboard, two tabs, a desk that ends, sizes of windows."""

import signal
import zipfile
from collections.abc import Iterator
from pathlib import Path

import pytest

from desk.hands import (
    CONTROL,
    SHIFT,
    cell,
    choose,
    click,
    fill,
    focused,
    press,
    tab,
    write,
)
from desk.opened import (
    complaints,
    copied,
    figures,
    folder_page,
    go,
    has_settled,
    project_page,
    second_tab,
)
from desk.serving import DeskProcess
from page.browser import CHROMIUM, Browser, Page
from page.layout import faults_of_structure
from pert_companion.desk.edits import edit_of, with_edits
from pert_companion.desk.projects import books_of
from pert_companion.desk.saving import files_of, read_files
from pert_companion.model.deck import read_deck
from running import EXAMPLES, HOUSE

pytestmark = pytest.mark.skipif(CHROMIUM is None, reason="chromium is missing")
PANELS = (
    "tasks",
    "gantt",
    "network",
    "length",
    "load",
    "status",
    "report",
    "compare",
    "changes",
    "hand",
)
SHEET = EXAMPLES / "sheet.csv"
CRITICAL_AT_40 = ["Survey the rooms", "Building permit", "Draw the plans"]


@pytest.fixture(scope="module")
def browser() -> Iterator[Browser]:
    with Browser() as started:
        yield started


@pytest.fixture
def desk(tmp_path: Path) -> Iterator[DeskProcess]:
    """Runs a desk of a folder with the plan of a house, whose normal length is 35 days."""
    with DeskProcess(copied(tmp_path / "plans", [HOUSE])) as started:
        yield started


def house(browser: Browser, desk: DeskProcess) -> Page:
    return project_page(folder_page(browser, desk), "house")


def go_to(page: Page, task: str, column: str) -> None:
    """Moves to a cell of the table of tasks by keyboard."""
    page.run("document.getElementById('tasks').focus()")
    press(page, "Home", CONTROL)
    while not cell(page)[1].startswith(task):
        press(page, "ArrowDown")
    while cell(page)[0] != column:
        press(page, "ArrowRight")


def set_cell(page: Page, task: str, column: str, text: str) -> None:
    """Writes into a cell of the table of tasks, and waits for the answer."""
    go_to(page, task, column)
    press(page, "Enter")
    write(page, text)
    press(page, "Enter")
    has_settled(page)


def set_cell_of(page: Page, panel: str, task: str, column: str, text: str) -> None:
    """Opens a panel, and writes into a cell of its table."""
    tab(page, panel)
    set_cell(page, task, column, text)


def test_tutorial(browser: Browser, tmp_path: Path) -> None:
    """The tutorial for planners, done in the desk: the same figures at each step."""
    folder = copied(tmp_path / "plans", [])
    with DeskProcess(folder) as desk:
        page = folder_page(browser, desk)
        assert page.text("#none") == "There is no project yet. Open a planner’s file above."
        import_refit(page)
        assert {"refit.csv", "refit.json"} <= {file.name for file in folder.iterdir()}
        go(page, page.run("document.querySelector('#found a.button').pathname"))
        read_the_curve(page)
        choose_forty_days(page)
        tab(page, "hand")
        assert "your own file" not in page.text("#formats")  # a list takes no schedule back
        click(page, "[data-format='xlsx']")
        page.wait("document.querySelector('#exported a') !== null")
        path = page.run("document.querySelector('#exported a').pathname")
        book = desk_file(page, path, tmp_path / "refit-40.xlsx")
        with zipfile.ZipFile(book) as parts:
            assert "xl/workbook.xml" in parts.namelist()

        tab(page, "tasks")
        set_cell(page, "Windows, made to order", "Shortest", "10")
        set_cell(page, "Windows, made to order", "A day less", "200")
        assert figures(page)["work"] == "52,030"
        press(page, "z", CONTROL, times=2)
        page.wait("document.getElementById('work').textContent === '52,010'")
        assert complaints(page) == []


def import_refit(page: Page) -> None:
    """Opens the list of the tutorial, reads what the desk says of it, and makes the project."""
    choose(page, "#file", SHEET)
    page.wait("document.getElementById('make') !== null")
    found = page.text("#found")
    assert "25 tasks, 34 links, 21 shorter durations" in found
    assert "the first day is 2024-03-04, the earliest start in the list" in found
    assert "3 of 25 tasks have your planner's dates; 22 differ" in found
    fill(page, "#found p.buttons input", "refit")
    click(page, "#make")
    page.wait("document.querySelector('#found a.button') !== null")


def read_the_curve(page: Page) -> None:
    """Compares the figures of the refit, and its curve, with those of the tutorial."""
    assert figures(page) == {
        "end": "3 May 2024",
        "work": "51,150",
        "next": "+90",
        "against": "+0",
    }
    tab(page, "length")
    points = page.run(
        "[...document.querySelectorAll('#points tbody tr')].map((row) => row.innerText)"
    )
    assert [text.split("\t")[0] for text in points[:3]] == ["45 days", "44 days", "42 days"]
    assert points[-1].split("\t")[2] == "54,830"


def choose_forty_days(page: Page) -> None:
    """Chooses 40 days, and looks at the tasks that are critical then."""
    fill(page, "#days", "40")
    page.wait("document.getElementById('work').textContent === '52,010'")
    assert figures(page)["end"] == "26 Apr 2024"
    assert figures(page)["next"] == "+320"
    assert figures(page)["against"] == "+860"
    tab(page, "tasks")
    fill(page, "#only", "critical")
    page.wait("document.getElementById('tasks').innerText.includes('Survey the rooms')")
    names = page.run(
        "[...document.querySelectorAll('#tasks .task .name bdi')].map((it) => it.textContent)"
    )
    assert set(CRITICAL_AT_40) <= set(names) and "Clean and hand over" in names
    assert len(names) < 25
    fill(page, "#only", "all")


def desk_file(page: Page, path: str, target: Path) -> Path:
    """Returns a file with what the page gets from an address of the desk."""
    data = page.run(
        f"fetch('{path}').then((it) => it.arrayBuffer()).then((it) => [...new Uint8Array(it)])"
    )
    target.write_bytes(bytes(data))
    return target


def test_edit_moves_the_end_and_is_undone(browser: Browser, desk: DeskProcess) -> None:
    page = house(browser, desk)
    before = figures(page)
    set_cell(page, "Roof", "Normal", "9")
    assert page.text("#saved") == "not saved yet"
    assert figures(page) != before
    press(page, "z", CONTROL)
    page.wait(f"document.getElementById('end').textContent === '{before['end']}'")
    assert figures(page) == before
    press(page, "z", CONTROL | SHIFT)
    page.wait(f"document.getElementById('end').textContent !== '{before['end']}'")
    press(page, "s", CONTROL)
    page.wait("document.getElementById('saved').textContent === 'saved'")
    assert complaints(page) == []


def test_refused_edit_says_why_at_the_cell(browser: Browser, desk: DeskProcess) -> None:
    page = house(browser, desk)
    before = figures(page)
    go_to(page, "Roof", "Normal")
    text = cell(page)[1]
    press(page, "Enter")
    write(page, "many")
    press(page, "Enter")
    has_settled(page)
    press(page, "ArrowUp")
    assert cell(page) == ("Normal", text)
    assert page.text(".note").startswith("Not changed: ")
    assert "“many”" in page.text(".note")
    assert figures(page) == before
    assert page.text("#saved") == "saved"
    assert complaints(page) == []


def test_escape_changes_nothing_and_tab_goes_on(browser: Browser, desk: DeskProcess) -> None:
    page = house(browser, desk)
    go_to(page, "Roof", "Normal")
    text = cell(page)[1]
    press(page, "F2")
    write(page, "77")
    press(page, "Escape")
    assert cell(page) == ("Normal", text)
    assert focused(page) == "tasks"
    press(page, "Enter")
    press(page, "Tab")
    assert cell(page)[0] == "Shortest"
    assert "editor" in focused(page)
    press(page, "Escape")
    assert page.text("#saved") == "saved"


def test_keyboard_alone(browser: Browser, desk: DeskProcess) -> None:
    """From the folder to a changed, saved plan at a chosen length, without a mouse."""
    page = folder_page(browser, desk)
    page.run("document.body.focus()")
    tab_to(page, "document.activeElement.textContent === 'House, two floors'")
    press(page, "Enter")
    page.wait("location.pathname.startsWith('/projects/')")
    page.wait("document.documentElement?.classList.contains('live') === true")
    tab_to(page, "document.activeElement.id === 'slider'")
    press(page, "ArrowLeft", times=2)
    page.wait("document.getElementById('days').value !== document.getElementById('slider').max")
    tab_to(page, "document.activeElement.id === 'tab-tasks'")
    press(page, "ArrowRight")
    assert focused(page) == "tab-gantt"
    press(page, "ArrowLeft")
    tab_to(page, "document.activeElement.id === 'tasks'")
    press(page, "ArrowDown")
    while cell(page)[0] != "Cost":
        press(page, "ArrowRight")
    write(page, "999")
    press(page, "Enter")
    has_settled(page)
    press(page, "s", CONTROL)
    page.wait("document.getElementById('saved').textContent === 'saved'")
    assert complaints(page) == []


def tab_to(page: Page, condition: str) -> None:
    """Presses Tab until the focus is where a condition has it."""
    for _ in range(60):
        press(page, "Tab")
        if page.run(condition):
            return
    raise AssertionError(f"no number of Tab reaches this: {condition}")


def test_second_tab_is_told(browser: Browser, desk: DeskProcess) -> None:
    """The second tab is told of the first one's edit, and its own edit is not lost."""
    first = house(browser, desk)
    second = second_tab(browser, first)
    set_cell(first, "Roof", "Cost", "1234")
    set_cell_or_wait(second, "Paint", "Normal", "7")
    if second.run("!document.getElementById('trouble').hidden"):
        assert "normal of Paint: 7" in second.text("#trouble")
        click(second, "#trouble button")
        second.wait("document.getElementById('trouble').hidden")
    has_settled(second)
    go_to(second, "Roof", "Cost")
    assert cell(second)[1] == "1,234"
    go_to(second, "Paint", "Normal")
    assert cell(second)[1] == "7"
    assert complaints(first) == complaints(second) == []


@pytest.mark.parametrize("choice", ["Take that file, with my edits on top", "Stay with mine"])
def test_a_file_that_somebody_else_changed(
    browser: Browser, desk: DeskProcess, tmp_path: Path, choice: str
) -> None:
    """The page tells it by itself, with the difference; no edit is lost, on either side."""
    page, deck = house(browser, desk), tmp_path / "plans" / "house.csv"
    set_cell(page, "Roof", "Cost", "1234")
    theirs = edited(deck, "WALLS.normal=9")
    deck.write_bytes(theirs)
    page.wait("!document.getElementById('trouble').hidden")
    assert "Somebody else changed the file." in page.text("#trouble")
    assert "normal duration" in page.text("#trouble details")
    assert "+ACT,WALLS" in page.run("document.querySelector('#trouble .diff').textContent")
    buttons = "[...document.querySelectorAll('#trouble button')]"
    page.run(f"{buttons}.find((it) => it.textContent === '{choice}').click()")
    page.wait("document.getElementById('trouble').hidden")
    has_settled(page)
    set_cell(page, "Paint", "Normal", "7")
    press(page, "s", CONTROL)
    page.wait("document.getElementById('saved').textContent === 'saved'")
    cards = {card.code: card for card in read_deck(deck).activities}
    assert (cards["ROOF"].cost, cards["PAINT"].normal) == (1234, 7)
    assert cards["WALLS"].normal == (9 if choice.startswith("Take") else 10)
    kept = tmp_path / "plans" / ".pert-desk" / "before" / "house"
    assert any(file.read_bytes() == theirs for file in kept.glob("*.csv"))
    assert complaints(page) == []


def edited(deck: Path, word: str) -> bytes:
    """Returns the deck of a file after an edit by the package."""
    books = with_edits(books_of(read_files(deck), deck), [edit_of(word)])
    return files_of(books).deck


def test_a_task_is_added_linked_and_removed_by_keyboard(browser: Browser, tmp_path: Path) -> None:
    """Insert names it, its links are written by row; Ctrl+Delete removes it, and undo brings it."""
    with DeskProcess(copied(tmp_path / "plans", [])) as desk:
        desk.enter()
        desk.imported(EXAMPLES / "garden.xml")
    with DeskProcess(tmp_path / "plans") as desk:
        page = project_page(folder_page(browser, desk), "garden")
        go_to(page, "Pour the slab", "Task")
        press(page, "Insert")
        assert focused(page) == "new-task"
        write(page, "Lay the drain")
        press(page, "Enter")
        page.wait("document.querySelector('#tasks .at')?.textContent === 'Lay the drain'")
        assert focused(page) == "tasks"
        set_cell(page, "Lay the drain", "After", "3SS+2d")
        go_to(page, "Lay the drain", "After")
        assert cell(page)[1] == "T3SS+2d"
        press(page, "Delete", CONTROL)
        page.wait("document.getElementById('shown').textContent === '7 tasks'")
        press(page, "z", CONTROL)
        page.wait("document.getElementById('shown').textContent === '8 tasks'")
        go_to(page, "Lay the drain", "After")
        assert cell(page)[1] == "T3SS+2d"
        assert complaints(page) == []


def set_cell_or_wait(page: Page, task: str, column: str, text: str) -> None:
    """Writes into a cell, and waits for the answer or for what stops it."""
    go_to(page, task, column)
    press(page, "Enter")
    write(page, text)
    press(page, "Enter")
    busy = "document.getElementById('main').getAttribute('aria-busy') === 'true'"
    page.wait(f"!document.getElementById('trouble').hidden || !({busy})")


def test_edit_outlives_the_desk(browser: Browser, tmp_path: Path) -> None:
    """An edit that a killed desk did not get waits in the page, and goes to the next desk."""
    folder = copied(tmp_path / "plans", [HOUSE])
    with DeskProcess(folder) as desk:
        page = house(browser, desk)
        port = desk.origin.rpartition(":")[2]
        desk.end(signal.SIGKILL)
        go_to(page, "Roof", "Cost")
        press(page, "Enter")
        write(page, "4321")
        press(page, "Enter")
        page.wait("!document.getElementById('trouble').hidden")
        assert "pert-desk does not answer" in page.text("#trouble")
        assert "cost of Roof: 4321" in page.text("#trouble")
        assert page.text("#saved") == "1 edit not sent"
    with DeskProcess(folder, "--port", port) as again:
        other = browser.open("about:blank")
        other.call("Page.navigate", url=again.address)
        other.wait("location.search === '' && location.pathname === '/'")
        for _ in range(3):
            hidden = "document.getElementById('trouble').hidden"
            page.wait(f"document.querySelector('#trouble button') !== null || {hidden}")
            if page.run(hidden):
                break
            page.run("document.querySelector('#trouble button')?.click()")
            page.wait("document.getElementById('trouble').hidden || true")
        page.wait("document.getElementById('trouble').hidden")
        has_settled(page)
        go_to(page, "Roof", "Cost")
        assert cell(page)[1] == "4,321"


def test_losses_are_ticked_before_there_is_a_project(browser: Browser, tmp_path: Path) -> None:
    """A list with a link to nothing: the loss is shown, and nothing is made until it is ticked."""
    folder = copied(tmp_path / "plans", [])
    plan = tmp_path / "shed.csv"
    plan.write_text("Task,Duration,Predecessors\nDig,3,\nWall,4,Dig\nRoof,2,9\n", "utf-8")
    with DeskProcess(folder) as desk:
        page = folder_page(browser, desk)
        fill(page, "[name='start']", "2026-04-01")
        choose(page, "#file", plan)
        page.wait("document.getElementById('make') !== null")
        assert page.run("document.getElementById('make').disabled")
        assert "9" in page.text(".finding")
        assert list(folder.glob("*.csv")) == []
        click(page, ".finding input")
        assert not page.run("document.getElementById('make').disabled")
        click(page, "#make")
        page.wait("document.querySelector('#found a.button') !== null")
        assert {file.name for file in folder.glob("*.csv")} == {"shed.csv", "shed-plan.csv"}
        go(page, page.run("document.querySelector('#found a.button').pathname"))
        assert page.run("document.getElementById('days').value") == "7"
        assert complaints(page) == []


def test_status_state_and_comparison(browser: Browser, desk: DeskProcess) -> None:
    """A month's end: the data date, progress, save as a state, and what it is against it later."""
    page = house(browser, desk)
    tab(page, "status")
    fill(page, "#data-date", "2024-03-20")
    has_settled(page)
    page.wait("document.getElementById('as-of').textContent === 'as of 20 Mar 2024'")
    fill(page, "#state-date", "2024-03-20")
    click(page, "#save-state")
    page.wait("document.getElementById('state-saved').textContent.includes('20 Mar 2024')")
    set_cell_of(page, "tasks", "Roof", "Normal", "9")
    tab(page, "compare")
    page.wait("document.querySelectorAll('#with option').length > 1")
    options = page.run("[...document.querySelectorAll('#with option')].map((it) => it.textContent)")
    place = next(place for place, text in enumerate(options) if "saved state" in text)
    fill(page, "#with", page.run(f"document.querySelectorAll('#with option')[{place}].value"))
    page.wait("document.querySelector('#comparison pre') !== null")
    assert "pert-compare" in page.text("#comparison .command")
    tab(page, "changes")
    page.wait("document.querySelectorAll('.history li').length > 0")
    assert "ROOF.normal=9" in page.text("#history")
    assert "Roof" in page.text("#changes-list")
    assert complaints(page) == []


def test_vouchers_are_booked_by_drop(browser: Browser, tmp_path: Path) -> None:
    """A list of vouchers is shown before it is booked, and can be taken back."""
    files = [EXAMPLES / "pump" / name for name in ("march.csv", "march.json", "march.ledger.csv")]
    with DeskProcess(copied(tmp_path / "plans", files)) as desk:
        page = project_page(folder_page(browser, desk), "march")
        tab(page, "status")
        fill(page, "#data-date", "2026-04-30")
        has_settled(page)
        choose(page, "#vouchers", EXAMPLES / "pump" / "lists" / "april-vouchers.csv")
        page.wait("document.querySelector('#booking button') !== null")
        assert "pert-ledger" in page.text("#booking")
        for box in range(page.run("document.querySelectorAll('#booking input').length")):
            page.run(f"document.querySelectorAll('#booking input')[{box}].click()")
        click(page, "#booking button.strong")
        has_settled(page)
        page.wait("!document.getElementById('undo').disabled")
        tab(page, "changes")
        page.wait("document.querySelectorAll('.history li').length > 1")
        assert "vouchers" in page.text("#changes-list")
        assert complaints(page) == []


def test_hands_the_plan_back(browser: Browser, tmp_path: Path) -> None:
    """From GanttProject's file to a shorter plan in that file, the certificate checked."""
    with DeskProcess(copied(tmp_path / "plans", [EXAMPLES / "garden.gan"])) as desk:
        page = folder_page(browser, desk)
        click(page, "#waiting button")
        page.wait("document.getElementById('make') !== null")
        for box in range(page.run("document.querySelectorAll('.finding input').length")):
            page.run(f"document.querySelectorAll('.finding input')[{box}].click()")
        click(page, "#make")
        page.wait("document.querySelector('#found a.button') !== null")
        go(page, page.run("document.querySelector('#found a.button').pathname"))
        tab(page, "hand")
        click(page, "#check")
        page.wait("document.querySelector('#checked .hint') !== null")
        assert "holds" in page.text("#checked") and "certified" in page.text("#checked")
        click(page, "[data-format='into']")
        page.wait("document.querySelector('#exported a, #exported .warn') !== null")
        path = page.run("document.querySelector('#exported a').pathname")
        written = desk_file(page, path, tmp_path / "back.gan").read_bytes()
        assert written.startswith(b"<?xml") and b"</project>" in written
        assert complaints(page) == []


@pytest.mark.parametrize("width", [390, 768, 1280])
def test_every_panel_fits_the_window(browser: Browser, desk: DeskProcess, width: int) -> None:
    page = folder_page(browser, desk, width, 844)
    assert faults_of_structure(page) == []
    assert is_as_wide_as_its_window(page)
    project_page(page, "house")
    for panel in PANELS:
        page.run(f"document.getElementById('tab-{panel}').click()")
        assert faults_of_structure(page) == [], panel
        assert is_as_wide_as_its_window(page), panel
    assert complaints(page) == []


def is_as_wide_as_its_window(page: Page) -> bool:
    fits: bool = page.run("document.documentElement.scrollWidth <= innerWidth")
    return fits


def test_asks_its_own_server_alone(browser: Browser, desk: DeskProcess) -> None:
    page = house(browser, desk)
    for panel in PANELS:
        page.run(f"document.getElementById('tab-{panel}').click()")
    page.wait("document.getElementById('report').contentDocument?.readyState === 'complete'")
    others = [
        url for url in page.requests() if not url.startswith((desk.origin, "about:", "data:"))
    ]
    assert others == []
    assert complaints(page) == []
