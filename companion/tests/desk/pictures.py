"""Draws the pictures of docs/desk.md: python3 -m desk.pictures FOLDER, the folder for them.

The programs have to be on the path. Fonts differ between systems, so no test compares pictures.
"""

import base64
import sys
import tempfile
from pathlib import Path

from desk.hands import CONTROL, choose, click, fill, press, tab, write
from desk.opened import copied, folder_page, go, has_settled
from desk.serving import DeskProcess
from page.browser import Browser, Page
from running import EXAMPLES

WIDTH, HEIGHT = 1120, 640
FILES = [EXAMPLES / "house.csv", *(EXAMPLES / "pump").glob("april.*"), EXAMPLES / "garden.xer"]
WORK = "document.getElementById('work').textContent"


def draw(folder: Path) -> None:
    """Draws all pictures into a folder."""
    with tempfile.TemporaryDirectory() as scratch:
        plans = copied(Path(scratch) / "projects", FILES)
        with DeskProcess(plans) as desk, Browser() as browser:
            page = folder_page(browser, desk, WIDTH, HEIGHT)
            picture(page, folder / "desk-folder.png")
            import_plan(page, folder)
            draw_project(page, folder)


def import_plan(page: Page, folder: Path) -> None:
    """Imports the plan of the tutorial, and opens it."""
    fill(page, "[name='name']", "Refit of a flat")
    choose(page, "#file", EXAMPLES / "sheet.csv")
    page.wait("document.getElementById('make') !== null")
    page.run("document.getElementById('outcome').scrollIntoView()")
    picture(page, folder / "desk-import.png")
    fill(page, "#found p.buttons input", "refit")
    click(page, "#make")
    page.wait("document.querySelector('#found a.button') !== null")
    go(page, page.run("document.querySelector('#found a.button').pathname"))


def draw_project(page: Page, folder: Path) -> None:
    """Draws the panels of a project at 40 days, after an edit."""
    fill(page, "#days", "40")
    page.wait(f"{WORK} === '52,010'")
    page.run("document.getElementById('tasks').focus()")
    press(page, "Home", CONTROL)
    press(page, "ArrowDown", times=3)
    press(page, "ArrowRight", times=5)
    press(page, "Enter")
    write(page, "10")
    press(page, "Enter")
    has_settled(page)
    for name in ("tasks", "gantt", "network", "length"):
        tab(page, name)
        page.run("scrollTo(0, 0)")
        picture(page, folder / f"desk-{name}.png")


def picture(page: Page, path: Path) -> None:
    """Writes a picture of the window."""
    page.run("new Promise((done) => setTimeout(done, 700))")
    answer = page.call("Page.captureScreenshot", format="png")
    path.write_bytes(base64.b64decode(answer["data"]))


if __name__ == "__main__":
    draw(Path(sys.argv[1]))
