"""Draws the pictures of the documents: python3 -m page.pictures FOLDER, the folder for them.

The programs have to be on the path. Fonts differ between systems, so no test compares pictures.
"""

import base64
import sys
import tempfile
from collections.abc import Mapping
from itertools import product
from pathlib import Path

from page.browser import Browser, Page
from page.certificates import HOUSE, house_with_terms
from page.reports import DRAWN, plan_without_status, write_page

WIDTH, HEIGHT = 1120, 1500
SECTIONS = "document.querySelectorAll('section, #differences')"
TERMS = b"TERMS,90,30,40,70\nEND\n"
PICTURES = [
    ("house-report", "rest", "#length=21", "body", 1300),
    ("house-report-curve", "plan", "#length=30", "#length figure", 0),
    ("house-report-optimum", "terms", "", "#length", 0),
    ("house-report-load", "plan", "", "#load", 0),
    ("house-report-value", "rest", "", "#value", 0),
]
"""Name, deck, address, what is drawn, and how high if that is less."""


def write_pages(folder: Path) -> None:
    """Writes the pages of which pictures are drawn."""
    plan = plan_without_status()
    decks = {
        "rest": HOUSE.read_bytes(),
        "plan": plan,
        "terms": plan.replace(b"END\n", TERMS),
    }
    for name, text in decks.items():
        (folder / f"{name}.csv").write_bytes(text)
        write_page(folder / f"{name}.csv", folder / f"{name}.html")


def write_report(folder: Path) -> Path:
    """Writes the page of the house with a contract and a price of time, and returns its path."""
    now = house_with_terms().replace(b"2024-03-04,1,,", b"2024-03-04,1,33,")
    before = now.replace(b"ASOF,2024-03-18", b"ASOF,2024-03-11")
    texts = {"house": now, "before": before, "first": plan_without_status()}
    for name, text in texts.items():
        (folder / f"{name}.csv").write_bytes(text)
    others = {"previous": folder / "before.csv", "baseline": folder / "first.csv"}
    write_page(folder / "house.csv", folder / "house.html", **others)
    return folder / "house.html"


def screenshot(page: Page, path: Path, box: Mapping[str, float], margin: int, most: int) -> None:
    """Writes a picture of a part of a page, at most so high unless that is 0."""
    height = box["height"] + 2 * margin
    clip = {
        "x": max(0, box["x"] - margin),
        "y": max(0, box["y"] - margin),
        "width": box["width"] + 2 * margin,
        "height": min(height, most or height),
        "scale": 1,
    }
    answer = page.call(
        "Page.captureScreenshot", format="png", captureBeyondViewport=True, clip=clip
    )
    path.write_bytes(base64.b64decode(answer["data"]))


def opened(browser: Browser, address: str, width: int, dark: bool = False) -> Page:
    """Returns a page with all that it draws."""
    page = browser.open(address, width=width, dark=dark)
    page.wait(DRAWN)
    page.run("document.documentElement.style.overflow = 'hidden'")
    page.run(f"{SECTIONS}.forEach((it) => (it.style.contentVisibility = 'visible'))")
    return page


def draw_sections(browser: Browser, pages: Path, folder: Path) -> None:
    """Draws the pictures that the documents show."""
    write_pages(pages)
    for name, deck, address, selector, most in PICTURES:
        page = opened(browser, (pages / f"{deck}.html").as_uri() + address, WIDTH)
        box = page.run(f"document.querySelector('{selector}').getBoundingClientRect().toJSON()")
        screenshot(page, folder / f"{name}.png", box, 0 if selector == "body" else 24, most)


def draw_report(browser: Browser, pages: Path, folder: Path) -> None:
    """Draws the top of a report at three widths, light and dark, and all of it on paper."""
    address = write_report(pages).as_uri()
    folder.mkdir(exist_ok=True)
    for width, is_dark in product((1400, 800, 390), (False, True)):
        page = opened(browser, address, width, is_dark)
        box = {"x": 0, "y": 0, "width": width, "height": HEIGHT}
        name = f"house-{width}-{'dark' if is_dark else 'light'}.png"
        screenshot(page, folder / name, box, 0, HEIGHT)
    paper = opened(browser, address, WIDTH)
    answer = paper.call("Page.printToPDF", printBackground=True, paperWidth=8.27, paperHeight=11.69)
    (folder / "house.pdf").write_bytes(base64.b64decode(answer["data"]))


def draw(folder: Path) -> None:
    """Draws all pictures into a folder, and those of a report into `report` in it."""
    with tempfile.TemporaryDirectory() as scratch, Browser() as browser:
        draw_sections(browser, Path(scratch), folder)
        draw_report(browser, Path(scratch), folder / "report")


if __name__ == "__main__":
    draw(Path(sys.argv[1]))
