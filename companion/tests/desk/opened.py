"""Pages of a desk, opened in the browser as a user opens them."""

from collections.abc import Sequence
from pathlib import Path

from desk.hands import LIVE
from desk.serving import DeskProcess
from page.browser import Browser, Page

REFUSALS = ("status of 409", "status of 422")
"""What the browser itself notes in the console when the desk refuses something."""


def folder_page(browser: Browser, desk: DeskProcess, width: int = 1280, height: int = 850) -> Page:
    """Opens the address that a desk printed, and waits until all projects are there."""
    page = browser.open("about:blank", width=width, height=height)
    page.call("Emulation.setFocusEmulationEnabled", enabled=True)
    page.call("Page.navigate", url=desk.address)
    page.wait(f"location.pathname === '/' && location.search === '' && {LIVE}")
    return page


def project_page(page: Page, name: str) -> Page:
    """Opens the project of a deck from the page of the folder, in the same tab."""
    heads = "[...document.querySelectorAll('#projects tbody th')]"
    has_name = f"(head) => head.querySelector('small').textContent.startsWith('{name}.csv')"
    path = page.run(f"{heads}.find({has_name}).querySelector('a').pathname")
    go(page, path)
    return page


def go(page: Page, path: str) -> None:
    """Goes to an address of the desk, and waits until it is drawn."""
    page.run(f"document.documentElement.classList.remove('live'); location.assign('{path}')")
    page.wait(f"location.pathname === '{path}' && {LIVE}")


def second_tab(browser: Browser, page: Page, width: int = 1280, height: int = 850) -> Page:
    """Opens the same project in another tab."""
    other = browser.open("about:blank", width=width, height=height)
    other.call("Emulation.setFocusEmulationEnabled", enabled=True)
    other.call("Page.navigate", url=page.run("location.origin + location.pathname"))
    other.wait(f"location.pathname !== 'blank' && {LIVE}")
    return other


def figures(page: Page) -> dict[str, str]:
    """Returns the figures of the chosen length, as they are shown."""
    names = ("end", "work", "next", "against")
    return {name: page.text(f"#{name}").replace("\u00a0", " ") for name in names}


def has_settled(page: Page) -> None:
    """Waits until the desk has answered all that was changed."""
    page.wait("document.getElementById('main').getAttribute('aria-busy') === 'false'")


def complaints(page: Page) -> list[str]:
    """Returns what is in the console besides the desk's refusals, which the page shows itself."""
    return [text for text in page.messages() if not any(refusal in text for refusal in REFUSALS)]


def copied(folder: Path, files: Sequence[Path]) -> Path:
    """Returns a new folder with copies of files."""
    folder.mkdir()
    for file in files:
        (folder / file.name).write_bytes(file.read_bytes())
    return folder
