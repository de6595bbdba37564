"""Random clicks, keys and edits in the desk: python3 -m desk.clicking SECONDS [SEED].

The programs have to be on the path. It ends with an error if a script throws, if the console has
anything but what the desk refuses, if the server fails (5xx), or if the saved deck is not the one
that the commands of the desk's own history make.
"""

import random
import shlex
import sys
import tempfile
import time
from pathlib import Path

from desk.hands import CONTROL, SHIFT, fill, point, press, write
from desk.opened import complaints, copied, folder_page, go
from desk.serving import DeskProcess
from page.browser import Browser, Page
from pert_companion.desk.edits import edit_of, with_edits
from pert_companion.desk.projects import books_of
from pert_companion.desk.saving import files_of, read_files
from running import EXAMPLES

FILES = [EXAMPLES / "house.csv", *(EXAMPLES / "months").glob("april.*")]
KEYS = ["ArrowUp", "ArrowDown", "ArrowLeft", "ArrowRight", "Enter", "Escape", "Tab", "F2", "Home"]
KEYS += ["End", "PageDown", "PageUp", "Delete"]
DAYS = ["2026-05-04", "2024-04-01", "2024-03-01", "1999-12-31", ""]
TEXTS = ["3", "5", "12", "0", "7.5", "-1", "many", "", "2026-05-04", "400", "50", "A", "FOUND"]
BUTTONS = "button, summary, [role='tab'], [role='gridcell'], [role='rowheader'], select"
LEFT_OUT = "#revert, .skip"
"""What is not clicked: taking everything back is no step with a command."""
PLACES = f"""[...document.querySelectorAll("{BUTTONS}")]
    .filter((it) => !it.disabled && it.checkVisibility() && !it.matches("{LEFT_OUT}"))
    .map((it) => it.getBoundingClientRect()).filter((box) => box.width > 0)
    .map((box) => [box.x + Math.min(box.width / 2, 60), box.y + box.height / 2])
    .filter(([x, y]) => x > 0 && y > 0 && x < innerWidth && y < innerHeight)"""
FIELDS = """[...document.querySelectorAll("main input, main select, #slider, #days, #by")]
    .filter((it) => it.id !== "" && it.checkVisibility() && it.type !== "file")
    .map((it) => [it.id, it.type, [...(it.options ?? [])].map((option) => option.value)])"""


class Clicking:
    """Somebody who presses this and that in a page."""

    def __init__(self, page: Page, seed: int) -> None:
        self.page = page
        self.random = random.Random(seed)
        self.count = 0

    def act(self) -> None:
        """Does something."""
        self.count += 1
        acts = (self.click, self.click, self.key, self.key, self.edit, self.edit, self.field)
        self.random.choice(acts)()

    def click(self) -> None:
        """Clicks at something that can be clicked."""
        places = self.page.run(PLACES)
        if places:
            x, y = self.random.choice(places)
            point(self.page, x, y, self.random.choice((1, 1, 2)))

    def key(self) -> None:
        """Presses a key, or the keys for undo, redo and save."""
        chosen = self.random.choice([*KEYS, "z", "Z", "s"])
        if chosen in KEYS:
            press(self.page, chosen, times=self.random.randint(1, 4))
        else:
            press(self.page, chosen.lower(), CONTROL | (SHIFT if chosen == "Z" else 0))

    def edit(self) -> None:
        """Writes something into a cell of the table of tasks."""
        self.page.run("document.getElementById('tab-tasks').click()")
        for name, value in (("find", ""), ("only", "all"), ("columns", "all")):
            fill(self.page, f"#{name}", value)
        self.page.run("document.getElementById('tasks').focus()")
        press(self.page, "Home", CONTROL)
        press(self.page, "ArrowDown", times=self.random.randint(0, 20))
        press(self.page, "ArrowRight", times=self.random.randint(1, 12))
        press(self.page, "F2")
        write(self.page, self.random.choice(TEXTS))
        press(self.page, self.random.choice(["Enter", "Enter", "Tab", "Escape"]))

    def field(self) -> None:
        """Gives a field of the page some value."""
        fields = self.page.run(FIELDS)
        if not fields:
            return
        name, kind, values = self.random.choice(fields)
        if kind == "checkbox":
            self.page.run(f"document.getElementById('{name}').click()")
            return
        if kind in ("date", "range"):
            values = DAYS if kind == "date" else [str(self.random.randint(0, 60))]
        if values:
            fill(self.page, f"#{name}", self.random.choice(values))
        else:
            fill(self.page, f"#{name}", self.random.choice(TEXTS))


def failures(page: Page) -> list[str]:
    """Returns answers of the server that are no answers."""
    return [
        f"{answer['response']['status']} {answer['response']['url']}"
        for answer in page.events("Network.responseReceived")
        if answer["response"]["status"] >= 500
    ]


def by_commands(deck: Path, steps: list[dict[str, str]]) -> object:
    """Returns the files that the commands of a history make of a deck."""
    books = books_of(read_files(deck), deck)
    for step in steps:
        words = shlex.split(step["command"])
        if step["is_undone"] or words[:1] != ["pert-edit"]:
            continue
        edits = [edit_of(word) for word in words[2 : words.index("-o")]]
        books = with_edits(books, edits)
    return files_of(books)


def run(folder: Path, seconds: float, seed: int) -> int:
    """Clicks for some seconds, and returns how often; raises `AssertionError` at a fault."""
    copied(folder / "before", FILES)
    decks = [
        file for file in copied(folder / "plans", FILES).glob("*.csv") if "ledger" not in file.name
    ]
    count = 0
    with DeskProcess(folder / "plans") as desk, Browser() as browser:
        browser.call("Browser.setDownloadBehavior", behavior="deny")
        page = folder_page(browser, desk)
        projects = page.run(
            "fetch('/api/folder').then((it) => it.json()).then((it) => it.projects)"
        )
        ids = {project["file"]: project["id"] for project in projects}
        for place, deck in enumerate(decks):
            go(page, f"/projects/{ids[deck.name]}")
            hand = Clicking(page, seed + place)
            until = time.monotonic() + seconds / len(decks)
            while time.monotonic() < until:
                hand.act()
                assert page.run("location.pathname").startswith("/projects/")
                if hand.count % 50 == 0:
                    assert (
                        complaints(page) == []
                    ), f"seed {seed}, action {hand.count}: {complaints(page)}"
                    assert (
                        failures(page) == []
                    ), f"seed {seed}, action {hand.count}: {failures(page)}"
            settle(page)
            assert complaints(page) == [] and failures(page) == []
            history = f"fetch('/api/projects/{ids[deck.name]}/history').then((it) => it.json())"
            steps = page.run(history)["steps"]
            assert read_files(deck) == by_commands(folder / "before" / deck.name, steps), seed
            print(f"{deck.name}: {hand.count} actions, {len(steps)} steps", flush=True)
            count += hand.count
    return count


def settle(page: Page) -> None:
    """Leaves what is open, waits for the answers, and saves."""
    press(page, "Escape")
    page.run("document.querySelector('#trouble button')?.click()")
    page.wait("document.getElementById('main').getAttribute('aria-busy') === 'false'")
    page.run("document.getElementById('save').click()")
    page.wait("document.getElementById('saved').textContent === 'saved'")


if __name__ == "__main__":
    with tempfile.TemporaryDirectory() as scratch:
        wanted = [int(word) for word in sys.argv[1:]]
        run(Path(scratch), wanted[0], wanted[1] if len(wanted) > 1 else 1)
