"""What a user's hands do in a page of the desk: keys, the mouse and files."""

from __future__ import annotations

import json
from pathlib import Path
from typing import Any

from page.browser import Page

ALT, CONTROL, SHIFT = 1, 2, 8
KEYS = {
    "Enter": 13,
    "Escape": 27,
    "Tab": 9,
    "Home": 36,
    "End": 35,
    "PageUp": 33,
    "PageDown": 34,
    "ArrowLeft": 37,
    "ArrowUp": 38,
    "ArrowRight": 39,
    "ArrowDown": 40,
    "Delete": 46,
    "Insert": 45,
    "F2": 113,
}
"""Keys without a text, with the codes that a keyboard has for them."""
LIVE = "document.documentElement?.classList.contains('live') === true"
"""Whether a page of the desk is drawn."""
SETTLED = "document.getElementById('saved').textContent.match(/saved/) !== null"


def press(page: Page, key: str, modifiers: int = 0, times: int = 1) -> None:
    """Presses a key, also with others held down."""
    code = KEYS.get(key, ord(key.upper()[0]))
    parts: dict[str, Any] = {"key": key, "windowsVirtualKeyCode": code, "modifiers": modifiers}
    if len(key) == 1:
        parts["code"] = f"Key{key.upper()}"
    text = "\r" if key == "Enter" else key if len(key) == 1 and not modifiers & CONTROL else ""
    for _ in range(times):
        kind = "keyDown" if text else "rawKeyDown"
        page.call("Input.dispatchKeyEvent", type=kind, **parts, **({"text": text} if text else {}))
        page.call("Input.dispatchKeyEvent", type="keyUp", **parts)


def write(page: Page, text: str) -> None:
    """Writes a text, letter by letter."""
    for letter in text:
        press(page, letter)


def click(page: Page, selector: str) -> None:
    """Clicks into the middle of an element, as a mouse does, after it was scrolled into view."""
    place = page.run(
        f"""(() => {{
        const target = document.querySelector({json.dumps(selector)});
        target.scrollIntoView({{ block: "nearest", inline: "nearest" }});
        const box = target.getBoundingClientRect();
        return [box.x + box.width / 2, box.y + box.height / 2];
    }})()"""
    )
    point(page, *place)


def point(page: Page, x: float, y: float, count: int = 1) -> None:
    """Clicks at a place of the window."""
    at = {"x": x, "y": y, "button": "left", "clickCount": count}
    page.call("Input.dispatchMouseEvent", type="mousePressed", **at)
    page.call("Input.dispatchMouseEvent", type="mouseReleased", **at)


def tab(page: Page, name: str) -> None:
    """Opens a panel of a project's page."""
    click(page, f"#tab-{name}")
    page.wait(f"!document.getElementById('panel-{name}').hidden")


def fill(page: Page, selector: str, value: str) -> None:
    """Gives a field a value, and leaves it, as after writing."""
    page.run(
        f"""(() => {{
        const field = document.querySelector({json.dumps(selector)});
        field.value = {json.dumps(value)};
        field.dispatchEvent(new Event("input", {{ bubbles: true }}));
        field.dispatchEvent(new Event("change", {{ bubbles: true }}));
    }})()"""
    )


def choose(page: Page, selector: str, file: Path) -> None:
    """Chooses a file in an input."""
    page.choose(selector, [file])


def focused(page: Page) -> str:
    """Returns the id of the element that has the focus, or its name and class without one."""
    found: str = page.run(
        """(() => {
        const at = document.activeElement;
        return at.id || `${at.tagName}.${at.className}`;
    })()"""
    )
    return found


def cell(page: Page) -> tuple[str, str]:
    """Returns the heading and the text of the cell that the keyboard is at, in the open table."""
    found: list[str] = page.run(
        """(() => {
        const grids = [...document.querySelectorAll("[role='grid']")];
        const grid = grids.find((each) => each.offsetParent !== null);
        const cell = document.getElementById(grid.getAttribute("aria-activedescendant"));
        const column = Number(cell.getAttribute("aria-colindex"));
        const head = grid.querySelector(`[role='columnheader'][aria-colindex='${column}']`);
        return [head.textContent, cell.textContent];
    })()"""
    )
    return found[0], found[1]
