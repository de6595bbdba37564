"""Measures the layout of a page in the browser: overlaps, cut texts, broken words, contrast."""

from pathlib import Path

from page.browser import Page

HERE = Path(__file__).parent
MEASURE = (HERE / "layout.js").read_text("utf-8")
STRUCTURE = (HERE / "structure.js").read_text("utf-8")
OPENED = """
for (const it of document.querySelectorAll("details")) it.open = true;
for (const it of document.querySelectorAll("section, #differences")) {
    it.style.contentVisibility = "visible";
}
"""
PAPER = 695
"""The pixels of an A4 sheet between its margins of 13 mm."""


def problems(page: Page) -> list[str]:
    """Returns what is wrong with the layout of a page at the size of its window, each once."""
    found: list[str] = page.run(MEASURE)
    return found


def problems_opened(page: Page) -> list[str]:
    """Returns the same with all that a reader can open, also where the window does not show it."""
    page.run(f"(() => {{ {OPENED} }})()")
    return problems(page)


def problems_printed(page: Page, width: int = PAPER) -> list[str]:
    """Returns what is wrong with the layout on paper of a width in pixels."""
    page.call("Emulation.setEmulatedMedia", media="print")
    page.call(
        "Emulation.setDeviceMetricsOverride",
        width=width,
        height=1000,
        deviceScaleFactor=1,
        mobile=False,
    )
    return problems(page)


def faults_of_structure(page: Page) -> list[str]:
    """Returns what a screen reader or a keyboard would miss."""
    found: list[str] = page.run(STRUCTURE)
    return found


def is_wide(page: Page) -> bool:
    """Says whether a page is wider than its window."""
    root = "document.documentElement"
    extra: int = page.run(f"{root}.scrollWidth - {root}.clientWidth")
    return extra > 0
