#!/usr/bin/env python3
"""Checks the pages as they are installed (tools/installed-page.py).

- Each link leads to a page, a picture or an example that is installed, and each #anchor to a
  heading there.
- No page names what a reader without the sources lacks: the folder of built programs, tools/setup,
  or targets of the Makefile to look at something.
- No comment for either sort of reader is left.
"""

from __future__ import annotations

import os
import re
import subprocess
import sys
from collections.abc import Iterator
from pathlib import Path

TOP = Path(__file__).resolve().parents[2]
LACKING = re.compile(r"(?<!/usr/)\bbin/pert|make (?:reading|try)\b|tools/setup|<!--")
LINK = re.compile(r"\]\(([^)\s]+)\)")


def shown(page: str) -> str:
    """Returns a page as it is installed."""
    command = [str(TOP / "tools" / "installed-page.py"), page, "/usr/share/doc/pert"]
    return subprocess.run(command, capture_output=True, text=True, check=True).stdout


def anchors(text: str) -> set[str]:
    """Returns the anchors of a page's headings, as they are made for links."""
    headings = (it.lower() for it in re.findall(r"^#+ (.*)$", text, flags=re.M))
    return {re.sub(r"[^\w\- ]", "", it).replace(" ", "-") for it in headings}


def faults(name: str, pages: dict[str, str], files: set[str]) -> Iterator[str]:
    """Yields what is wrong with a page."""
    # (what changed may be what only readers of the sources have)
    for word in LACKING.findall(pages[name]) if name != "CHANGELOG.md" else ():
        yield f"it names {word}"
    for link in LINK.findall(re.sub(r"`[^`]*`", "", pages[name])):
        if re.match(r"[a-z]+:", link):
            continue
        place, _, anchor = link.partition("#")
        target = os.path.normpath(os.path.join(os.path.dirname(name), place)) if place else name
        if target not in files:
            yield f"the link {link} leads to nothing that is installed"
        elif anchor and anchor not in anchors(pages[target]):
            yield f"the link {link} leads to no heading"


def main() -> int:
    """Checks all pages, and returns the status."""
    files = {"README.md", "CHANGELOG.md", *(TOP / "tools" / "installed").read_text().split()}
    pages = {it: shown(it) for it in sorted(files) if it.endswith((".md", ".1"))}
    found = [f"{name}: {it}" for name in pages for it in faults(name, pages, files)]
    for fault in found:
        print(f"FAILED installed: {fault}")
    print(f"installed: {len(pages)} pages, {len(found)} failed")
    return 1 if found else 0


if __name__ == "__main__":
    sys.exit(main())
