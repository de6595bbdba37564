#!/usr/bin/env python3
"""Prints a page as it is installed, for readers who have the programs on the path and no sources.

    tools/installed-page.py PAGE PLACE     PAGE: as docs/tasks.md or docs/man/pert.1; PLACE: where the documents are

- @VERSION@ is the version, and @DOC@ the place. Programs and commands are named without a folder.
- What is between `<!-- sources -->` and `<!-- installed` is for readers of the sources. Instead of
  it, the page has what the second comment says up to its end.
- The comments around the tables of `tools/carried-tables.py` are left out.
- A link to a page that is not installed is its text alone. From a table it is left out, and so is a
  row whose links all are.
- A page whose commands use the examples says how to copy them.
"""

from __future__ import annotations

import os
import re
import sys
from pathlib import Path

TOP = Path(__file__).resolve().parent.parent
FOR_SOURCES = re.compile(r"<!-- sources -->.*?<!-- installed\s?(.*?)\s?-->", re.S)
TABLE = re.compile(r"^<!-- (?:table|end of) \w+ -->\n", re.M)
FOLDER = re.compile(r"(?<![\w/.-])(?:companion/)?bin/(?=pert)")
LINK = re.compile(r"\[([^\]]*)\]\(([^)\s]+)\)")
INTRODUCTION = re.compile(r"\A# .*\n\n\*(?:.+\n)+")
COPY = 'The commands use the examples. Copy them into a folder of your own first:\n\n    cp -r "{}/examples" .\n'


def installed() -> set[str]:
    """Returns the documents that are installed, as paths from the top."""
    listed = (TOP / "tools" / "installed").read_text(encoding="utf-8").split()
    return {"README.md", "CHANGELOG.md", *listed}


def is_lost(link: str, page: str, there: set[str]) -> bool:
    """Returns whether a link of a page leads to a file that is not installed."""
    if re.match(r"[a-z]+:|#", link):
        return False
    path = os.path.normpath(os.path.join(os.path.dirname(page), link.partition("#")[0]))
    return path not in there


def row(line: str, page: str, there: set[str]) -> str:
    """Returns a row of a table without the links that lead nowhere, or nothing if it had only such
    links.
    """
    links = [it[2] for it in LINK.finditer(line)]
    lost = [it for it in links if is_lost(it, page, there)]
    if lost and len(lost) == len(links):
        return ""
    for it in lost:
        found = rf"\[[^\]]*\]\({re.escape(it)}\)"
        line = re.sub(rf", {found}|{found}, |{found}", "", line, count=1)
    return line


def linked(line: str, page: str, there: set[str]) -> str:
    """Returns a line in which links that lead nowhere are text."""
    if line.startswith("|"):
        return row(line, page, there)

    def shown(link: re.Match[str]) -> str:
        """Returns a link, or its text."""
        if not is_lost(link[2], page, there):
            return link[0]
        return f"{link[1]} of the sources" if link[1].endswith(".md") else link[1]

    return LINK.sub(shown, line)


def markdown(text: str, page: str, place: str) -> str:
    """Returns a page in Markdown as it is installed."""
    there = installed()
    text = FOR_SOURCES.sub(lambda it: it[1], text)
    text = TABLE.sub("", text)
    text = "".join(linked(line, page, there) for line in text.splitlines(keepends=True))
    if re.search(r"^    (\$ )?.*\bexamples/", text, flags=re.M) and 'cp -r "@DOC@' not in text:
        begin = INTRODUCTION.match(text)
        at = begin.end() if begin else 0
        text = f"{text[:at]}\n{COPY.format(place)}{text[at:]}"
    return text


def installed_page(text: str, page: str, place: str) -> str:
    """Returns a page as it is installed."""
    if page.endswith(".md"):
        text = markdown(text, page, place)
    version = (TOP / "VERSION").read_text(encoding="utf-8").strip()
    text = text.replace("@VERSION@", version).replace("@DOC@", place)
    return FOLDER.sub("", text)


def main(words: list[str]) -> int:
    """Prints the page, and returns the status."""
    if len(words) != 2:
        print((__doc__ or "").split("\n\n")[1].strip(), file=sys.stderr)
        return 2
    page, place = words
    print(installed_page((TOP / page).read_text(encoding="utf-8"), page, place), end="")
    return 0


if __name__ == "__main__":
    sys.exit(main(sys.argv[1:]))
