"""Each figure's definition is one click away: its name is a link to it."""

import json
from collections.abc import Iterator
from pathlib import Path

import pytest

from page.browser import CHROMIUM, Browser
from page.certificates import TOP, house_with_terms
from page.reports import open_drawn, write_page

pytestmark = pytest.mark.skipif(CHROMIUM is None, reason="chromium is missing")
EXAMPLES = TOP / "examples"
NAMES = """JSON.stringify([...document.querySelectorAll(
    'dl.tiles dt, dl.chosen dt, dl.list dt, section:not(#load) thead th.number'
)].map((it) => {
    const link = it.querySelector('a');
    const term = link && document.querySelector(`dl.words dt${link.getAttribute('href')}`);
    return [it.textContent, term ? term.textContent : ''];
}))"""
PLAIN = {"Amount", "Row", "Working days", "Here", "Costs more", "Today\u2019s plan"}
"""Heads that are no figures, of one unit, or defined by the caption of their table."""
PLAIN |= {"Baseline", "Last report", "Now"}
PLAIN |= {"End with it", "Its end now", "Its end in the last report"}


@pytest.fixture(name="browser", scope="module")
def _browser() -> Iterator[Browser]:
    with Browser() as started:
        yield started


@pytest.fixture(name="pages", scope="module")
def _pages(tmp_path_factory: pytest.TempPathFactory) -> list[Path]:
    """Returns pages that have all tables: with terms and a contract, with states before, money."""
    folder = tmp_path_factory.mktemp("pages")
    now = house_with_terms().replace(b"2024-03-04,1,,", b"2024-03-04,1,33,")
    (folder / "terms.csv").write_bytes(now)
    write_page(folder / "terms.csv", folder / "terms.html")
    before = {"previous": "march.csv", "baseline": "plan.csv"}
    found = [folder / "terms.html"]
    for name, deck in (("months", "may.csv"), ("pump", "april.csv")):
        others = {role: EXAMPLES / name / file for role, file in before.items()}
        write_page(EXAMPLES / name / deck, folder / f"{name}.html", **others)
        found.append(folder / f"{name}.html")
    return found


def test_each_figure_leads_to_its_definition(browser: Browser, pages: list[Path]) -> None:
    met: set[str] = set()
    for path in pages:
        names = json.loads(open_drawn(browser, path).run(NAMES))
        assert [name for name, term in names if term != name and not is_plain(name)] == []
        met.update(term for _, term in names if term)
    assert len(met) > 40


def is_plain(name: str) -> bool:
    """Says whether a name needs no definition: that of a stop of the curve is its length."""
    return name in PLAIN or (name.startswith("At ") and name.endswith(" days"))
