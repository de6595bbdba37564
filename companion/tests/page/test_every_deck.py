"""Every deck that the programs accept has a page, and the page is made again from its own data."""

from collections.abc import Iterator
from pathlib import Path

import pytest
from hypothesis import Phase, given, settings
from hypothesis import strategies as st

from accepted_decks import decks, side_files
from examples import example_count
from page.browser import CHROMIUM, Browser
from page.certificates import PROGRAMS
from page.layout import faults_of_structure, is_wide
from page.reports import open_drawn, redrawn, write_page
from pert_companion.model.fitting import fitted_to
from pert_companion.model.sidefile import to_json
from pert_companion.page.again import check_page

CASES = Path(__file__).resolve().parents[1] / "cases" / "pages"
needs_chromium = pytest.mark.skipif(CHROMIUM is None, reason="chromium is missing")


@pytest.fixture(name="browser", scope="module")
def _browser() -> Iterator[Browser]:
    with Browser() as started:
        yield started


def quiet(_: str) -> None:
    """Says nothing of progress."""


@pytest.mark.parametrize("name", ["d1-2", "d1-6", "d1-14", "d1-26", "d1-28"])
def test_decks_at_the_limits_have_a_page(name: str, tmp_path: Path) -> None:
    write_page(CASES / f"{name}.csv", tmp_path / "page.html")
    page = (tmp_path / "page.html").read_bytes()
    assert check_page(page, "page.html", PROGRAMS, quiet).is_right


@needs_chromium
def test_decks_at_the_limits_are_drawn(browser: Browser, tmp_path: Path) -> None:
    for deck in sorted(CASES.glob("*.csv")):
        write_page(deck, tmp_path / f"{deck.stem}.html")
        page = open_drawn(browser, tmp_path / f"{deck.stem}.html")
        assert faults_of_structure(page) == []


@needs_chromium
@given(st.data())
@settings(max_examples=example_count(12), deadline=None, derandomize=True, phases=(Phase.generate,))
def test_every_accepted_deck_has_a_page(
    browser: Browser, tmp_path_factory: pytest.TempPathFactory, data: st.DataObject
) -> None:
    """It is certified, made again byte for byte, drawn without a message, and fits its window."""
    folder = tmp_path_factory.mktemp("deck")
    deck = data.draw(decks())
    (folder / "deck.csv").write_bytes(deck.to_bytes())
    side = data.draw(st.none() | side_files(deck))
    if side is not None:
        (folder / "deck.json").write_bytes(to_json(fitted_to(side, deck)))
    write_page(folder / "deck.csv", folder / "page.html", brief=data.draw(st.booleans()))
    verdict = check_page((folder / "page.html").read_bytes(), "page.html", PROGRAMS, quiet)
    assert verdict.is_right and verdict.text.startswith("certified ")
    page = open_drawn(browser, folder / "page.html", width=data.draw(st.sampled_from((390, 1400))))
    # The script has a dash where a date is too far away for it.
    others = [each for each in redrawn(page, folder / "page.html") if not each.endswith(": –")]
    assert others == []
    assert faults_of_structure(page) == []
    assert not is_wide(page)


def test_a_changed_page_is_not_what_its_data_make(tmp_path: Path) -> None:
    write_page(CASES / "d1-6.csv", tmp_path / "page.html")
    page = (tmp_path / "page.html").read_bytes()
    changed = page.replace(b"<h1>", b"<h1>x", 1)
    verdict = check_page(changed, "page.html", PROGRAMS, quiet)
    assert not verdict.is_right
    assert "of the page has" in verdict.text and "<h1>x" in verdict.text
