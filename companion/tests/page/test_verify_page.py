"""`pert-verify.html` in a browser: its own figures of right and forged reports and certificates."""

import html
import json
import random
import re
from collections.abc import Callable, Iterator
from dataclasses import replace
from datetime import date, timedelta
from decimal import Decimal
from functools import partial
from pathlib import Path

import pytest

from page.browser import CHROMIUM, Browser, Page
from page.certificates import HOUSE, PROGRAMS, certificate_of, house_with_terms
from page.forgeries import CHANGED, LOOKS, REFUSED, block
from page.layout import faults_of_structure, problems
from page.reports import write_page
from pert_companion.model.calendar import Calendar, CalendarException
from pert_companion.model.deck import parse_deck
from pert_companion.model.sidefile import SideFile, to_json
from pert_companion.page import data
from pert_companion.page.html import policy
from pert_companion.page.verify import verify_page
from pert_companion.state.implied import implied_side_file

pytestmark = pytest.mark.skipif(CHROMIUM is None, reason="chromium is missing")
DONE = "/right|wrong/.test(document.getElementById('verdict').className)"
RIGHT = "certified 5: these are the figures of the data in the file"
REFUSAL = "Refused, so nothing is shown: "


@pytest.fixture(scope="module")
def browser() -> Iterator[Browser]:
    with Browser() as started:
        yield started


@pytest.fixture(scope="module")
def place(tmp_path_factory: pytest.TempPathFactory) -> Path:
    return tmp_path_factory.mktemp("verify")


@pytest.fixture(scope="module")
def verifier(browser: Browser, place: Path) -> Page:
    """Returns the page, open in a tab."""
    (place / "pert-verify.html").write_bytes(verify_page())
    return browser.open((place / "pert-verify.html").as_uri())


def check(verifier: Page, place: Path, files: dict[str, str | bytes]) -> Page:
    """Lets the page check files, given as name and text, from its beginning on."""
    verifier.call("Page.reload")
    verifier.wait(f"document.readyState === 'complete' && !({DONE})")
    paths = []
    for name, content in files.items():
        paths.append(place / name)
        paths[-1].write_bytes(content.encode() if isinstance(content, str) else content)
    verifier.choose("#files", paths)
    verifier.wait(DONE)
    # that the style sheets of the report are not applied, the browser itself says
    assert [it for it in verifier.messages() if "Applying inline style" not in it] == []
    assert set(verifier.requests()) == {(place / "pert-verify.html").as_uri()}
    return verifier


@pytest.fixture
def verify(verifier: Page, place: Path) -> Callable[[dict[str, str | bytes]], Page]:
    """Returns a function that lets the page check files."""
    return partial(check, verifier, place)


@pytest.fixture(scope="module")
def report(place: Path) -> str:
    """Returns a page of `pert-report`: the house as planned, with a price of time."""
    text = re.sub(b"(STATUS|ASOF),[^\n]*\n", b"", house_with_terms())
    (place / "house.csv").write_bytes(text)
    write_page(place / "house.csv", place / "house.html")
    return (place / "house.html").read_text("utf-8")


@pytest.fixture(scope="module")
def right(verifier: Page, place: Path, report: str) -> str:
    """Returns the figures that the page shows of the right report."""
    page = check(verifier, place, {"right.html": report})
    assert page.text("#verdict") == RIGHT
    return page.text("#figures")


def details(page: Page, element: str = "details") -> dict[str, str]:
    rows: list[list[str]] = page.run(
        f"[...document.querySelectorAll('#{element} dt')].map("
        "(it) => [it.textContent, it.nextSibling.textContent])"
    )
    return {name: text for name, text in rows}


def rows(page: Page, table: str) -> list[list[str]]:
    """Returns the cells of the rows of a table."""
    found: list[list[str]] = page.run(
        f"[...document.querySelectorAll('#{table} tbody tr')].map("
        "(row) => [...row.cells].map((cell) => cell.firstChild.textContent))"
    )
    return found


def test_a_report_is_shown_with_the_figures_of_the_programs(
    verify: Callable[..., Page], report: str
) -> None:
    page = verify({"report.html": report})
    assert page.text("#verdict") == RIGHT
    assert page.text("#project") == "H1, House, two floors"
    facts = details(page, "facts")
    assert facts["As of"] == "4 Mar 2024"
    assert facts["Longest"] == "35 days, ends on 7 Apr 2024"
    assert facts["Cheapest with the price of time"] == "30 days, ends on 2 Apr 2024"
    deck = parse_deck(json.loads(block(report, "pert-deck"))["text"].encode(), "house")
    curve = PROGRAMS.curve(deck)
    listed = [[f"{it.length} days", f"{it.cost:,}"] for it in curve]
    assert [[row[0], row[2]] for row in rows(page, "curve")] == listed


def test_each_length_has_the_schedule_of_the_programs(
    verify: Callable[..., Page], report: str
) -> None:
    page = verify({"report.html": report})
    deck = parse_deck(json.loads(block(report, "pert-deck"))["text"].encode(), "house")
    cards = [card for card in deck.activities if not card.is_dummy]
    for length in range(27, 36):
        page.run(f"number.value = '{length}'; number.dispatchEvent(new Event('input')); undefined")
        point = PROGRAMS.point(deck, length)
        shown = details(page, "chosen-length")
        assert shown["Cost of the work"] == f"{point.cost:,}"
        end = date(2024, 3, 4) + timedelta(days=length - 1)
        assert shown["Ends on"] == f"{end.day} {end:%b} {end.year}"
        found = [int(row[3]) for row in rows(page, "schedule")]
        assert found == [point.durations[card.code] for card in cards]
        shortened = [int(row[4]) for row in rows(page, "schedule")]
        assert shortened == [card.normal - days for card, days in zip(cards, found)]
        extra = sum(int(row[5].replace(",", "")) for row in rows(page, "schedule"))
        assert extra == point.cost - 12600


@pytest.mark.parametrize("name", LOOKS)
def test_what_a_page_looks_like_changes_no_figure(
    verify: Callable[..., Page], report: str, right: str, name: str
) -> None:
    forged = LOOKS[name](report)
    assert forged != report
    page = verify({"report.html": forged})
    assert page.text("#verdict") == RIGHT
    assert page.text("#figures") == right


@pytest.mark.parametrize("name", REFUSED)
def test_of_forged_data_nothing_is_shown(
    verify: Callable[..., Page], report: str, name: str
) -> None:
    forge, reason = REFUSED[name]
    page = verify({"report.html": forge(report)})
    verdict = page.text("#verdict")
    assert verdict.startswith(REFUSAL) and reason in verdict
    assert page.run("document.getElementById('figures').hidden")
    assert rows(page, "curve") == rows(page, "schedule") == []


@pytest.mark.parametrize("name", CHANGED)
def test_data_of_another_project_have_another_checksum(
    verify: Callable[..., Page], report: str, right: str, name: str
) -> None:
    checksum = details(verify({"report.html": report}))["SHA-256 of the data"]
    page = verify({"report.html": CHANGED[name](report)})
    assert page.text("#verdict") == RIGHT
    assert page.text("#figures") != right
    assert details(page)["SHA-256 of the data"] != checksum


def test_the_checksum_in_the_page_is_that_of_the_verifier(
    verify: Callable[..., Page], report: str
) -> None:
    checksum = details(verify({"report.html": report}))["SHA-256 of the data"]
    assert checksum == data.checksum_of(report)
    assert checksum in report


def test_a_changed_source_is_refused_next_to_the_right_deck(
    verify: Callable[..., Page], place: Path, report: str
) -> None:
    deck = (place / "house.csv").read_bytes()
    page = verify({"report.html": report, "house.csv": deck})
    assert page.text("#verdict") == RIGHT
    assert details(page)["house.csv"] == "the deck of these figures"
    page = verify({"report.html": report, "other.csv": HOUSE.read_bytes()})
    assert page.text("#verdict") == f"{REFUSAL}the page was made of another deck than other.csv"
    page = verify({"report.html": report, "house.json": b"{}"})
    assert page.text("#verdict").startswith(f"{REFUSAL}the page was made without a side file")


def test_figures_of_another_deck_are_refused_next_to_the_right_one(
    verify: Callable[..., Page], place: Path, report: str
) -> None:
    """The source is the right one, while deck, certificate and side data are of another plan."""
    cheap = (place / "house.csv").read_bytes().replace(b",2400,150,", b",1400,150,")
    (place / "cheap.csv").write_bytes(cheap.replace(b"1.2.1,2400", b"1.2.1,1400"))
    write_page(place / "cheap.csv", place / "cheap.html")
    forged = report
    for name in ("pert-deck", "pert-side", "pert-certificate"):
        other = block((place / "cheap.html").read_text("utf-8"), name)
        forged = forged.replace(f">{block(forged, name)}<", f">{other}<")
    assert verify({"forged.html": forged}).text("#verdict").startswith("certified ")
    page = verify({"forged.html": forged, "house.csv": (place / "house.csv").read_bytes()})
    expected = f"{REFUSAL}the figures of the page are those of another deck than house.csv"
    assert page.text("#verdict") == expected


def test_a_page_of_what_is_left_says_that_its_deck_was_made(
    verify: Callable[..., Page], place: Path
) -> None:
    write_page(HOUSE, place / "rest.html")
    files = {"rest.html": (place / "rest.html").read_bytes(), "house.csv": HOUSE.read_bytes()}
    assert details(verify(files))["house.csv"] == (
        "the page holds it; whether the figures are of what is left of it, pert-report --check says"
    )


def test_one_changed_digit_gets_the_line_and_reason_of_pert_check(
    verify: Callable[..., Page], report: str
) -> None:
    text = json.loads(block(report, "pert-deck"))["text"].encode()
    compact = block(report, "pert-certificate")
    chance = random.Random(3)
    digits = [at.start() for at in re.finditer("[0-9]", compact) if at.start() > 20]
    tried = 0
    for at in chance.sample(digits, 20):
        changed = compact[:at] + str((int(compact[at]) + 1) % 10) + compact[at + 1 :]
        try:
            certificate = data.expand(json.loads(changed))
        except data.DataError:
            continue
        page = verify({"report.html": report.replace(compact, changed)})
        answer = PROGRAMS.check(text, [certificate.encode()])
        assert answer.startswith("not certified")
        assert page.text("#verdict").startswith(f"{REFUSAL}{answer}: ")
        tried += 1
    assert tried > 10


def test_a_page_that_is_not_utf_8_is_refused(verify: Callable[..., Page], report: str) -> None:
    page = verify({"report.html": report.encode("utf-16")})
    assert page.text("#verdict") == f"{REFUSAL}the page is not UTF-8"


def test_a_deck_and_its_certificate(verify: Callable[..., Page]) -> None:
    deck, certificate = HOUSE.read_bytes(), certificate_of(HOUSE.read_bytes())
    files: dict[str, str | bytes] = {"d.csv": b"\xef\xbb\xbf" + deck, "d.cert": certificate}
    page = verify(files)
    assert page.text("#verdict") == RIGHT
    assert rows(page, "curve")[-1][:3] == ["27 days", "30 Mar 2024", "13,690"]
    assert details(page)["Dates"] == "every day counts, since no side file was chosen"
    wrong = certificate.replace("SEGMENT 31 28 13040", "SEGMENT 31 28 13030")
    page = verify({"d.csv": deck, "d.cert": wrong})
    expected = "not certified line 92 reason 12: this fails: the cost is that of the durations"
    assert page.text("#verdict") == REFUSAL + expected
    page = verify({"d.csv": deck, "d.cert": "X" + certificate})
    assert page.text("#verdict").startswith(f"{REFUSAL}not certified line 1 reason 0: ")
    page = verify({"d.csv": b"\xff", "d.cert": certificate})
    assert page.text("#verdict") == f"{REFUSAL}not UTF-8"


@pytest.mark.parametrize("unit", [240, 480, 2400])
def test_dates_are_those_of_the_calendar(verify: Callable[..., Page], unit: int) -> None:
    deck = HOUSE.read_bytes()
    holidays = (
        CalendarException(date(2024, 3, 11), date(2024, 3, 15), "closed"),
        CalendarException(date(2024, 3, 11), date(2024, 3, 11), "hidden by the first", ((0, 60),)),
        CalendarException(date(2024, 3, 23), date(2024, 3, 23), "open", ((480, 720),)),
    )
    side = side_with(deck, Calendar(exceptions=holidays), unit)
    certificate = certificate_of(deck)
    page = verify({"d.csv": deck, "d.cert": certificate, "d.json": to_json(side)})
    assert page.text("#verdict") == RIGHT
    calendar = side.calendar
    origin = calendar.position(calendar.morning(side.start))
    for length, ends, *_ in rows(page, "curve"):
        days = Decimal(length.removesuffix(" working days"))
        end = calendar.end_at(origin + int(days * calendar.day_minutes)).date()
        assert ends == f"{end.day} {end:%b} {end.year}"


def side_with(deck: bytes, calendar: Calendar, unit: int) -> SideFile:
    """Returns a side file with a calendar and a unit of so many minutes."""
    implied = implied_side_file(parse_deck(deck, "deck"), calendar)
    return replace(implied, unit_minutes=unit, money_scale=1)


def test_money_has_the_scale_of_the_side_data(verify: Callable[..., Page]) -> None:
    deck = HOUSE.read_bytes()
    side = side_with(deck, Calendar(), 480)
    text = to_json(side).replace(b'"money_scale": 1', b'"money_scale": 100')
    text = text.replace(b'"currency": ""', b'"currency": "EUR"')
    page = verify({"d.csv": deck, "d.cert": certificate_of(deck), "d.json": text})
    assert rows(page, "curve")[0][2] == "126.00 EUR"


def test_a_title_cannot_turn_or_hide_what_the_page_says(verify: Callable[..., Page]) -> None:
    title = "\u202edesrever\u2028<b>\u0085"
    deck = HOUSE.read_bytes().replace(b"House, two floors", title.encode())
    page = verify({"d.csv": deck, "d.cert": certificate_of(HOUSE.read_bytes())})
    assert page.text("#verdict") == RIGHT
    assert page.text("#project") == "H1, \\u202edesrever\\u2028<b>\\u0085"


def test_a_length_that_there_is_not_has_no_figures(
    verify: Callable[..., Page], report: str
) -> None:
    page = verify({"report.html": report})
    for text in ("26", "36", "", "3e1"):
        page.run(f"number.value = '{text}'; number.dispatchEvent(new Event('input')); undefined")
        assert list(details(page, "chosen-length").values()) == ["none from 27 to 35 is chosen"]
        assert rows(page, "schedule") == []


@pytest.mark.parametrize("width", [390, 800, 1280, 1400])
@pytest.mark.parametrize("dark", [False, True], ids=["light", "dark"])
def test_the_layout_at_each_width(
    browser: Browser, place: Path, report: str, width: int, dark: bool
) -> None:
    (place / "wide.html").write_bytes(verify_page())
    (place / "right.html").write_text(report, "utf-8")
    page = browser.open((place / "wide.html").as_uri(), width=width, dark=dark)
    page.choose("#files", [place / "right.html"])
    page.wait(DONE)
    assert problems(page) == []
    assert faults_of_structure(page) == []
    ground = page.run("getComputedStyle(document.body).backgroundColor")
    assert ground == ("rgb(20, 23, 26)" if dark else "rgb(255, 255, 255)")


def test_the_page_allows_no_request_and_is_the_same_each_time() -> None:
    page = verify_page().decode()
    assert page == verify_page().decode()
    found = re.search('Content-Security-Policy" content="([^"]*)"', page)
    assert found is not None
    words = html.unescape(found[1]).split("; ")
    assert words[0] == "default-src 'none'"
    assert {word.split(" ")[0] for word in words[1:]} == {
        "script-src",
        "style-src",
        "base-uri",
        "form-action",
    }
    assert "unsafe" not in found[1] and "http" not in found[1]
    assert not re.search(r"(src|href)=", page.split("<script>")[0])
    assert policy([], []).startswith("default-src 'none'; script-src; style-src; ")
