"""Report pages for tests: made in this process, opened in a browser, and judged by hand."""

import json
from collections.abc import Mapping
from datetime import date, timedelta
from pathlib import Path
from typing import Any

from page.browser import Browser, Page
from page.certificates import HOUSE, PROGRAMS, bench
from pert_companion.cli.opening import with_tables
from pert_companion.model.cards import ActivityCard
from pert_companion.model.deck import Deck, parse_deck
from pert_companion.page.gathering import Gathered, gather
from pert_companion.page.render import render
from pert_companion.page.report import page_of
from pert_companion.page.source import Source, Wishes
from pert_companion.state.project import open_state

DRAWN = "document.documentElement.classList.contains('live')"
"""Whether the script of a page has drawn the chosen length."""
MONTHS = "Jan Feb Mar Apr May Jun Jul Aug Sep Oct Nov Dec".split(" ")

MOVES = """
(async () => {
    const slider = document.getElementById("slider");
    const found = [];
    const text = (selector, root) =>
        (root ?? document).querySelector(selector)?.textContent ?? null;
    for (let length = FROM; length <= TO; length += 1) {
        if (slider !== null) { // a page of one length has none
            slider.value = String(length);
            slider.dispatchEvent(new Event("input"));
        }
        await new Promise(requestAnimationFrame);
        const rows = {};
        for (const row of document.querySelectorAll("tr.task")) {
            const names = [".duration", ".start", ".finish", ".slack"];
            const cells = names.map((name) => text(name, row));
            rows[row.id] = cells;
        }
        found.push({
            length: text("#out-length"),
            end: text("#out-end"),
            cost: text("#out-cost"),
            next: text("#out-next"),
            rows,
        });
    }
    return JSON.stringify(found);
})()
"""


def gathered_of(
    deck: Path, previous: Path | None = None, baseline: Path | None = None, **wishes: Any
) -> Gathered:
    """Returns what a page of a deck shows."""
    others = [None if path is None else open_state(path, PROGRAMS) for path in (baseline, previous)]
    state = with_tables(open_state(deck, PROGRAMS))
    return gather(Source(Wishes(**wishes), state, *others), lambda text: None)


def write_page(deck: Path, page: Path, **wishes: Any) -> Gathered:
    """Writes the page of a deck, and returns what it shows."""
    gathered = gathered_of(deck, **wishes)
    page.write_bytes(render(page_of(gathered)))
    return gathered


def open_drawn(browser: Browser, page: Path, **options: Any) -> Page:
    """Opens a page and waits until its script has drawn it; nothing else was asked for."""
    opened = browser.open(page.as_uri(), **options)
    opened.wait(DRAWN)
    assert opened.messages() == []
    assert opened.requests() == [page.as_uri()]
    return opened


def plan_without_status() -> bytes:
    """Returns the house as it was planned."""
    lines = HOUSE.read_bytes().split(b"\n")
    return b"\n".join(line for line in lines if not line.startswith((b"STATUS", b"ASOF")))


def big_plan() -> bytes:
    """Returns a plan with 400 activities."""
    return bench(400)


def moves(page: Page, lengths: range) -> list[dict[str, Any]]:
    """Returns what the page shows at each length to which its slider is moved."""
    found: list[dict[str, Any]] = []
    for begin in range(lengths.start, lengths.stop, 50):
        last = min(begin + 49, lengths.stop - 1)
        script = MOVES.replace("FROM", str(begin)).replace("TO", str(last))
        found.extend(json.loads(page.run(script)))
    return found


def number(text: str) -> int:
    """Returns the whole number that a text of the page has."""
    return int(text.replace(",", "").replace("\u2212", "-"))


def day(text: str) -> date:
    """Returns the date that a text of the page has."""
    words = text.split(" ")
    return date(int(words[2]), MONTHS.index(words[1]) + 1, int(words[0]))


def judge(shown: Mapping[str, Any], deck: Deck, plan: Deck, finished: frozenset[str]) -> None:
    """Asserts that what is shown is a schedule of the deck with the length and cost shown.

    Every day of the calendar is worked, and each activity of the plan that is no dummy is a task.
    """
    cards = {card.code: card for card in deck.activities}
    tasks = [cards[card.code] for card in plan.activities if not card.is_dummy]
    durations = {card.code: 0 for card in deck.activities}
    for place, card in enumerate(tasks):
        if card.code not in finished:
            durations[card.code] = number(shown["rows"][f"t{place}"][0])
    early = early_times(deck, durations)
    length = number(shown["length"])
    assert early[deck.project.end] == length
    paid = sum(cost(deck, card, durations[card.code]) for card in deck.activities)
    assert paid == number(shown["cost"])
    first = deck.project.start_date
    assert day(shown["end"]) == first + timedelta(days=length - 1)
    for place, card in enumerate(tasks):
        if durations[card.code] == 0:
            continue
        _, start, finish, _ = shown["rows"][f"t{place}"]
        begun = first + timedelta(days=early[card.begins])
        assert day(start) <= begun
        assert day(finish) == begun + timedelta(days=durations[card.code] - 1)


def early_times(deck: Deck, durations: Mapping[str, int]) -> dict[str, int]:
    """Returns the longest walk to each event, by going over all activities until nothing grows."""
    times = {event.code: 0 for event in deck.events}
    has_grown = True
    while has_grown:
        has_grown = False
        for card in deck.activities:
            end = times[card.begins] + durations[card.code]
            if end > times[card.ends]:
                times[card.ends] = end
                has_grown = True
    return times


def cost(deck: Deck, card: ActivityCard, duration: int) -> int:
    """Returns what an activity costs: each unit less at the slope of its piece."""
    assert card.crash <= duration <= card.normal
    pieces = [piece for piece in deck.pieces if piece.activity == card.code]
    slopes = [card.slope] * (card.normal - card.crash - sum(piece.units for piece in pieces))
    for piece in pieces:
        slopes += [piece.slope] * piece.units
    return card.cost + sum(slopes[: card.normal - duration])


def deck_of(text: bytes) -> Deck:
    """Returns a deck of its bytes."""
    return parse_deck(text, "deck.csv")


REDRAWN = """
(() => {
    const written = new DOMParser().parseFromString(HTML, "text/html");
    const drawn = ["#out-length", "#out-unit", "#out-end", "#out-late", "#out-cost", "#out-more",
        "#out-next", "#out-total", "#option-chosen > *", "[id^='bridge-'] > *",
        "tr.task > .start", "tr.task > .finish", "tr.task > .slack", "tr.task > .duration"];
    const texts = (root) => drawn.flatMap((it) => [...root.querySelectorAll(it)].map(
        (cell) => `${it} ${cell.parentElement.id}: ${cell.textContent.trim()}`));
    const critical = (root) => [...root.querySelectorAll("tr.critical")].map(({ id }) => id);
    const drawing = (root) => [...texts(root), critical(root).join(" ")];
    const [before, after] = [written, document].map(drawing);
    return before.flatMap((text, at) => (text === after[at] ? [] : [`${text} / ${after[at]}`]));
})()
"""


def redrawn(page: Page, path: Path) -> list[str]:
    """Returns what the script of a page has drawn otherwise than it is in the file."""
    found: list[str] = page.run(REDRAWN.replace("HTML", json.dumps(path.read_text("utf-8"))))
    return found
