"""The page's scripts, outside a browser: what they read off a certificate is what `pert` prints."""

import json
import random
from collections.abc import Iterator
from concurrent.futures import ThreadPoolExecutor
from typing import Any

import pytest

from page.certificates import (
    HOUSE,
    NODE,
    PROGRAMS,
    SHED,
    bench,
    certificate_of,
    certificates,
    in_node,
    tampered,
)
from pert_companion.model.deck import Deck, parse_deck
from pert_companion.page import data
from pert_companion.programs.results import Point

pytestmark = pytest.mark.skipif(NODE is None, reason="node is missing")

EXPAND = """
function answer(given) {
    return given.map((form) => {
        try {
            return PertCertificate.expand(form);
        } catch (error) {
            if (error instanceof PertCertificate.DataError) return null;
            throw error;
        }
    });
}
"""
READINGS = """
function answer({ text, form }) {
    const curve = PertCertificate.open(form, PertCertificate.readDeck(text));
    const readings = [];
    for (let length = curve.shortest; length <= curve.longest; length += 1n) {
        readings.push(PertCertificate.readingAt(curve, length));
    }
    return { readings, breakpoints: curve.breakpoints };
}
"""
DECKS = "function answer(texts) { return texts.map(PertCertificate.readDeck); }"
CHECKS = """
function answer({ deck, texts }) {
    return texts.map((text) => PertCheck.check(deck, text));
}
"""

COMPACTS = """
function answer(texts) {
    return texts.map((text) => {
        const compactor = new PertCompactor();
        for (let at = 0; at < text.length; at += 100) compactor.take(text.slice(at, at + 100));
        return compactor.data();
    });
}
"""


def test_compact_is_the_same_in_both_languages() -> None:
    texts = [*certificates().values(), certificate_of(bench(100))]
    assert in_node(COMPACTS, texts) == [data.compact(text) for text in texts]


def test_expand_is_the_same_in_both_languages() -> None:
    chance = random.Random(8)
    forms = [data.compact(text) for text in list(certificates().values())[:12]]
    for _ in range(400):
        changed = json.dumps(forms[chance.randrange(12)])
        at = chance.randrange(len(changed))
        changed = changed[:at] + chance.choice("0123456789 ;|-x") + changed[at + 1 :]
        try:
            forms.append(json.loads(changed))
        except json.JSONDecodeError:
            continue
    assert in_node(EXPAND, forms) == [expanded(form) for form in forms]


def expanded(form: object) -> str | None:
    try:
        return data.expand(form)
    except data.DataError:
        return None


def points_of(deck: Deck, lengths: range) -> Iterator[Point]:
    """Yields what `pert point` prints for each length."""
    with ThreadPoolExecutor() as pool:
        yield from pool.map(lambda length: PROGRAMS.point(deck, length), lengths)


@pytest.mark.parametrize("name", ["shed", "house", "bench 4", "bench 100"])
def test_a_reading_is_what_point_prints(name: str) -> None:
    texts = {"shed": SHED.read_bytes(), "house": HOUSE.read_bytes()}
    text = texts[name] if name in texts else bench(int(name.split()[1]))
    deck = parse_deck(text, name)
    form = data.compact(certificate_of(text))
    read = in_node(READINGS, {"text": text.decode(), "form": form})
    curve = PROGRAMS.curve(deck)
    lengths = range(curve[-1].length, curve[0].length + 1)
    assert [reading["length"] for reading in read["readings"]] == list(lengths)
    points = list(points_of(deck, lengths))
    for place, (reading, point) in enumerate(zip(read["readings"], points)):
        assert reading["cost"] == point.cost
        assert reading["times"] == list(point.events.values())
        assert reading["durations"] == list(point.durations.values())
        assert reading["next"] == (points[place - 1].cost - point.cost if place else None)
    breakpoints = [(it["length"], it["cost"], it["next"]) for it in read["breakpoints"]]
    assert breakpoints == [(it.length, it.cost, it.slope) for it in curve]


def test_a_deck_is_read_as_the_package_reads_it() -> None:
    decks = list(certificates())
    texts = [deck.read_bytes().decode("utf-8") for deck in decks]
    for deck, read in zip(decks, in_node(DECKS, texts), strict=True):
        mine = parse_deck(deck.read_bytes(), deck.name)
        compare_decks(read, mine)


def compare_decks(read: dict[str, Any], mine: Deck) -> None:
    events = [(it["code"], it["title"]) for it in read["events"]]
    assert events == [(it.code, it.title) for it in mine.events]
    for theirs, ours in zip(read["activities"], mine.activities, strict=True):
        names = [theirs[name] for name in ("code", "item", "title")]
        assert names == [ours.code, ours.item, ours.title]
        numbers = [theirs[name] for name in ("normal", "crash", "cost", "slope")]
        assert numbers == [ours.normal, ours.crash, ours.cost, ours.slope]
        ends = [read["events"][theirs[name]]["code"] for name in ("from", "to")]
        assert ends == [ours.begins, ours.ends]


def test_changed_certificates_get_the_answer_of_pert_check() -> None:
    chance = random.Random(11)
    text = HOUSE.read_bytes()
    right = certificate_of(text).encode()
    changed = [tampered().structure_changed(right, chance) for _ in range(60)]
    texts = [it.decode() for it in changed]
    answers = in_node(CHECKS, {"deck": text.decode(), "texts": texts})
    assert answers == [PROGRAMS.check(text, [it]) for it in changed]
