"""The compact form of certificates, and the data in a page."""

import json
import random
import re

import pytest
from hypothesis import given, settings
from hypothesis import strategies as st

from page.certificates import SHED, bench, certificate_of, certificates, tampered
from pert_companion.page import data
from pert_companion.programs.certificate import parts

CODES = st.text("ABCabc019._-", min_size=1, max_size=16)
NUMBERS = st.one_of(st.integers(0, 12), st.integers(0, 10**18 - 1))


@st.composite
def texts_of_certificates(draw: st.DrawFn) -> str:
    """Returns a well-formed certificate, right or wrong, with the same codes in each segment."""
    events = draw(st.lists(CODES, max_size=4))
    activities = draw(st.lists(CODES, max_size=4))
    lines = [f"CERT {draw(st.sampled_from('12'))} {draw(CODES)} {draw(NUMBERS)} {draw(NUMBERS)}"]
    for walk in ("NORMAL", "CRASH"):
        lines.append(walk)
        lines += [f"STEP {code}" for code in draw(st.lists(CODES, max_size=3))]
    for _ in range(draw(st.integers(0, 5))):
        lines.append("SEGMENT " + " ".join(str(draw(NUMBERS)) for _ in range(4)))
        for code in events:
            lines.append(f"EVENT {code} {draw(NUMBERS)} {draw(st.sampled_from('01'))}")
        for code in activities:
            flows = draw(st.lists(NUMBERS, min_size=2, max_size=6))
            lines.append(f"ACT {code} {draw(NUMBERS)} {' '.join(map(str, flows))}")
        lines.append("CLOSE")
    return "".join(f"{line}\n" for line in [*lines, "END"])


@given(texts_of_certificates())
@settings(max_examples=300, deadline=None)
def test_expand_is_the_inverse_of_compact(certificate: str) -> None:
    form = json.loads(data.embedded(data.compact(certificate)))
    assert data.expand(form) == certificate


def test_every_certificate_of_the_acceptance_cases_comes_back() -> None:
    assert len(certificates()) > 20
    for deck, certificate in certificates().items():
        assert data.expand(data.compact(certificate)) == certificate, deck


def test_certificates_of_random_networks_come_back() -> None:
    chance = random.Random(5)
    decks = [tampered().random_deck(chance) for _ in range(60)]
    for deck in [*decks, bench(4), bench(100)]:
        certificate = certificate_of(deck)
        assert data.expand(data.compact(certificate)) == certificate


def test_the_compact_form_has_changes_and_not_whole_segments() -> None:
    certificate = certificate_of(bench(100))
    assert len(certificate) > 8 * len(data.embedded(data.compact(certificate)))


def test_the_compact_form_of_the_shed() -> None:
    certificate = certificates()[SHED]
    assert data.compact(certificate) == {
        "form": 1,
        "head": "1 SHED 3 3",
        "normal": "A B",
        "crash": "A B",
        "events": "S M T",
        "activities": "A B C",
        "segments": [
            "9 7 45 3|1 4 1;2 9 1|0 4 3 0;1 5 3 0;2 7",
            "7 5 51 7|1|0 2 3 2;1 5 5 0;2 7 2 0",
        ],
    }


def test_a_text_that_is_no_certificate_has_no_compact_form() -> None:
    right = certificates()[SHED]
    texts = [right[:at] for at in range(len(right))]
    texts += [right + "END\n", right.replace("\n", "\r\n"), right.replace("ACT B", "ACT X", 1)]
    texts += [right.replace("EVENT M 4 1\n", "", 1), right.replace(" 9 1", " 09 1")]
    for text in texts:
        with pytest.raises(data.DataError):
            data.compact(text)


@pytest.mark.parametrize(
    "name, value",
    [
        ("form", 2),
        ("head", 1),
        ("events", None),
        ("segments", "9 7 45 3||"),
        ("segments", [7]),
        ("segments", ["9 7 45 3|"]),
        ("segments", ["9 7 45 3|3|"]),
        ("segments", ["9 7 45 3|0 1|"]),
        ("segments", ["9 7 45 3|0 1 2|"]),
        ("segments", ["9 7 45 3|-1|"]),
        ("segments", ["9 7 45 3||0"]),
        ("segments", ["9 7 45 3||x 1"]),
    ],
)
def test_data_of_another_form_is_refused(name: str, value: object) -> None:
    form = data.compact(certificates()[SHED])
    form[name] = value
    with pytest.raises(data.DataError):
        data.expand(form)
    with pytest.raises(data.DataError):
        data.expand([form])


@given(st.text())
def test_embedded_data_cannot_end_its_element(title: str) -> None:
    text = data.embedded_deck("deck.csv", f"</script><!--&\u2028\u2029{title}")
    assert re.fullmatch("[ -%'-;=?-~]*", text)
    assert json.loads(text)["text"] == f"</script><!--&\u2028\u2029{title}"


def test_a_certificate_above_the_limit_is_left_out() -> None:
    certificate = certificate_of(bench(4))
    text = compacted(certificate, data.MOST_BYTES)
    assert text is not None and data.expand(json.loads(text)) == certificate
    assert compacted(certificate, len(text)) == text
    assert compacted(certificate, len(text) - 1) is None
    assert compacted(certificate, 1) is None


def compacted(certificate: str, most: int) -> str | None:
    """Returns what a page of at most so many bytes holds of a certificate."""
    compactor = data.Compactor(most)
    for part in parts([certificate.encode()]):
        compactor.take(part)
    return compactor.text()
