"""Texts that XML and workbooks cannot hold."""

import pytest

from pert_companion.model.lines import not_in_xml, readable, xml_text


@pytest.mark.parametrize(
    "text, written, characters",
    [
        (
            "plain \u00e4 \u202e \U0001f600\t\n\r",
            "plain \u00e4 \u202e \U0001f600\t\n\r",
            [],
        ),
        ("a\uffffb\ufffe\uffff", "a\ufffdb\ufffd\ufffd", ["U+FFFF", "U+FFFE"]),
        ("\x00\x1f\ud800", "\ufffd\ufffd\ufffd", ["U+0000", "U+001F", "U+D800"]),
    ],
)
def test_characters_that_xml_cannot_hold(text: str, written: str, characters: list[str]) -> None:
    """Each is replaced, and named once; all others stay."""
    assert xml_text(text) == written
    assert not_in_xml(text) == characters


def test_names_of_files() -> None:
    """A byte that is no UTF-8 is replaced."""
    assert readable("w\u00e4\udcff.csv") == "w\u00e4\ufffd.csv"
