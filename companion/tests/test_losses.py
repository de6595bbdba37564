"""Losses: each kind has a meaning, and each line names the place and the task."""

from pathlib import Path

from pert_companion.cli import importing
from pert_companion.model.losses import MEANINGS, Acceptance, Loss, LossKind


def test_each_kind_has_a_meaning() -> None:
    """The help of `pert-import` says what each kind is."""
    assert list(MEANINGS) == list(LossKind)
    text = importing.parser().format_help()
    for kind in LossKind:
        assert f"  {kind.value} " in text


def test_the_page_has_the_same_table() -> None:
    """The table of losses in the documents is the one of the package."""
    page = Path(__file__).resolve().parents[2] / "docs" / "side-file.md"
    rows = "".join(f"| `{kind.value}` | {meaning} |\n" for kind, meaning in MEANINGS.items())
    assert rows in page.read_text()


def test_a_line_names_what_it_is_about() -> None:
    """File, place, task, field, text, reason and kind are in the line, as far as they are known."""
    full = Loss(LossKind.LINK, "row 3", "Dig", "Predecessors", "9", "no row has this number")
    assert full.line("plan.csv") == (
        "plan.csv: row 3, task 'Dig', Predecessors '9': no row has this number [link]"
    )
    short = Loss(LossKind.FIELD, "sheet Old", "", "", "hidden", "it is not read")
    assert short.line("a.xlsx") == "a.xlsx: sheet Old, 'hidden': it is not read [field]"
    bare = Loss(LossKind.FIELD, "sheet Old", "", "", "", "it is not read")
    assert bare.line("a.xlsx") == "a.xlsx: sheet Old: it is not read [field]"
    accepted = Acceptance(frozenset({LossKind.LINK}), ())
    assert accepted.divided([full, short]) == ([full], [short])
