"""A side file fits the tasks, links and calendar of its deck, or is refused in one line."""

import json
from collections.abc import Callable
from pathlib import Path
from typing import Any

import pytest

from pert_companion.model.deck import parse_deck
from pert_companion.model.errors import InputError
from pert_companion.model.fitting import find, fitted_to
from pert_companion.model.sidefile import (
    MAX_BYTES,
    SideFile,
    from_json,
    side_path,
    to_json,
)

from running import MONTHS

APRIL = (MONTHS / "april.csv").read_text()
VERSION_1 = json.loads((Path(__file__).parent / "cases" / "side-version-1.json").read_text())
"""The side file of that deck, as version 1 of the format has it."""


def found(folder: Path, deck: str, side: bytes) -> SideFile | None:
    """Returns the side file that is found next to a deck."""
    path = folder / "april.csv"
    path.write_text(deck)
    side_path(path).write_bytes(side)
    return find(path, parse_deck(deck.encode(), path.name), deck.encode())


def version_2() -> bytes:
    """Returns the side file in the version that is written today."""
    side = from_json(json.dumps(VERSION_1).encode(), "april.json")
    return to_json(fitted_to(side, parse_deck(APRIL.encode(), "april.csv")))


def refusal(folder: Path, deck: str, side: bytes) -> str:
    """Returns why a side file does not fit, after its name."""
    with pytest.raises(InputError) as caught:
        found(folder, deck, side)
    line = str(caught.value)
    assert "\n" not in line
    return line.removeprefix(f"{folder}/april.json: ")


def test_there_may_be_none(tmp_path: Path) -> None:
    """A deck without one is read as one written by hand; standard input has none."""
    deck = parse_deck(APRIL.encode(), "april.csv")
    assert find(tmp_path / "april.csv", deck, b"") is None
    assert find(tmp_path / "april.json", deck, b"") is None
    assert find(Path("-"), deck, b"") is None


@pytest.mark.parametrize(
    "old, new",
    [
        ("ASOF,2026-05-01\n", "ASOF,2026-05-01\nTERMS,30,100,0,50\n"),
        (
            "PROJECT,House,start,end,2026-03-02,1,,House",
            "PROJECT,House,start,end,2026-03-02,1,90,Home",
        ),
        ("ACCT,Ground,Ground,20000,", "ACCT,Ground,Ground,25000,"),
        ("CHARGE,Ground,2026-05-01,21700\n", ""),
        ("TOGO,Windows,2026-05-01,10500", "TOGO,Windows,2026-05-01,9"),
        (
            "STATUS,Walls,S,2026-04-08\n",
            "STATUS,Walls,S,2026-04-08\nSTATUS,Walls,F,2026-04-30\n",
        ),
        ("4,2000,400,Clear the site", "4,2000,400,Clear it"),
        (
            "AFTER,Plaster,Wiring\nAFTER,Plaster,Pipes\n",
            "AFTER,Plaster,Pipes\nAFTER,Plaster,Wiring\n",
        ),
        ("\n", "\r\n"),
    ],
)
def test_what_does_not_belong_to_it_may_be_edited(tmp_path: Path, old: str, new: str) -> None:
    """Terms, the directed end, money, status and the order and format of the cards."""
    assert old in APRIL
    side = found(tmp_path, APRIL.replace(old, new), version_2())
    assert side is not None
    assert side.tasks == from_json(version_2(), "").tasks


def test_another_as_of_date_has_the_progress_of_that_day(tmp_path: Path) -> None:
    """What is known is that of the new day: less on an earlier one."""
    earlier = found(tmp_path, APRIL.replace("ASOF,2026-05-01", "ASOF,2026-04-01"), version_2())
    assert earlier is not None
    assert str(earlier.data_date) == "2026-03-31"
    assert [task.code for task in earlier.tasks if task.actual_finish] == ["Clear-site"]
    later = found(tmp_path, APRIL.replace("ASOF,2026-05-01", "ASOF,2026-05-09"), version_2())
    assert later is not None
    assert str(later.data_date) == "2026-05-08"


@pytest.mark.parametrize(
    "old, new, why",
    [
        (
            "AFTER,Roof,Walls",
            "AFTER,Roof,Foundation",
            "the links of TASK Roof were changed",
        ),
        ("AFTER,Plaster,Pipes\n", "", "the links of TASK Plaster were changed"),
        ("14,36000,700", "14,36000,701", "TASK Walls was changed"),
        (
            "20,20,20,20,14",
            "21,21,21,21,14",
            "TASK Walls has a duration of 21, not of 20",
        ),
        ("Roof", "Top", "TASK Roof is not in the deck"),
        (
            "TASK,Pipes,",
            "TASK,New,Ground,1,1,1,1,1,0,0,\nTASK,Pipes,",
            "TASK New is not in the side",
        ),
        (
            "2026-03-02,1,,",
            "2026-03-03,1,,",
            "PROJECT begins on 2026-03-03, not on 2026-03-02",
        ),
        ("2026-03-02,1,,", "2026-03-02,2,,", "PROJECT has units of 2 days, not of 1"),
    ],
)
def test_a_changed_task_link_or_code_is_refused(
    tmp_path: Path, old: str, new: str, why: str
) -> None:
    """The line names the card and the command that makes another side file."""
    assert old in APRIL
    line = refusal(tmp_path, APRIL.replace(old, new), version_2())
    assert line.startswith(f"it does not fit april.csv: {why}")
    assert line.endswith("import it again (pert-import april.csv -o april.csv)")


def test_the_side_file_of_a_deck_by_hand_is_made_again(tmp_path: Path) -> None:
    """It has no plan that could be imported."""
    side = json.dumps({**json.loads(version_2()), "source": ""}).encode()
    line = refusal(tmp_path, APRIL.replace("AFTER,Roof,Walls\n", ""), side)
    assert line.endswith("; make it again (pert-days april.csv --calendar)")


def test_version_1_fits_the_bytes_of_its_deck(tmp_path: Path) -> None:
    """It cannot say what of another content belongs to it."""
    side = json.dumps(VERSION_1).encode()
    assert found(tmp_path, APRIL, side) is not None
    assert "a side file of version 1 does not say" in refusal(tmp_path, APRIL + "\n", side)


def first_task(content: dict[str, Any], **parts: Any) -> None:
    """Changes fields of the third task."""
    content["tasks"][2].update(parts)


@pytest.mark.parametrize(
    "change, why",
    [
        (
            lambda side: first_task(side, finish_moment="NOPE"),
            "TASK NOPE is not in the deck",
        ),
        (
            lambda side: first_task(side, parts=["Walls", "NOPE"]),
            "TASK NOPE is not in the deck",
        ),
        (
            lambda side: side["tasks"].append({**side["tasks"][0], "code": "X", "parts": ["X"]}),
            "TASK X is not in the deck",
        ),
        (lambda side: side["tasks"].pop(3), "TASK Roof is not in the side file"),
        (
            lambda side: side.update(start="2027-03-01"),
            "begins on 2026-03-02, not on 2027-03-01",
        ),
        (
            lambda side: side.update(start="0001-01-01"),
            "0001-01-01 is not in the years 1900 to",
        ),
        (
            lambda side: side.update(version=3),
            "version 3 of side files; this program reads up to",
        ),
        (lambda side: side.clear(), "version: it is missing"),
    ],
)
@pytest.mark.parametrize("version", [1, 2])
def test_a_changed_side_file_is_refused(
    tmp_path: Path, version: int, change: Callable[[dict[str, Any]], None], why: str
) -> None:
    """Cards that are not there, tasks that are missing, another start, and dates of no deck."""
    side = json.loads(json.dumps(VERSION_1) if version == 1 else version_2())
    change(side)
    assert why in refusal(tmp_path, APRIL, json.dumps(side).encode())


def test_what_is_no_file_of_that_size_is_one_line(tmp_path: Path) -> None:
    """More than the most bytes are not read at all; a folder is an error of the system."""
    path = tmp_path / "april.csv"
    deck = parse_deck(APRIL.encode(), "april.csv")
    with side_path(path).open("wb") as file:
        file.truncate(MAX_BYTES + 1)
    with pytest.raises(InputError, match="no side file"):
        find(path, deck, b"")
    side_path(path).unlink()
    side_path(path).mkdir()
    with pytest.raises(IsADirectoryError):
        find(path, deck, b"")
