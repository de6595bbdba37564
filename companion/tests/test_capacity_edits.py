"""Capacities at the desk and of `pert-edit`: those of `pert-import --capacity`, kept and undone."""

from collections.abc import Iterator
from dataclasses import replace
from decimal import Decimal
from pathlib import Path

import pytest

from desk.hands import CONTROL, fill, press, tab
from desk.opened import complaints, folder_page, has_settled, project_page
from desk.serving import DeskProcess, DeskThread, Json
from page.browser import CHROMIUM, Browser
from pert_companion.cli import edit as edit_command
from pert_companion.cli import importing, schedule
from pert_companion.desk.edits import Edit, with_edits
from pert_companion.desk.projects import books_of
from pert_companion.desk.saving import read_files
from pert_companion.importing.month_end import Books
from pert_companion.model.capacities import Capacity
from pert_companion.model.errors import InputError
from pert_companion.model.sidefile import from_json, side_path
from running import run_words

Capture = pytest.CaptureFixture[bytes]
EDIT = (edit_command.parser, edit_command.run)
IMPORT = (importing.parser, importing.run)
SCHEDULE = (schedule.parser, schedule.run)
BARN = """\
ID,Name,Duration,Predecessors,Resources
1,Frame,5 days,,Crew
2,Roof,5 days,,Crew
3,Doors,5 days,,Crew
"""


@pytest.fixture(name="deck")
def _deck(tmp_path: Path, capfdbinary: Capture) -> Path:
    """Returns a plan of three tasks that a crew works on at the same time."""
    source = tmp_path / "barn.csv"
    source.write_text(BARN)
    deck = tmp_path / "deck.csv"
    words = (source, "--start", "2026-03-02", "-o", deck)
    assert run_words(capfdbinary, "pert-import", IMPORT, words).status == 0
    return deck


def books(deck: Path) -> Books:
    return books_of(read_files(deck), deck)


def capacities(deck: Path) -> tuple[Capacity, ...]:
    return from_json(side_path(deck).read_bytes(), "side file").capacities


def test_an_edit_is_what_an_import_is_told(deck: Path, capfdbinary: Capture) -> None:
    """The same side file, and the same weeks above the capacity."""
    told = deck.with_name("told.csv")
    words = (
        deck.with_name("barn.csv"),
        "--start",
        "2026-03-02",
        "--capacity",
        "Crew=2",
        "-o",
        told,
    )
    assert run_words(capfdbinary, "pert-import", IMPORT, words).status == 0
    done = run_words(
        capfdbinary, "pert-edit", EDIT, (deck, "crew.capacity=2", "-o", deck, "--overwrite")
    )
    assert done.status == 0 and "pert-edit: capacity of Crew: - -> 2" in done.errors
    assert capacities(deck) == capacities(told) != ()
    loads = [
        run_words(capfdbinary, "pert-schedule", SCHEDULE, (each, "--load")) for each in (deck, told)
    ]
    assert loads[0].output == loads[1].output
    assert "! 2026-03-02 Crew (hours): 120 of 80; 3 at once" in loads[0].output


@pytest.mark.parametrize("name", ["Crew", "crew", "Crew (hours)"])
def test_a_resource_has_names(name: str, deck: Path) -> None:
    """It is said by code or name, with or without its unit, and an empty value takes it away."""
    after = with_edits(books(deck), [Edit("capacity", "250%", name)])
    (found,) = after.side.capacities
    assert (found.name, found.units, found.hourly, found.is_said) == (
        "Crew",
        Decimal("2.5"),
        1,
        True,
    )
    assert with_edits(after, [Edit("capacity", "", name)]).side.capacities == ()


@pytest.mark.parametrize(
    ("name", "value", "why"),
    [
        ("Crane", "1", "there is no resource 'Crane'; there are Crew"),
        ("Crew", "0", "0 is no capacity above 0"),
        ("Crew", "-1", "no number of units"),
        ("Crew", "many", "no number of units"),
    ],
)
def test_what_makes_no_sense_is_refused(name: str, value: str, why: str, deck: Path) -> None:
    with pytest.raises(InputError, match=why):
        with_edits(books(deck), [Edit("capacity", value, name)])


@pytest.mark.parametrize(
    ("title", "hourly"),
    [
        ("Crew (hours)", 1),
        ("Crew (minutes)", 60),
        ("Sand (1/100 t)", 100),
        ("Sand (t)", 1),
        ("", 1),
    ],
)
def test_the_unit_of_a_card_says_what_an_hour_does(title: str, hourly: int, deck: Path) -> None:
    """As `pert-import` counts it: an hour of work is 60 minutes, a ton a hundred hundredths."""
    before = books(deck)
    card = replace(before.deck.resources[0], title=title)
    before = replace(before, deck=replace(before.deck, resources=(card,)))
    (found,) = with_edits(before, [Edit("capacity", "3", card.code)]).side.capacities
    assert found.hourly == hourly


@pytest.fixture(name="desk")
def _desk(deck: Path) -> Iterator[DeskThread]:
    with DeskThread(deck.parent) as running:
        yield running


def test_the_desk_shows_loads_and_takes_capacities(desk: DeskThread, deck: Path) -> None:
    """A capacity is a step: weeks above it are marked, undo takes it back, save keeps it."""
    project = desk.project("deck.csv")
    before = desk.get(f"projects/{project}/load")
    (crew,) = before["resources"]
    assert (crew["name"], crew["title"], crew["capacity"]) == ("Crew", "Crew (hours)", "")
    assert before["overloads"] == [] and before["periods"][0] == "2026-03-02"
    edit: Json = {"kind": "capacity", "resource": crew["code"], "value": "2"}
    answer = desk.edit(project, 1, edit)
    assert [each["field"] for each in answer["changes"]] == ["capacity of Crew"]
    after = desk.get(f"projects/{project}/load")
    assert after["resources"][0]["above"] == [0]
    (above,) = after["overloads"]
    assert (above["amount"], above["available"], above["most"]) == ("120", "80", "3")
    desk.post(f"projects/{project}/undo", {"version": answer["version"]})
    assert desk.get(f"projects/{project}/load")["overloads"] == []
    version = desk.version(project)
    desk.post(f"projects/{project}/redo", {"version": version})
    desk.post(f"projects/{project}/save", {"version": desk.version(project)})
    assert [each.units for each in capacities(deck)] == [2]
    refused = desk.edit(project, desk.version(project), {**edit, "value": "none"}, status=422)
    assert "no number of units" in refused["error"]["message"]


@pytest.mark.skipif(CHROMIUM is None, reason="chromium is missing")
def test_a_capacity_in_the_browser(deck: Path) -> None:
    """Somebody writes a capacity, sees the week that is above it, and takes it back."""
    with DeskProcess(deck.parent) as desk, Browser() as browser:
        page = project_page(folder_page(browser, desk), "deck")
        tab(page, "load")
        page.wait("document.querySelector('#load-weeks table') !== null")
        assert page.text("#load-above") == "No capacity is known."
        code = page.run("document.querySelector('#capacities input').id")
        fill(page, f"#{code}", "2")
        has_settled(page)
        page.wait("document.querySelector('#load-above table') !== null")
        assert "120" in page.text("#load-above") and "80" in page.text("#load-above")
        assert page.run("document.querySelectorAll('#load-weeks .above').length") == 1
        tab(page, "changes")
        page.wait("document.getElementById('history').textContent.includes('capacity=2')")
        tab(page, "load")
        press(page, "z", CONTROL)
        page.wait("document.getElementById('load-above').textContent === 'No capacity is known.'")
        assert page.run(f"document.getElementById('{code}').value") == ""
        assert complaints(page) == []
