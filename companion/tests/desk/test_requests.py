"""A desk does what commands do: each request of its pages, by a running desk."""

from collections.abc import Iterator
from decimal import Decimal
from pathlib import Path
from shutil import copy

import pytest

from desk.serving import DeskThread, Json, task_edit
from pert_companion.cli import importing
from pert_companion.cli.common import run_command
from pert_companion.model.deck import read_deck
from pert_companion.model.sidefile import side_path
from pert_companion.programs.client import Programs
from pert_companion.state.project import open_state
from running import CASES, EXAMPLES, MONTHS

GARDEN = EXAMPLES / "garden.xml"
LOSSY = CASES / "xer" / "expdur.xer"


@pytest.fixture
def desk(tmp_path: Path) -> Iterator[DeskThread]:
    """Gives a desk of a folder with a deck of tasks and a network."""
    copy(EXAMPLES / "tasks.csv", tmp_path)
    copy(EXAMPLES / "house.csv", tmp_path)
    with DeskThread(tmp_path) as running:
        yield running


def rows_of(project: Json) -> dict[str, Json]:
    """Returns the rows of tasks by code."""
    return {row["code"]: row for row in project["rows"] if row["kind"] == "task"}


def test_the_folder_has_its_projects_and_planners_files(desk: DeskThread, tmp_path: Path) -> None:
    """Decks are projects; other files may be imported; a row is computed when it is asked for."""
    copy(GARDEN, tmp_path)
    (tmp_path / "notes.md").write_text("no plan")
    found = desk.get("folder")
    assert [row["file"] for row in found["projects"]] == ["house.csv", "tasks.csv"]
    assert [file["name"] for file in found["files"]] == ["garden.xml"]
    assert all(row["row"] is None for row in found["projects"])
    assert [row["title"] for row in found["projects"]] == [
        "House, two floors",
        "A house in 22 tasks",
    ]
    assert found["sums"] is None
    row = desk.get(f"projects/{desk.project('house.csv')}/row")["row"]
    assert row["fault"] == "" and len(row["cells"]) == len(row["heads"]) - 1
    desk.get(f"projects/{desk.project('tasks.csv')}/row")
    assert desk.get("folder")["sums"] == []


def test_a_deck_that_is_refused_has_its_fault_as_its_row(desk: DeskThread, tmp_path: Path) -> None:
    """A file that begins as a deck and is none does not keep the folder from opening."""
    (tmp_path / "bad.csv").write_text("PROJECT,X\n")
    project = desk.project("bad.csv")
    assert "bad.csv" in desk.get(f"projects/{project}/row")["row"]["fault"]
    error = desk.get(f"projects/{project}", 422)["error"]
    assert error["code"] == "refused" and str(tmp_path) not in error["message"]


def test_a_project_has_its_table_curve_and_schedule(desk: DeskThread) -> None:
    """The figures are those of `pert curve` and `pert point` on the same deck."""
    found = desk.get(f"projects/{desk.project('tasks.csv')}?length=65")
    network = Programs().network(read_deck(EXAMPLES / "tasks.csv"))
    curve = Programs().curve(network)
    points = [(point["units"], int(point["work"])) for point in found["curve"]["points"]]
    assert points == [(point.length, point.cost) for point in curve]
    cheapest = Programs().point(network, 65)
    assert found["schedule"]["length"]["work"] == str(cheapest.cost)
    durations = {task["code"]: task["duration"] for task in found["schedule"]["tasks"]}
    assert durations["DIG"] == str(cheapest.durations["DIG"])
    rows = rows_of(found)
    assert rows["DIG"]["links_text"] == "PERMIT, CLEAR"
    assert (rows["DIG"]["normal"], rows["DIG"]["shortest"], rows["DIG"]["price"]) == (
        "4",
        "3",
        "350",
    )
    assert [row["name"] for row in found["rows"] if row["kind"] == "group"][0] == "Ground"


def test_an_edit_says_what_it_changes(desk: DeskThread) -> None:
    """Digging takes 2 days more; all of it is critical, so that the end is 2 days later."""
    project = desk.project("tasks.csv")
    before = desk.get(f"projects/{project}")
    answer = desk.edit(project, 1, task_edit("DIG", "normal", "6"))
    assert answer["version"] == 2 and answer["saved_version"] == 1
    assert answer["changes"] == [
        {
            "task": "DIG",
            "name": "Dig the foundation",
            "field": "normal duration",
            "before": "4",
            "after": "6",
        }
    ]
    assert answer["curve"]["longest"] == before["curve"]["longest"] + 2
    assert [row["normal"] for row in answer["rows"]] == ["6"]
    assert desk.get(f"projects/{project}/schedule")["version"] == 2


def test_edits_of_one_request_are_made_together_or_not(desk: DeskThread) -> None:
    """The second edit makes no sense, so that the first one is not made either."""
    project = desk.project("tasks.csv")
    edits = task_edit("DIG", "normal", "6"), task_edit("POUR", "shortest", "50")
    error = desk.edit(project, 1, *edits, status=422)["error"]
    assert error["code"] == "refused" and "POUR" in error["message"]
    assert desk.get(f"projects/{project}/changes")["list"] == []
    assert desk.get(f"projects/{project}/version")["version"] == 1


@pytest.mark.parametrize(
    ("task", "field", "value", "why"),
    [
        ("DIG", "normal", "2", "shortest duration, 3 days, is above 2"),
        ("DIG", "normal", "many", "no number of days"),
        ("DIG", "normal", "4.5", "steps of 1 day"),
        ("DIG", "price", "-3", "no number of money"),
        ("SURVEY", "price", "10", "cannot be shortened"),
        ("CLEAR", "links", "POUR", "these tasks are linked in a circle: "),
        ("CLEAR", "links", "NOBODY", "no task 'NOBODY'"),
        ("DIG", "optimistic", "9", "estimates out of order"),
        ("NOBODY", "normal", "3", "no task 'NOBODY'"),
        ("DIG", "actual_start", "2024-03-04", "not between"),
        ("DIG", "name", "  ", "a task has a name"),
    ],
)
def test_an_edit_that_makes_no_sense_is_refused(
    desk: DeskThread, task: str, field: str, value: str, why: str
) -> None:
    """Each refusal is one line that names the task, and nothing is changed."""
    project = desk.project("tasks.csv")
    error = desk.edit(project, 1, task_edit(task, field, value), status=422)["error"]
    assert why in error["message"], error
    assert (error["task"], error["field"]) == (task, field)
    assert desk.get(f"projects/{project}/version")["version"] == 1


def test_tasks_are_added_linked_and_removed(desk: DeskThread, tmp_path: Path) -> None:
    """Each is a step with its command, which does the same; undo takes it back."""
    project = desk.imported(GARDEN)
    before = (tmp_path / "garden.csv").read_bytes()
    added = desk.post(
        f"projects/{project}/tasks", {"version": 1, "name": "Lay the drain", "after": "T3"}
    )
    assert added["rows_are_others"]
    (new,) = (each for each in added["changes"] if each["after"] == "new")
    code = new["task"]
    assert code == "Lay-drain"
    linked = desk.edit(project, 2, task_edit(code, "links", "3SS+1d"))
    assert not linked["rows_are_others"]
    rows = rows_of(desk.get(f"projects/{project}"))
    assert list(rows)[:3] == ["T2", "T3", code]
    assert (rows[code]["name"], rows[code]["normal"]) == ("Lay the drain", "1")
    assert rows[code]["links_text"] == "T3SS+1d" and rows[code]["editable"][0] == "name"
    desk.edit(project, 3, task_edit("T5", "remove", ""))
    steps = desk.get(f"projects/{project}/history")["steps"]
    assert [step["text"] for step in steps] == [
        f"{code}.new=T3, {code}.name=Lay the drain",
        f"{code}.links=3SS+1d",
        "T5.remove=",
    ]
    for _ in steps:
        desk.post(f"projects/{project}/undo", {"version": desk.version(project)})
    desk.post(f"projects/{project}/save", {"version": desk.version(project)})
    assert (tmp_path / "garden.csv").read_bytes() == before


def test_what_is_fixed_is_not_offered_and_says_why(desk: DeskThread, tmp_path: Path) -> None:
    """A cost that several accounts share is in the deck; percent needs a side file."""
    deck = tmp_path / "tasks.csv"
    text = deck.read_text()
    (account,) = (line for line in text.splitlines() if line.startswith("ACCT,GROUND,"))
    fields = account.split(",")
    parts = [fields[:3] + ["100", ""], ["ACCT", "OTHER", fields[2], str(int(fields[3]) - 100), ""]]
    deck.write_text(text.replace(account, "\n".join(map(",".join, parts))))
    rows = rows_of(desk.get(f"projects/{desk.project('tasks.csv')}"))
    assert "2 accounts" in rows["DIG"]["fixed"]["cost"]
    assert "side file" in rows["DIG"]["fixed"]["percent"]
    assert not {"cost", "percent"} & set(rows["DIG"]["editable"])
    assert {"normal", "links", "actual_start"} <= set(rows["DIG"]["editable"])


def test_the_data_date_of_a_change_is_the_evening(desk: DeskThread) -> None:
    """As everywhere at the desk; the deck has the morning after it."""
    project = desk.imported(GARDEN)
    answer = desk.edit(project, 1, {"kind": "data-date", "day": "2026-04-10"})
    (change,) = (each for each in answer["changes"] if each["field"] == "data date")
    assert (change["before"], change["after"]) == ("", "2026-04-10")
    deck = desk.imported(EXAMPLES / "sheet.csv")
    answer = desk.edit(deck, 1, {"kind": "data-date", "day": "2024-04-10"})
    (change,) = (each for each in answer["changes"] if each["field"] == "data date")
    assert change["after"] == "2024-04-10"


def test_undo_and_redo_have_no_limit(desk: DeskThread) -> None:
    """Forty edits are taken back one by one, and made again."""
    project = desk.project("tasks.csv")
    start = desk.get(f"projects/{project}")["curve"]
    version, curves = 1, [start]
    for number in range(40):
        answer = desk.edit(project, version, task_edit("WALLS", "normal", str(11 + number)))
        version = answer["version"]
        curves.append(answer["curve"])
    for curve in reversed(curves[:-1]):
        answer = desk.post(f"projects/{project}/undo", {"version": version})
        version = answer["version"]
        assert answer["curve"] == curve
    assert not answer["can_undo"] and answer["can_redo"]
    assert desk.post(f"projects/{project}/undo", {"version": version}, 422)["error"]
    for curve in curves[1:]:
        answer = desk.post(f"projects/{project}/redo", {"version": version})
        version = answer["version"]
        assert answer["curve"] == curve
    assert answer["can_undo"] and not answer["can_redo"]


def test_a_second_window_is_told_and_nothing_is_lost(desk: DeskThread) -> None:
    """Two tabs show version 1; the one that is later is told what the other one changed."""
    project = desk.project("tasks.csv")
    desk.edit(project, 1, task_edit("DIG", "normal", "6"))
    error = desk.edit(project, 1, task_edit("POUR", "normal", "5"), status=409)["error"]
    assert error["code"] == "conflict" and error["version"] == 2
    assert [(each["task"], each["after"]) for each in error["changes"]] == [("DIG", "6")]
    answer = desk.edit(project, 2, task_edit("POUR", "normal", "5"))
    listed = desk.get(f"projects/{project}/changes")["list"]
    assert answer["version"] == 3
    assert [each["task"] for each in listed] == ["DIG", "POUR"]


def test_changes_are_a_list_and_a_diff(desk: DeskThread) -> None:
    """The diff of the deck has the card before and after."""
    project = desk.project("tasks.csv")
    desk.edit(project, 1, task_edit("DIG", "normal", "6"))
    diff = desk.get(f"projects/{project}/changes")["diff"].splitlines()
    assert "-TASK,DIG,GROUND,3,4,6,4,3,2400,350,Dig the foundation" in diff
    assert "+TASK,DIG,GROUND,3,4,6,6,3,2400,350,Dig the foundation" in diff
    revert = desk.post(f"projects/{project}/revert", {"version": 2})
    assert revert["can_undo"] and revert["saved_version"] == revert["version"]
    assert desk.get(f"projects/{project}/changes")["list"] == []


def test_saving_keeps_what_was_before(desk: DeskThread, tmp_path: Path) -> None:
    """The deck has the edits, and the one of before is among the states, byte for byte."""
    project, old = desk.project("tasks.csv"), (tmp_path / "tasks.csv").read_bytes()
    desk.edit(project, 1, task_edit("DIG", "normal", "6"))
    assert (tmp_path / "tasks.csv").read_bytes() == old
    saved = desk.post(f"projects/{project}/save", {"version": 2})
    assert saved["files"] == ["tasks.csv"] and saved["saved_version"] == saved["version"]
    cards = {card.code: card for card in read_deck(tmp_path / "tasks.csv").tasks}
    assert cards["DIG"].normal == 6
    kept = tmp_path / ".pert-desk" / "before" / "tasks" / f"{saved['before']}.csv"
    assert kept.read_bytes() == old
    kinds = [state["kind"] for state in desk.get(f"projects/{project}/states")["states"]]
    assert kinds == ["opened", "before", "other"]


def test_a_file_that_somebody_else_changed_is_told(desk: DeskThread, tmp_path: Path) -> None:
    """The edit of a colleague in the same folder is shown; both edits are there in the end."""
    project, deck = desk.project("tasks.csv"), tmp_path / "tasks.csv"
    desk.edit(project, 1, task_edit("DIG", "normal", "6"))
    deck.write_text(
        deck.read_text().replace("TASK,POUR,GROUND,2,3,4,3,", "TASK,POUR,GROUND,2,3,4,5,")
    )
    outside = desk.get(f"projects/{project}/version")["outside"]
    assert [(each["task"], each["after"]) for each in outside["changes"]] == [("POUR", "5")]
    error = desk.post(f"projects/{project}/save", {"version": 2}, 409)["error"]
    assert error["code"] == "changed-outside"
    assert "+TASK,POUR,GROUND,2,3,4,5" in error["outside"]["diff"]
    answer = desk.post(f"projects/{project}/outside", {"version": 2, "take": "theirs"})
    rows = {row["code"]: row["normal"] for row in answer["rows"]}
    assert rows == {"POUR": "5"}
    desk.post(f"projects/{project}/save", {"version": answer["version"]})
    cards = {card.code: card.normal for card in read_deck(deck).tasks}
    assert (cards["DIG"], cards["POUR"]) == (6, 5)


def test_the_own_version_can_be_kept(desk: DeskThread, tmp_path: Path) -> None:
    """Then the save writes over the file of somebody else, which is kept."""
    project, deck = desk.project("tasks.csv"), tmp_path / "tasks.csv"
    desk.edit(project, 1, task_edit("DIG", "normal", "6"))
    theirs = deck.read_bytes().replace(b"A house in 22 tasks", b"Their house")
    deck.write_bytes(theirs)
    answer = desk.post(f"projects/{project}/outside", {"version": 2, "take": "mine"})
    saved = desk.post(f"projects/{project}/save", {"version": answer["version"]})
    assert b"A house in 22 tasks" in deck.read_bytes()
    kept = tmp_path / ".pert-desk" / "before" / "tasks" / f"{saved['before']}.csv"
    assert kept.read_bytes() == theirs


def test_a_file_that_is_gone_or_no_deck_any_more_is_told(desk: DeskThread, tmp_path: Path) -> None:
    """The line says what became of the file, and edits are kept."""
    project, deck = desk.project("tasks.csv"), tmp_path / "tasks.csv"
    desk.edit(project, 1, task_edit("DIG", "normal", "6"))
    deck.write_text("PROJECT,broken\n")
    assert "record 1" in desk.get(f"projects/{project}/version")["outside"]["fault"]
    deck.unlink()
    assert "No such file" in desk.get(f"projects/{project}/version")["outside"]["fault"]
    assert desk.post(f"projects/{project}/save", {"version": 2}, 409)["error"]["code"]
    answer = desk.post(f"projects/{project}/outside", {"version": 2, "take": "mine"})
    desk.post(f"projects/{project}/save", {"version": answer["version"]})
    assert {card.code: card.normal for card in read_deck(deck).tasks}["DIG"] == 6


def test_a_length_has_its_date_and_its_price(desk: DeskThread) -> None:
    """By a day, it is the longest length that ends by then."""
    project = desk.project("tasks.csv")
    curve = desk.get(f"projects/{project}")["curve"]["points"]
    found = desk.get(f"projects/{project}/length?by={curve[1]['end']}")
    assert (found["units"], found["end"], found["work"]) == (
        curve[1]["units"],
        curve[1]["end"],
        curve[1]["work"],
    )
    assert desk.get(f"projects/{project}/length?length=1")["units"] == curve[-1]["units"]
    assert (
        "earliest ends"
        in desk.get(f"projects/{project}/length?by=2024-03-05", 422)["error"]["message"]
    )
    assert desk.get(f"projects/{project}/length?length=x", 400)["error"]["code"] == "bad-request"


def test_options_have_chances(desk: DeskThread) -> None:
    """Today's plan is the first option and the shortest length the last one."""
    found = desk.get(f"projects/{desk.project('tasks.csv')}/options")
    assert "today’s plan" in found["options"][0]["names"]
    assert "shortest" in found["options"][-1]["names"]
    assert found["options"][0]["chance"].endswith(" %")
    assert "even chance" in found["sureness"]


def test_the_price_of_time_has_a_cheapest_length(desk: DeskThread) -> None:
    """At 200 a day, days that cost 190 less than that are worth it."""
    project = desk.project("tasks.csv")
    edits: list[Json] = [
        {"kind": "contract", "value": "2024-05-06"},
        {"kind": "terms", "field": "overhead", "value": "200"},
        {"kind": "terms", "field": "penalty", "value": "1000"},
    ]
    desk.edit(project, 1, *edits)
    found = desk.get(f"projects/{project}")
    assert found["terms"] == {
        "overhead": "200",
        "bonus": "0",
        "penalty": "1000",
        "target": "2024-05-06",
    }
    assert found["curve"]["contract"]["day"] == "2024-05-06"
    names = [mark["name"] for mark in found["curve"]["marks"]]
    assert any("cheapest in all" in name for name in names)
    error = desk.edit(project, 2, {"kind": "contract", "value": ""}, status=422)["error"]
    assert "need its date" in error["message"]


@pytest.mark.parametrize("form", ["xlsx", "csv", "ics", "xml", "report", "deck", "certificate"])
def test_every_format_is_downloaded(desk: DeskThread, form: str) -> None:
    """A file has the name of its project and length; its content begins as its kind does."""
    project = desk.project("tasks.csv")
    ready = desk.post(f"projects/{project}/exports", {"version": 1, "format": form, "length": 65})
    answer = desk.client.get(ready["url"])
    begin = {
        "xlsx": b"PK\x03\x04",
        "ics": b"BEGIN:VCALENDAR",
        "xml": b"<?xml ",
        "report": b"<!DOCTYPE html>",
        "deck": b"PROJECT,HOME,",
    }
    assert answer.status_code == 200 and len(answer.content) == ready["bytes"]
    assert answer.content.startswith(begin.get(form, b""))
    assert ready["name"] in answer.headers["content-disposition"]
    assert form in ("deck",) or "tasks.csv" in ready["command"]


def test_the_certificate_is_checked(desk: DeskThread, tmp_path: Path) -> None:
    """`pert_check` accepts the certificate that is downloaded, on the network of the deck."""
    project = desk.project("tasks.csv")
    found = desk.post(f"projects/{project}/check", {"version": 1})
    assert found["is_certified"] and found["answer"].startswith("certified ")
    ready = desk.post(f"projects/{project}/exports", {"version": 1, "format": "certificate"})
    text = desk.client.get(ready["url"]).content
    network = Programs().network(read_deck(tmp_path / "tasks.csv")).to_bytes()
    assert Programs().check(network, [text]) == found["answer"]


def test_a_planners_file_is_imported_changed_and_handed_back(
    desk: DeskThread, tmp_path: Path
) -> None:
    """The file is in the folder with its deck; a shorter length goes back into a copy of it."""
    project = desk.imported(GARDEN)
    assert (tmp_path / "garden.xml").read_bytes() == GARDEN.read_bytes()
    found = desk.get(f"projects/{project}")
    assert found["source"] == {
        "name": "garden.xml",
        "format": "mspdi",
        "is_here": True,
        "planner": "MS Project (.xml)",
    }
    shorter = found["curve"]["shortest"]
    request: Json = {"version": 1, "format": "into", "length": shorter, "to_folder": True}
    ready = desk.post(f"projects/{project}/exports", request)
    assert ready["notes"] == [] and ready["file"] == ready["name"]
    back = desk.imported(tmp_path / ready["file"])
    again = desk.get(f"projects/{back}")
    assert again["curve"]["longest"] == shorter
    assert (
        again["schedule"]["end"] == desk.get(f"projects/{project}/length?length={shorter}")["end"]
    )


def test_capacities_of_the_last_import_hold_on(desk: DeskThread, tmp_path: Path) -> None:
    """A newer state of a project keeps what `pert-import --capacity` was told."""
    plan = tmp_path / "crew.csv"
    plan.write_text("ID,Name,Duration,Start,Resource\n1,Dig,5,2026-09-07,Crew\n")
    deck = tmp_path / "barn.csv"
    words = [plan, "--capacity", "Crew=350%", "-o", deck]
    command = importing.NAME, importing.parser(), importing.run
    assert run_command(*command, [str(word) for word in words]) == 0
    plan.write_text("ID,Name,Duration,Start,Resource\n1,Dig,6,2026-09-07,Crew\n")
    project = desk.imported(plan, {"project": desk.project("barn.csv")})
    desk.post(f"projects/{project}/save", {"version": desk.version(project)})
    side = open_state(deck, Programs()).side
    assert [task.normal for task in side.tasks] == [6]
    (capacity,) = side.capacities
    assert (capacity.name, capacity.units, capacity.is_said) == ("Crew", Decimal("3.5"), True)


def test_losses_are_shown_before_there_is_a_project(desk: DeskThread, tmp_path: Path) -> None:
    """Nothing is written until each kind of loss is accepted."""
    upload = desk.drop("uploads", LOSSY)["upload"]
    events = desk.events(upload)
    percents = [data["percent"] for name, data in events if name == "progress"]
    assert percents == sorted(percents) and len(percents) > 2
    outcome = events[-1][1]
    kinds = [each["kind"] for each in outcome["losses"]]
    assert kinds and outcome["project"] is None
    assert not (tmp_path / "expdur.csv").exists()
    desk.post(f"uploads/{upload}/accept", {"kinds": kinds[:-1]})
    assert desk.events(upload)[-1][1]["project"] is None
    desk.post(f"uploads/{upload}/accept", {"kinds": kinds, "name": "Christmas"})
    name, done = desk.events(upload)[-1]
    assert name == "outcome" and done["project"] is not None
    assert f"--accept {','.join(kinds)}" in done["command"]
    assert open_state(tmp_path / "Christmas.csv", Programs()).side.accepted


@pytest.mark.parametrize(
    ("name", "data"),
    [
        ("plan.xml", b"<Project"),
        ("plan.xml", b"\x00" * 1000),
        ("plan.xlsx", b"PK\x03\x04rubbish"),
        ("plan.xer", b"ERMHDR\n%T\tTASK\n"),
        ("plan.xml", b"<?xml version='1.0'?><!DOCTYPE a [<!ENTITY b 'c'>]><Project>&b;</Project>"),
    ],
)
def test_a_file_that_is_no_plan_is_one_line(
    desk: DeskThread, tmp_path: Path, name: str, data: bytes
) -> None:
    """A broken or hostile file fails in its own process; the desk goes on."""
    given = tmp_path / "given"
    given.mkdir()
    (given / name).write_bytes(data)
    kind, told = desk.events(desk.drop("uploads", given / name)["upload"])[-1]
    assert kind == "failed"
    assert told["error"]["code"] == "refused" and "\n" not in told["error"]["message"]
    assert told["error"]["message"].startswith(f"{name}: ")
    assert desk.get("folder")["name"]


def test_progress_is_edited(desk: DeskThread, tmp_path: Path) -> None:
    """A task that began and is half done has what is left of it; then it is finished, and open."""
    project = desk.imported(GARDEN)
    first = rows_of(desk.get(f"projects/{project}"))["T2"]
    assert first["normal"] == "4"
    desk.edit(project, 1, {"kind": "data-date", "day": "2026-03-17"})
    answer = desk.edit(
        project, 2, task_edit("T2", "actual_start", "2026-03-16"), task_edit("T2", "percent", "50")
    )
    row = answer["rows"][0]
    assert (row["state"], row["percent"], row["remaining"]) == ("begun", "50", "2")
    answer = desk.edit(project, 3, task_edit("T2", "actual_finish", "2026-03-17"))
    assert answer["rows"][0]["state"] == "finished"
    saved = desk.post(f"projects/{project}/save", {"version": 4})
    assert saved["files"] == ["garden.csv", "garden.json"]
    state = open_state(tmp_path / "garden.csv", Programs())
    assert [card.letter for card in state.deck.statuses] == ["S", "F"]
    answer = desk.edit(
        project,
        4,
        task_edit("T2", "actual_finish", ""),
        task_edit("T2", "actual_start", ""),
        task_edit("T2", "percent", ""),
    )
    assert answer["rows"][0]["state"] == "waiting"


def test_vouchers_are_booked(desk: DeskThread, tmp_path: Path) -> None:
    """What booking does is shown first; the deck has the balance then, and undo takes it back."""
    project = desk.project("tasks.csv")
    vouchers = tmp_path / "vouchers.csv"
    vouchers.write_text(
        "Date,Account,Amount,Number\n2024-03-05,GROUND,500,1\n2024-03-06,NONE,7,2\n"
    )
    options = {"as_of": "2024-03-08", "list": "vouchers"}
    outcome = desk.drop(f"projects/{project}/vouchers", vouchers, options)
    assert outcome["new"] == 2
    assert [each["kind"] for each in outcome["findings"]] == ["account"]
    body = {"version": 1, "upload": outcome["upload"], "accept": []}
    assert "accept account" in desk.post(f"projects/{project}/book", body, 422)["error"]["message"]
    answer = desk.post(f"projects/{project}/book", {**body, "accept": ["account"]})
    fields = {each["field"]: each["after"] for each in answer["changes"]}
    assert fields["spent"] == "500" and fields["vouchers"] == "2"
    desk.post(f"projects/{project}/save", {"version": 2})
    assert "CHARGE,GROUND,2024-03-06,500" in (tmp_path / "tasks.csv").read_text()
    assert (tmp_path / "tasks.ledger.csv").is_file()
    answer = desk.post(f"projects/{project}/undo", {"version": 2})
    fields = {each["field"]: each["after"] for each in answer["changes"]}
    assert fields["spent"] == "0"
    late = desk.post(f"projects/{project}/book", {**body, "version": 3, "accept": []}, 409)
    assert late["error"]["code"] == "conflict"


def test_states_are_saved_and_compared(tmp_path: Path) -> None:
    """A state is in a folder of its own, which `pert-compare` takes; the project stays."""
    for name in ("april.csv", "april.json", "march.csv", "march.json"):
        copy(MONTHS / name, tmp_path)
    with DeskThread(tmp_path) as desk:
        project, other = desk.project("april.csv"), desk.project("march.csv")
        listed = desk.get(f"projects/{project}/states")["states"]
        march = next(state["id"] for state in listed if state["file"] == "march.csv")
        found = desk.get(f"projects/{project}/compare?with={march}")
        assert found["command"] == "pert-compare march.csv april.csv"
        assert found["text"].startswith("COMPARE ")
        date = desk.get(f"projects/{project}")["data_date"]
        states = desk.post(f"projects/{project}/states", {"version": 1, "date": date})["states"]
        assert f"{date}.csv" in [state["file"] for state in states if state["kind"] == "state"]
        state = open_state(tmp_path / "april.states" / f"{date}.csv", Programs())
        assert side_path(state.path).is_file() and state.data_day.isoformat() == date
        assert desk.get(f"projects/{project}/compare?with=nothing", 404)
        assert desk.post(f"projects/{other}/states", {"version": 1, "date": "soon"}, 422)


def test_history_has_the_command_of_each_step(desk: DeskThread) -> None:
    """Steps that were taken back say so."""
    project = desk.project("tasks.csv")
    desk.edit(project, 1, task_edit("DIG", "name", "Dig 'it'"))
    desk.edit(project, 2, task_edit("DIG", "normal", "6"))
    desk.post(f"projects/{project}/undo", {"version": 3})
    steps = desk.get(f"projects/{project}/history")["steps"]
    assert [step["is_undone"] for step in steps] == [False, True]
    assert steps[0]["command"] == (
        "pert-edit tasks.csv 'DIG.name=Dig '\\''it'\\''' -o tasks.csv --overwrite"
    )


def test_the_pages_are_there(desk: DeskThread) -> None:
    """The page of the folder and of a project have their scripts and styles from the desk."""
    for path in ("/", f"/projects/{desk.project('tasks.csv')}"):
        answer = desk.client.get(path)
        assert answer.status_code == 200 and "/static/desk.css" in answer.text
    assert desk.client.get("/static/desk.css").headers["content-type"].startswith("text/css")
    assert "javascript" in desk.client.get("/static/folder.js").headers["content-type"]


@pytest.mark.parametrize(
    ("path", "body", "status"),
    [
        ("edits", {"version": 1, "edits": []}, 400),
        ("edits", {"version": "1", "edits": [{}]}, 400),
        ("edits", {"version": 1, "edits": [{"kind": "task", "field": "colour"}]}, 400),
        ("edits", {"version": True, "edits": [{}]}, 400),
        ("undo", {}, 400),
        ("outside", {"version": 1, "take": "all"}, 400),
        ("exports", {"version": 1, "format": "pdf"}, 400),
        ("exports", {"version": 1, "format": "into"}, 422),
        ("exports", {"version": 1, "format": "side"}, 422),
        ("book", {"version": 1, "upload": "none"}, 404),
    ],
)
def test_a_request_that_makes_no_sense_is_told(
    desk: DeskThread, path: str, body: Json, status: int
) -> None:
    """All errors have one form, and none is a failure of the desk."""
    error = desk.post(f"projects/{desk.project('tasks.csv')}/{path}", body, status)["error"]
    assert error["message"] and error["code"]
