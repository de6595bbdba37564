"""What a desk does when something ends: itself, a program, the disk; and when there is much."""

import os
import signal
import time
from pathlib import Path
from random import Random
from shutil import copy
from threading import Thread

import httpx
import pytest

from desk.serving import DeskProcess, DeskThread, Json, task_edit
from pert_companion.desk.journal import Journal
from pert_companion.desk.projects import books_of
from pert_companion.desk.saving import Files, finish_saves, files_of, read_files, save
from pert_companion.desk.edits import edit_of, with_edits
from pert_companion.programs.children import end_children
from running import EXAMPLES

GARDEN = EXAMPLES / "garden.xml"


def children(pid: int) -> list[int]:
    """Returns the processes that a process has started, and theirs."""
    found = []
    for task in Path(f"/proc/{pid}/task").glob("*/children"):
        for child in map(int, task.read_text().split()):
            found += [child, *children(child)]
    return found


def is_running(pid: int) -> bool:
    """Says whether a process runs; one that has ended and was not waited for does not."""
    try:
        return Path(f"/proc/{pid}/stat").read_text().rpartition(")")[2].split()[0] != "Z"
    except OSError:
        return False


@pytest.mark.parametrize("number", [signal.SIGINT, signal.SIGTERM, signal.SIGHUP])
def test_it_ends_by_a_signal_and_leaves_no_process(tmp_path: Path, number: int) -> None:
    """Ctrl-C, SIGTERM and a closed terminal end the desk, its session and its folder of files."""
    copy(EXAMPLES / "tasks.csv", tmp_path)
    with DeskProcess(tmp_path) as desk:
        project = desk.enter().project("tasks.csv")
        desk.edit(project, 1, task_edit("DIG", "normal", "6"))
        started = children(desk.process.pid)
        assert started
        assert desk.end(number) == 0
        deadline = time.monotonic() + 10
        while any(map(is_running, started)) and time.monotonic() < deadline:
            time.sleep(0.05)
        assert not any(map(is_running, started))
    assert not list(Path("/tmp").glob(f"pert-desk-{desk.process.pid}-*"))


def test_edits_of_a_desk_that_was_killed_are_there_again(tmp_path: Path) -> None:
    """Nothing was saved; the next desk has the edits, and can take them back."""
    copy(EXAMPLES / "tasks.csv", tmp_path)
    with DeskProcess(tmp_path) as desk:
        project = desk.enter().project("tasks.csv")
        desk.edit(project, 1, task_edit("DIG", "normal", "6"))
        desk.edit(project, 2, task_edit("POUR", "normal", "5"))
        desk.edit(project, 3, task_edit("WALLS", "normal", "12"))
        desk.post(f"projects/{project}/undo", {"version": 4})
        desk.end(signal.SIGKILL)
    with DeskThread(tmp_path) as again:
        assert next(row["unsaved"] for row in again.get("folder")["projects"]) > 0
        found = again.get(f"projects/{project}")
        assert found["recovered"] == 2
        rows = {row["code"]: row["normal"] for row in found["rows"] if row["kind"] == "task"}
        assert (rows["DIG"], rows["POUR"], rows["WALLS"]) == ("6", "5", "10")
        answer = again.post(f"projects/{project}/undo", {"version": found["version"]})
        assert [each["task"] for each in answer["changes"]] == ["POUR"]


def test_a_line_of_the_journal_that_was_not_finished_is_none(tmp_path: Path) -> None:
    """KILL in the middle of a line leaves the lines before it."""
    deck = tmp_path / "tasks.csv"
    copy(EXAMPLES / "tasks.csv", deck)
    journal = Journal(deck)
    journal.begin(read_files(deck).digest)
    journal.append({"edits": ["DIG.normal=6"]})
    journal.append({"edits": ["POUR.normal=5"]})
    journal.path.write_bytes(journal.path.read_bytes()[:-10])
    with DeskThread(tmp_path) as desk:
        assert desk.get(f"projects/{desk.project('tasks.csv')}")["recovered"] == 1


def test_killed_at_any_moment_of_a_save_files_are_those_before_or_after(tmp_path: Path) -> None:
    """A desk saves again and again until it is killed; the next one opens a deck that fits."""
    random = Random(4)
    with DeskThread(tmp_path) as desk:
        desk.imported(GARDEN)
    for _ in range(8):
        with DeskProcess(tmp_path) as desk:
            project = desk.enter().project("garden.csv")
            found = desk.get(f"projects/{project}")
            writing = Thread(target=_save_often, args=(desk, project, found["version"]))
            writing.start()
            time.sleep(random.uniform(0.05, 0.9))
            desk.process.kill()
            writing.join()
            desk.process.wait()
        finish_saves(tmp_path)
        books = books_of(read_files(tmp_path / "garden.csv"), tmp_path / "garden.csv")
        normal = next(card.normal for card in books.deck.tasks if card.code == "T2")
        entry = next(task for task in books.side.tasks if task.code == "T2")
        assert entry.normal == normal
    assert not list((tmp_path / ".pert-desk" / "saving").iterdir())


def _save_often(desk: DeskProcess, project: str, version: int) -> None:
    """Edits and saves until nobody answers."""
    days = 5
    try:
        while True:
            days = days % 9 + 4
            answer = desk.edit(project, version, task_edit("T2", "normal", str(days)))
            version = answer["version"]
            desk.post(f"projects/{project}/save", {"version": version})
    except (httpx.HTTPError, AssertionError):
        return


@pytest.mark.parametrize("replaced", [0, 1, 2])
def test_a_save_that_was_interrupted_is_finished_or_forgotten(
    tmp_path: Path, replaced: int, monkeypatch: pytest.MonkeyPatch
) -> None:
    """After no file nothing was saved; after the first one all of them are."""
    with DeskThread(tmp_path) as desk:
        desk.imported(GARDEN)
    deck = tmp_path / "garden.csv"
    before = read_files(deck)
    after = files_of(with_edits(books_of(before, deck), [edit_of("T2.normal=9")]))

    def write_some(parts: list[tuple[Path, bytes]]) -> None:
        for path, data in parts[:replaced]:
            path.write_bytes(data)
        raise KeyboardInterrupt

    with monkeypatch.context() as patch:
        patch.setattr("pert_companion.desk.saving.keep_before", lambda path: path)
        patch.setattr("pert_companion.desk.saving.write_together", write_some)
        with pytest.raises(KeyboardInterrupt):
            save(deck, after)
    assert finish_saves(tmp_path) == (["garden.csv"] if replaced else [])
    assert read_files(deck) == (after if replaced else before)
    assert finish_saves(tmp_path) == []


def test_a_full_disk_leaves_the_files_as_they_were(tmp_path: Path) -> None:
    """The desk says that the disk is full; the edit and the save are not made, and it goes on."""
    deck = tmp_path / "tasks.csv"
    copy(EXAMPLES / "tasks.csv", deck)
    old = deck.read_bytes()
    with DeskProcess(tmp_path) as desk:
        project = desk.enter().project("tasks.csv")
        desk.edit(project, 1, task_edit("DIG", "normal", "6"))
        desk.fill_disk(1000)
        error = desk.post(f"projects/{project}/save", {"version": 2}, 503)["error"]
        assert error["code"] == "disk-full"
        assert deck.read_bytes() == old
        version = 2
        for number in range(100):
            answer = desk.client.post(
                f"/api/projects/{project}/edits",
                json={"version": version, "edits": [task_edit("DIG", "normal", str(7 + number))]},
                headers={"Origin": desk.origin},
            )
            if answer.status_code == 503:
                break
            version = answer.json()["version"]
        assert answer.json()["error"]["code"] == "disk-full"
        assert desk.get(f"projects/{project}/version")["version"] == version
    with DeskThread(tmp_path) as again:
        assert again.get(f"projects/{project}")["recovered"] == version - 1


def test_a_program_that_is_killed_is_started_again(tmp_path: Path) -> None:
    """The session of pert_whatif ends in the middle; the next edit has a right answer."""
    copy(EXAMPLES / "tasks.csv", tmp_path)
    with DeskThread(tmp_path) as desk:
        project = desk.project("tasks.csv")
        first = desk.edit(project, 1, task_edit("DIG", "normal", "6"))
        end_children()
        second = desk.edit(project, 2, task_edit("DIG", "normal", "7"))
        assert second["curve"]["longest"] == first["curve"]["longest"] + 1


def test_a_program_that_fails_is_told_and_nothing_is_changed(
    tmp_path: Path, monkeypatch: pytest.MonkeyPatch
) -> None:
    """A program that ends without a word is no refusal of the deck."""
    copy(EXAMPLES / "tasks.csv", tmp_path)
    with DeskThread(tmp_path) as desk:
        project = desk.project("tasks.csv")
        desk.get(f"projects/{project}")
        broken = tmp_path / "bin"
        broken.mkdir()
        for name in ("pert", "pert_check", "pert_whatif"):
            (broken / name).write_text("#!/bin/sh\nkill -9 $$\n")
            (broken / name).chmod(0o755)
        monkeypatch.setattr(type(desk.desk.programs), "find", lambda _, name: str(broken / name))
        error = desk.edit(project, 1, task_edit("DIG", "normal", "6"), status=503)["error"]
        assert error["code"] == "program-ended"
        monkeypatch.undo()
        assert desk.edit(project, 1, task_edit("DIG", "normal", "6"))["version"] == 2


def test_fifty_projects_are_listed_and_edited(tmp_path: Path) -> None:
    """Each has its row; not more sessions run than a few."""
    for number in range(50):
        copy(EXAMPLES / ("tasks.csv" if number % 2 else "shed.csv"), tmp_path / f"p{number}.csv")
    with DeskThread(tmp_path) as desk:
        projects = desk.get("folder")["projects"]
        assert len(projects) == 50
        for row in projects:
            assert desk.get(f"projects/{row['id']}/row")["row"]["fault"] == ""
        for row in projects[:20]:
            code = "DIG" if row["file"] in _odd() else "A"
            desk.edit(row["id"], 1, task_edit(code, "name", "Another name"))
        running = [pid for pid in children(os.getpid()) if "pert_whatif" in _command(pid)]
        assert 0 < len(running) <= 8
        assert desk.get("folder")["sums"] is not None


def _odd() -> list[str]:
    return [f"p{number}.csv" for number in range(1, 50, 2)]


def _command(pid: int) -> str:
    try:
        return Path(f"/proc/{pid}/cmdline").read_text()
    except OSError:
        return ""


def large_list(tasks: int) -> str:
    """Returns a list of so many tasks, each after one of those before it."""
    random = Random(tasks)
    rows = ["ID,Group,Name,Duration,Predecessors,Crash,Cost per day,Cost"]
    for number in range(1, tasks + 1):
        before = "" if number == 1 else str(random.randint(max(1, number - 20), number - 1))
        days = random.randint(2, 20)
        rows.append(
            f"{number},Group {number // 50},Task {number},{days} days,{before},1 day,10,100"
        )
    return "\n".join(rows) + "\n"


def test_five_thousand_tasks_are_opened_and_edited(tmp_path: Path) -> None:
    """All rows are there, and an edit answers with the row that changed alone."""
    given = tmp_path / "given"
    given.mkdir()
    (given / "large.csv").write_text(large_list(5000))
    with DeskThread(tmp_path) as desk:
        project = desk.imported(given / "large.csv", {"start": "2026-01-05"})
        found = desk.get(f"projects/{project}")
        rows = [row for row in found["rows"] if row["kind"] == "task"]
        assert len(rows) == len(found["schedule"]["tasks"]) == 5000
        last = max(found["schedule"]["tasks"], key=lambda task: str(task["finish_time"]))["code"]
        days = int(next(row["normal"] for row in rows if row["code"] == last))
        answer = desk.edit(project, 1, task_edit(last, "normal", str(days + 3)))
        assert [row["code"] for row in answer["rows"]] == [last]
        assert answer["curve"]["longest"] == found["curve"]["longest"] + 3


def test_files_are_known_by_all_of_their_content() -> None:
    """No two different sets of files have one digest by how they are put together."""
    digests: set[str] = set()
    cases: list[Json] = [
        {"deck": b"a", "side": b"b"},
        {"deck": b"ab"},
        {"deck": b"a", "ledger": b"b"},
        {"deck": b"a", "side": b"", "ledger": b"b"},
        {"deck": b"", "side": b"ab"},
    ]
    for case in cases:
        digests.add(Files(**case).digest)
    assert len(digests) == len(cases)
