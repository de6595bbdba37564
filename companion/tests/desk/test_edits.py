"""Edits of the desk, of `pert-edit`, and of the deck by hand are the same."""

from collections.abc import Iterator
from pathlib import Path
from shutil import copy

import pytest
from hypothesis import given, settings
from hypothesis import strategies as st

from desk.serving import DeskThread, Json
from examples import example_count
from pert_companion.cli import edit as command
from pert_companion.desk.edits import edit_of, with_edits
from pert_companion.desk.projects import books_of
from pert_companion.desk.saving import files_of, read_files
from pert_companion.model.deck import parse_deck, read_deck
from pert_companion.model.errors import CompanionError, InputError
from pert_companion.programs.client import Programs
from pert_companion.state.project import open_state, state_of
from pert_companion.state.whatif import Questions
from running import EXAMPLES, run_words

TASKS = EXAMPLES / "tasks.csv"
CODES = [card.code for card in read_deck(TASKS).tasks]
PLACES = {"optimistic": 3, "likely": 4, "pessimistic": 5, "normal": 6, "shortest": 7, "price": 9}
"""The field of a TASK card, counted from 0, that each field of a task is."""

FIELDS = st.one_of(
    st.tuples(st.sampled_from(["normal", "shortest"]), st.integers(0, 30).map(str)),
    st.tuples(st.sampled_from(["price", "cost"]), st.integers(0, 900).map(str)),
    st.tuples(st.just("links"), st.lists(st.sampled_from(CODES), max_size=3).map(",".join)),
    st.tuples(st.just("name"), st.text(st.characters(blacklist_categories=["C"]), max_size=30)),
    st.tuples(
        st.sampled_from(["optimistic", "likely", "pessimistic"]), st.integers(1, 30).map(str)
    ),
)
EDITS = st.tuples(st.sampled_from(CODES), FIELDS).map(lambda it: (it[0], it[1][0], it[1][1]))
ACTIONS = st.lists(st.one_of(EDITS, st.just("undo"), st.just("redo")), min_size=1, max_size=8)


@pytest.fixture(scope="module")
def desk(tmp_path_factory: pytest.TempPathFactory) -> Iterator[DeskThread]:
    """Gives a desk for the drawn edits."""
    with DeskThread(tmp_path_factory.mktemp("edits")) as running:
        yield running


def by_hand(text: str, task: str, field: str, value: str) -> str:
    """Returns the text of a deck in which a number of a card is another one."""
    lines = []
    for line in text.splitlines():
        cells = line.split(",")
        if cells[:2] == ["TASK", task]:
            cells[PLACES[field]] = value
        lines.append(",".join(cells))
    return "\n".join(lines) + "\n"


def edited(path: Path, *words: str) -> bytes:
    """Returns the deck of a file after edits."""
    books = with_edits(books_of(read_files(path), path), [edit_of(word) for word in words])
    return files_of(books).deck


@pytest.mark.parametrize(
    ("task", "field", "value"),
    [
        ("DIG", "normal", "9"),
        ("DIG", "shortest", "2"),
        ("DIG", "price", "275"),
        ("WALLS", "optimistic", "7"),
        ("WALLS", "likely", "13"),
        ("WALLS", "pessimistic", "19"),
    ],
)
def test_an_edit_is_one_number_of_one_card(task: str, field: str, value: str) -> None:
    """The canonical text of the deck with that number changed by hand is what is written."""
    wanted = parse_deck(by_hand(TASKS.read_text(), task, field, value).encode(), "deck.csv")
    assert edited(TASKS, f"{task}.{field}={value}") == wanted.to_bytes()


def test_what_was_the_same_follows_the_normal_duration() -> None:
    """A task that cannot be shortened still cannot, and a single estimate stays one."""
    before, after = by_code(TASKS.read_bytes()), by_code(edited(TASKS, "CURE.normal=9"))
    assert (before["CURE"].normal, before["CURE"].crash) == (7, 7)
    assert (after["CURE"].normal, after["CURE"].crash) == (9, 9)
    assert after["CURE"].likely == before["CURE"].likely


def by_code(data: bytes) -> Json:
    """Returns the task cards of a deck by code."""
    return {card.code: card for card in parse_deck(data, "deck.csv").tasks}


def test_a_cost_has_its_budget() -> None:
    """The budget of the package is that of its tasks: both change by the same amount."""
    deck = parse_deck(edited(TASKS, "DIG.cost=2500"), "deck.csv")
    budgets = {card.code: card.budget for card in read_deck(TASKS).accounts}
    assert {card.code: card.budget for card in deck.accounts}["GROUND"] == budgets["GROUND"] + 100
    state_of(deck, Programs()).plan.check()


def test_links_are_after_cards() -> None:
    """The tasks that are named come before; the others do not any more."""
    deck = parse_deck(edited(TASKS, "DIG.links=CLEAR, SURVEY"), "deck.csv")
    assert sorted(each.before for each in deck.afters if each.task == "DIG") == ["CLEAR", "SURVEY"]
    with pytest.raises(InputError, match="without a side file has links from finish to start"):
        edited(TASKS, "DIG.links=CLEARSS+2d")


def test_an_edited_deck_fits_its_side_file(tmp_path: Path) -> None:
    """Of an imported plan the side file follows, so that all commands read it."""
    with DeskThread(tmp_path) as running:
        running.imported(EXAMPLES / "garden.xml")
    deck = tmp_path / "garden.csv"
    words = (
        "T2.normal=6",
        "T3.cost=77",
        "T2.name=Dig deep",
        "overhead=12.5",
        "contract=2026-05-01",
    )
    with pytest.raises(InputError, match="such as 12 and 13"):
        edited(deck, *words)
    books = with_edits(
        books_of(read_files(deck), deck), [edit_of(each.replace(".5", "")) for each in words]
    )
    for path, data in files_of(books).parts(deck):
        path.write_bytes(data)
    state = open_state(deck, Programs())
    entry = next(task for task in state.side.tasks if task.code == "T2")
    assert (entry.normal, entry.minutes, entry.name) == (6, 6 * 480, "Dig deep")
    assert state.side.terms.overhead == 12 and state.deck.terms is not None
    assert state.deck.terms.overhead == 12


@settings(max_examples=example_count(25))
@given(ACTIONS)
def test_the_desk_and_the_command_make_the_same_deck(
    desk: DeskThread, actions: list[object]
) -> None:
    """Random edits, undone and redone at the desk, are those edits by `pert-edit` one by one."""
    number = len(list(desk.desk.folder.glob("*.csv")))
    deck = desk.desk.folder / f"drawn{number}.csv"
    copy(TASKS, deck)
    project, version = desk.project(deck.name), 1
    for action in actions:
        version = act(desk, project, version, action)
    saved = desk.post(f"projects/{project}/save", {"version": version})
    by_command = desk.desk.folder / f"command{number}.csv"
    copy(TASKS, by_command)
    for step in desk.get(f"projects/{project}/history")["steps"]:
        if not step["is_undone"]:
            data = edited(by_command, step["text"])
            by_command.write_bytes(data)
    assert saved["files"] == [deck.name]
    assert deck.read_bytes() == parse_deck(by_command.read_bytes(), "deck.csv").to_bytes()
    network = Programs().network(read_deck(deck))
    curve = desk.get(f"projects/{project}")["curve"]["points"]
    assert [(point["units"], int(point["work"])) for point in curve] == [
        (point.length, point.cost) for point in Programs().curve(network)
    ]
    for path in (deck, by_command):
        path.write_text("")


def act(desk: DeskThread, project: str, version: int, action: object) -> int:
    """Does a drawn action at the desk, and returns the version then; a refusal changes nothing."""
    body: Json = {"version": version}
    path = str(action)
    if isinstance(action, tuple):
        task, field, value = action
        path = "edits"
        body["edits"] = [{"kind": "task", "task": task, "field": field, "value": value}]
    answer = desk.client.post(
        f"/api/projects/{project}/{path}", json=body, headers={"Origin": desk.origin}
    )
    assert answer.status_code in (200, 422), answer.text
    return int(answer.json()["version"]) if answer.status_code == 200 else version


@settings(max_examples=example_count(25))
@given(st.lists(EDITS, min_size=1, max_size=6))
def test_a_session_has_the_curve_of_each_deck(edits: list[tuple[str, str, str]]) -> None:
    """One session that is told differences answers as `pert curve` does for each deck."""
    questions = Questions(Programs())
    books = books_of(read_files(TASKS), TASKS)
    try:
        questions.curve(state_of(books.deck, Programs()).plan)
        for task, field, value in edits:
            try:
                after = with_edits(books, [edit_of(f"{task}.{field}={value}")])
                wanted = Programs().curve(Programs().network(after.deck))
            except CompanionError:
                continue
            books = after
            assert list(questions.curve(state_of(after.deck, Programs()).plan)) == wanted
    finally:
        questions.close()


def test_numbers_alone_need_no_new_session() -> None:
    """Durations, prices and estimates are lines of the session; a cost is a new deck."""
    questions = Questions(Programs())
    books = books_of(read_files(TASKS), TASKS)
    try:
        for word, sessions in (
            ("DIG.normal=6", 1),
            ("DIG.shortest=2", 1),
            ("DIG.normal=2", 1),
            ("DIG.price=1", 2),
            ("WALLS.price=1", 2),
            ("WALLS.likely=11", 2),
            ("WALLS.cost=1", 3),
        ):
            try:
                books = with_edits(books, [edit_of(word)])
            except InputError:
                questions.close()
                continue
            questions.curve(state_of(books.deck, Programs()).plan)
            assert questions.sessions == sessions, word
    finally:
        questions.close()


def test_the_command_writes_all_files(
    tmp_path: Path, capfdbinary: pytest.CaptureFixture[bytes]
) -> None:
    """Without -o it says what would change; with it, deck and side file are written."""
    deck = tmp_path / "tasks.csv"
    copy(TASKS, deck)
    run = (command.parser, command.run)
    tried = run_words(capfdbinary, command.NAME, run, [deck, "DIG.normal=6"])
    assert tried.status == 0 and deck.read_bytes() == TASKS.read_bytes()
    assert "DIG: normal duration: 4 -> 6" in tried.errors
    refused = run_words(capfdbinary, command.NAME, run, [deck, "DIG.normal=6", "-o", deck])
    assert refused.status == 2 and "--overwrite" in refused.errors
    words = [deck, "DIG.normal=6", "-o", deck, "--overwrite"]
    assert run_words(capfdbinary, command.NAME, run, words).status == 0
    assert by_code(deck.read_bytes())["DIG"].normal == 6
    for word in ("DIG.colour=6", "DIG.normal", "normal=6"):
        assert run_words(capfdbinary, command.NAME, run, [deck, word]).status == 2
    assert run_words(capfdbinary, command.NAME, run, [deck, "DIG.normal=1"]).status == 1
