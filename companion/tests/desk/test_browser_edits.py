"""Edits in the browser are the same edits of the deck by the package: bytes of files compared."""

import itertools
from collections.abc import Iterator
from dataclasses import dataclass, field
from pathlib import Path

import pytest
from hypothesis import given, settings
from hypothesis import strategies as st

from desk.hands import CONTROL, SHIFT, cell, press, write
from desk.opened import complaints, folder_page, go, has_settled
from desk.serving import DeskProcess
from page.browser import CHROMIUM, Browser, Page
from pert_companion.desk.edits import Edit, with_edits
from pert_companion.desk.projects import books_of
from pert_companion.desk.saving import files_of, read_files
from pert_companion.importing.month_end import Books
from pert_companion.model.errors import CompanionError
from pert_companion.programs.client import Programs
from pert_companion.state.project import state_of
from running import EXAMPLES

pytestmark = pytest.mark.skipif(CHROMIUM is None, reason="chromium is missing")
COLUMNS = {"Normal": "normal", "Shortest": "shortest", "A day less": "price", "Cost": "cost"}
TASKS = 25
EDITS = st.tuples(st.integers(0, TASKS - 1), st.sampled_from(sorted(COLUMNS)), st.integers(0, 30))
STEPS = st.lists(st.one_of(EDITS, EDITS, st.sampled_from(["undo", "redo"])), min_size=2, max_size=7)


@dataclass
class Model:
    """What a project is after the same steps by the package, without a desk."""

    books: Books
    done: list[Books] = field(default_factory=list)
    undone: list[Books] = field(default_factory=list)

    def step(self, edit: Edit) -> None:
        """Makes an edit; one that the programs refuse changes nothing."""
        try:
            after = with_edits(self.books, [edit])
            state_of(after.deck, Programs()).plan.check()
        except CompanionError:
            return
        self.done.append(self.books)
        self.undone.clear()
        self.books = after

    def undo(self) -> None:
        """Takes the latest step back, if there is one."""
        if self.done:
            self.undone.append(self.books)
            self.books = self.done.pop()

    def redo(self) -> None:
        """Makes the step again that was taken back last, if there is one."""
        if self.undone:
            self.done.append(self.books)
            self.books = self.undone.pop()


@dataclass
class Bench:
    """A desk with a tab, and the files of the plan that is copied for each example."""

    folder: Path
    page: Page
    parts: dict[str, bytes]
    names: Iterator[int] = field(default_factory=lambda: itertools.count(1))

    def project(self) -> Path:
        """Opens a new copy of the plan in the tab, and returns its deck."""
        name = f"copy{next(self.names)}"
        for ending, data in self.parts.items():
            (self.folder / f"{name}{ending}").write_bytes(data)
        script = "fetch('/api/folder').then((it) => it.json()).then(({ projects }) => projects"
        path = self.page.run(f"{script}.find(({{ file }}) => file === '{name}.csv').id)")
        go(self.page, f"/projects/{path}")
        return self.folder / f"{name}.csv"


@pytest.fixture(scope="module")
def bench(tmp_path_factory: pytest.TempPathFactory) -> Iterator[Bench]:
    folder = tmp_path_factory.mktemp("plans")
    with DeskProcess(folder) as desk:
        desk.enter()
        desk.imported(EXAMPLES / "sheet.csv", {"name": "Refit"})
        deck = next(folder.glob("*.csv"))
        parts = {"." + file.suffix[1:]: file.read_bytes() for file in folder.glob(f"{deck.stem}.*")}
    with DeskProcess(folder) as desk, Browser() as browser:
        yield Bench(folder, folder_page(browser, desk), parts)


def do(page: Page, model: Model, step: tuple[int, str, int] | str) -> None:
    """Does a step in the browser by keyboard, and in the model by the package."""
    page.run("document.getElementById('tasks').focus()")
    if step == "undo":
        press(page, "z", CONTROL)
        model.undo()
    elif step == "redo":
        press(page, "z", CONTROL | SHIFT)
        model.redo()
    elif isinstance(step, tuple):
        edit_cell(page, model, *step)
    has_settled(page)


def edit_cell(page: Page, model: Model, place: int, column: str, value: int) -> None:
    """Writes a number into a cell, if it can be edited."""
    press(page, "Home", CONTROL)
    press(page, "ArrowDown", times=place)
    while cell(page)[0] != column:
        press(page, "ArrowRight")
    if page.run("document.querySelector('#tasks .at').getAttribute('aria-readonly')") == "true":
        return
    before = cell(page)[1].replace(",", "")
    press(page, "Enter")
    write(page, str(value))
    press(page, "Enter")
    if str(value) != before:
        model.step(Edit(COLUMNS[column], str(value), model.books.side.tasks[place].code))


@given(STEPS)
@settings(max_examples=8)
def test_edits_in_the_browser_are_those_of_the_package(
    bench: Bench, steps: list[tuple[int, str, int] | str]
) -> None:
    deck = bench.project()
    model = Model(books_of(read_files(deck), deck))
    for step in steps:
        do(bench.page, model, step)
    press(bench.page, "s", CONTROL)
    bench.page.wait("document.getElementById('saved').textContent === 'saved'")
    assert read_files(deck) == files_of(model.books)
    assert complaints(bench.page) == []
