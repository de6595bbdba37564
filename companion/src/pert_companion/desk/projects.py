"""One open project: the deck as it is edited, the steps that led there, and its files.

Edits are kept in the journal at once and written into the deck when the user saves. A project has
one lock, so that requests change it one after the other, and a version that counts each change, so
that a tab that shows an older one is told.
"""

from collections.abc import Sequence
from dataclasses import dataclass, field
from datetime import datetime
from pathlib import Path
from threading import RLock

from pert_companion.desk.edits import Edit, edit_of, with_edits
from pert_companion.desk.errors import ConflictError, DeskError, OutsideError, RefusedError
from pert_companion.desk.journal import Journal, Record
from pert_companion.desk.saving import Files, files_of, read_files, save
from pert_companion.importing.month_end import Books
from pert_companion.importing.registers import registers_of
from pert_companion.model import fitting
from pert_companion.model.deck import parse_deck
from pert_companion.model.errors import CompanionError
from pert_companion.model.ledger import Ledger, parse_ledger
from pert_companion.model.sidefile import from_json, side_path
from pert_companion.programs.client import Programs
from pert_companion.state.implied import implied_side_file
from pert_companion.state.project import ProjectState
from pert_companion.state.whatif import Questions


GONE = "gone"
"""What files that are not there any more are known by."""


@dataclass(frozen=True, eq=False)
class Step:
    """A change: what the project was before and after, and the command that does the same."""

    text: str
    command: str
    before: Books
    after: Books
    record: Record
    """What the journal has of it."""
    time: datetime = field(default_factory=datetime.now)


def books_of(files: Files, path: Path) -> Books:
    """Returns a deck with its side file and ledger from the content of its files.

    Raises `InputError` if they are none, or do not fit.
    """
    deck = parse_deck(files.deck, str(path))
    side = None
    if files.side is not None:
        side = from_json(files.side, str(side_path(path)))
        fitting.check_fits(side, deck, path, files.deck)
        side = fitting.known_on(side, deck)
    ledger = Ledger() if files.ledger is None else parse_ledger(files.ledger, str(path))
    renames = registers_of(path).renames
    implied = side or implied_side_file(deck)
    return Books(deck, implied, side is not None, ledger, files.ledger is not None, renames)


class OpenProject:
    """A project that is open. Its methods that change it are called with its lock held."""

    def __init__(self, path: Path, programs: Programs) -> None:
        """Opens the deck of a path, with the edits of a desk that had not saved them.

        Raises `CompanionError` or `OSError` if it cannot be opened.
        """
        self.path = path
        self.programs = programs
        self.lock = RLock()
        self.questions = Questions(programs)
        self.files = read_files(path)
        self.books = self.opened = self.saved_books = books_of(self.files, path)
        self.state = self._state(self.files.deck)
        self.version = self.saved_version = 1
        self.versions: dict[int, Books] = {1: self.books}
        """What each version was, so that another window is told what changed since."""
        self.done: list[Step] = []
        self.undone: list[Step] = []
        self.log: list[Step] = []
        self._saved: set[Step] = set()
        self.notes: list[str] = []
        self.writes_over = ""
        """The digest of files of somebody else that the user wants to be written over."""
        self.original = ""
        """The planner's file in the folder that the user has named as the original."""
        self.journal = Journal(path)
        self.recovered = self._recover()

    # ------------------------------------------------------------------------------ versions

    def check_version(self, version: int) -> None:
        """Raises `ConflictError` with what others changed if a tab shows an older version."""
        if version == self.version:
            return
        raise ConflictError(
            "this project was changed in another window; nothing of what you did is lost, look at"
            " it as it is now and do it again",
            {"version": self.version},
        )

    def is_changed_outside(self) -> bool:
        """Says whether the files are not those that were opened or saved."""
        return self._digest_now() not in (self.files.digest, self.writes_over)

    def _digest_now(self) -> str:
        """Returns what the files are known by as they are now."""
        try:
            return read_files(self.path).digest
        except OSError:
            return GONE

    def check_outside(self) -> None:
        """Raises `OutsideError` if somebody else changed the files."""
        if self.is_changed_outside():
            raise OutsideError("somebody else has changed the file of this project")

    @property
    def unsaved(self) -> int:
        """Returns how many steps are not in the file: at least one if the project differs."""
        if self.books is self.saved_books:
            return 0
        return max(1, sum(1 for step in self.done if step not in self._saved))

    # ------------------------------------------------------------------------------- changes

    def edit(self, edits: Sequence[Edit]) -> Step:
        """Applies edits, all of them or none, and returns the step.

        Raises `RefusedError` if they make no sense or the programs refuse the deck.
        """
        words = [edit.word for edit in edits]
        after = with_edits(self.books, edits)
        text = ", ".join(words)
        return self.change(text, edit_command(self.path, words), after, {"edits": words})

    def change(self, text: str, command: str, after: Books, record: Record) -> Step:
        """Makes a step to another state of the project, and returns it."""
        step = Step(text, command, self.books, after, record)
        self._move(after, record)
        self.done.append(step)
        self.log.append(step)
        self.undone.clear()
        return step

    def undo(self) -> Step:
        """Takes back the latest step, and returns it.

        A step that was saved is no line of the journal: then the journal gets the complete state.
        """
        if not self.done:
            raise RefusedError("there is nothing to undo")
        step = self.done[-1]
        is_saved = step in self._saved
        self._move(step.before, whole_record(step.before) if is_saved else {"undo": True})
        self.undone.append(self.done.pop())
        return step

    def redo(self) -> Step:
        """Makes the step that was taken back last again, and returns it."""
        if not self.undone:
            raise RefusedError("there is nothing to redo")
        step = self.undone[-1]
        is_saved = step in self._saved
        self._move(step.after, whole_record(step.after) if is_saved else step.record)
        self.done.append(self.undone.pop())
        return step

    def _move(self, after: Books, record: Record) -> None:
        """Makes another state the one that is; if something fails all is as it was."""
        before, state = self.books, self.state
        self.books = after
        try:
            self.state = self._state(after.deck.to_bytes())
            self._ask_programs()
            self.journal.append(record)
        except BaseException:
            self.books, self.state = before, state
            raise
        self.version += 1
        self.versions[self.version] = after

    def _ask_programs(self) -> None:
        """Raises `ProgramError` if the programs do not accept the deck."""
        if self.state.rest is not self.state.plan or not self.state.deck.is_of_tasks:
            self.state.plan.check()
        self.questions.curve(self.state.rest)

    def revert(self) -> Step:
        """Makes the project what it is in its file, and returns the step."""
        if not self.unsaved:
            raise RefusedError("nothing was changed")
        saved = self.saved_books
        return self.change("all changes taken back", "", saved, whole_record(saved))

    # -------------------------------------------------------------------------------- saving

    def save(self) -> Path:
        """Writes the files, and returns where those of before are kept."""
        self.check_outside()
        files = files_of(self.books)
        self.journal.append({"saving": files.digest})
        before = save(self.path, files)
        self._is_saved(files)
        return before

    def _is_saved(self, files: Files) -> None:
        self.files = files
        self.writes_over = ""
        self.saved_version, self.saved_books = self.version, self.books
        self._saved = {*self.done, *self.undone}
        self.journal.begin(files.digest)

    def take_theirs(self) -> Step:
        """Opens the files as somebody else left them, with own edits on top as far as they fit."""
        files = read_files(self.path)
        books = books_of(files, self.path)
        mine = [step for step in self.done if step not in self._saved]
        theirs, left_out = books, 0
        for each in mine:
            try:
                books = with_edits(books, _edits_of(each.record))
            except CompanionError:
                left_out += 1
        if left_out:
            self.notes.append(f"{left_out} own changes do not fit the file as it is now")
        step = self.change("the file as somebody else changed it", "", books, whole_record(books))
        self.files, self.saved_books = files, theirs
        self.journal.begin(files.digest)
        if books is theirs:
            self.saved_version = self.version
        else:
            self.journal.append(step.record)
        return step

    def keep_mine(self) -> None:
        """Lets the next save write over the files as they are; what they were is kept then."""
        self.writes_over = self._digest_now()

    def rest_session(self) -> None:
        """Ends the session of the programs until the next edit, unless a request needs it."""
        if self.lock.acquire(blocking=False):
            self.questions.close()
            self.lock.release()

    def close(self) -> None:
        """Ends the session of the programs; a journal with nothing unsaved is removed."""
        self.questions.close()
        if not self.unsaved:
            self.journal.remove()

    # ------------------------------------------------------------------------------- opening

    def _state(self, data: bytes) -> ProjectState:
        books = self.books
        ledger = books.ledger if books.has_ledger else None
        return ProjectState(
            self.programs,
            books.deck,
            books.side,
            books.has_side_file,
            self.path,
            data,
            ledger=ledger,
            registers=registers_of(self.path),
        )

    def _recover(self) -> int:
        """Does again what the journal of a killed desk has; returns how many steps these are."""
        kept = self.journal.read()
        self.journal.begin(self.files.digest)
        if kept is None or not kept.records:
            return 0
        records = list(kept.records)
        for place, record in enumerate(records):
            if record.get("saving") == self.files.digest:
                return self._replay(records[place + 1 :])
        if kept.digest != self.files.digest:
            self.notes.append("the file was changed after the edits that are not saved")
        return self._replay(records)

    def _replay(self, records: Sequence[Record]) -> int:
        """Does the records of a journal again; those that do not fit any more are named."""
        for record in records:
            name = next(iter(record), "")
            try:
                if name == "undo":
                    self.undo()
                elif name == "edits":
                    self.edit(_edits_of(record))
                elif name == "deck":
                    self.change("unsaved changes", "", _books_of_record(record, self.path), record)
            except (CompanionError, DeskError) as error:
                self.notes.append(f"an edit that was not saved does not fit any more: {error}")
        return len(self.done)


def _edits_of(record: Record) -> list[Edit]:
    """Returns the edits of a record; one without any has none."""
    words = record.get("edits", [])
    return [edit_of(str(word)) for word in words] if isinstance(words, list) else []


def whole_record(books: Books) -> Record:
    """Returns a record with the complete state of a project."""
    files = files_of(books)
    return {
        "deck": files.deck.decode(),
        "side": None if files.side is None else files.side.decode(),
        "ledger": None if files.ledger is None else files.ledger.decode(),
    }


def _books_of_record(record: Record, path: Path) -> Books:
    parts = [record.get(name) for name in ("deck", "side", "ledger")]
    deck, side, ledger = (part.encode() if isinstance(part, str) else None for part in parts)
    return books_of(Files(deck or b"", side, ledger), path)


def edit_command(path: Path, words: Sequence[str]) -> str:
    """Returns the command that makes the same edits."""
    return command_line("pert-edit", path.name, *words, "-o", path.name, "--overwrite")


def command_line(*words: str) -> str:
    """Returns a command as people type it."""
    return " ".join(map(_quoted, words))


def _quoted(word: str) -> str:
    is_plain = word and all(char.isalnum() or char in "-._/=:,+@%" for char in word)
    return word if is_plain else "'" + word.replace("'", "'\\''") + "'"
