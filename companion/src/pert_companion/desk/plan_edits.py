"""Adds tasks, removes them, and changes the links of tasks."""

from collections.abc import Callable, Iterator, Sequence
from dataclasses import replace

from pert_companion.carry.codes import CODE, Codes, shortened
from pert_companion.desk.amounts import amounts_of
from pert_companion.desk.figures import with_budget
from pert_companion.desk.remaking import check_remakable, tie_text, ties_of, with_logic
from pert_companion.importing.month_end import Books
from pert_companion.model.cards import TaskCard
from pert_companion.model.errors import InputError
from pert_companion.model.logic import CLOCK_NAME, Logic, LogicTie
from pert_companion.model.plan import LinkKind
from pert_companion.model.sidefile import SideFile, SideTask
from pert_companion.readers.linking import LinkText, lag_of, links_in
from pert_companion.readers.values import Style, Unreadable

NEW, REMOVE, LINKS = "new", "remove", "links"
FIELDS = (NEW, REMOVE, LINKS)
NEW_NAME = "New task"


def changed(books: Books, code: str, field: str, value: str) -> Books:
    """Returns the deck with a new task, without a task, or with other links of a task.

    The value of a new task is the one that it follows in the table; links are as planners write
    them. Raises `InputError` for what makes no sense, or what a deck cannot hold.
    """
    try:
        return _CHANGES[field](books, code, value)
    except InputError as error:
        raise InputError(f"{code[:40]}: {error}") from None


def why_links_are_fixed(books: Books) -> str:
    """Returns why links cannot be changed in a deck, or an empty text."""
    if books.deck.is_of_tasks or books.side.source:
        return ""
    return "links of a network are events: change them in the deck"


def new_code(books: Books, name: str) -> str:
    """Returns a code for a new task that no card has, made of its name."""
    codes = Codes()
    for card in books.deck.work:
        codes.take(card.code)
    return codes.make(shortened(name))


def task_of(books: Books, code: str) -> SideTask:
    """Returns the task of a code. Raises `InputError` if there is none."""
    found = next((task for task in books.side.tasks if task.code == code), None)
    if found is None:
        raise InputError(f"there is no task {code[:40]!r}")
    return found


def _with_new(books: Books, code: str, value: str) -> Books:
    """Adds a task of one day after another one in the table, in the same group and package."""
    neighbour = task_of(books, value.strip())
    taken = {card.code.casefold() for card in books.deck.work}
    if not CODE.fullmatch(code) or code.casefold() in taken:
        raise InputError("a new task has a code of its own of at most 16 letters and digits")
    logic = _checked_logic(books)
    item = next(card.item for card in books.deck.work if card.code == neighbour.code)
    units = amounts_of(books.side).measure.step
    card = TaskCard(code, item, units, units, units, units, units, 0, 0, NEW_NAME)
    entry = SideTask(
        code=code,
        uid=code,
        row=None,
        name=NEW_NAME,
        outline=neighbour.outline,
        parts=(code,),
        normal=units,
        minutes=units * books.side.unit_minutes,
    )
    place = books.side.tasks.index(neighbour) + 1
    tasks = (*books.side.tasks[:place], entry, *books.side.tasks[place:])
    deck = replace(books.deck, tasks=(*books.deck.tasks, card))
    after = replace(books, deck=deck, side=replace(books.side, tasks=tasks))
    return with_logic(books, after, logic)


def _without(books: Books, code: str, value: str) -> Books:
    """Removes a task with its links, its cost and its progress."""
    if value.strip():
        raise InputError("a task is removed by an empty value")
    task = task_of(books, code)
    if len(books.side.tasks) == 1:
        raise InputError("a project has a task")
    logic = _checked_logic(books)
    ties = _of_tasks([tie for tie in logic.ties if code not in (tie.task, tie.before)], books.side)
    cards = {*task.parts, task.start_moment, task.finish_moment}
    cost = sum(card.cost for card in books.deck.work if card.code in cards)
    item = next(card.item for card in books.deck.work if card.code == code)
    deck = with_budget(books.deck, item, -cost)
    pieces = tuple(piece for piece in deck.pieces if piece.activity not in cards)
    tasks = tuple(each for each in books.side.tasks if each is not task)
    side = replace(books.side, tasks=tasks)
    after = replace(books, deck=replace(deck, pieces=pieces), side=side)
    return with_logic(books, after, replace(logic, ties=_with_first_days(ties, side)))


def _of_tasks(ties: Sequence[LogicTie], side: SideFile) -> list[LogicTie]:
    """Returns ties without those to the ends of groups of which no task is left."""
    tasks = {task.code for task in side.tasks}
    while True:
        known = tasks | {tie.task for tie in ties}
        kept = [tie for tie in ties if not tie.before or tie.before in known]
        if len(kept) == len(ties):
            return kept
        ties = kept


def _with_links(books: Books, code: str, value: str) -> Books:
    """Changes what a task comes after: `DIG, POURSS+2d; 12FF`."""
    task, logic = task_of(books, code), _checked_logic(books)
    wanted = dict.fromkeys(_wanted(books.side, logic, task, value))
    if not books.has_side_file and any(tie.lag or tie.kind.value != "FS" for tie in wanted):
        raise InputError(
            "a deck without a side file has links from finish to start alone; pert-days --calendar"
            " makes one"
        )
    others = [tie for tie in logic.ties if tie.task != code or tie.day is not None]
    place = {each.code: at for at, each in enumerate(books.side.tasks)}
    ties = sorted([*others, *wanted], key=lambda tie: place.get(tie.task, len(place)))
    return with_logic(books, books, replace(logic, ties=_with_first_days(ties, books.side)))


def _checked_logic(books: Books) -> Logic:
    """Returns the links of a deck. Raises `InputError` if it cannot be made of them again."""
    why = why_links_are_fixed(books)
    if why:
        raise InputError(why)
    logic = ties_of(books).logic()
    check_remakable(books, logic)
    return logic


def _with_first_days(ties: Sequence[LogicTie], side: SideFile) -> tuple[LogicTie, ...]:
    """Returns ties in which a task with its own calendar that waits for nothing begins at first."""
    waiting = {tie.task for tie in ties if tie.is_to_start}
    free = [task.code for task in side.tasks if task.own is not None and task.code not in waiting]
    return (*ties, *(LogicTie(code, LinkKind.START_START, day=side.start) for code in free))


def _wanted(side: SideFile, logic: Logic, task: SideTask, value: str) -> Iterator[LogicTie]:
    """Yields the links of a text; those that a task has already stay as they are."""
    links = [tie for tie in logic.ties if tie.task == task.code and tie.day is None]
    known = {tie_text(tie, side): tie for tie in links}
    keys = {str(each.row): each.code for each in side.tasks if each.row is not None}
    keys.update((tie.task, tie.task) for tie in logic.ties)
    keys.update((each.code, each.code) for each in side.tasks)
    calendar = side.calendar
    style = Style(
        day_minutes=calendar.day_minutes,
        week_minutes=calendar.week_minutes,
        month_days=calendar.month_days,
    )
    for link in links_in(value, keys.__contains__, style):
        if link.key is None:
            raise InputError(f"there is no task {link.text[:40]!r} to come after")
        tie = _tie(task, keys[link.key], link, style, side)
        if tie.before == task.code:
            raise InputError("it cannot come after itself")
        yield known.get(tie_text(tie, side), tie)


def _tie(task: SideTask, before: str, link: LinkText, style: Style, side: SideFile) -> LogicTie:
    """Returns a link with its lag in minutes."""
    try:
        lag = lag_of(link.lag, style)
    except Unreadable as reason:
        raise InputError(f"{link.text[:40]}: {reason}") from None
    if lag.share is not None:
        raise InputError(f"{link.text[:40]}: say the lag in days")
    if lag.elapsed and side.logic is None:
        raise InputError(f"{link.text[:40]}: the plan counts the days of one calendar alone")
    if side.logic is None and lag.minutes % side.unit_minutes:
        step = amounts_of(side).measure.words(1)
        raise InputError(f"{link.text[:40]}: the plan counts time in steps of {step}")
    return LogicTie(task.code, link.kind, before, lag.minutes, CLOCK_NAME if lag.elapsed else "")


_CHANGES: dict[str, Callable[[Books, str, str], Books]] = {
    NEW: _with_new,
    REMOVE: _without,
    LINKS: _with_links,
}
