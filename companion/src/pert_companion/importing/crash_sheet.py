"""Asks planners for shortest durations: a workbook of the tasks that matter, to fill in.

Most plans have no shortest durations. The sheet lists the critical and nearly critical tasks, each
with the most that shortening it alone can bring. What is filled in is read back into the plan;
a task whose cells stay empty is not shortened.
"""

import io
from collections.abc import Iterable, Mapping, Sequence
from dataclasses import dataclass, replace
from decimal import Decimal
from fractions import Fraction

from openpyxl import Workbook
from openpyxl.cell.cell import Cell
from openpyxl.styles import Font, PatternFill
from openpyxl.utils import get_column_letter
from openpyxl.worksheet.worksheet import Worksheet

from pert_companion.analysis.schedule import Schedule
from pert_companion.model.errors import InputError
from pert_companion.model.lines import xml_text
from pert_companion.model.losses import Loss, LossKind
from pert_companion.model.plan import Crash, Group, Link, LinkKind, Plan, Task
from pert_companion.model.source import Source
from pert_companion.readers import table, xlsx
from pert_companion.readers.base import ReaderOptions
from pert_companion.readers.cells import CellReader, reader_of
from pert_companion.readers.columns import find_head
from pert_companion.readers.grid import Grid, clip
from pert_companion.readers.outline import Row, rows_below

NEAR_SHARE = Fraction(1, 10)
"""A task is nearly critical if its float is at most this share of the project's length."""
MOST_NAMED = 3
"""How many tasks are named that limit what one can bring."""
MOST_TEXT = 32_767
HEADINGS = (
    "Unique ID",
    "ID",
    "Group",
    "Task",
    "Normal duration (days)",
    "Float (days)",
    "Brings at most (days)",
    "Then these are critical too",
    "Cost",
    "Shortest duration (days)",
    "Cost per day",
    "Cost at shortest duration",
)
_TO_FILL_IN = ("Shortest duration (days)", "Cost per day", "Cost at shortest duration")
_WIDTHS = {"Group": 30, "Task": 40, "Then these are critical too": 40}
_HELP = (
    "Fill in the yellow cells of sheet Tasks, as far as a task can be shortened.",
    "Shortest duration: in working days (or write 16h, 2w, 60%). It is below the normal duration.",
    "Cost per day: what each working day less costs. Or: the task's whole cost at its shortest "
    "duration.",
    "Brings at most: how many days earlier the project ends if this task alone is shortened. "
    "Tasks with float bring nothing until others have been shortened by that float.",
    "Then these are critical too: tasks to shorten together with this one to gain more.",
    "A task whose yellow cells stay empty is not shortened. Leave the first column as it is.",
    "Read it back: pert-import PLAN --with-crash THIS-FILE.xlsx -o DECK.csv",
)
_YELLOW = PatternFill("solid", fgColor="FFFFF2CC")

CellValue = str | int | Decimal | None


@dataclass(frozen=True)
class Candidate:
    """A critical or nearly critical task, and what shortening it alone can bring."""

    task: Task
    float_minutes: int
    gain_minutes: int
    """The most by which the project ends earlier if this task alone is shortened."""
    limited_by: tuple[str, ...] = ()
    """The names of tasks that become critical when that much is gained."""


def candidates(plan: Plan, schedule: Schedule, near_minutes: int | None = None) -> list[Candidate]:
    """Returns the tasks worth a shortest duration, by float and then in the order of the plan.

    `schedule` is that of the plan at its normal length. A task whose float is above `near_minutes`
    is left out; without it, one whose float is above a tenth of the length. Finished tasks and
    milestones are left out too.
    """
    near = near_minutes
    if near is None:
        near = int(schedule.length * schedule.unit_minutes * NEAR_SHARE)
    floats = {task.uid: task.total_float_minutes for task in schedule.tasks}
    limits = _Limits(plan, floats)
    found = []
    for task in plan.tasks():
        slack = floats.get(task.uid)
        if slack is None or slack > near or task.minutes == 0 or is_finished(task):
            continue
        gain, limiting = (0, ()) if slack > 0 else limits.of(task)
        found.append(Candidate(task, max(0, slack), gain, limiting))
    return sorted(found, key=lambda candidate: candidate.float_minutes)


def is_finished(task: Task) -> bool:
    """Says whether the work of a task is done."""
    return task.progress.actual_finish is not None or task.progress.percent == 100


class _Limits:
    """What limits the gain of each task: the floats of tasks that run at the same time as it.

    A walk of links that does not lead through the time of a task keeps its length when the task is
    shortened. So the gain is at most the float of any task that neither leads to its start nor
    follows from its finish.
    """

    def __init__(self, plan: Plan, floats: Mapping[str, int]) -> None:
        self._tasks = {task.uid: task for task in plan.tasks()}
        self._floats = floats
        self._after: dict[str, list[str]] = {}
        self._before: dict[str, list[str]] = {}
        for task in self._tasks.values():
            self._tie(_start(task.uid), _finish(task.uid))
        for entry in plan.outline:
            if entry.parent is not None:
                self._tie(_start(entry.parent), _start(entry.uid))
                self._tie(_finish(entry.uid), _finish(entry.parent))
        for link in plan.links:
            self._tie(*_ends(link))

    def _tie(self, before: str, after: str) -> None:
        self._after.setdefault(before, []).append(after)
        self._before.setdefault(after, []).append(before)

    def of(self, task: Task) -> tuple[int, tuple[str, ...]]:
        """Returns the most that shortening a critical task alone brings, and who limits it."""
        tied = _reached(_finish(task.uid), self._after) | _reached(_start(task.uid), self._before)
        free = []
        for uid, other in self._tasks.items():
            if uid in self._floats and not {_start(uid), _finish(uid)} & tied and uid != task.uid:
                name = "" if other.minutes == 0 or is_finished(other) else other.name
                free.append((max(0, self._floats[uid]), name))
        least = min((slack for slack, _ in free), default=task.minutes)
        if least >= task.minutes:
            return task.minutes, ()
        names = [name for slack, name in free if slack == least and name]
        return least, tuple(names[:MOST_NAMED])


def _start(uid: str) -> str:
    return f"S {uid}"


def _finish(uid: str) -> str:
    return f"F {uid}"


def _ends(link: Link) -> tuple[str, str]:
    from_start = link.kind in (LinkKind.START_START, LinkKind.START_FINISH)
    to_start = link.kind in (LinkKind.FINISH_START, LinkKind.START_START)
    before = _start(link.predecessor) if from_start else _finish(link.predecessor)
    return before, _start(link.successor) if to_start else _finish(link.successor)


def _reached(first: str, ties: Mapping[str, Sequence[str]]) -> set[str]:
    """Returns a moment and all that are reached from it."""
    found = {first}
    waiting = [first]
    while waiting:
        for moment in ties.get(waiting.pop(), ()):
            if moment not in found:
                found.add(moment)
                waiting.append(moment)
    return found


def crash_sheet(plan: Plan, found: Iterable[Candidate]) -> bytes:
    """Returns the workbook to fill in."""
    book = Workbook()
    sheet = book.active
    sheet.title = "Tasks"
    for column, heading in enumerate(HEADINGS, 1):
        cell = sheet.cell(1, column)
        _put(cell, heading)
        cell.font = Font(bold=True)
        width = _WIDTHS.get(heading, max(12, len(heading) + 2))
        sheet.column_dimensions[get_column_letter(column)].width = width
    groups = {group.uid: group for group in plan.groups()}
    for number, candidate in enumerate(found, 2):
        _add_row(sheet, number, _cells(candidate, plan, groups))
    sheet.freeze_panes = "E2"
    guide = book.create_sheet("How to fill in")
    guide.column_dimensions["A"].width = 100
    for number, line in enumerate(_HELP, 1):
        _put(guide.cell(number, 1), line)
    data = io.BytesIO()
    book.save(data)
    return data.getvalue()


def _add_row(sheet: Worksheet, number: int, cells: Sequence[CellValue]) -> None:
    for column, value in enumerate(cells, 1):
        _put(sheet.cell(number, column), value)
        if HEADINGS[column - 1] in _TO_FILL_IN:
            sheet.cell(number, column).fill = _YELLOW


def _put(cell: Cell, value: CellValue) -> None:
    """Writes a value with its own type, so that a text that begins with `=` stays a text."""
    if isinstance(value, str):
        cell.value = xml_text(value)[:MOST_TEXT]
        cell.data_type = "s"
    else:
        cell.value = value


def _cells(candidate: Candidate, plan: Plan, groups: Mapping[str, Group]) -> list[CellValue]:
    task = candidate.task
    crash = task.crash
    day_minutes = plan.calendar.day_minutes
    group = groups.get(task.parent) if task.parent is not None else None
    return [
        task.uid,
        task.row,
        group.name if group is not None else "",
        task.name,
        _days(task.minutes, day_minutes),
        _days(candidate.float_minutes, day_minutes),
        _days(candidate.gain_minutes, day_minutes),
        "; ".join(candidate.limited_by),
        task.cost,
        _days(crash.minutes, day_minutes) if crash is not None else None,
        crash.slope if crash is not None else None,
        crash.cost if crash is not None else None,
    ]


def _days(minutes: int, day_minutes: int) -> Decimal:
    return (Decimal(minutes) / day_minutes).quantize(Decimal("0.0001")).normalize()


def with_crash(source: Source, plan: Plan) -> tuple[Plan, tuple[Loss, ...]]:
    """Returns the plan with the shortest durations of a filled sheet, and what is not taken.

    The sheet is a workbook or CSV. It decides for each task that it lists: empty cells mean that
    the task is not shortened. Raises `InputError` if the file is no such sheet.
    """
    options = ReaderOptions(
        day_minutes=plan.calendar.day_minutes,
        week_minutes=plan.calendar.week_minutes,
        month_days=plan.calendar.month_days,
    )
    grid = _grid(source, options)
    head = find_head(grid.rows, options)
    if head is None or not {"uid", "crash", "name"} <= set(head.columns):
        raise InputError(
            f"{source.name}: this is no sheet of shortest durations: it has no headings "
            "Unique ID, Task and Shortest duration"
        )
    rows, _ = rows_below(grid.rows, head)
    reader = reader_of(rows, head, options, grid.separator, source.name)
    tasks = {_key(task.uid): task for task in plan.tasks()}
    found: dict[str, Crash | None] = {}
    for row in rows:
        task = _task_of(row, tasks, found, reader)
        if task is not None:
            found[task.uid] = reader.crash(row, task.minutes, task.cost)
    outline = tuple(_with_crash(entry, found) for entry in plan.outline)
    notes = (*plan.notes, *reader.notes)
    return replace(plan, outline=outline, notes=notes), tuple([*grid.losses, *reader.losses])


def _grid(source: Source, options: ReaderOptions) -> Grid:
    if xlsx.matches(source.data):
        return xlsx.read_grid(source, options)
    return table.read_grid(source, options)


def _key(uid: str) -> str:
    return xml_text(uid)[:MOST_TEXT].strip()


def _task_of(
    row: Row,
    tasks: Mapping[str, Task],
    found: Mapping[str, Crash | None],
    reader: CellReader,
) -> Task | None:
    """Returns the task of a row; None, and a loss if the row is filled in, if there is none."""
    task = tasks.get(row.text("uid"))
    why = ""
    if task is None:
        why = "the plan has no task with this id"
    elif task.uid in found:
        why = "an earlier row has this id too"
    elif " ".join(task.name.split()) != row.name:
        why = f"the plan's task with this id is {clip(task.name)!r}; nothing is taken"
    if not why:
        return task
    if any(row.text(name) for name in ("crash", "slope", "crashcost")):
        reader.lose(row, "uid", why, kind=LossKind.CRASH)
    return None


def _with_crash(entry: Task | Group, found: Mapping[str, Crash | None]) -> Task | Group:
    if isinstance(entry, Task) and entry.uid in found:
        return replace(entry, crash=found[entry.uid])
    return entry
