"""Writes a schedule as a table for a terminal or a pipe, with bars if they are asked for."""

import unicodedata
from collections.abc import Sequence
from dataclasses import dataclass

from pert_companion.analysis.schedule import Schedule, ScheduledTask
from pert_companion.model.text_form import TextForm
from pert_companion.state.remaining import State
from pert_companion.writers.bars import Scale

BOLD_RED = "\x1b[1;31m"
RESET = "\x1b[0m"
LEAST_BAR = 20
LEAST_NAME = 12
MOST_NAME = 40


@dataclass(frozen=True)
class TableOptions:
    """How a table looks.

    `width` is in columns of the terminal, where numbers have separators; None is as wide as it
    takes, for a pipe.
    """

    width: int | None = None
    gantt: bool = False
    colour: bool = False


def to_text(schedule: Schedule, tasks: Sequence[ScheduledTask], options: TableOptions) -> str:
    """Returns a heading and a row for each of the tasks, in the order that is given."""
    form = TextForm(options.width is not None, schedule.money_scale)
    rows = [_cells(task, schedule, form) for task in tasks]
    headings = _headings(schedule, tasks)
    widths = _widths(headings, rows)
    name_width = _name_width(tasks, widths, options)
    lines = _heading(schedule, form)
    scale = _scale(schedule, tasks, widths, name_width, options)
    line = _line(headings, widths, "NAME", name_width)
    lines.append((line if scale is None else f"{line}  {scale.axis()}").rstrip())
    for task, cells in zip(tasks, rows):
        line = _line(cells, widths, task.name or task.code, name_width)
        if scale is not None:
            line = f"{line}  {scale.bar(task)}"
        line = line.rstrip()
        lines.append(f"{BOLD_RED}{line}{RESET}" if options.colour and task.is_critical else line)
    return "".join(f"{line}\n" for line in lines)


_RIGHT = (True, False, False, False, False, True, True, False, True, False)


def _headings(schedule: Schedule, tasks: Sequence[ScheduledTask]) -> list[str]:
    """Returns the headings but for the name: states if work has begun, deadlines if there are."""
    state = "" if schedule.rest_of is None else "State"
    deadlines = ["", ""]
    if any(task.deadline is not None for task in tasks):
        deadlines = ["Deadline", "Days to deadline"]
    headings = ["Row", "Code", state, "Start", "Finish", "Days", "Float days", *deadlines, ""]
    return [heading.upper() for heading in headings]


def _heading(schedule: Schedule, form: TextForm) -> list[str]:
    days = form.day_words(schedule.length * schedule.unit_minutes, schedule.day_minutes)
    title = shown(schedule.title or schedule.code)
    if schedule.rest_of is not None:
        days = f"{days} left from {schedule.rest_of} on"
    elif schedule.is_past_plan:
        days = f"as planned {days}"
    currency = f" {schedule.currency}" if schedule.currency else ""
    return [
        f"{title}: {days}, {schedule.start} to {schedule.end}, "
        f"cost {form.money(schedule.cost)}{currency}{_price(schedule, form)}",
        *_missed(schedule, form),
        *map(shown, schedule.broken),
        *_calendars(schedule),
    ]


def _missed(schedule: Schedule, form: TextForm) -> list[str]:
    """Returns a line that names the tasks which end after their deadlines, if there are any."""
    late = []
    for task in schedule.tasks:
        if task.is_late:
            slack = task.deadline_slack_minutes or 0
            days = form.day_words(-slack, schedule.day_minutes)
            late.append(f"{task.code} by {days}")
    if not late:
        return []
    number = "1 deadline is" if len(late) == 1 else f"{len(late)} deadlines are"
    return [f"{number} missed: {', '.join(late)}"]


def _calendars(schedule: Schedule) -> list[str]:
    """Returns lines on tasks with calendars of their own, if there are any."""
    lines = [shown(schedule.calendars)] if schedule.calendars else []
    counted = schedule.counted_end
    if counted is not None and schedule.rest_of is None and counted != schedule.end:
        lines.append(f"by the real calendars it ends on {schedule.end}; as counted, on {counted}")
    return [*lines, schedule.counting] if schedule.counting else lines


def _price(schedule: Schedule, form: TextForm) -> str:
    """Returns what a day less costs, or an empty text at the shortest length."""
    step = schedule.next_step
    if step is None:
        return ""
    days = form.day_words(step.minutes, schedule.day_minutes)
    less = "a day less costs" if days == "1 day" else f"{days} less cost"
    return f", {less} {form.money(step.cost)}"


def _cells(task: ScheduledTask, schedule: Schedule, form: TextForm) -> list[str]:
    day_minutes = schedule.day_minutes
    row = "" if task.row is None else str(task.row)
    slack = task.deadline_slack_minutes
    is_done = task.state is State.FINISHED
    marks = "*" if task.is_critical else ""
    if task.pauses:
        marks += "~"
    return [
        row,
        task.code,
        task.state.value if schedule.rest_of is not None else "",
        task.first_day.isoformat(),
        task.last_day.isoformat(),
        form.days(task.chosen_minutes, day_minutes),
        "" if is_done else form.days(task.total_float_minutes, day_minutes),
        "" if task.deadline is None else task.deadline.isoformat(),
        "" if slack is None else form.days(slack, day_minutes),
        marks,
    ]


def _widths(headings: Sequence[str], rows: Sequence[Sequence[str]]) -> list[int]:
    columns = zip(headings, *rows)
    return [max(map(len, column)) for column in columns]


def _line(cells: Sequence[str], widths: Sequence[int], name: str, name_width: int) -> str:
    parts = []
    for cell, width, right in zip(cells, widths, _RIGHT):
        if width:
            parts.append(cell.rjust(width) if right else cell.ljust(width))
    parts.append(fitted(shown(name), name_width))
    return "  ".join(parts)


def _name_width(
    tasks: Sequence[ScheduledTask], widths: Sequence[int], options: TableOptions
) -> int:
    """Returns the columns for names: as many as they need, within what the terminal leaves."""
    needed = max(
        (text_width(shown(task.name or task.code)) for task in tasks),
        default=LEAST_NAME,
    )
    if options.width is None:
        return max(needed, LEAST_NAME)
    others = sum(width + 2 for width in widths if width)
    left = options.width - others
    if options.gantt:
        left = min(left - LEAST_BAR - 2, MOST_NAME)
    return max(LEAST_NAME, min(needed, left))


def _scale(
    schedule: Schedule,
    tasks: Sequence[ScheduledTask],
    widths: Sequence[int],
    name_width: int,
    options: TableOptions,
) -> Scale | None:
    if not options.gantt or not tasks:
        return None
    first = min(task.first_day for task in tasks)
    last = max(schedule.end, max(task.last_day for task in tasks))
    days = (last - first).days + 1
    width = 100 if options.width is None else options.width
    used = sum(column + 2 for column in widths if column) + name_width + 2
    return Scale(first, days, max(LEAST_BAR, width - used))


def shown(text: str) -> str:
    """Returns a text in which each control character and direction mark is an escape."""
    return "".join(_escape(char) if is_hidden(char) else char for char in text)


def is_hidden(char: str) -> bool:
    """Says whether a character would move the cursor, turn the direction or end the line."""
    return unicodedata.category(char) in ("Cc", "Cf", "Zl", "Zp", "Cs")


def _escape(char: str) -> str:
    return f"\\u{ord(char):04x}"


def text_width(text: str) -> int:
    """Returns the columns of a terminal that a text takes."""
    return sum(_char_width(char) for char in text)


def _char_width(char: str) -> int:
    if unicodedata.combining(char):
        return 0
    return 2 if unicodedata.east_asian_width(char) in ("W", "F") else 1


def fitted(text: str, width: int) -> str:
    """Returns the text in exactly so many columns, cut with `..` or filled with spaces."""
    taken = text_width(text)
    if taken <= width:
        return text + " " * (width - taken)
    kept = ""
    used = 0
    for char in text:
        if used + _char_width(char) > width - 2:
            break
        kept += char
        used += _char_width(char)
    return kept + ".." + " " * (width - 2 - used)
