"""Writes a schedule as CSV, one row for each real task, for a spreadsheet or a script."""

from pert_companion.analysis.schedule import Schedule, ScheduledTask
from pert_companion.model.figures import days_text, money_text
from pert_companion.model.lines import csv_bytes
from pert_companion.model.output import FileKind
from pert_companion.writers.formula import plain_text

HEADINGS = (
    "Row",
    "Code",
    "Id",
    "Outline",
    "Name",
    "Predecessors",
    "Normal days",
    "Days",
    "Start",
    "Finish",
    "Float days",
    "Critical",
    "Cost",
    "Percent complete",
    "Resources",
    "State",
    "Days left",
    "Deadline",
    "Days to deadline",
)
"""The columns of tables of tasks, in CSV and in workbooks; text has some of them, in capitals."""


SCHEDULE_TABLE = FileKind("a table of a schedule", "Row,Code,Id,Outline,")


def to_csv(schedule: Schedule) -> bytes:
    """Returns the schedule as CSV in UTF-8. Dates are days of work, the finish the last of them."""
    return csv_bytes([HEADINGS, *(_cells(task, schedule) for task in schedule.tasks)])


def _cells(task: ScheduledTask, schedule: Schedule) -> list[str]:
    """Returns the cells of a task: its texts as spreadsheets show them, and plain numbers."""
    row = "" if task.row is None else str(task.row)
    slack = task.deadline_slack_minutes
    critical = "yes" if task.is_critical else "no"
    return [
        row,
        plain_text(task.code),
        plain_text(task.uid),
        plain_text(" / ".join(task.outline)),
        plain_text(task.name),
        plain_text("; ".join(task.predecessors)),
        days_text(task.normal_minutes, schedule.day_minutes),
        days_text(task.chosen_minutes, schedule.day_minutes),
        task.first_day.isoformat(),
        task.last_day.isoformat(),
        days_text(task.total_float_minutes, schedule.day_minutes),
        critical,
        money_text(task.cost, schedule.money_scale),
        task.percent,
        plain_text("; ".join(task.resources)),
        task.state.value,
        days_text(task.left_minutes, schedule.day_minutes),
        "" if task.deadline is None else task.deadline.isoformat(),
        "" if slack is None else days_text(slack, schedule.day_minutes),
    ]
