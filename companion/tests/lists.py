"""Writes plans as task lists, in CSV and xlsx, for the tests that read them back.

A list cannot say everything that a plan can. `as_listed` returns a plan as a list has it, so that
a test compares all the rest.
"""

import csv
import io
from collections.abc import Mapping, Sequence
from dataclasses import dataclass, replace
from datetime import date
from decimal import Decimal

from openpyxl import Workbook
from openpyxl.styles import Alignment, Font

from pert_companion.model.calendar import Calendar
from pert_companion.model.plan import Group, Lag, Link, Plan, ResourceKind, Task
from pert_companion.readers.cells import CONSTRAINTS

DAY = 480


@dataclass(frozen=True)
class Form:
    """How a list is written: its separator, decimal mark, and whether headings are German."""

    separator: str = ","
    decimal: str = "."
    german: bool = False
    outline: str = "level"
    """`level`, `wbs` or `indent`."""


US = Form()
GERMAN = Form(";", ",", True)
_HEADINGS = (
    ("ID", "Nr."),
    ("Outline Level", "Gliederungsebene"),
    ("WBS", "PSP-Code"),
    ("Task Name", "Vorgangsname"),
    ("Duration", "Dauer"),
    ("Optimistic", "Optimistische Dauer"),
    ("Most Likely", "Wahrscheinliche Dauer"),
    ("Pessimistic", "Pessimistische Dauer"),
    ("Crash", "Kürzeste Dauer"),
    ("Slope", "Mehrkosten pro Tag"),
    ("Crash Cost", "Kosten bei kürzester Dauer"),
    ("Cost", "Kosten"),
    ("Predecessors", "Vorgänger"),
    ("Resource Names", "Ressourcennamen"),
    ("% Complete", "% Abgeschlossen"),
    ("Actual Start", "Aktueller Anfang"),
    ("Actual Finish", "Aktuelles Ende"),
    ("Remaining Duration", "Verbleibende Dauer"),
    ("Actual Cost", "Aktuelle Kosten"),
    ("Remaining Cost", "Verbleibende Kosten"),
    ("Constraint Type", "Einschränkungsart"),
    ("Constraint Date", "Einschränkungstermin"),
    ("Deadline", "Stichtag"),
    ("Start", "Anfang"),
    ("Finish", "Ende"),
    ("Baseline Start", "Basisplan Anfang"),
    ("Baseline Finish", "Basisplan Ende"),
    ("Baseline Duration", "Geplante Dauer"),
    ("Baseline Cost", "Geplante Kosten"),
)
_GERMAN_KINDS = {"FS": "EA", "SS": "AA", "FF": "EE", "SF": "AE"}
Value = str | int | float | date | None


@dataclass(frozen=True)
class Writer:
    """Writes the cells of one form; `typed` ones are numbers and dates, as in a workbook."""

    form: Form
    typed: bool = False

    def number(self, value: Decimal) -> Value:
        """Returns a number, or its text with the decimal mark of the form."""
        if self.typed:
            return float(value)
        return f"{value:f}".replace(".", self.form.decimal)

    def minutes(self, minutes: int | None) -> Value:
        """Returns a duration: days where they are whole, else hours or minutes."""
        if minutes is None:
            return None
        if minutes % DAY == 0:
            return f"{minutes // DAY} {'Tage' if self.form.german else 'days'}"
        if minutes % 60 == 0:
            return f"{minutes // 60} {'Std.' if self.form.german else 'hrs'}"
        return f"{minutes} min"

    def money(self, value: Decimal | None) -> Value:
        """Returns an amount with two decimals."""
        return None if value is None else self.number(value.quantize(Decimal("0.01")))

    def day(self, value: date | None) -> Value:
        """Returns a date as the form writes it."""
        if value is None or self.typed:
            return value
        return value.strftime("%d.%m.%Y" if self.form.german else "%m/%d/%Y")

    def lag(self, lag: Lag) -> str:
        """Returns the lag of a link with its sign, or an empty text."""
        if lag.share is not None:
            return f"+{int(lag.share * 100)}%"
        if lag.elapsed:
            return f"+{lag.minutes // 1440} e{'Tage' if self.form.german else 'days'}"
        if lag.minutes == 0:
            return ""
        sign = "-" if lag.minutes < 0 else "+"
        return f"{sign}{self.minutes(abs(lag.minutes))}"

    def links(self, links: Sequence[Link]) -> Value:
        """Returns the cell of predecessors."""
        mark = ";" if self.form.german else ","
        parts = []
        for link in links:
            kind = link.kind.value
            shown = _GERMAN_KINDS[kind] if self.form.german else kind
            lag = self.lag(link.lag)
            parts.append(link.predecessor + (shown if lag or kind != "FS" else "") + lag)
        return mark.join(parts) or None

    def resources(self, task: Task, plan: Plan) -> Value:
        """Returns the cell of resources: shares of crews, and quantities of materials."""
        by_uid = {resource.uid: resource for resource in plan.resources}
        parts = []
        for assignment in plan.assignments:
            if assignment.task != task.uid:
                continue
            resource = by_uid[assignment.resource]
            if resource.kind is ResourceKind.MATERIAL:
                quantity = f"{assignment.quantity:f}".replace(".", self.form.decimal)
                parts.append(f"{resource.name}[{quantity} {resource.unit}]")
            else:
                share = int(assignment.quantity * 100 / task.minutes)
                parts.append(f"{resource.name}[{share}%]")
        return "".join(part + ";" for part in parts) or None

    def task_cells(self, task: Task, plan: Plan) -> list[Value]:
        """Returns the cells of a task from its duration on, in the order of the headings."""
        estimates = task.estimates
        crash = task.crash
        baseline = task.baselines[0] if task.baselines else None
        constraint = task.constraint
        links = [link for link in plan.links if link.successor == task.uid]
        progress = task.progress
        percent = None if progress.percent is None else f"{progress.percent}%"
        return [
            self.minutes(task.minutes),
            self.minutes(estimates.optimistic if estimates else None),
            self.minutes(estimates.likely if estimates else None),
            self.minutes(estimates.pessimistic if estimates else None),
            self.minutes(crash.minutes if crash else None),
            self.money(crash.slope if crash else None),
            self.money(crash.cost if crash else None),
            self.money(task.cost),
            self.links(links),
            self.resources(task, plan),
            percent,
            self.day(progress.actual_start),
            self.day(progress.actual_finish),
            self.minutes(progress.remaining),
            self.money(progress.actual_cost),
            self.money(progress.remaining_cost),
            CONSTRAINTS[constraint.kind][-1 if self.form.german else 0] if constraint else None,
            self.day(constraint.day if constraint else None),
            self.day(task.deadline),
            self.day(task.listed_start),
            self.day(task.listed_finish),
            self.day(baseline.start if baseline else None),
            self.day(baseline.finish if baseline else None),
            self.minutes(baseline.minutes if baseline else None),
            self.money(baseline.cost if baseline else None),
        ]


def _levels(plan: Plan) -> dict[str, int]:
    levels: dict[str, int] = {}
    for entry in plan.outline:
        levels[entry.uid] = 1 if entry.parent is None else levels[entry.parent] + 1
    return levels


def _wbs_codes(plan: Plan) -> dict[str, str]:
    codes: dict[str, str] = {}
    children: dict[str | None, int] = {}
    for entry in plan.outline:
        number = children.get(entry.parent, 0) + 1
        children[entry.parent] = number
        above = "" if entry.parent is None else codes[entry.parent] + "."
        codes[entry.uid] = f"{above}{number}"
    return codes


def rows_of(plan: Plan, form: Form, typed: bool) -> list[list[Value]]:
    """Returns the headings and one row per entry; columns of another outline are left out."""
    writer = Writer(form, typed)
    levels = _levels(plan)
    codes = _wbs_codes(plan)
    rows: list[list[Value]] = [
        [german if form.german else english for english, german in _HEADINGS]
    ]
    for entry in plan.outline:
        indent = "   " * levels[entry.uid] if form.outline == "indent" and not typed else ""
        cells: list[Value] = [int(entry.uid) if typed else entry.uid]
        cells += [levels[entry.uid], codes[entry.uid], indent + entry.name]
        if isinstance(entry, Group):
            links = [link for link in plan.links if link.successor == entry.uid]
            cells += [None] * 8 + [writer.links(links)] + [None] * 16
        else:
            cells += writer.task_cells(entry, plan)
        rows.append(cells)
    if form.outline != "wbs":
        rows = [row[:2] + row[3:] for row in rows]
    if form.outline != "level":
        rows = [row[:1] + row[2:] for row in rows]
    return rows


def coded_rows(plan: Plan, typed: bool, names: Mapping[str, str]) -> list[list[Value]]:
    """Returns the rows of a list with columns of codes and calendars.

    `names` has other words for the names of calendars.
    """
    tasks = {task.uid: task for task in plan.tasks()}
    rows = rows_of(plan, US, typed)
    found: list[list[Value]] = [["Code", "Calendar", *rows[0]]]
    for row in rows[1:]:
        task = tasks.get(str(row[0]))
        code, calendar = (None, None) if task is None else (f"T{task.uid}", task.calendar)
        found.append([code, names.get(calendar or "", calendar), *row])
    return found


def csv_bytes(plan: Plan, form: Form, encoding: str = "utf-8") -> bytes:
    """Returns a plan as CSV."""
    text = io.StringIO(newline="")
    csv.writer(text, delimiter=form.separator).writerows(rows_of(plan, form, False))
    return text.getvalue().encode(encoding)


def xlsx_bytes(plan: Plan, form: Form, look: str = "level") -> bytes:
    """Returns a plan as a workbook; `look` is how it shows the outline without such a column.

    `indent` indents the cells of names, `outline` groups the rows.
    """
    book = Workbook()
    sheet = book.active
    sheet.title = "Plan"
    sheet.append(["House by the lake"])
    sheet.cell(1, 1).font = Font(bold=True, size=16)
    sheet.append([])
    levels = _levels(plan)
    for row in rows_of(plan, form, True):
        sheet.append(row)
    column = 2 if form.outline == "indent" else 3
    for number, entry in enumerate(plan.outline, 4):
        if look == "indent":
            sheet.cell(number, column).alignment = Alignment(indent=levels[entry.uid])
        elif look == "outline":
            sheet.row_dimensions[number].outlineLevel = levels[entry.uid] - 1
    free = book.create_sheet("Feiertage" if form.german else "Holidays")
    free.append(["First", "Last", "Name"])
    for exception in plan.calendar.exceptions:
        free.append([exception.first, exception.last, exception.name])
    limited = [resource for resource in plan.resources if resource.capacity is not None]
    if limited:
        people = book.create_sheet("Ressourcen" if form.german else "Resources")
        people.append(["Name", "Max. Units"])
        for resource in limited:
            people.append([resource.name, resource.capacity])
    data = io.BytesIO()
    book.save(data)
    return data.getvalue()


def _listed_entry(entry: Task | Group, code: str, first_row: int) -> Task | Group:
    return replace(entry, where=f"row {int(entry.uid) + first_row - 1}", code=code)


def as_listed(plan: Plan, form: Form, first_row: int, exceptions: bool) -> Plan:
    """Returns a plan as a list has it, where its first entry is in `first_row`.

    A list has no week; CSV has no holidays; outline codes are the codes of entries where the list
    has them; links are in the order of their successors; names of crews and materials are ids.
    """
    codes = _wbs_codes(plan) if form.outline == "wbs" else {}
    outline = tuple(_listed_entry(e, codes.get(e.uid, ""), first_row) for e in plan.outline)
    calendar = Calendar(exceptions=plan.calendar.exceptions if exceptions else ())
    return replace(plan, outline=outline, calendar=calendar)


def comparable(plan: Plan) -> Plan:
    """Returns a plan without what only messages use: places and texts of links."""
    links = tuple(replace(link, where="", text="") for link in plan.links)
    return replace(plan, links=links, source="", notes=(), currency="")


def same_resources(plan: Plan, other: Plan) -> bool:
    """Says whether two plans have the same resources and assignments, in any order."""
    return set(plan.resources) == set(other.resources) and set(plan.assignments) == set(
        other.assignments
    )
