"""Puts a schedule into the file of Primavera P6 (XER) that its plan came from.

A file is a list of lines. Those of the tables that a schedule changes are taken apart, and what
does not change is written as it was, byte for byte.
"""

from collections.abc import Iterator, Mapping
from functools import cached_property

from pert_companion.analysis.schedule import Schedule
from pert_companion.model.encodings import decode_exactly
from pert_companion.model.errors import InputError
from pert_companion.model.sidefile import SideFile
from pert_companion.model.xmltree import whole
from pert_companion.writers.p6_fields import EXPENSE_NAME, XER
from pert_companion.writers.p6_into import Original, put_schedule

_CHANGED = frozenset(("PROJECT", "RSRC", "TASK", "TASKRSRC", "PROJCOST", "UDFTYPE", "UDFVALUE"))
"""The tables that are taken apart."""
_EXPENSE_FIELDS = (
    "cost_item_id proj_id task_id cost_name act_cost target_cost remain_cost target_qty"
    " cost_per_qty cost_load_type auto_compute_act_flag"
).split()
"""The fields of a table of expenses, if the file has none."""


def into_xer(
    original: bytes, name: str, schedule: Schedule, side: SideFile
) -> tuple[bytes, list[str]]:
    """Returns the original with a schedule of what is left, and what did not fit.

    Each task of the schedule that the original lacks is named. Raises `InputError` if the original
    is no XER file.
    """
    file = _File(original, name)
    missing = put_schedule(file.rows(), name, schedule, side)
    return file.data(), missing


class _Row:
    """A row of a table, with its cells."""

    def __init__(self, columns: Mapping[str, int], line: str) -> None:
        """Takes the place of each column and a line, which may end with a carriage return."""
        body = line.removesuffix("\r")
        self._end = line[len(body) :]
        self._cells = body.split("\t")
        self._columns = columns

    def text(self, name: str) -> str:
        """Returns the text of a field; an empty one if there is none."""
        place = self._columns.get(name, len(self._cells))
        return self._cells[place].strip() if place < len(self._cells) else ""

    def set(self, name: str, text: str) -> None:
        """Sets the text of a field that has one."""
        if self.text(name):
            self._cells[self._columns[name]] = text

    @property
    def line(self) -> str:
        """Returns the line of the row."""
        return "\t".join(self._cells) + self._end


class _File:
    """The lines of a file, and the rows of the tables that are taken apart."""

    def __init__(self, data: bytes, name: str) -> None:
        text, self._encoding = decode_exactly(data)
        if not text.lstrip("\ufeff \t\r\n").startswith("ERMHDR"):
            raise InputError(f"{name}: not a file of Primavera P6 (XER)")
        self._lines: list[str | _Row] = list(text.split("\n"))
        self._end = "\r" if "\r\n" in text else ""
        self._ends: dict[str, int] = {}
        """The line after the last row of each table."""
        self._columns: dict[str, Mapping[str, int]] = {}
        self._tables: dict[str, list[_Row]] = {}
        self._added: list[_Row] = []
        self._read()

    def _read(self) -> None:
        table = ""
        for number, line in enumerate(self._lines):
            kind, *cells = str(line).rstrip("\r").split("\t")
            if kind == "%T":
                table = cells[0].strip() if cells else ""
            elif kind == "%F":
                places = enumerate(cells, 1)
                self._columns[table] = {cell.strip(): place for place, cell in places}
            elif kind == "%R" and table in _CHANGED:
                row = _Row(self._columns.get(table, {}), str(line))
                self._tables.setdefault(table, []).append(row)
                self._lines[number] = row
            if kind in ("%T", "%F", "%R"):
                self._ends[table] = number + 1

    def rows(self) -> Original:
        """Returns the rows that a schedule changes."""
        types = {}
        for row in self._table("UDFTYPE"):
            if row.text("table_name") in ("", "TASK"):
                types[row.text("udf_type_id")] = row.text("udf_type_label").casefold()
        values: dict[str, dict[str, _Row]] = {}
        for row in self._table("UDFVALUE"):
            label = types.get(row.text("udf_type_id"))
            if label is not None and (row.text("udf_number") or row.text("udf_text")):
                values.setdefault(row.text("fk_id"), {}).setdefault(label, row)
        return Original(
            names=XER,
            activities=self._activities,
            projects={row.text("proj_id"): row for row in self._table("PROJECT")},
            add_expense=self.add_expense,
            assignments=self._by_activity("TASKRSRC"),
            expenses=self._by_activity("PROJCOST"),
            user_values=values,
            resource_types={
                row.text("rsrc_id"): row.text("rsrc_type") for row in self._table("RSRC")
            },
        )

    def _table(self, name: str) -> list[_Row]:
        return self._tables.get(name, [])

    def _by_activity(self, table: str) -> dict[str, list[_Row]]:
        found: dict[str, list[_Row]] = {}
        for row in self._table(table):
            found.setdefault(row.text("task_id"), []).append(row)
        return found

    def add_expense(self, uid: str) -> _Row:
        """Returns a new row of PROJCOST for an activity, with nothing planned and nothing left."""
        columns = self._columns.get("PROJCOST")
        if columns is None:
            columns = {name: place for place, name in enumerate(_EXPENSE_FIELDS, 1)}
        values = {
            "cost_item_id": str(self._last_expense + len(self._added) + 1),
            "proj_id": self._activities[uid].text("proj_id"),
            "task_id": uid,
            "cost_name": EXPENSE_NAME,
            "act_cost": "0",
            "target_cost": "0",
            "remain_cost": "0",
            "target_qty": "1",
            "cost_per_qty": "0",
            "cost_load_type": "CL_Uniform",
            "auto_compute_act_flag": "N",
        }
        cells = ["%R", *(values.get(name, "") for name in columns)]
        row = _Row(columns, "\t".join(cells) + self._end)
        self._added.append(row)
        return row

    @cached_property
    def _activities(self) -> dict[str, _Row]:
        return {row.text("task_id"): row for row in self._table("TASK")}

    @cached_property
    def _last_expense(self) -> int:
        """Returns the highest id of an expense; 0 without any."""
        known = (whole(row.text("cost_item_id")) or 0 for row in self._table("PROJCOST"))
        return max(known, default=0)

    def data(self) -> bytes:
        """Returns the bytes of the file."""
        lines = list(self._with_added())
        return "\n".join(lines).encode(self._encoding)

    def _with_added(self) -> Iterator[str]:
        """Yields the lines, with new rows after the last one of their table."""
        table = "PROJCOST" if "PROJCOST" in self._columns else "TASK"
        place = self._ends.get(table, 0) if self._added else -1
        for number, line in enumerate(self._lines):
            if number == place:
                yield from self._new_lines()
            yield line if isinstance(line, str) else line.line

    def _new_lines(self) -> Iterator[str]:
        if "PROJCOST" not in self._columns:
            yield f"%T\tPROJCOST{self._end}"
            yield "\t".join(("%F", *_EXPENSE_FIELDS)) + self._end
        for row in self._added:
            yield row.line
