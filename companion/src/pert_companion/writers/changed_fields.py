"""The fields of planners' files that a schedule may change, by format and kind of row or element.

The tests of the ways back compare all others before and after; tools/carried-tables.py writes these
into docs/exporting.md.
"""

import textwrap
from collections.abc import Iterable, Mapping, Sequence
from itertools import chain

from pert_companion.writers.p6_fields import PMXML, XER, Names

Fields = Mapping[str, tuple[str, ...]]
"""By the kind of row or element."""

_KINDS = ("project", "activity", "assignment", "expense", "user-defined field")


def _of_p6(names: Names, kinds: Sequence[str]) -> Fields:
    """Returns the fields of a format of P6; `kinds` is what it calls those of `_KINDS`."""
    sums = chain.from_iterable(names.unit_sums.values())
    fields: dict[str, Iterable[str]] = {
        "project": names.project_finish,
        "activity": (
            *(names.planned_duration, names.remaining_duration, *names.duration_at_completion),
            *(*names.start, *names.planned_finish, *names.left_start, *names.finish),
            *(*names.late_start, *names.late_finish, *names.total_float),
            *(*names.duration_percent, *names.percent, *sums),
        ),
        "assignment": (
            *(date for date, _ in names.assignment_dates),
            *(names.planned_units, names.remaining_units, *names.units_at_completion),
            *(*names.planned_rate, *names.remaining_rate),
            *(names.planned_cost, names.remaining_cost, *names.cost_at_completion),
        ),
        "expense": (*names.expense_planned, *names.expense_left),
        "user-defined field": names.user_values,
    }
    return {kind: tuple(dict.fromkeys(fields[of])) for kind, of in zip(kinds, _KINDS)}


CHANGED: Mapping[str, Fields] = {
    "mspdi": {
        "Project": ("FinishDate",),
        "Task": tuple(
            "Duration Start Finish EarlyStart EarlyFinish ManualStart ManualFinish ManualDuration"
            " RemainingDuration Resume PercentComplete Cost FixedCost RemainingCost Work"
            " RegularWork RemainingWork DurationFormat".split()
        ),
        "PredecessorLink": ("LinkLag", "LagFormat"),
        "ExtendedAttribute": ("Value",),
        "Assignment": tuple(
            "Start Finish Units Work RegularWork RemainingWork Cost RemainingCost"
            " TimephasedData".split()
        ),
    },
    "xer": _of_p6(XER, ("PROJECT", "TASK", "TASKRSRC", "PROJCOST", "UDFVALUE")),
    "pmxml": _of_p6(PMXML, ("Project", "Activity", "ResourceAssignment", "ActivityExpense", "UDF")),
    "gan": {
        "task": tuple("start duration complete cost-manual-value cost-calculated".split()),
        "customproperty": ("value",),
    },
}


def listed(format_name: str) -> str:
    """Returns the fields of a format as the page lists them: indented lines."""
    lines = []
    for kind, fields in CHANGED[format_name].items():
        text = f"{kind}: {' '.join(fields)}"
        lines += textwrap.wrap(
            text, 96, subsequent_indent="  ", break_long_words=False, break_on_hyphens=False
        )
    return "".join(f"    {line}\n" for line in lines)
