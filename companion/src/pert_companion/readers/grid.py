"""The cells of a list as a file holds them: rows of texts and values, before they mean anything.

`table` and `xlsx` each make a `Grid`; `listing` turns one into a plan. The limits here bound the
memory and time that a file can cost.
"""

from dataclasses import dataclass, field
from decimal import Decimal

from pert_companion.model.calendar import CalendarException
from pert_companion.model.losses import Loss
from pert_companion.readers.values import Cell
from pert_companion.readers.working_times import Week

MOST_ROWS = 20_000
MOST_COLUMNS = 1_024
MOST_CELL_CHARACTERS = 32_767
"""The most characters of a cell, as in Excel."""
MOST_PARTS = 2_000
"""The most links or resources of one cell."""


@dataclass(frozen=True)
class GridRow:
    """One row of a file: its number, its cells, and how a workbook shows them."""

    number: int
    cells: tuple[Cell, ...]
    indents: dict[int, int] = field(default_factory=dict)
    """The indentation of the columns that have one."""
    bold: frozenset[int] = frozenset()
    """The columns whose text is bold."""
    level: int = 0
    """The level of a workbook's own outline, 0 at the top."""
    merged: dict[int, Cell] = field(default_factory=dict)
    """The columns that are merged with the row above, and what that row has there."""


@dataclass(frozen=True)
class Rate:
    """What a sheet of resources says of one: cost per hour, or per unit of a material."""

    name: str
    rate: Decimal | None = None
    overtime_rate: Decimal | None = None
    is_material: bool = False
    unit: str = ""
    capacity: Decimal | None = None
    """How many work at once, or how much of a material an hour of work takes."""


@dataclass(frozen=True)
class NamedWeek:
    """What a sheet of calendars says of one."""

    name: str
    week: Week
    has_free_days: bool = True
    """Whether the free days of the plan are free in it too."""


@dataclass(frozen=True)
class Grid:
    """The rows of a list, and what else of the file belongs to the plan."""

    rows: tuple[GridRow, ...]
    source: str
    """The format: `csv` or `xlsx`."""
    separator: str = ""
    """What separates the cells of a text; empty for a workbook."""
    exceptions: tuple[CalendarException, ...] = ()
    rates: tuple[Rate, ...] = ()
    calendars: tuple[NamedWeek, ...] = ()
    notes: tuple[str, ...] = ()
    losses: tuple[Loss, ...] = ()


def clip(text: str, most: int = 80) -> str:
    """Returns a text for a message: what is longer than `most` characters ends in two dots."""
    return text if len(text) <= most else text[:most] + ".."
