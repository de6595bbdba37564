"""Reads the other sheets of a workbook that belong to a plan: free days, and rates of resources."""

from collections.abc import Sequence
from datetime import date
from decimal import Decimal

from pert_companion.model.calendar import CalendarException
from pert_companion.model.losses import Loss, LossKind
from pert_companion.readers.columns import fields_by_word, heading_of
from pert_companion.readers.grid import GridRow, Rate, clip
from pert_companion.readers.values import (
    Cell,
    Share,
    Style,
    Unreadable,
    amount,
    day,
    is_nothing,
    number,
    text_of,
    unit_of,
)

HOLIDAY_SHEETS = frozenset(
    ("holidays", "holiday", "feiertage", "free days", "freie tage", "non-working days")
    + ("arbeitsfreie tage", "exceptions", "ausnahmen", "betriebsferien", "urlaub")
)
RESOURCE_SHEETS = frozenset(
    (
        "resources",
        "resource table",
        "resource sheet",
        "rates",
        "ressourcen",
        "ressource",
    )
    + ("ressourcentabelle", "sätze", "stundensätze")
)
CALENDAR_SHEETS = frozenset(("calendars", "kalender", "working times", "arbeitszeiten"))
ASSIGNMENT_SHEETS = frozenset(("assignments", "assignment table", "zuordnungen"))

_RATE_HEADINGS = {
    "name": ("name", "resource", "resource name", "ressource", "ressourcenname"),
    "rate": (
        "rate",
        "standard rate",
        "std. rate",
        "std rate",
        "standardsatz",
        "stundensatz",
    )
    + ("cost per hour", "rate per hour", "satz"),
    "overtime": ("overtime rate", "ovt. rate", "überstundensatz"),
    "capacity": ("max units", "max. units", "max. einh.", "max. einheiten", "capacity")
    + ("available", "kapazität", "anzahl"),
    "type": ("type", "art"),
    "unit": ("material label", "material", "materialbezeichnung", "unit", "einheit"),
}
_RATE_FIELD_OF = fields_by_word(_RATE_HEADINGS)
_MATERIALS = frozenset(("material", "materialien"))


def sheet_kind(name: str) -> str:
    """Returns what a sheet is for, by its name.

    It is `holidays`, `resources`, `calendars`, `assignments` or `list`.
    """
    plain = " ".join(name.replace("_", " ").casefold().split()).rstrip("0123456789 ")
    if plain in HOLIDAY_SHEETS:
        return "holidays"
    if plain in RESOURCE_SHEETS:
        return "resources"
    if plain in CALENDAR_SHEETS:
        return "calendars"
    return "assignments" if plain in ASSIGNMENT_SHEETS else "list"


def holidays(
    rows: Sequence[GridRow], sheet: str, style: Style
) -> tuple[tuple[CalendarException, ...], list[Loss]]:
    """Returns the free days of a sheet: a row has a first day, perhaps a last one, and a name.

    Rows above the first date are headings.
    """
    found: list[CalendarException] = []
    losses = []
    for row in rows:
        days, names, wrong = _days_and_names(row, style)
        text = clip(" ".join(text_of(cell).strip() for cell in row.cells).strip())
        where = f"sheet {clip(sheet)!r}, row {row.number}"
        if wrong or (not days and found):
            why = wrong or "there is no date in this row"
            losses.append(Loss(LossKind.CALENDAR, where, "", "", text, why))
        elif days:
            if max(days) != days[-1]:
                why = "its last day is before its first one"
                losses.append(Loss(LossKind.CALENDAR, where, "", "", text, why))
                continue
            found.append(CalendarException(days[0], days[-1], names))
    return tuple(found), losses


def _days_and_names(row: GridRow, style: Style) -> tuple[list[date], str, str]:
    """Returns the days of a row, its name, and the reason if a date in it is none."""
    days: list[date] = []
    names = []
    for cell in row.cells:
        if is_nothing(cell):
            continue
        try:
            days.append(day(cell, style))
        except Unreadable as reason:
            if not isinstance(cell, str):
                continue
            if cell.strip()[:1].isdigit() and not days:
                return [], "", str(reason)
            names.append(" ".join(cell.split()))
    return days[:2], clip(names[0]) if names else "", ""


def rates(rows: Sequence[GridRow], sheet: str, style: Style) -> tuple[tuple[Rate, ...], list[Loss]]:
    """Returns what a sheet of resources says of each one; nothing if it has no column of names."""
    if not rows:
        return (), []
    columns: dict[str, int] = {}
    for at, cell in enumerate(rows[0].cells):
        name = _RATE_FIELD_OF.get(heading_of(cell).text)
        if name is not None:
            columns.setdefault(name, at)
    if "name" not in columns:
        return (), []
    found = []
    losses: list[Loss] = []
    for row in rows[1:]:
        cells = {name: row.cells[at] for name, at in columns.items() if at < len(row.cells)}
        name = " ".join(text_of(cells.get("name", "")).split())
        if name:
            where = f"sheet {clip(sheet)!r}, row {row.number}"
            found.append(_rate(name, cells, where, style, losses))
    return tuple(found), losses


def _rate(name: str, cells: dict[str, Cell], where: str, style: Style, losses: list[Loss]) -> Rate:
    kind = text_of(cells.get("type", "")).strip().casefold()
    said: dict[str, Decimal | None] = {}
    for field, convert in _AMOUNTS.items():
        cell = cells.get(field, "")
        said[field] = None
        if is_nothing(cell):
            continue
        try:
            said[field] = convert(cell, style)
        except Unreadable as reason:
            text = clip(text_of(cell))
            losses.append(Loss(LossKind.RESOURCE, where, "", field, text, f"{name}: {reason}"))
    return Rate(
        name,
        said["rate"],
        said["overtime"],
        kind in _MATERIALS,
        clip(text_of(cells.get("unit", "")).strip(), 20),
        said["capacity"],
    )


def _per_hour(cell: Cell, style: Style) -> Decimal:
    """Returns a rate per hour, or per unit of a material: `$50.00/h`, `400 €/Tag`, `50`."""
    if not isinstance(cell, str) or "/" not in cell:
        return amount(cell, style)
    price, _, per = cell.partition("/")
    value = amount(price, style)
    unit = unit_of(per.strip())
    if unit is None:
        raise Unreadable(f"{clip(per.strip(), 20)!r} is no unit of time")
    return value * 60 / style.minutes_of(unit)


def _capacity(cell: Cell, style: Style) -> Decimal:
    """Returns how many of a resource work at once: `2`, `200%`."""
    if isinstance(cell, Share):
        units = cell.percent / 100
    elif isinstance(cell, str) and cell.rstrip().endswith("%"):
        units = number(cell.rstrip()[:-1], style) / 100
    else:
        units = number(cell, style)
    if units <= 0:
        raise Unreadable("a capacity is more than 0")
    return units


_AMOUNTS = {"rate": _per_hour, "overtime": _per_hour, "capacity": _capacity}
"""How the amounts of a resource are read, by column."""
