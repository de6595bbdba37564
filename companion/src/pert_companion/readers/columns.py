"""Finds which column of a list holds what, by its headings in English and German."""

import re
from collections.abc import Mapping, Sequence
from dataclasses import dataclass, field

from pert_companion.model.errors import InputError, UsageError
from pert_companion.readers.base import ReaderOptions
from pert_companion.readers.grid import GridRow, clip
from pert_companion.readers.values import Cell, text_of, unit_of

MOST_HEADING = 200
ROWS_ABOVE_HEAD = 100
"""How many rows are looked through for the row of headings."""

HEADINGS: dict[str, tuple[str, ...]] = {
    "uid": ("unique id", "uid", "guid", "eindeutige nr", "eindeutige id"),
    "id": (
        "id",
        "nr",
        "no",
        "#",
        "number",
        "nummer",
        "task id",
        "lfd. nr",
        "pos",
        "position",
    )
    + ("vorgangsnummer",),
    "code": (
        "code",
        "activity id",
        "task code",
        "activity code",
        "kürzel",
        "vorgangscode",
    )
    + ("short name", "kurzname"),
    "task": ("task", "vorgang", "aufgabe", "activity", "aktivität", "tätigkeit"),
    "name": (
        "name",
        "task name",
        "activity name",
        "title",
        "vorgangsname",
        "name des vorgangs",
    )
    + ("bezeichnung", "titel", "description", "beschreibung"),
    "level": (
        "outline level",
        "level",
        "gliederungsebene",
        "ebene",
        "indent",
        "einzug",
    ),
    "wbs": ("wbs", "wbs code", "psp-code", "psp code", "psp", "outline number")
    + ("gliederungsnummer", "gliederungscode"),
    "group": (
        "group",
        "phase",
        "item",
        "gruppe",
        "section",
        "work package",
        "arbeitspaket",
    )
    + ("bereich", "gewerk"),
    "summary": ("summary", "is summary", "sammelvorgang"),
    "milestone": ("milestone", "meilenstein"),
    "active": ("active", "aktiv"),
    "type": ("activity type", "task type", "vorgangsart", "aktivitätstyp"),
    "mode": ("task mode", "vorgangsmodus", "mode", "modus"),
    "calendar": ("calendar", "task calendar", "calendar name", "activity calendar")
    + ("kalender", "vorgangskalender", "kalendername"),
    "duration": ("duration", "normal", "normal duration", "original duration")
    + ("planned duration", "dauer", "normaldauer", "normale dauer", "days", "tage"),
    "opt": (
        "opt",
        "optimistic",
        "optimistic duration",
        "optimistisch",
        "optimistische dauer",
    )
    + ("best case",),
    "likely": ("likely", "most likely", "likely duration", "most likely duration")
    + (
        "expected duration",
        "wahrscheinlich",
        "wahrscheinliche dauer",
        "realistic",
        "realistisch",
    ),
    "pess": ("pess", "pessimistic", "pessimistic duration", "pessimistisch")
    + ("pessimistische dauer", "worst case"),
    "crash": ("crash", "crash duration", "shortest duration", "minimum duration")
    + ("kürzeste dauer", "mindestdauer", "crashdauer"),
    "reduction": ("max reduction", "maximum reduction", "can be shortened by")
    + ("verkürzbar um", "mögliche verkürzung"),
    "cost": (
        "cost",
        "costs",
        "total cost",
        "budget",
        "budgeted cost",
        "budgeted total cost",
    )
    + ("normal cost", "kosten", "gesamtkosten", "plankosten", "normalkosten"),
    "slope": (
        "slope",
        "cost slope",
        "cost per day",
        "crash cost per day",
        "kosten je tag",
    )
    + ("kosten pro tag", "mehrkosten je tag", "mehrkosten pro tag"),
    "crashcost": (
        "crash cost",
        "crash costs",
        "cost at crash",
        "cost at shortest duration",
    )
    + ("crashkosten", "kosten bei kürzester dauer"),
    "pred": ("predecessors", "predecessor", "after", "depends on", "dependencies")
    + (
        "predecessor details",
        "wbs predecessors",
        "vorgänger",
        "psp-vorgänger",
        "abhängig von",
    )
    + ("nach",),
    "succ": (
        "successors",
        "successor",
        "successor details",
        "wbs successors",
        "nachfolger",
    )
    + ("psp-nachfolger",),
    "resources": (
        "resources",
        "resource names",
        "resource",
        "ressourcen",
        "ressourcennamen",
    )
    + ("ressource", "crew"),
    "work": ("work", "planned work", "scheduled work", "arbeit", "geplante arbeit"),
    "percent": (
        "% complete",
        "percent complete",
        "% work complete",
        "complete",
        "progress",
    )
    + ("physical % complete", "duration % complete", "% abgeschlossen", "abgeschlossen")
    + ("prozent abgeschlossen", "% fertig", "fertig", "fortschritt"),
    "remaining": ("remaining duration", "restdauer", "verbleibende dauer"),
    "start": (
        "start",
        "start date",
        "planned start",
        "begin",
        "anfang",
        "anfangstermin",
    )
    + ("startdatum", "beginn", "geplanter anfang"),
    "finish": (
        "finish",
        "finish date",
        "planned finish",
        "end",
        "end date",
        "ende",
        "endtermin",
    )
    + ("enddatum", "geplantes ende"),
    "actstart": (
        "actual start",
        "ist-anfang",
        "aktueller anfang",
        "tatsächlicher anfang",
    ),
    "actfinish": ("actual finish", "ist-ende", "aktuelles ende", "tatsächliches ende"),
    "actcost": (
        "actual cost",
        "actual costs",
        "actual total cost",
        "istkosten",
        "ist-kosten",
    )
    + ("aktuelle kosten",),
    "remcost": (
        "remaining cost",
        "remaining total cost",
        "restkosten",
        "verbleibende kosten",
    ),
    "constraint": (
        "constraint type",
        "constraint",
        "primary constraint",
        "einschränkungsart",
    ),
    "condate": ("constraint date", "primary constraint date", "einschränkungstermin")
    + ("einschränkungsdatum",),
    "deadline": ("deadline", "stichtag"),
    "basestart": ("baseline start", "bl project start", "basisplan anfang"),
    "basefinish": ("baseline finish", "bl project finish", "basisplan ende"),
    "baseduration": ("baseline duration", "bl project duration", "geplante dauer")
    + ("basisplan dauer",),
    "basecost": (
        "baseline cost",
        "bl project total cost",
        "geplante kosten",
        "basisplan kosten",
    ),
}
"""For each field the headings by which it is found, in small letters and without units."""

SECOND_CHOICES = {
    "planned start": "basestart",
    "planned finish": "basefinish",
    "planned duration": "baseduration",
    "geplanter anfang": "basestart",
    "geplantes ende": "basefinish",
}
"""Headings that mean a baseline where another column already has their first field."""

MULTIPLES = frozenset(
    ("k€", "t€", "teur", "keur", "k$", "thousands", "tausend", "tsd", "tsd. €"),
)

_CURRENCY = re.compile("[€$£¥]|eur|euro|usd|gbp|chf|sek|nok|dkk|pln|czk")
"""What a heading of amounts may end with: `Cost €`, `Budget CHF`."""

DURATIONS = (
    "duration",
    "opt",
    "likely",
    "pess",
    "crash",
    "work",
    "remaining",
    "baseduration",
)
AMOUNTS = ("cost", "slope", "crashcost", "actcost", "remcost", "basecost")
DATES = ("start", "finish", "actstart", "actfinish", "condate", "deadline") + (
    "basestart",
    "basefinish",
)


def fields_by_word(words_of: Mapping[str, Sequence[str]]) -> dict[str, str]:
    """Returns the field that each word means, from the words of each field."""
    fields: dict[str, str] = {}
    for name, words in words_of.items():
        fields.update(dict.fromkeys(words, name))
    return fields


_FIELD_OF = fields_by_word(HEADINGS)
_UNITS_OF_COSTS = {"weeks": ("week", "woche"), "hours": ("hour", "stunde", "h")}


@dataclass(frozen=True)
class Heading:
    """A heading in small letters and without its unit, and that unit."""

    text: str
    unit: str | None = None
    is_multiple: bool = False
    """Whether the column counts in thousands."""


@dataclass(frozen=True)
class Head:
    """Which column each field has, and what is known of the columns."""

    position: int
    """The place of the row of headings among the rows, from 0."""
    columns: Mapping[str, int]
    headings: Mapping[str, str]
    """The heading of each field, as the file has it."""
    units: Mapping[str, str] = field(default_factory=dict)
    multiples: frozenset[str] = frozenset()
    """The fields whose column counts in thousands."""
    unread: tuple[str, ...] = ()
    """The headings that belong to no field."""

    @property
    def is_complete(self) -> bool:
        """Says whether there is a column of names and one of durations."""
        return bool({"name", "code"} & set(self.columns)) and bool(
            {"duration", "likely"} & set(self.columns)
        )


def heading_of(cell: Cell) -> Heading:
    """Returns a heading without its unit: `Dauer (Std.)`, `Slope [€/day]`, `Work in weeks`."""
    text = text_of(cell)[:MOST_HEADING].replace("(*)", " ").replace("_", " ")
    text = " ".join(text.split()).strip(" .:*\ufeff").casefold()
    return _with_bracket(text) or _with_last_word(text) or _cost_of_time(text) or Heading(text)


def _with_bracket(text: str) -> Heading | None:
    """Returns the heading of a text that ends with a bracket; None if it does not."""
    opening = max(text.rfind("("), text.rfind("["))
    if opening <= 0 or not text.endswith((")", "]")):
        return None
    inner = text[opening + 1 : -1].strip(" .")
    return Heading(text[:opening].strip(" ."), _last_unit(inner), inner in MULTIPLES)


def _with_last_word(text: str) -> Heading | None:
    """Returns the heading of a text that ends with a unit, a multiple or a currency, or None."""
    if text in _FIELD_OF:
        return None
    before, _, last = text.rpartition(" in ")
    if before and unit_of(last):
        return Heading(before.strip(), unit_of(last))
    before, _, last = text.rpartition(" ")
    if before not in _FIELD_OF:
        return None
    if last in MULTIPLES or _CURRENCY.fullmatch(last):
        return Heading(before, None, last in MULTIPLES)
    return Heading(before, unit_of(last)) if unit_of(last) else None


def _cost_of_time(text: str) -> Heading | None:
    """Returns the heading of a cost per hour or week, which is a cost per day with a unit."""
    for unit, words in _UNITS_OF_COSTS.items():
        for word in words:
            if text in (f"cost per {word}", f"kosten pro {word}", f"kosten je {word}"):
                return Heading("cost per day", unit)
    return None


def _last_unit(text: str) -> str | None:
    """Returns the unit that a bracket ends with: `days`, `working days`, `€/day`, `per week`."""
    words = text.replace("/", " ").split()
    return unit_of(words[-1]) if words else None


def chosen_headings(options: ReaderOptions) -> dict[str, str]:
    """Returns the heading that the user named for each field; an empty one passes a field over."""
    chosen = dict(options.columns)
    for name in chosen:
        if name not in HEADINGS:
            raise UsageError(f"--column {clip(name)}: the names are {', '.join(HEADINGS)}")
    if options.crash_field:
        chosen["crash"] = options.crash_field
    if options.crash_cost_field:
        chosen["crashcost"] = options.crash_cost_field
    return chosen


def _field_of(heading: Heading, chosen: Mapping[str, str], taken: Mapping[str, int]) -> str | None:
    """Returns the field of a heading, or None if it has none or another column has it."""
    for chosen_name, wanted in chosen.items():
        if wanted and heading_of(wanted).text == heading.text:
            return chosen_name if chosen_name not in taken else None
    for name in (_FIELD_OF.get(heading.text), SECOND_CHOICES.get(heading.text)):
        if name is not None and name not in taken and name not in chosen:
            return name
    return None


def read_head(row: GridRow, position: int, chosen: Mapping[str, str]) -> Head:
    """Returns the columns of a row that is taken for the row of headings.

    A heading that has a second meaning (`Planned Start`) is looked at after all others.
    """
    headings = [heading_of(cell) for cell in row.cells]
    columns: dict[str, int] = {}
    units: dict[str, str] = {}
    multiples = set()
    unread = []
    order = sorted(range(len(headings)), key=lambda at: headings[at].text in SECOND_CHOICES)
    for at in order:
        heading = headings[at]
        if not heading.text:
            continue
        name = _field_of(heading, chosen, columns)
        if name is None:
            unread.append(at)
            continue
        columns[name] = at
        if heading.unit:
            units[name] = heading.unit
        if heading.is_multiple:
            multiples.add(name)
    _place_task_column(columns, unread)
    shown = {name: _shown(row.cells[at]) for name, at in columns.items()}
    names = tuple(_shown(row.cells[at]) for at in sorted(unread))
    return Head(position, columns, shown, units, frozenset(multiples), names)


def _shown(cell: Cell) -> str:
    return clip(" ".join(text_of(cell).split()))


def _place_task_column(columns: dict[str, int], unread: list[int]) -> None:
    """Makes a column `Task` the one of codes next to a column of names, or else that of names."""
    if "task" not in columns:
        return
    at = columns.pop("task")
    other = "code" if "name" in columns else "name"
    if other in columns:
        unread.append(at)
    else:
        columns[other] = at


def find_head(rows: Sequence[GridRow], options: ReaderOptions) -> Head | None:
    """Returns the row with the most known headings among the first rows; None if none has two."""
    chosen = chosen_headings(options)
    best: Head | None = None
    for position, row in enumerate(rows[:ROWS_ABOVE_HEAD]):
        head = read_head(row, position, chosen)
        if len(head.columns) >= 2 and (best is None or len(head.columns) > len(best.columns)):
            best = head
    return best


def check_head(head: Head | None, options: ReaderOptions, file: str) -> Head:
    """Returns the head of a list, with a column of names; raises `InputError` if it is none."""
    if head is None or not head.is_complete:
        raise InputError(
            f"{file}: no row of headings with a column of names and one of durations: "
            "name yours with --column NAME=HEADING"
        )
    for name, heading in chosen_headings(options).items():
        if heading and name not in head.columns and not (name == "task" and "name" in head.columns):
            raise InputError(f"{file}: no column has the heading {clip(heading)!r}")
    columns = dict(head.columns)
    headings = dict(head.headings)
    unread = head.unread
    if "name" not in columns:
        columns["name"] = columns["code"]
        headings["name"] = headings["code"]
    if "pred" in columns and "succ" in columns:
        unread += (headings.pop("succ"),)
        del columns["succ"]
    return Head(head.position, columns, headings, head.units, head.multiples, unread)
