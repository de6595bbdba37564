"""Makes the links of a plan from the cells of predecessors or successors of a list."""

from collections.abc import Callable, Iterator, Sequence
from dataclasses import dataclass
from datetime import date
from decimal import Decimal
from fractions import Fraction

from pert_companion.model.errors import InputError
from pert_companion.model.plan import Group, Lag, Link, LinkKind, Task
from pert_companion.readers.cells import CellReader
from pert_companion.readers.entries import Entries
from pert_companion.readers.grid import MOST_PARTS
from pert_companion.readers.outline import Row
from pert_companion.readers.values import (
    Style,
    Unreadable,
    duration,
    is_nothing,
    is_whole,
    number,
    text_of,
    unit_of,
    whole_minutes,
)

MOST_LINKS = 200_000
"""The most links of a list: ten times what a deck has."""
_KEYS = ("id", "code", "wbs", "name", "uid")
"""The fields by which a link names a row; a field is asked only if those before it know no row."""

MOST_LINK_CHARACTERS = 300
KINDS = {
    "FS": LinkKind.FINISH_START,
    "SS": LinkKind.START_START,
    "FF": LinkKind.FINISH_FINISH,
    "SF": LinkKind.START_FINISH,
    "EA": LinkKind.FINISH_START,
    "AA": LinkKind.START_START,
    "EE": LinkKind.FINISH_FINISH,
    "AE": LinkKind.START_FINISH,
}
"""The kinds of links by their English and German letters."""
_SIGNS = "+-−"


@dataclass(frozen=True)
class LinkText:
    """One link of a cell: the key of the other row, None if no row has it."""

    key: str | None
    kind: LinkKind
    lag: str
    text: str


@dataclass(frozen=True)
class Keys:
    """The rows of a list by what links call them."""

    by_field: tuple[dict[str, list[Row]], ...]

    def rows(self, key: str) -> list[Row]:
        """Returns the rows that a key names."""
        folded = key.casefold()
        for known in self.by_field:
            if folded in known:
                return known[folded]
        return []

    def knows(self, key: str) -> bool:
        """Says whether a key names a row."""
        return bool(self.rows(key))


def keys_of(rows: Sequence[Row]) -> Keys:
    """Returns the keys of all rows, those that are no entries too."""
    by_field: list[dict[str, list[Row]]] = []
    for name in _KEYS:
        known: dict[str, list[Row]] = {}
        for row in rows:
            text = row.text(name)
            if text:
                known.setdefault(text.casefold(), []).append(row)
        by_field.append(known)
    return Keys(tuple(by_field))


class Linker:
    """Makes links of the cells of one column; a link that cannot be made is a loss."""

    def __init__(
        self, rows: Sequence[Row], entries: Entries, reader: CellReader, file: str
    ) -> None:
        """Takes the rows of a list and their entries; `file` is for errors."""
        columns = reader.head.columns
        self._name = "succ" if "pred" not in columns and "succ" in columns else "pred"
        self._file = file
        self._rows = rows
        self._entries = entries
        self._parents = entries.parents()
        self._reader = reader
        self._keys = keys_of(rows)

    def links(self) -> tuple[Link, ...]:
        """Returns the links of the list, each once; `InputError` if there are too many."""
        found: dict[tuple[str, str, str, Lag], Link] = {}
        count = 0
        for row in self._rows:
            parts = self._parts(row)
            count += len(parts)
            if count > MOST_LINKS:
                raise InputError(
                    f"{self._file}: {row.where}: the list has more than {MOST_LINKS} links"
                )
            for part in parts:
                link = self._link(row, part)
                if link is not None:
                    key = (link.predecessor, link.successor, link.kind.value, link.lag)
                    found.setdefault(key, link)
        return tuple(found.values())

    def _lose(self, row: Row, why: str, text: str | None = None) -> None:
        self._reader.lose(row, self._name, why, text)

    def _parts(self, row: Row) -> list[LinkText]:
        cell = row.cell(self._name)
        if is_nothing(cell):
            return []
        if isinstance(cell, date):
            self._lose(row, "the workbook took this for a date; format the column as text")
            return []
        text = text_of(cell)
        if isinstance(cell, Decimal) and not self._keys.knows(text):
            why = "no row has this number"
            if cell != cell.to_integral_value():
                why += "; a list such as 5,6 needs a column that is formatted as text"
            self._lose(row, why)
            return []
        try:
            return links_in(text, self._keys.knows, self._reader.style)
        except Unreadable as reason:
            self._lose(row, str(reason))
            return []

    def _link(self, row: Row, part: LinkText) -> Link | None:
        other = self._other(row, part)
        own = self._entries.of_row(row)
        if other is None or own is None:
            return None
        if self._is_inside(own, other) or self._is_inside(other, own):
            why = "it links a row with itself, or a group with what is inside it"
            self._lose(row, why, part.text)
            return None
        try:
            wait = lag_of(part.lag, self._reader.style)
        except Unreadable as reason:
            self._lose(row, f"lag: {reason}; the link is left out", part.text)
            return None
        before, after = (other, own) if self._name == "pred" else (own, other)
        return Link(before.uid, after.uid, part.kind, wait, row.where, part.text)

    def _other(self, row: Row, part: LinkText) -> Task | Group | None:
        """Returns the entry at the other end of a link; None, and a loss, if there is not one."""
        others = self._keys.rows(part.key) if part.key is not None else []
        if not others:
            self._lose(row, "no row has this number, code or name", part.text)
            return None
        if len(others) > 1:
            self._lose(row, f"{len(others)} rows have this name", part.text)
            return None
        other = self._entries.of_row(others[0])
        if other is None or self._entries.of_row(row) is None:
            self._lose(row, "one of the rows that it links is not carried over", part.text)
            return None
        return other

    def _is_inside(self, entry: Task | Group, group: Task | Group) -> bool:
        """Says whether an entry is the group, or is inside it."""
        uid: str | None = entry.uid
        while uid is not None:
            if uid == group.uid:
                return True
            uid = self._parents[uid]
        return False


def _kind_positions(text: str) -> Iterator[int]:
    upper = text.upper()
    for position in range(1, len(upper) - 1):
        if upper[position : position + 2] in KINDS:
            yield position


def _with_kind(part: str, knows: Callable[[str], bool]) -> LinkText | None:
    """Returns a link with a kind (`3FS+2 days`, `A1010: FF 2d`), or None."""
    for position in _kind_positions(part):
        key = part[:position].rstrip(" :")
        lag_text = part[position + 2 :].strip()
        if lag_text and not (lag_text[0] in _SIGNS or lag_text[0].isdigit()):
            continue
        if knows(key):
            return LinkText(key, KINDS[part[position : position + 2].upper()], lag_text, part)
    return None


def _without_kind(part: str, knows: Callable[[str], bool]) -> LinkText | None:
    """Returns a link with a lag and no kind (`3+2 days`), or None.

    The lag has a unit, so that a mistyped code such as `A-10` is no lead of ten days.
    """
    for position in range(1, len(part) - 1):
        if part[position] in _SIGNS and knows(part[:position].strip()):
            lag_text = part[position:].strip()
            if _begins_with_decimals(lag_text.lstrip(_SIGNS + " ")):
                return LinkText(part[:position].strip(), LinkKind.FINISH_START, lag_text, part)
    return None


def _links_of_part(part: str, knows: Callable[[str], bool]) -> list[LinkText]:
    plain = LinkKind.FINISH_START
    if knows(part):
        return [LinkText(part, plain, "", part)]
    if len(part) <= MOST_LINK_CHARACTERS:
        found = _with_kind(part, knows) or _without_kind(part, knows)
        if found is not None:
            return [found]
        words = part.split()
        if len(words) > 1 and all(knows(word) for word in words):
            return [LinkText(word, plain, "", word) for word in words]
    return [LinkText(None, plain, "", part)]


def _ends_with_lag(part: str) -> bool:
    """Says whether a part ends with a sign and digits, so that a decimal comma may follow."""
    before = part.rstrip("0123456789")
    return before != part and before.rstrip(" ")[-1:] in tuple(_SIGNS)


def _begins_with_decimals(part: str) -> bool:
    """Says whether a part is digits and a unit of time, as behind a decimal comma."""
    word = part.lstrip("0123456789")
    return word != part and unit_of(word.strip()) is not None


def _parts(text: str, style: Style) -> list[str]:
    mark = ";" if ";" in text else ","
    if text.count(mark) > 2 * MOST_PARTS:  # half of them may be decimal marks of lags
        raise Unreadable(f"more than {MOST_PARTS} links in one cell")
    for line_end in "\r\n":
        text = text.replace(line_end, mark)
    parts: list[str] = []
    for part in text.split(mark):
        part = part.strip()
        if mark == style.decimal and parts and _ends_with_lag(parts[-1][-MOST_LINK_CHARACTERS:]):
            if _begins_with_decimals(part):
                parts[-1] += mark + part
                continue
        if part:
            parts.append(part)
    if len(parts) > MOST_PARTS:
        raise Unreadable(f"more than {MOST_PARTS} links in one cell")
    return parts


def links_in(text: str, knows: Callable[[str], bool], style: Style) -> list[LinkText]:
    """Returns the links of a cell: `3`, `3FS+2 days;5SS`, `A1010: FF 2d`, `DIG POUR`.

    `knows` says whether some row has a key.
    """
    text = text.strip()
    if knows(text):
        return [LinkText(text, LinkKind.FINISH_START, "", text)]
    found = []
    for part in _parts(text, style):
        found.extend(_links_of_part(part, knows))
    return found


def lag_of(text: str, style: Style) -> Lag:
    """Returns the lag of a link: `+2 days`, `-3d`, `+50%`, `+14 edays`; raises `Unreadable`.

    Working and elapsed minutes are whole; a lag that is no whole number of minutes is refused.
    """
    text = text.strip()
    if not text:
        return Lag()
    if text.endswith("%"):
        return Lag(share=_share(text[:-1].strip(), style))
    wait = duration(text, style)
    if not is_whole(wait.minutes):
        raise Unreadable("a lag has whole minutes")
    return Lag(whole_minutes(wait.minutes), elapsed=wait.is_elapsed)


def _share(text: str, style: Style) -> Fraction:
    if text[-1:] in ("e", "f"):
        raise Unreadable("a percentage of elapsed time depends on the dates")
    sign = -1 if text[:1] in ("-", "−") else 1
    return sign * Fraction(number(text.lstrip(_SIGNS + " "), style)) / 100
