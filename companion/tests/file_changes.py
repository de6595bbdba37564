"""What changed in a planner's file: each field of each element or row, compared with the original.

Which fields may change is what docs/exporting.md lists.
"""

import re
from collections.abc import Iterator
from pathlib import Path
from xml.etree import ElementTree
from xml.etree.ElementTree import Element

EXPORTING = Path(__file__).resolve().parents[2] / "docs" / "exporting.md"
NEW_EXPENSES = ("PROJCOST", "ActivityExpense")
"""What a schedule may add: what the shortening of an activity costs."""
NAMES = ("UID", "ObjectId", "FieldID", "PredecessorUID", "Number")
"""The fields that tell an element from the others of its kind, if it has one of them."""
UNNAMED = ("TimephasedData",)
"""Elements that are told apart by all that they hold."""
Change = tuple[str, str]
"""The kind of an element or row, and the field of it that is not what it was."""


def listed_fields(format_name: str) -> dict[str, set[str]]:
    """Returns the fields that the page lists for a format, by the kind of element or row."""
    page = EXPORTING.read_text()
    begin, end = f"<!-- table {format_name} -->\n", f"<!-- end of {format_name} -->"
    text = page.partition(begin)[2].partition(end)[0]
    found: dict[str, set[str]] = {}
    for entry in re.split(r"^    (?! )", text, flags=re.MULTILINE)[1:]:
        kind, _, fields = entry.partition(":")
        found[kind] = set(fields.split())
    assert found
    return found


def unlisted(format_name: str, before: bytes, after: bytes) -> list[Change]:
    """Returns what changed from one file to another that the page does not list."""
    listed = listed_fields(format_name)
    changes = xer_changes if format_name == "xer" else xml_changes
    return [
        (kind, field) for kind, field in changes(before, after) if field not in listed.get(kind, ())
    ]


def xml_changes(before: bytes, after: bytes) -> Iterator[Change]:
    """Yields what changed in a file of XML."""
    yield from _of_elements(ElementTree.fromstring(before), ElementTree.fromstring(after))


def _of_elements(one: Element, other: Element) -> Iterator[Change]:
    """Yields what changed in an element: attributes, fields, and the elements that it holds."""
    kind = _kind(one)
    for name in {*one.attrib, *other.attrib}:
        if one.get(name) != other.get(name):
            yield kind, name
    old, new = _keyed(one), _keyed(other)
    kept = [key for key in old if key in new]
    if kept != [key for key in new if key in old]:
        yield kind, "order"
    for key in [*old, *(key for key in new if key not in old)]:
        if key not in old and _is_new_expense(new[key]):
            continue
        if key not in old:
            yield kind, key[0]
        elif key not in new:
            yield kind, "work done by day" if _is_done(old[key]) else key[0]
        elif _is_field(old[key]) and _is_field(new[key]):
            if old[key].text != new[key].text:
                yield kind, key[0]
        else:
            yield from _of_elements(old[key], new[key])


def _keyed(element: Element) -> dict[tuple[str, str], Element]:
    """Returns the elements that an element holds, by their kind and by what tells them apart."""
    found: dict[tuple[str, str], Element] = {}
    for child in element:
        name = _name(child)
        number = 0
        while (_kind(child), f"{name}#{number}") in found:
            number += 1
        found[_kind(child), f"{name}#{number}"] = child
    return found


def _name(element: Element) -> str:
    """Returns what tells an element from others of its kind, or an empty text."""
    if _kind(element) in UNNAMED:
        return ElementTree.canonicalize(ElementTree.tostring(element, "unicode"), strip_text=True)
    texts = {_kind(child): child.text or "" for child in element}
    return next((texts[name] for name in NAMES if name in texts), element.get("id", ""))


def _is_field(element: Element) -> bool:
    return not len(element) and not element.attrib


def _is_new_expense(element: Element) -> bool:
    texts = {_kind(child): child.text for child in element}
    return _kind(element) in NEW_EXPENSES and texts.get("ExpenseItem") == "Shortening"


def _is_done(element: Element) -> bool:
    """Says whether an element of MS Project has the work that was done on a day."""
    texts = {_kind(child): child.text for child in element}
    return _kind(element) in UNNAMED and texts.get("Type") != "1"


def _kind(element: Element) -> str:
    return element.tag.rpartition("}")[2]


def xer_changes(before: bytes, after: bytes) -> Iterator[Change]:
    """Yields what changed in a file of XER: lines, tables, columns, rows and cells."""
    old, new = _tables(before), _tables(after)
    if old.pop("") != new.pop(""):
        yield "", "lines"
    for table in {*old, *new}:
        yield from _of_tables(table, old.get(table, []), new.get(table, []))
    if [table for table in new if table in old] != list(old):
        yield "", "order"


def _tables(data: bytes) -> dict[str, list[list[str]]]:
    """Returns the lines of each table by its name: the columns first; other lines have no table."""
    found: dict[str, list[list[str]]] = {"": []}
    table = ""
    for line in data.decode().split("\r\n"):
        kind, *cells = line.split("\t")
        if kind == "%T":
            table = cells[0]
            found[table] = []
        elif kind in ("%F", "%R"):
            found[table].append(cells)
        else:
            found[""].append([kind, *cells])
    return found


def _of_tables(table: str, old: list[list[str]], new: list[list[str]]) -> Iterator[Change]:
    """Yields what changed in a table; expenses may be added at its end."""
    columns = new[0] if new else []
    if old and columns != old[0]:
        yield table, "columns"
        return
    for was, is_now in zip(old[1:], new[1:]):
        for name, cell, other in zip(columns, was, is_now, strict=True):
            if cell != other:
                yield table, name
    added = [dict(zip(columns, row)) for row in new[max(1, len(old)) :]]
    is_named = all(row.get("cost_name", "Shortening") == "Shortening" for row in added)
    if len(new) < len(old) or (added and not (table in NEW_EXPENSES and is_named)):
        yield table, "rows"
