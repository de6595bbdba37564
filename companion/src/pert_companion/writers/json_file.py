"""Writes results as JSON, and the schema of what is written, both from the types of the results.

A record has its fields and its properties. Dates are texts as 2026-03-31, moments texts as
2026-03-31T17:00:00, exact fractions decimal texts with six places, enumerations their values.
Amounts are whole units of money: `money_scale` of the document says how many of them one of the
currency is.
"""

import json
import types
from collections.abc import Iterator, Mapping, Sequence
from dataclasses import dataclass, fields, is_dataclass
from datetime import date, datetime
from decimal import Decimal
from enum import Enum
from fractions import Fraction
from typing import Any, Union, get_args, get_origin, get_type_hints

from pert_companion import VERSION
from pert_companion.model.figures import ratio_text
from pert_companion.model.sidefile import SideFile

SCHEMA_VERSION = 1
"""Rises when a field is renamed, removed or means something else; not when one is added."""
PLACES = 6
_DIALECT = "https://json-schema.org/draft/2020-12/schema"


@dataclass(frozen=True)
class Document:
    """What goes around the result of a command."""

    command: str
    money_scale: int
    currency: str
    result: object


def to_json(document: Document) -> bytes:
    """Returns a document as JSON in UTF-8 with a line feed at its end."""
    content = {
        "schema_version": SCHEMA_VERSION,
        "written_by": f"pert-companion {VERSION}",
        "command": document.command,
        "money_scale": document.money_scale,
        "currency": document.currency,
        "result": jsonable(document.result),
    }
    return (json.dumps(content, ensure_ascii=False, indent=1) + "\n").encode()


def result_text(command: str, side: SideFile, result: object) -> str:
    """Returns the document of a command whose result is about the project of a side file."""
    return to_json(Document(command, side.money_scale, side.currency, result)).decode()


def jsonable(value: object) -> Any:
    """Returns a value of a result as JSON has it."""
    if value is None or isinstance(value, bool | int):
        return value
    if isinstance(value, Enum):
        return value.value
    if isinstance(value, str):
        return str(value)
    if isinstance(value, date):
        return value.isoformat()
    if isinstance(value, Decimal):
        return f"{value:f}"
    if isinstance(value, Fraction):
        return ratio_text(value, PLACES)
    if isinstance(value, Mapping):
        return {str(key): jsonable(each) for key, each in value.items()}
    if isinstance(value, Sequence | frozenset):
        return [jsonable(each) for each in value]
    if is_dataclass(value):
        return {name: jsonable(getattr(value, name)) for name, _ in members(type(value))}
    raise TypeError(f"{type(value).__name__} is no part of a result")


_MEMBERS: dict[type, tuple[tuple[str, Any], ...]] = {}
"""What `members` found, by type: a document has thousands of records of a few types."""


def members(record: type) -> tuple[tuple[str, Any], ...]:
    """Returns the names and types of a record's fields and properties."""
    if record not in _MEMBERS:
        _MEMBERS[record] = tuple(_members(record))
    return _MEMBERS[record]


def _members(record: type) -> Iterator[tuple[str, Any]]:
    hints = get_type_hints(record)
    for each in fields(record):
        if not each.name.startswith("_"):
            yield each.name, hints[each.name]
    for name, found in vars(record).items():
        if isinstance(found, property) and found.fget is not None:
            yield name, get_type_hints(found.fget)["return"]


def schema_of(command: str, result: type) -> dict[str, Any]:
    """Returns the JSON schema of the documents of a command whose result is of a type."""
    definitions: dict[str, Any] = {}
    properties = {
        "schema_version": {"const": SCHEMA_VERSION},
        "written_by": {"type": "string"},
        "command": {"const": command},
        "money_scale": {"type": "integer", "minimum": 1},
        "currency": {"type": "string"},
        "result": _schema(result, definitions),
    }
    return {
        "$schema": _DIALECT,
        "title": f"{command}, version {SCHEMA_VERSION}",
        "type": "object",
        "properties": properties,
        "required": list(properties),
        "additionalProperties": False,
        "$defs": dict(sorted(definitions.items())),
    }


_PLAIN: dict[Any, dict[str, Any]] = {
    bool: {"type": "boolean"},
    int: {"type": "integer"},
    str: {"type": "string"},
    date: {
        "type": "string",
        "format": "date",
        "pattern": "^[0-9]{4}-[0-9]{2}-[0-9]{2}$",
    },
    datetime: {
        "type": "string",
        "pattern": "^[0-9]{4}-[0-9]{2}-[0-9]{2}T[0-9]{2}:[0-9]{2}:[0-9]{2}$",
    },
    Decimal: {"type": "string", "pattern": "^-?[0-9]+(\\.[0-9]+)?$"},
    Fraction: {"type": "string", "pattern": "^-?[0-9]+\\.[0-9]{6}$"},
    type(None): {"type": "null"},
}


def _schema(hint: Any, definitions: dict[str, Any]) -> dict[str, Any]:
    """Returns the schema of a type; records are defined once, by name."""
    if hint in _PLAIN:
        return _PLAIN[hint]
    origin, inner = get_origin(hint), get_args(hint)
    if origin in (Union, types.UnionType):
        return {"anyOf": [_schema(each, definitions) for each in inner]}
    if origin is tuple and inner[-1:] != (...,):
        items = [_schema(each, definitions) for each in inner]
        return {
            "type": "array",
            "prefixItems": items,
            "minItems": len(items),
            "items": False,
        }
    if origin is not None and issubclass(origin, Mapping):
        return {
            "type": "object",
            "additionalProperties": _schema(inner[1], definitions),
        }
    if origin is not None:
        return {"type": "array", "items": _schema(inner[0], definitions)}
    if issubclass(hint, Enum):
        return {"enum": [each.value for each in hint]}
    if hint.__name__ not in definitions:
        definitions[hint.__name__] = {}
        definitions[hint.__name__] = _record_schema(hint, definitions)
    return {"$ref": f"#/$defs/{hint.__name__}"}


def _record_schema(record: type, definitions: dict[str, Any]) -> dict[str, Any]:
    properties = {name: _schema(hint, definitions) for name, hint in members(record)}
    text = (record.__doc__ or "").strip().splitlines()[0]
    return {
        "description": text,
        "type": "object",
        "properties": properties,
        "required": list(properties),
        "additionalProperties": False,
    }
