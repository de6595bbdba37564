"""What a page is a function of: the states that it is about and the user's options, as data.

The element `pert-source` holds it, so that the page can be made again from itself alone:

    {"version": "2.1", "options": {"length": 30, "brief": false, ..},
     "state": {"name": "wing.csv", "deck": TEXT, "side": TEXT or null, "ledger": TEXT or null,
               "tables": {"packages": [..], ..} or null},
     "baseline": null, "previous": {"name": .., ..}}

The text of a deck is that of its file, byte for byte; those of a side file and a ledger have the
same meaning. There is no path, clock or locale in it.
"""

import json
from dataclasses import asdict, dataclass, replace
from pathlib import Path
from typing import Any

from pert_companion import VERSION
from pert_companion.model import deck as decks
from pert_companion.model import ledger as ledgers
from pert_companion.model import sidefile
from pert_companion.model.errors import InputError
from pert_companion.model.registers import Registers
from pert_companion.model.registers_json import read_registers, registers_json
from pert_companion.model.strict import Fields
from pert_companion.programs.client import Programs
from pert_companion.state.implied import implied_side_file
from pert_companion.state.project import ProjectState


@dataclass(frozen=True)
class Wishes:
    """How the user wants the page."""

    length: int | None = None
    optimum: bool = False
    normal: bool = False
    currency: str | None = None
    brief: bool = False


@dataclass(frozen=True)
class Source:
    """Everything that a page is a function of, besides the version."""

    wishes: Wishes
    state: ProjectState
    baseline: ProjectState | None = None
    """The plan that progress is compared with; the state's own if there is none."""
    previous: ProjectState | None = None
    """The state of the report before this one."""

    def data(self) -> dict[str, object]:
        """Returns what the element `pert-source` holds."""
        return {
            "version": VERSION,
            "options": asdict(self.wishes),
            "state": _held(self.state),
            "baseline": None if self.baseline is None else _held(self.baseline),
            "previous": None if self.previous is None else _held(self.previous),
        }


def _held(state: ProjectState) -> dict[str, Any]:
    """Returns a state as data."""
    registers = state.registers
    return {
        "name": state.name,
        "deck": state.data.decode(),
        "side": sidefile.to_json(state.side).decode() if state.has_side_file else None,
        "ledger": None if state.ledger is None else ledgers.to_bytes(state.ledger).decode(),
        "tables": None if registers == Registers() else registers_json(registers),
    }


def version_of(text: str) -> str:
    """Returns the version that wrote the source in a page.

    Raises `InputError` if the text is no source.
    """
    return _text(_object(_parsed(text)), "version")


def source_from(text: str, programs: Programs) -> Source:
    """Returns the source in the text of an element `pert-source`.

    Raises `InputError` if it is none.
    """
    held = _object(_parsed(text))
    options = _object(held.get("options"))
    if set(options) != set(asdict(Wishes())):
        raise InputError("the source of the page has other options")
    baseline, previous = held.get("baseline"), held.get("previous")
    return Source(
        Wishes(**options),
        _state(_object(held.get("state")), programs),
        None if baseline is None else _state(_object(baseline), programs),
        None if previous is None else _state(_object(previous), programs),
    )


def _state(held: dict[str, Any], programs: Programs) -> ProjectState:
    """Returns a state from its data."""
    state = _deck_state(held, programs)
    if held.get("ledger") is not None:
        text = _text(held, "ledger")
        name = str(ledgers.ledger_path(state.path))
        state = replace(state, ledger=ledgers.parse_ledger(text.encode(), name))
    if held.get("tables") is not None:
        tables = read_registers(Fields(held["tables"], "the source of the page", "tables"))
        state = replace(state, registers=tables)
    return state


def _deck_state(held: dict[str, Any], programs: Programs) -> ProjectState:
    """Returns the state of a deck and its side file from their data."""
    name, data = _text(held, "name"), _text(held, "deck").encode()
    deck = decks.parse_deck(data, name)
    path = Path(name)
    if held.get("side") is None:
        return ProjectState(programs, deck, implied_side_file(deck), False, path, data)
    side_data = _text(held, "side").encode()
    side = sidefile.from_json(side_data, str(sidefile.side_path(path)))
    return ProjectState(programs, deck, side, True, path, data)


def _parsed(text: str) -> Any:
    try:
        return json.loads(text)
    except (json.JSONDecodeError, RecursionError) as error:
        raise InputError("the source of the page is not JSON") from error


def _object(value: Any) -> dict[str, Any]:
    if not isinstance(value, dict):
        raise InputError("the source of the page lacks an object")
    return value


def _text(held: dict[str, Any], name: str) -> str:
    value = held.get(name)
    if not isinstance(value, str):
        raise InputError(f"the source of the page has no {name}")
    return value
