"""The tables next to a deck as JSON: what is written is read back, and nothing else is read."""

import json
from datetime import date
from decimal import Decimal
from typing import Any

import pytest
from hypothesis import given
from hypothesis import strategies as st

from pert_companion.model.errors import InputError
from pert_companion.model.registers import (
    BudgetChange,
    Explanation,
    PackageRule,
    Registers,
    Rename,
    Renames,
    Technique,
)
from pert_companion.model.registers_json import read_registers, registers_json
from pert_companion.model.strict import Fields, parse

TEXTS = st.text(st.characters(blacklist_categories=("Cs",)), max_size=6)
DAYS = st.dates(date(1900, 1, 1), date(2199, 12, 31))
AMOUNTS = st.integers(0, 10**9).map(lambda cents: Decimal(cents) / 100)
RULES = st.builds(
    PackageRule,
    TEXTS,
    st.sampled_from(Technique),
    TEXTS,
    st.lists(st.tuples(TEXTS, st.integers(0, 100)), max_size=3).map(tuple),
    TEXTS,
    st.none() | AMOUNTS,
    st.none() | DAYS,
    st.none() | DAYS,
    TEXTS,
    TEXTS,
)
CHANGES = st.builds(BudgetChange, DAYS, TEXTS, TEXTS, AMOUNTS, TEXTS, TEXTS, TEXTS)
RENAMES = st.builds(Renames, st.lists(st.builds(Rename, TEXTS, TEXTS), max_size=3).map(tuple))
EXPLANATIONS = st.builds(Explanation, DAYS, TEXTS, TEXTS, TEXTS, TEXTS, TEXTS)
REGISTERS = st.builds(
    Registers,
    st.lists(RULES, max_size=3).map(tuple),
    st.lists(CHANGES, max_size=3).map(tuple),
    RENAMES,
    st.lists(EXPLANATIONS, max_size=3).map(tuple),
)


def read(content: Any) -> Registers:
    """Returns the tables of JSON."""
    return read_registers(Fields(parse(json.dumps(content).encode(), "page"), "page", "tables"))


@given(REGISTERS)
def test_tables_are_read_as_they_were_written(registers: Registers) -> None:
    """Every field of every table comes back."""
    assert read(registers_json(registers)) == registers


RULE = PackageRule("S", Technique.EFFORT, budget=Decimal(5), start=date(2026, 1, 5))
WHOLE = Registers(
    packages=(RULE,),
    changes=(BudgetChange(date(2026, 3, 10), "reserve", "S", Decimal(5)),),
    renames=Renames((Rename("A", "B"),)),
    explanations=(Explanation(date(2026, 3, 31), "S", "SV", "Rock"),),
)


@pytest.mark.parametrize(
    ("table", "field", "value", "why"),
    (
        ("packages", "technique", "guess", "tables.packages[0].technique: 'guess' is no technique"),
        ("packages", "budget", "much", "tables.packages[0].budget: 'much' is no decimal number"),
        ("packages", "start", "2026-02-30", "tables.packages[0].start: '2026-02-30' is no date"),
        ("packages", "weights", [{"task": "A", "weight": -1}], "-1 is not from 0 to"),
        ("packages", "more", 1, "tables.packages[0]: unknown key 'more'"),
        ("changes", "amount", None, "tables.changes[0].amount: it is missing"),
        ("renames", "new", 7, "tables.renames[0].new: it is no text"),
        ("explanations", "date", None, "tables.explanations[0].date: it is no text"),
    ),
)
def test_what_is_no_table_is_refused(table: str, field: str, value: Any, why: str) -> None:
    """One line with the place of the value."""
    content = registers_json(WHOLE)
    content[table][0][field] = value
    with pytest.raises(InputError) as caught:
        read(content)
    assert str(caught.value).startswith("page: ") and why in str(caught.value)
