"""The side file: what is written is read back, and hostile JSON is one line."""

import json
from dataclasses import replace
from datetime import date
from decimal import Decimal
from typing import Any

import pytest
from hypothesis import given, settings
from hypothesis import strategies as st

from pert_companion.model.calendar import STANDARD_DAY, Calendar, CalendarException
from pert_companion.model.capacities import Capacity
from pert_companion.model.errors import InputError
from pert_companion.model.plan import Baseline, Constraint, ConstraintKind
from pert_companion.model.sidefile import (
    SideFile,
    SideGroup,
    SideTask,
    as_of,
    from_json,
    to_json,
)

TASK = SideTask(
    code="STEEL",
    uid="7",
    row=3,
    name="Steel, \u201cframe\u201d",
    outline=("Wing", "Frame"),
    parts=("STEEL", "STEEL.2"),
    start_moment="STEEL.S",
    finish_moment="STEEL.F",
    normal=14,
    minutes=6720,
    percent=Decimal("12.5"),
    remaining=480,
    actual_start=date(2026, 9, 1),
    listed_start=date(2026, 9, 1),
    listed_finish=date(2026, 9, 18),
    constraint=Constraint(ConstraintKind.START_NO_EARLIER, date(2026, 9, 1)),
    deadline=date(2026, 10, 1),
    baselines=(Baseline(0, date(2026, 9, 1), None, 480, Decimal("10.50")),),
)
SIDE = SideFile(
    deck_sha256="",
    deck_name="wing.csv",
    start=date(2026, 9, 1),
    calendar=Calendar(
        exceptions=(
            CalendarException(date(2026, 12, 24), date(2027, 1, 3), "Christmas"),
            CalendarException(date(2026, 9, 5), date(2026, 9, 5), "", STANDARD_DAY),
        )
    ),
    unit_minutes=480,
    tasks=(
        TASK,
        replace(TASK, code="B", parts=("B",), start_moment=None, finish_moment=None),
    ),
    groups=(SideGroup("W", "1", "Wing", 1), SideGroup("W.1", "2", "Frame")),
    waits=("STEEL.w1",),
    currency="EUR",
    data_date=date(2026, 9, 4),
    source="mspdi",
    source_name="wing.xml",
    unit_days=1,
    cards={"STEEL": "12345678 9abcdef0"},
)


def changed(**parts: Any) -> bytes:
    """Returns the JSON of the side file with top-level fields changed."""
    content = json.loads(to_json(SIDE))
    content.update(parts)
    return json.dumps(content).encode()


def changed_task(**parts: Any) -> bytes:
    """Returns the JSON of the side file with fields of its first task changed."""
    content = json.loads(to_json(SIDE))
    content["tasks"][0].update(parts)
    return json.dumps(content).encode()


def test_what_is_written_is_read_back() -> None:
    """The same side file comes back, and its JSON is the same when written again."""
    data = to_json(SIDE)
    assert from_json(data, "wing.json") == SIDE
    assert to_json(from_json(data, "wing.json")) == data
    empty = replace(SIDE, tasks=(), groups=(), waits=(), cards={})
    assert from_json(to_json(empty), "wing.json") == empty


def test_version_1_is_read() -> None:
    """It has the checksum of the deck's bytes, and neither digests nor days of a unit."""
    content = json.loads(to_json(SIDE))
    content = {key: content[key] for key in content if key not in ("cards", "unit_days")}
    old = json.dumps({**content, "version": 1, "sha256": "0" * 64}).encode()
    assert from_json(old, "wing.json") == replace(SIDE, deck_sha256="0" * 64, cards=None)


def test_names_that_are_not_utf_8_are_read_back() -> None:
    """A byte of a name that is no text is replaced in the side file."""
    data = to_json(replace(SIDE, deck_name="a\udcff.csv", source_name="\udc80.xml"))
    read = from_json(data, "wing.json")
    assert (read.deck_name, read.source_name) == ("a\ufffd.csv", "\ufffd.xml")


def test_progress_of_an_earlier_day() -> None:
    """Percentages and remaining durations after the day are not known; finished tasks keep them."""
    done = replace(TASK, percent=Decimal(100), remaining=0, actual_finish=date(2026, 9, 2))
    before = as_of(replace(SIDE, tasks=(TASK, done)), date(2026, 9, 3))
    assert before.data_date == date(2026, 9, 2)
    assert before.tasks == (replace(TASK, percent=None, remaining=None), done)
    first = as_of(replace(SIDE, tasks=(TASK, done)), date(2026, 9, 1)).tasks
    assert first[1] == replace(done, percent=None, remaining=None, actual_finish=None)
    not_begun = as_of(
        replace(SIDE, tasks=(replace(TASK, actual_start=date(2026, 9, 2)),)),
        date(2026, 9, 1),
    )
    assert not_begun.tasks[0].actual_start is None
    later = as_of(SIDE, date(2026, 9, 20))
    assert (later.data_date, later.tasks) == (date(2026, 9, 19), SIDE.tasks)


@pytest.mark.parametrize(
    "data, line",
    [
        (b"", "no JSON"),
        (b"\xff", "not in UTF-8 at byte 1"),
        (b"[" * 100_000, "nested too deeply"),
        (b"[]", "the file is no object"),
        (b'{"version": 1.0}', "1.0 is no whole number"),
        (b'{"version": NaN}', "NaN is no whole number"),
        (b'{"version": 1e999999999}', "1e999999999 is no whole number"),
        (b'{"version": ' + b"9" * 100_000 + b"}", "more than 20 digits"),
        (b'{"version": 1, "version": 1}', "a key occurs twice"),
        (b'{"version": true}', "version: it is no whole number"),
        (b'{"version": 0}', "version: 0 is not from 1"),
        (b'{"version": 1}', "sha256: it is missing"),
        (b'{"version": 2}', "deck: it is missing"),
        (
            changed(version=3),
            "version 3 of side files; this program reads up to version 2",
        ),
        (
            changed(start="0001-01-01"),
            "start: 0001-01-01 is not in the years 1900 to 2199",
        ),
        (changed(data_date="2200-01-01"), "data_date: 2200-01-01 is not in the years"),
        (changed(cards=["A"]), "cards: it is no object"),
        (changed(cards={"A": 1}), "cards: it is no text"),
        (changed(other=1), "unknown key 'other'"),
        (changed(start="2026-02-30"), "start: '2026-02-30' is no date"),
        (changed(start="20260230"), "start: '20260230' is no date"),
        (changed(data_date=3), "data_date: it is no text"),
        (changed(tasks={}), "tasks: it is no list"),
        (changed(tasks=[3]), "tasks[0] is no object"),
        (changed(waits=["STEEL"]), "the card 'STEEL' has more than one use"),
        (
            changed(groups=[{"code": "A", "uid": "", "name": ""}] * 2),
            "two groups have the code",
        ),
        (changed(calendar=None), "calendar is no object"),
        (changed(currency="x" * 100_001), "more than 100000 characters"),
        (changed(currency="\ud800"), "half of a surrogate pair"),
        (changed_task(parts=[]), "tasks[0]: the first of its parts is not its code"),
        (changed_task(percent="1e9"), "tasks[0].percent: '1e9' is no decimal number"),
        (
            changed_task(constraint={"kind": "soon"}),
            "constraint: unknown constraint 'soon'",
        ),
        (changed_task(normal=-1), "tasks[0].normal: -1 is not from 0"),
        (changed_task(row="3"), "tasks[0].row: it is no whole number"),
        (
            changed_task(baselines=[{"number": 0, "x": 1}]),
            "baselines[0]: unknown key 'x'",
        ),
    ],
)
def test_hostile_json_is_one_line(data: bytes, line: str) -> None:
    """Each fault is one line that names the file and the place."""
    with pytest.raises(InputError) as caught:
        from_json(data, "wing.json")
    assert str(caught.value).startswith("wing.json: ")
    assert line in str(caught.value)
    assert "\n" not in str(caught.value)


@pytest.mark.parametrize(
    "parts, line",
    [
        ({"week": [[]] * 6}, "calendar: calendar 'Standard': 6 weekdays"),
        ({"week": [[[0]]] * 7}, "calendar.week: it is no list of pairs"),
        ({"week": [3] * 7}, "calendar.week: it is no list of pairs"),
        ({"week": [[[0, 1441]]] * 7}, "calendar.week: 1441 is not from 0 to 1440"),
        ({"day_minutes": 0}, "calendar.day_minutes: 0 is not from 1 to 1440"),
        ({"name": 1}, "calendar.name: it is no text"),
    ],
)
def test_a_wrong_calendar_is_one_line(parts: dict[str, Any], line: str) -> None:
    """The calendar of a side file is checked as one of a reader is."""
    content = json.loads(to_json(SIDE))
    content["calendar"].update(parts)
    with pytest.raises(InputError) as caught:
        from_json(json.dumps(content).encode(), "wing.json")
    assert line in str(caught.value)


VALUES = st.recursive(
    st.none() | st.booleans() | st.integers(-5, 5) | st.text(max_size=3),
    lambda inner: st.lists(inner, max_size=3) | st.dictionaries(st.text(max_size=3), inner),
    max_leaves=6,
)


@given(st.sampled_from(sorted(json.loads(to_json(SIDE)))), VALUES)
@settings(max_examples=300, deadline=None)
def test_any_value_is_read_or_refused(field: str, value: object) -> None:
    """Whatever stands in a field, the file is read or refused in one line."""
    try:
        from_json(changed(**{field: value}), "wing.json")
    except InputError as error:
        assert str(error).startswith("wing.json: ")


def test_capacities() -> None:
    """They are written and read back; one without units, or with a wrong mark, is a line."""
    capacities = (
        Capacity("CREW", "Crew", Decimal("2.5"), 60),
        Capacity("SAND", "Sand, washed", Decimal(4), 1000, True),
    )
    side = replace(SIDE, capacities=capacities)
    assert from_json(to_json(side), "wing.json") == side
    assert "capacities" not in json.loads(to_json(SIDE))
    entry = json.loads(to_json(side))["capacities"][0]
    for field, value in (("units", "-1"), ("units", None), ("hourly", 0), ("said", 1)):
        with pytest.raises(InputError, match=rf"^wing\.json: capacities\[0\]\.{field}: "):
            from_json(changed(capacities=[{**entry, field: value}]), "wing.json")
