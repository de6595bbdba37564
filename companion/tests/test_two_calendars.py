"""Plans with several calendars in the files of planners: dates, floats, lengths, hour by hour."""

import json
from collections.abc import Callable
from dataclasses import replace
from datetime import date
from decimal import Decimal
from pathlib import Path
from typing import Any

import pytest
from hourly import HourLink, Hours, HourTask, dates_by_hours, float_by_hours, moment_of
from planner_files import mspdi_bytes, pmxml_bytes, xer_bytes
from running import run_words
from test_passes import BEGIN, NIGHTS, OFFICE, SITE, START, calendar_of

from pert_companion.cli import importing, schedule
from pert_companion.model.plan import Crash, Lag, LagCalendar, Link, LinkKind, Plan, Task

FREE = frozenset({date(2026, 3, 9), date(2026, 3, 18)})
HOURS = {
    "Office": Hours(OFFICE.weekdays, OFFICE.hours, FREE),
    "Site": SITE,
    "Nights": NIGHTS,
}
WORK = {
    "1": (40, "Office"),
    "2": (100, "Site"),
    "3": (30, "Site"),
    "4": (48, "Nights"),
    "5": (24, "Office"),
    "6": (16, "Office"),
    "7": (0, "Office"),
}
LINKS = (
    ("1", "2", "FS", 0),
    ("2", "3", "SS", 20),
    ("2", "3", "FF", 10),
    ("3", "4", "FS", 0),
    ("4", "5", "FS", 0),
    ("2", "6", "FS", 8),
    ("5", "7", "FS", 0),
    ("6", "7", "FS", 0),
)
WRITERS: dict[str, Callable[[Plan], bytes]] = {
    "plan.xml": mspdi_bytes,
    "plan.xer": xer_bytes,
    "p6.xml": pmxml_bytes,
}


def hour_tasks(hours: dict[str, int]) -> tuple[HourTask, ...]:
    """Returns the tasks for the walk hour by hour."""
    return tuple(HourTask(uid, hours[uid], HOURS[name]) for uid, (_, name) in WORK.items())


def hour_links() -> tuple[HourLink, ...]:
    """Returns the links, whose lags run by the calendar of the task after them."""
    return tuple(
        HourLink(before, after, kind, lag, HOURS[WORK[after][1]])
        for before, after, kind, lag in LINKS
    )


def site_plan(**crash: Crash) -> Plan:
    """Returns the plan with the dates that a walk hour by hour finds."""
    found = dates_by_hours(
        hour_tasks({uid: work[0] for uid, work in WORK.items()}), hour_links(), BEGIN
    )
    tasks = []
    for uid, (hours, name) in WORK.items():
        start, finish = (moment_of(hour).date() for hour in found[uid])
        task = Task(uid, f"row {uid}", f"Task {uid}", hours * 60, cost=Decimal(1000 * int(uid)))
        task = replace(task, listed_start=start, listed_finish=finish)
        own = None if name == "Office" else name
        tasks.append(replace(task, calendar=own, crash=crash.get(f"t{uid}")))
    calendars = {name: calendar_of(name, hours) for name, hours in HOURS.items()}
    links = tuple(
        Link(before, after, LinkKind(kind), Lag(lag * 60)) for before, after, kind, lag in LINKS
    )
    return Plan(
        "Quay",
        START,
        calendars.pop("Office"),
        tuple(tasks),
        links,
        calendars=tuple(calendars.values()),
        lag_calendar=LagCalendar.SUCCESSOR,
    )


def imported(
    capsysbinary: pytest.CaptureFixture[bytes], folder: Path, name: str, plan: Plan
) -> tuple[Path, str]:
    """Returns the deck of a plan in a planner's file, and what the import said."""
    source, deck = folder / name, folder / f"{name}.csv"
    source.write_bytes(WRITERS[name](plan))
    command = (importing.parser, importing.run)
    done = run_words(capsysbinary, "pert-import", command, [source, "-o", deck, "--unit", "60"])
    assert done.status == 0, done.errors
    return deck, done.errors


def tasks_at(
    capsysbinary: pytest.CaptureFixture[bytes], deck: Path, *words: str
) -> tuple[dict[str, Any], list[dict[str, Any]]]:
    """Returns the schedule of a deck as JSON, and its tasks."""
    command = (schedule.parser, schedule.run)
    done = run_words(
        capsysbinary, "pert-schedule", command, [deck, "--json", "--order", "plan", *words]
    )
    assert done.status == 0, done.errors
    result = json.loads(done.output)["result"]
    return result, result["tasks"]


def test_dates_of_planners_with_several_calendars(
    tmp_path: Path, capsysbinary: pytest.CaptureFixture[bytes]
) -> None:
    """Three formats give the same deck, which has the dates of a walk hour by hour."""
    decks = set()
    for name in WRITERS:
        deck, said = imported(capsysbinary, tmp_path, name, site_plan())
        assert "all 7 tasks have your planner's dates" in said
        assert "3 tasks have another calendar (Site: " in said and "not carried over" not in said
        decks.add(deck.read_text().replace("TASK,A", "TASK,T").replace(",A", ",T"))
    assert len(decks) == 1
    hours = {uid: work[0] for uid, work in WORK.items()}
    walked = dates_by_hours(hour_tasks(hours), hour_links(), BEGIN)
    result, tasks = tasks_at(capsysbinary, deck)
    for task, entry in zip(hour_tasks(hours), tasks, strict=True):
        start, finish = (moment_of(hour).isoformat() for hour in walked[task.name])
        assert (entry["start"], entry["finish"]) == (start, finish), task.name
        slack = float_by_hours(task, hour_tasks(hours), hour_links(), BEGIN)
        days = len(task.calendar.hours)
        assert entry["total_float_minutes"] * days // 480 == slack, task.name
    assert result["end"] == moment_of(walked["7"][1]).date().isoformat()
    assert "Nights: " in result["calendars"]


def test_dates_of_a_chosen_length_are_those_of_the_calendars(
    tmp_path: Path, capsysbinary: pytest.CaptureFixture[bytes]
) -> None:
    """At each length a walk with the durations that are shown finds the dates that are shown.

    Digging 100 hours of the site takes 48 hours of the office, down to 60 hours, which are 31: four
    days of the site at 425 each are 17 hours of the office at 100 each.
    """
    crash = {"t2": Crash(60 * 60, slope=Decimal(425)), "t5": Crash(16 * 60, cost=Decimal(5800))}
    deck, _ = imported(capsysbinary, tmp_path, "plan.xer", site_plan(**crash))
    assert "TASK,A2,Quay.own,48,48,48,48,31,2000,100,Task 2\n" in deck.read_text()
    costs = []
    for units in (144, 141, 133, 126, 119):
        result, tasks = tasks_at(capsysbinary, deck, "--length", str(Decimal(units) / 8))
        costs.append(result["cost"])
        hours = {}
        for entry in tasks:
            days = len(HOURS[WORK[entry["uid"]][1]].hours)
            hours[entry["uid"]] = round(entry["chosen_minutes"] * days / 480)
        walked = dates_by_hours(hour_tasks(hours), hour_links(), BEGIN)
        for entry in tasks:
            start, finish = (moment_of(hour).isoformat() for hour in walked[entry["uid"]])
            assert (entry["start"], entry["finish"]) == (start, finish), (units, entry["uid"])
        last = max(finish for _, finish in walked.values())
        assert result["end"] == moment_of(last).date().isoformat()
    assert costs == sorted(costs) and costs[0] == 28000 and costs[-1] > costs[0]
