"""Two months of a plan in each format: import, status, a date, back into the file, import again.

Every date of every task is that of a walk hour by hour over the calendars.
"""

import csv
import io
import json
from collections.abc import Sequence
from dataclasses import replace
from datetime import date, datetime
from decimal import Decimal
from functools import cache
from pathlib import Path
from typing import Any

import pytest
from every_format import FORMATS, without
from openpyxl import load_workbook
from running import run_words
from two_months import DAY, FREE, NOW, START, changed, dated, running, station, walked

from pert_companion.analysis.settling import settled
from pert_companion.cli import exporting, importing, schedule
from pert_companion.model.plan import Plan, Task
from pert_companion.programs.client import Programs
from pert_companion.programs.results import Breakpoint, cost_at
from pert_companion.state.project import open_state

BY = date(2026, 9, 9)
Capture = pytest.CaptureFixture[bytes]
EVERY = pytest.mark.parametrize("name", FORMATS)
LIST_WORDS = ("--name", "Pump station", "--start", START.isoformat(), "--decimal", ".")


@cache
def plan_for(name: str, is_running: bool) -> Plan:
    """Returns the plan as a format can have it, as planned or in its second month."""
    lacks = FORMATS[name].lacks
    plan = without(dated(without(station(), lacks)), lacks)
    return without(running(plan), lacks) if is_running else plan


def told(plan: Plan, name: str, folder: Path) -> list[object]:
    """Returns the words of an import, for what the file does not say."""
    form = FORMATS[name]
    words: list[object] = [*LIST_WORDS] if form.is_list else []
    if plan.data_date is not None and not form.has_status_date:
        words += ["--as-of", NOW.isoformat()]
    if form.is_told_days_and_capacities:
        holidays = folder / "free.txt"
        holidays.write_text("".join(f"{day}\n" for day in sorted(FREE)))
        words += ["--month-first", "--holidays", holidays]
        for each in plan.resources:
            words += ["--capacity", f"{each.name}={each.capacity}"] if each.capacity else []
    return words


def imported(capture: Capture, folder: Path, name: str, data: bytes, plan: Plan) -> Path:
    """Returns the deck of a file, which is imported without a loss and has the file's dates."""
    form = FORMATS[name]
    source, deck = folder / f"plan-{name}{form.ending}", folder / f"deck-{name}.csv"
    source.write_bytes(data)
    words = told(plan, name, folder)
    given = [source, "-o", deck, "--overwrite", "--differences", *words]
    done = run_words(capture, "pert-import", (importing.parser, importing.run), given)
    assert done.status == 0, done.errors
    own = {task.name for task in plan.tasks() if task.calendar is not None}
    for line in done.errors.splitlines():
        if "difference: " in line:
            assert name == "gan" and any(each in line for each in own), line
    return deck


def shown(capture: Capture, deck: Path, *words: str) -> dict[str, Any]:
    """Returns the schedule of a deck."""
    given = [deck, "--json", "--order", "plan", *words]
    done = run_words(capture, "pert-schedule", (schedule.parser, schedule.run), given)
    assert done.status == 0, done.errors
    result: dict[str, Any] = json.loads(done.output)["result"]
    return result


def check_dates(plan: Plan, found: dict[str, Any]) -> None:
    """Checks that all tasks have the dates of a walk with the durations that are shown."""
    is_running = plan.data_date is not None
    field = "left_minutes" if is_running else "chosen_minutes"
    minutes = {task["uid"].removeprefix("T"): task[field] for task in found["tasks"]}
    dates = walked(plan, minutes)
    for task in found["tasks"]:
        start, finish = (datetime.fromisoformat(task[end]) for end in ("start", "finish"))
        wanted = dates[task["uid"].removeprefix("T")]
        assert (start.date(), finish.date()) == (wanted[0].date(), wanted[1].date()), task["uid"]


@EVERY
def test_the_plan(name: str, tmp_path: Path, capsysbinary: Capture) -> None:
    """At normal durations, at a length and by a date the dates are those of the calendars."""
    plan = plan_for(name, False)
    deck = imported(capsysbinary, tmp_path, name, FORMATS[name].write(plan), plan)
    for words in ((), ("--length", "132"), ("--by", BY.isoformat())):
        found = shown(capsysbinary, deck, *words)
        check_dates(plan, found)
    assert date.fromisoformat(found["end"]) <= BY


@EVERY
def test_month_two(name: str, tmp_path: Path, capsysbinary: Capture) -> None:
    """With status, by a date, and back in the file: the same dates, and the same end."""
    form, plan = FORMATS[name], plan_for(name, True)
    data = form.write(plan)
    deck = imported(capsysbinary, tmp_path, name, data, plan)
    check_dates(plan, shown(capsysbinary, deck))
    chosen = shown(capsysbinary, deck, "--by", BY.isoformat())
    check_dates(plan, chosen)
    assert date.fromisoformat(chosen["end"]) <= BY and chosen["rest_of"] is not None
    target = tmp_path / f"back{form.ending}"
    words = ["--into", tmp_path / f"plan-{name}{form.ending}"] if form.has_way_back else []
    given = [deck, "--by", BY.isoformat(), "-o", target, *words]
    done = run_words(capsysbinary, "pert-export", (exporting.parser, exporting.run), given)
    assert done.status == 0, done.errors
    if form.has_way_back:
        back = target.read_bytes()
    else:
        back = form.write(taken_over(plan, exported_rows(target)))
    again = imported(capsysbinary, tmp_path, name, back, plan)
    found = shown(capsysbinary, again)
    for before, after in zip(chosen["tasks"], found["tasks"], strict=True):
        for field in ("uid", "start", "finish", "left_minutes", "cost"):
            assert before[field] == after[field], (before["uid"], field)
    assert (found["end"], found["cost"]) == (chosen["end"], chosen["cost"])


def exported_rows(path: Path) -> dict[str, dict[str, Any]]:
    """Returns the rows of the table that is exported, by the codes of tasks."""
    if path.suffix == ".csv":
        table = csv.DictReader(io.StringIO(path.read_text("utf-8-sig"), newline=""))
        return {row["Code"]: row for row in table}
    heads, *rows = load_workbook(path)["Schedule"].iter_rows(values_only=True)
    return {str(row[heads.index("Code")]): dict(zip(map(str, heads), row)) for row in rows}


def taken_over(plan: Plan, rows: dict[str, dict[str, Any]]) -> Plan:
    """Returns a list into which its planner typed days, days left, dates and costs of a table."""

    def typed(task: Task) -> Task:
        row = rows[f"T{task.uid}"]
        if task.progress.percent == 100:
            return task
        minutes = int(row["Days"]) * DAY
        progress, crash = task.progress, task.crash
        if progress.percent is not None:
            progress = replace(progress, remaining=int(row["Days left"]) * DAY)
        if crash is not None and crash.minutes >= minutes:
            crash = None
        start, finish = (date.fromisoformat(str(row[name])[:10]) for name in ("Start", "Finish"))
        task = replace(task, minutes=minutes, crash=crash, cost=Decimal(str(row["Cost"])))
        return replace(task, progress=progress, listed_start=start, listed_finish=finish)

    return changed(plan, typed)


EXPORT = (exporting.parser, exporting.run)
BACK = pytest.mark.parametrize("name", [name for name, it in FORMATS.items() if it.has_way_back])


def costs_from(curve: Sequence[Breakpoint], length: int) -> list[int]:
    """Returns the least costs of a curve from a length down to its shortest, a unit each."""
    return [cost_at(curve, units)[0] for units in range(length, curve[-1].length - 1, -1)]


@BACK
@pytest.mark.parametrize("is_running", (False, True))
def test_prices_of_further_days_with_two_calendars(
    name: str, is_running: bool, tmp_path: Path, capsysbinary: Capture
) -> None:
    """At three lengths: what comes back has the curve that the schedule counts at its dates.

    Where that is not the curve at normal durations, the schedule says both costs.
    """
    form, plan = FORMATS[name], plan_for(name, is_running)
    deck = imported(capsysbinary, tmp_path, name, form.write(plan), plan)
    original, back = tmp_path / f"plan-{name}{form.ending}", tmp_path / "back"
    back.mkdir()
    state = open_state(deck, Programs())
    longest, shortest = state.rest.longest, state.rest.shortest
    compared = 0
    for length in (longest - 1, (longest + shortest) // 2, shortest + 3):
        found = settled(state.rest, length)
        if not found.is_settled or found.point.length != length:
            assert found.text()
            continue
        target = tmp_path / f"back{form.ending}"
        words = ["--length", str(length), "--into", original, "-o", target, "--overwrite"]
        done = run_words(capsysbinary, "pert-export", EXPORT, [deck, *words])
        assert done.status == 0, done.errors
        counted = cost_at(state.rest.curve, length)[0]
        both = f"it costs {found.point.cost}, and {counted} on the curve"
        assert (both in done.errors) == (counted != found.point.cost)
        again = imported(capsysbinary, back, name, target.read_bytes(), plan)
        costs = costs_from(found.work.curve, length)
        assert costs_from(open_state(again, Programs()).rest.curve, length) == costs
        compared += 1
    assert compared


@pytest.mark.parametrize("name", ("xer", "pmxml"))
def test_must_finish_by_with_two_calendars(
    name: str, tmp_path: Path, capsysbinary: Capture
) -> None:
    """The import and the schedule name the same last day: that of the walk over the calendars."""
    form, plan = FORMATS[name], plan_for(name, False)
    walk = walked(plan, {task.uid: task.minutes for task in plan.tasks()})
    end = max(finish for _, finish in walk.values()).date()
    held = replace(plan, must_finish=date(2026, 8, 28))
    source, deck = tmp_path / f"plan{form.ending}", tmp_path / "deck.csv"
    source.write_bytes(form.write(held))
    done = run_words(
        capsysbinary, "pert-import", (importing.parser, importing.run), [source, "-o", deck]
    )
    note = f"the plan must finish by 2026-08-28: by its links it ends on {end}\n"
    assert done.status == 0 and note in done.errors
    given = [deck, "--critical"]
    table = run_words(capsysbinary, "pert-schedule", (schedule.parser, schedule.run), given)
    assert f"the project ends on {end}, 14 days after 2026-08-28 (must finish by)" in table.output
