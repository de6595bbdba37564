"""Forecasts by what is left, against what a planner says."""

from dataclasses import replace
from datetime import date
from pathlib import Path

import pytest
from running import CASES, HOUSE, MONTHS, imported, opened, run_words

from pert_companion.analysis.forecast import (
    Forecast,
    ForecastTask,
    finished_end,
    forecast,
)
from pert_companion.cli import schedule as command
from pert_companion.model.errors import InputError
from pert_companion.model.plan import Baseline
from pert_companion.state.remaining import Said, State
from pert_companion.writers import forecast_text


def task_of(found: Forecast, code: str) -> ForecastTask:
    """Returns an unfinished task."""
    return next(task for task in found.tasks if task.code == code)


def test_late(tmp_path: Path) -> None:
    """36 working days from Friday 2 October end on 20 November, ten more on 4 December."""
    plan = imported(tmp_path, "late.csv", "--as-of", "2026-10-01")
    found = forecast(plan)
    fabricate = task_of(found, "Fabricate")
    assert fabricate.state is State.BEGUN
    assert fabricate.first_day == date(2026, 9, 1)
    assert fabricate.start.date() == date(2026, 10, 2)
    assert fabricate.last_day == date(2026, 11, 20)
    assert found.end == date(2026, 12, 4)
    assert found.value_end == date(2026, 11, 9)
    assert "what is left" in found.why_different
    assert found.data_day == date(2026, 10, 1) and found.as_of == date(2026, 10, 2)
    assert found.listed_end is None and found.baseline_end is None


def test_on_time_nothing_is_late(tmp_path: Path) -> None:
    """A plan that is on time ends as planned; Next4 could have begun two days before."""
    plan = imported(tmp_path, "ontime.csv", "--as-of", "2026-09-08")
    before = imported(tmp_path, "ontime.csv", "--no-progress")
    found = forecast(plan, before)
    late = {task.code: task.baseline_late_minutes for task in found.tasks}
    assert late == {"Demolish": 0, "Next": 0, "Next2": 0, "Next4": 2 * 480}
    assert task_of(found, "Demolish").left_minutes == 2 * 480
    assert found.end == found.baseline_end


def test_finished_work_sets_no_slack() -> None:
    """FOUND is done two days early: the critical path goes on from the as-of date."""
    found = forecast(opened(CASES / "early.csv"))
    assert found.end == date(2024, 4, 5)
    assert {task.code for task in found.tasks if task.is_critical} == {
        "WALLS",
        "ROOF",
        "PLASTER",
        "PAINT",
    }
    assert task_of(found, "ORDER").total_float_minutes == 4 * 480
    assert found.value_end == found.end and found.why_different == ""


def test_a_finished_project_has_ended() -> None:
    """The house was done on the morning of 15 April, so its last day of work is the 14th."""
    plan = opened(CASES / "done.csv")
    found = forecast(plan)
    assert found.tasks == ()
    assert found.end == date(2024, 4, 14)
    nothing = replace(plan, deck=replace(plan.deck, statuses=()))
    assert finished_end(nothing) == date(2024, 5, 2)


def test_lists_and_saved_baselines(tmp_path: Path) -> None:
    """Lateness is counted in working time, from the evening of the planned last day."""
    plan = imported(tmp_path, "late.csv", "--as-of", "2026-10-01")
    first, second = plan.side.tasks
    saved = Baseline(0, date(2026, 9, 1), date(2026, 10, 26))
    later = Baseline(2, date(2026, 9, 1), date(2026, 12, 1))
    first = replace(first, listed_finish=date(2026, 11, 18), baselines=(later, saved))
    second = replace(second, listed_finish=date(2026, 12, 7))
    plan = replace(plan, side=replace(plan.side, tasks=(first, second)))
    found = forecast(plan)
    fabricate = task_of(found, "Fabricate")
    assert fabricate.listed_late_minutes == 2 * 480
    assert fabricate.baseline_late_minutes == 19 * 480
    assert task_of(found, "Install").listed_late_minutes == -480
    assert task_of(found, "Install").baseline_late_minutes is None
    assert found.listed_end == date(2026, 12, 7) and found.baseline_end == date(2026, 10, 26)
    text = forecast_text.to_text(found, found.tasks)
    assert "LISTED 2026-12-07, the latest finish of the list\n" in text
    assert "BASELINE 2026-10-26, the end of the baseline\n" in text
    row = next(line for line in text.split("\n") if line.startswith("Fabricate"))
    assert row.split()[:8] == (
        "Fabricate begun 36 2026-09-01 2026-11-20 2026-11-18 2026-10-26 +19".split()
    )


def test_what_is_left_may_be_said() -> None:
    """FOUND needs five days more, not one."""
    plan = opened(HOUSE)
    assert forecast(plan.with_said({"FOUND": Said(5)})).end == date(2024, 4, 15)
    with pytest.raises(InputError):
        forecast(plan.with_said({"NONE": Said(5)}))


def test_april_against_the_baseline() -> None:
    """What stands in docs/cost-engineer.md."""
    plan, baseline = opened(MONTHS / "april.csv"), opened(MONTHS / "plan.csv")
    found = forecast(plan, baseline)
    assert (found.end, found.baseline_end) == (date(2026, 6, 19), date(2026, 6, 10))
    assert task_of(found, "Walls").last_day == date(2026, 5, 8)
    assert task_of(found, "Walls").baseline_late_minutes == 10 * 480
    assert task_of(found, "Make-windows").last_day == date(2026, 5, 18)


def run(capture: pytest.CaptureFixture[bytes], *words: object) -> tuple[int, str, str]:
    """Runs pert-schedule."""
    outcome = run_words(capture, command.NAME, (command.parser, command.run), words)
    return outcome.status, outcome.output, outcome.errors


def test_command(capfdbinary: pytest.CaptureFixture[bytes], tmp_path: Path) -> None:
    """The table, selections of it, and CSV."""
    status, output, errors = run(capfdbinary, HOUSE, "--forecast")
    assert status == 0
    lines = output.split("\n")
    assert lines[0] == "FORECAST H1 2024-03-18"
    assert lines[1] == "END 2024-04-11, by what is left of each task"
    assert lines[2] == "VALUE 2024-04-10, the forecast of pert value"
    assert "LISTED" not in output
    assert "FOUND: 1 left" in errors
    status, output, _ = run(capfdbinary, HOUSE, "--forecast", "--critical", "--csv")
    rows = output.split("\n")[:-1]
    assert rows[0].startswith("Row,Code,Id,Outline,Name,State,Days left,Start,Finish,")
    assert [row.split(",")[1] for row in rows[1:]] == [
        "FOUND",
        "WALLS",
        "ROOF",
        "PLASTER",
        "PAINT",
    ]
    left = tmp_path / "left.csv"
    left.write_text("FOUND,5\n")
    words = ("--forecast", "--left", left, "--baseline", HOUSE, "--order", "plan")
    status, output, _ = run(capfdbinary, HOUSE, *words)
    assert "BASELINE 2024-04-07, the end of the baseline" in output
    assert output.split("\n")[7].split()[:2] == ["CODE", "STATE"]
    assert output.split("\n")[8].split()[0] == "FOUND"


def test_options_that_do_not_go_together(
    capfdbinary: pytest.CaptureFixture[bytes],
) -> None:
    """Each is refused with status 2."""
    for words in (
        ("--forecast", "--gantt"),
        ("--forecast", "--length", "30"),
        ("--left", "x"),
    ):
        status, output, errors = run(capfdbinary, HOUSE, *words)
        assert (status, output) == (2, "")
        assert "--forecast" in errors
