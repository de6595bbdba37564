"""Prints how sure the end of a project is."""

from collections.abc import Iterator
from datetime import date

from pert_companion.analysis.sureness import NOTHING_KNOWN, Sureness, percent_text
from pert_companion.model.lines import one_line
from pert_companion.model.text_form import TextForm

MOST_DRIVERS = 10


def chance_text(
    found: Sureness | None, end: date | None, contract: date | None, on_terminal: bool = False
) -> str:
    """Returns the lines of `pert-schedule --chance`.

    `end` is the last day of the schedule, `contract` the day that the project is held to.
    """
    lines = _lines(found, end, contract, TextForm(on_terminal))
    return "".join(f"{line}\n" for line in lines)


def _lines(
    found: Sureness | None, end: date | None, contract: date | None, form: TextForm
) -> Iterator[str]:
    if found is None:
        yield NOTHING_KNOWN
        return
    runs = form.count(len(found.runs.lengths))
    yield f"SIMULATED, NOT PROVED  {runs} runs by the three estimates"
    yield f"P50        {_day(found.even_end)}"
    yield f"P80        {_day(found.likely_end)}"
    for name, day in (("SCHEDULE", end), ("CONTRACT", contract)):
        if day is not None:
            yield f"{name:<9}  {_day(day)}  {percent_text(found.chance_by(day)):>9}"
    yield "CRITICAL   TASK"
    for driver in found.drivers(MOST_DRIVERS):
        name = f"{driver.code}  {driver.name}" if driver.name != driver.code else driver.code
        yield f"{percent_text(driver.share):>9}  {one_line(name)}"
    if found.scope:
        yield found.scope


def _day(day: date | None) -> str:
    return "after 9999" if day is None else day.isoformat()
