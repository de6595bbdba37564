"""Writes a schedule in the format of an ending: `.xlsx`, `.csv`, `.ics`, `.xml`."""

from collections.abc import Iterator

from pert_companion.analysis.lengths import LengthChoice
from pert_companion.analysis.loading import loading
from pert_companion.analysis.performance import performance
from pert_companion.analysis.schedule import Schedule
from pert_companion.analysis.scheduling import chosen_work
from pert_companion.model.deck import Deck
from pert_companion.model.lines import not_in_xml
from pert_companion.model.output import CALENDAR_FILE, PLAN_XML, WORKBOOK
from pert_companion.model.predecessors import first_day_waits, real_links
from pert_companion.state.project import ProjectState
from pert_companion.writers.csv_file import SCHEDULE_TABLE, to_csv
from pert_companion.writers.ics import to_ics
from pert_companion.writers.mspdi import to_mspdi
from pert_companion.writers.xlsx import Workbooks, to_xlsx

FORMATS = {
    ".xml": PLAN_XML,
    ".xlsx": WORKBOOK,
    ".csv": SCHEDULE_TABLE,
    ".ics": CALENDAR_FILE,
}
"""The kind of file of each ending."""


def new_file(ending: str, state: ProjectState, schedule: Schedule, choice: LengthChoice) -> bytes:
    """Returns the schedule of a chosen length as a file of an ending."""
    if ending == ".csv":
        return to_csv(schedule)
    if ending == ".ics":
        return to_ics(schedule)
    if ending == ".xml":
        links = real_links(state.deck, state.side)
        waits = first_day_waits(state.deck, state.side)
        return to_mspdi(schedule, state.side.calendar, links, waits, state.side.money_scale)
    return to_xlsx(_workbook(state, schedule, choice))


def _workbook(state: ProjectState, schedule: Schedule, choice: LengthChoice) -> Workbooks:
    """Returns what the workbook shows: curve and load are those of the work of the schedule."""
    plan = state.plan
    counted = plan if schedule.is_past_plan else state.rest
    is_measured = state.has_begun and bool(state.deck.accounts)
    return Workbooks(
        schedule,
        counted.curve,
        plan.counted_network,
        plan.summary,
        plan.value,
        loading(state, chosen_work(counted, choice), schedule),
        state.side.accepted,
        performance(state, state) if is_measured else None,
    )


def about_new_file(ending: str, state: ProjectState, schedule: Schedule) -> Iterator[str]:
    """Yields lines on what is not in a new file, or not as it is in the deck."""
    if ending in (".xlsx", ".xml"):
        yield from _replaced(state.deck, schedule)
    missing_parts = ", ".join(_left_out(state, schedule))
    if ending == ".xml" and missing_parts:
        yield f"not in this file, but in one written with --into: {missing_parts}"


def _left_out(state: ProjectState, schedule: Schedule) -> Iterator[str]:
    """Yields what the state has and a new file of MS Project does not."""
    if state.deck.loads:
        yield "resources"
    if any(task.shortest_minutes < task.left_minutes for task in schedule.tasks):
        yield "shortest durations and their prices"
    if any(task.baselines for task in state.side.tasks):
        yield "baselines"
    if schedule.rest_of is not None:
        yield "actual dates"


def _replaced(deck: Deck, schedule: Schedule) -> Iterator[str]:
    """Yields a line for each title with characters that XML, and so a workbook, cannot hold."""
    titles = {item.code: item.title for item in deck.items}
    titles.update({card.code: card.title for card in deck.resources})
    titles.update({task.code: task.name for task in schedule.tasks})
    for code, title in titles.items():
        characters = ", ".join(not_in_xml(title))
        if characters:
            yield f"{code}: its title has {characters}, which is U+FFFD in the file"
