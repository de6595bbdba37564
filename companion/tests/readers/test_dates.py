"""Days at the edges of a plan: milestones on its first morning, early status dates, contracts."""

from dataclasses import replace
from datetime import date
from pathlib import Path

import pytest

from pert_companion import readers
from pert_companion.carry import Carried, carry
from pert_companion.model.cards import StatusCard
from pert_companion.model.plan import Constraint, ConstraintKind, Plan
from pert_companion.model.source import Source
from pert_companion.readers.base import ReaderOptions
from planner_files import pmxml_bytes, xer_bytes
from sample_plan import sample_plan

CASES = Path(__file__).resolve().parents[1] / "cases" / "dates"
FIRST = date(2027, 2, 1)


def plan_of(name: str) -> Plan:
    """Returns the plan of a case, of which nothing is lost."""
    path = CASES / name
    reading = readers.read(Source(path, path.read_bytes()), ReaderOptions())
    assert reading.losses == ()
    return reading.plan


def carried_of(name: str) -> Carried:
    """Returns the deck of a case, for which nothing is lost."""
    carried = carry(plan_of(name))
    assert carried.losses == ()
    return carried


def test_a_milestone_of_the_first_morning_is_reached_on_that_day() -> None:
    """At 08:00 the working day before is over, but a milestone has the day of its moment."""
    plan = plan_of("done-milestone.xml")
    start = next(plan.tasks())
    assert start.progress.actual_start == start.progress.actual_finish == FIRST
    assert (start.listed_start, start.listed_finish) == (FIRST, FIRST)
    cards = carried_of("done-milestone.xml").deck.statuses
    assert cards == (
        StatusCard("T1", "S", FIRST),
        StatusCard("T1", "F", FIRST),
        StatusCard("T1.w20", "S", FIRST),
        StatusCard("T2", "S", FIRST),
    )


@pytest.mark.parametrize(("text", "days"), (("08:00", 0), ("17:00", 0), ("00:00", 0)))
def test_milestones_of_primavera_too(text: str, days: int) -> None:
    """The reader of P6 takes the day of the moment in the same way."""
    record = {
        "act_start_date": f"2027-02-01 {text}",
        "act_end_date": f"2027-02-01 {text}",
    }
    lines = [
        "ERMHDR\t21.12",
        "%T\tPROJECT",
        "%F\tproj_id\tplan_start_date\tlast_recalc_date",
        "%R\t1\t2027-02-01 08:00\t2027-02-15 08:00",
        "%T\tTASK",
        "%F\ttask_id\tproj_id\ttask_code\ttask_type\tstatus_code\t" + "\t".join(record),
        "%R\t1\t1\tA1\tTT_Mile\tTK_Complete\t" + "\t".join(record.values()),
        "%E",
    ]
    source = Source(Path("p.xer"), "\n".join(lines).encode())
    task = next(readers.read(source, ReaderOptions()).plan.tasks())
    assert task.progress.actual_finish == date(2027, 2, 1 + days)
    assert task.progress.actual_start == date(2027, 2, 1 + days)


def test_a_status_date_before_the_start_is_a_plan_that_has_not_begun() -> None:
    """It is as of its first day, and one note says so."""
    carried = carried_of("status-before-start.xml")
    assert carried.deck.as_of is None and carried.deck.as_of_day == FIRST
    assert carried.deck.statuses == () and carried.side.data_date is None
    assert [note for note in carried.notes if "2027-01-15" in note] == list(carried.notes)


def test_must_finish_by_is_the_date_of_the_contract() -> None:
    """P6's Must Finish By is read from both of its formats, as the last day of work."""
    plan = plan_of("must-finish.xer")
    assert plan.must_finish == date(2027, 9, 15)
    calendar = plan.calendar
    span = calendar.between(calendar.morning(plan.start), calendar.evening(plan.must_finish))
    assert carry(plan).deck.project.directed == span // calendar.day_minutes > 100
    before = replace(plan, must_finish=date(2027, 1, 15))
    assert carry(before).deck.project.directed == 0
    assert carry(replace(plan, must_finish=None)).deck.project.directed is None
    sample = replace(sample_plan(), must_finish=date(2026, 9, 30))
    for data in (xer_bytes(sample, codes=True), pmxml_bytes(sample, codes=True)):
        found = readers.read(Source(Path("plan"), data), ReaderOptions()).plan
        assert found.must_finish == date(2026, 9, 30)


def test_constraints_and_links_of_groups_stay_right() -> None:
    """FNET, MFO, SF and links of groups are what they were."""
    plan = plan_of("constraints-and-group-links.xml")
    constraints = {task.name: task.constraint for task in plan.tasks() if task.constraint}
    assert constraints["H MFO 4 Mar"] == Constraint(ConstraintKind.MUST_FINISH, date(2027, 3, 4))
    assert constraints["I ALAP"] == Constraint(ConstraintKind.AS_LATE_AS_POSSIBLE, None)
    assert any(task.uid not in constraints for task in plan.tasks())
