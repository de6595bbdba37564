"""Writes the exports of planners in examples/, all of one plan: python3 make_examples.py FOLDER."""

import sys
from dataclasses import replace
from datetime import date
from decimal import Decimal
from pathlib import Path

sys.path.insert(0, str(Path(__file__).resolve().parent.parent))

from cpm import dates_of  # noqa: E402
from pert_companion.model.calendar import Calendar, CalendarException  # noqa: E402
from pert_companion.model.plan import (
    Crash,
    Group,
    Lag,
    Link,
    LinkKind,
    Plan,
    Task,
)  # noqa: E402
from planner_files import gan_bytes, mspdi_bytes, pmxml_bytes, xer_bytes  # noqa: E402

DAY = 480


def task(number: int, name: str, days: int, parent: str, cost: int, crash: int, slope: int) -> Task:
    """Returns a task; it can be shortened to `crash` days if that is less."""
    shortest = Crash(crash * DAY, slope=Decimal(slope)) if crash < days else None
    return Task(str(number), "", name, days * DAY, parent, crash=shortest, cost=Decimal(cost))


def garden() -> Plan:
    """Returns a garden house in 7 tasks."""
    outline = (
        Group("1", "", "Ground"),
        task(2, "Dig", 4, "1", 800, 3, 150),
        task(3, "Pour the slab", 2, "1", 1200, 2, 0),
        Group("4", "", "House"),
        task(5, "Walls", 8, "4", 4000, 5, 300),
        task(6, "Roof", 5, "4", 2500, 4, 400),
        task(7, "Gutters", 2, "4", 400, 2, 0),
        task(8, "Paint", 3, "4", 700, 2, 100),
        task(9, "Ready", 0, "4", 0, 0, 0),
    )
    links = (
        Link("2", "3"),
        Link("3", "5", lag=Lag(3 * DAY)),
        Link("5", "6"),
        Link("6", "7", LinkKind.START_START, Lag(2 * DAY)),
        Link("6", "8"),
        Link("7", "9"),
        Link("8", "9"),
    )
    free = CalendarException(date(2026, 4, 3), date(2026, 4, 6), "Easter")
    plan = Plan("Garden house", date(2026, 3, 16), Calendar(exceptions=(free,)), outline, links)
    return with_dates(plan)


def with_dates(plan: Plan) -> Plan:
    """Returns a plan with the early dates that its planner would show."""
    dates = dates_of(plan)
    outline: list[Task | Group] = []
    for entry in plan.outline:
        if isinstance(entry, Task):
            first = dates[entry.uid].first_day(plan.calendar)
            last = dates[entry.uid].last_day(plan.calendar)
            entry = replace(entry, listed_start=first, listed_finish=last)
        outline.append(entry)
    return replace(plan, outline=tuple(outline))


def main() -> None:
    """Writes the files into a folder."""
    folder = Path(sys.argv[1])
    plan = garden()
    for name, data in (
        ("garden.xml", mspdi_bytes(plan)),
        ("garden.xer", xer_bytes(plan, codes=True)),
        ("garden-p6.xml", pmxml_bytes(plan, codes=True)),
        ("garden.gan", gan_bytes(plan)),
    ):
        (folder / name).write_bytes(data)


if __name__ == "__main__":
    main()
