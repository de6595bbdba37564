"""One plan of 60 tasks that every planner's format can hold, for tests that compare formats."""

from datetime import date
from decimal import Decimal

from pert_companion.model.calendar import Calendar, free_days
from pert_companion.model.plan import Crash, Group, Lag, Link, LinkKind, Plan, Task

FIRST_DAY = date(2026, 3, 2)
WORDS = ("Dig", "Pour", "Walls", "Roof", "Wires", "Übergabe")
GROUPS = 12
DAY = 480


def sample_plan(with_crash: bool = True, with_lags: bool = True) -> Plan:
    """Returns 12 groups of 5 tasks, with links of all kinds, costs and shortest durations.

    Formats differ in lags and in custom fields, so a test can leave these out.
    """
    outline: list[Task | Group] = []
    links: list[Link] = []
    number = 0
    tasks: list[str] = []
    for group in range(GROUPS):
        number += 1
        parent = str(number)
        outline.append(Group(parent, "", f"Floor {group + 1}"))
        for place in range(5):
            number += 1
            uid = str(number)
            outline.append(_task(uid, parent, number, with_crash))
            links.extend(_links(uid, tasks, number, with_lags))
            tasks.append(uid)
            assert place < 5
    days = [date(2026, 4, 3), date(2026, 4, 6), date(2026, 5, 1)]
    calendar = Calendar(exceptions=free_days(days, "Holiday"))
    return Plan("House by the lake", FIRST_DAY, calendar, tuple(outline), tuple(links))


def _task(uid: str, parent: str, number: int, with_crash: bool) -> Task:
    days = 0 if number % 17 == 0 else 1 + number % 6
    crash = None
    if with_crash and days > 2:
        crash = Crash((days - 1) * DAY, slope=Decimal(50 + number))
    name = f"{WORDS[number % len(WORDS)]} {uid}"
    return Task(uid, "", name, days * DAY, parent, crash=crash, cost=Decimal(100 * number))


def _links(uid: str, before: list[str], number: int, with_lags: bool) -> list[Link]:
    if not before:
        return []
    lag = Lag(DAY) if with_lags and number % 7 == 0 else Lag()
    kind = LinkKind.START_START if number % 11 == 0 else LinkKind.FINISH_START
    found = [Link(before[-1], uid, kind, lag)]
    if len(before) > 6 and number % 3 == 0:
        found.append(Link(before[-6], uid))
    return found
