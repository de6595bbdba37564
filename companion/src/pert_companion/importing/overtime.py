"""Proposes shortest durations from overtime: `2h@50%` is two hours more a day for half more.

A proposal is computed from the rates of the resources that work on a task. It is made for tasks
that have no shortest duration, and each one is listed, so that nobody takes it for a fact.
"""

from collections.abc import Mapping
from dataclasses import dataclass, replace
from decimal import ROUND_UP, Decimal
from fractions import Fraction

from pert_companion.importing.crash_sheet import is_finished
from pert_companion.model.errors import UsageError
from pert_companion.model.figures import plain_number
from pert_companion.model.plan import Crash, Plan, Resource, ResourceKind, Task
from pert_companion.readers.grid import clip
from pert_companion.readers.values import Style, Unreadable, duration, number

MOST_NAMED = 3


@dataclass(frozen=True)
class Overtime:
    """Overtime as it is asked for: minutes more a day, and how much more a minute of it costs."""

    minutes: int
    premium: Fraction
    """The share of the rate that comes on top: 1/2 for 50 %."""


def parse_overtime(text: str) -> Overtime:
    """Returns the overtime of an option such as `2h@50%`; raises `UsageError` for other texts."""
    fault = UsageError(f"{clip(text)!r}: write it as 2h@50%")
    hours, mark, premium = text.partition("@")
    if not mark or not premium.strip().endswith("%"):
        raise fault
    try:
        minutes = duration(hours, Style(), "hours").minutes
        percent = Fraction(number(premium.strip()[:-1], Style()))
    except Unreadable as reason:
        raise fault from reason
    if minutes.denominator != 1 or not 0 < minutes <= 16 * 60 or not 0 <= percent <= 1000:
        raise fault
    return Overtime(int(minutes), percent / 100)


def propose_overtime(plan: Plan, overtime: Overtime) -> tuple[Plan, list[str]]:
    """Returns the plan with proposed shortest durations and slopes, and a line for each of them.

    With `e` minutes more than the `d` minutes of a day, work of `n` days takes `n * d / (d + e)`
    days, rounded up to whole days if the task has whole days, and else to whole hours. Each day
    less moves a day's work to overtime, which costs its rate times the premium more. The lines end
    with what has no proposal, and why.
    """
    resources = {resource.uid: resource for resource in plan.resources}
    work = _work(plan, resources)
    lines: list[str] = []
    skipped: dict[str, list[str]] = {}
    outline = []
    for entry in plan.outline:
        if isinstance(entry, Task):
            crash, why = _proposal(entry, work.get(entry.uid, {}), resources, plan, overtime)
            if crash is not None:
                lines.append(_line(entry, crash, work[entry.uid], resources, plan, overtime))
                entry = replace(entry, crash=crash)
            elif why:
                skipped.setdefault(why, []).append(entry.name)
        outline.append(entry)
    for why, names in skipped.items():
        lines.append(_skipped_line(why, names))
    return replace(plan, outline=tuple(outline)), lines


def _work(plan: Plan, resources: Mapping[str, Resource]) -> dict[str, dict[str, Decimal]]:
    """Returns the minutes that each resource works on each task."""
    work: dict[str, dict[str, Decimal]] = {}
    for assignment in plan.assignments:
        if resources[assignment.resource].kind is ResourceKind.WORK and assignment.quantity > 0:
            of_task = work.setdefault(assignment.task, {})
            minutes = of_task.get(assignment.resource, Decimal(0)) + assignment.quantity
            of_task[assignment.resource] = minutes
    return work


def _proposal(
    task: Task,
    work: Mapping[str, Decimal],
    resources: Mapping[str, Resource],
    plan: Plan,
    overtime: Overtime,
) -> tuple[Crash | None, str]:
    """Returns the proposal for a task, or why there is none; no reason if none is due."""
    if task.crash is not None or task.minutes == 0 or is_finished(task):
        return None, ""
    if not work:
        return None, "no resource works on it"
    if any(resources[uid].rate is None for uid in work):
        return None, "a resource has no rate"
    shortest = _shortest(task.minutes, plan.calendar.day_minutes, overtime.minutes)
    if shortest >= task.minutes:
        return None, "it is too short to gain by overtime"
    day_cost = Fraction(0)
    for uid, minutes in work.items():
        rate = resources[uid].rate or Decimal(0)
        day_cost += Fraction(minutes) * Fraction(rate) / 60
    days = Fraction(task.minutes, plan.calendar.day_minutes)
    slope = day_cost / days * overtime.premium
    amount = Decimal(slope.numerator) / Decimal(slope.denominator)
    return Crash(shortest, slope=amount.quantize(Decimal("0.01"), ROUND_UP)), ""


def _shortest(minutes: int, day_minutes: int, more: int) -> int:
    """Returns the duration with overtime, rounded up to whole days, or else to whole hours."""
    unit = 1
    for longer in (day_minutes, 60):
        if minutes % longer == 0:
            unit = longer
            break
    exact = Fraction(minutes * day_minutes, day_minutes + more)
    return -(-exact // unit) * unit


def _line(
    task: Task,
    crash: Crash,
    work: Mapping[str, Decimal],
    resources: Mapping[str, Resource],
    plan: Plan,
    overtime: Overtime,
) -> str:
    day_minutes = plan.calendar.day_minutes
    rates = []
    for uid in list(work)[:MOST_NAMED]:
        rate = resources[uid].rate or Decimal(0)
        rates.append(f"{clip(resources[uid].name, 40)} {plain_number(rate)}/h")
    more = " .." if len(work) > MOST_NAMED else ""
    hours = plain_number(Decimal(overtime.minutes) / 60)
    premium = plain_number(Decimal(str(float(overtime.premium * 100))))
    return (
        f"proposed: {task.where}, task {clip(task.name)!r}: shortest duration "
        f"{_days(crash.minutes, day_minutes)} days of {_days(task.minutes, day_minutes)}, "
        f"{plain_number(crash.slope or Decimal(0))} for each day less "
        f"({hours} h of overtime a day at +{premium} %: "
        f"{', '.join(rates)}{more})"
    )


def _days(minutes: int, day_minutes: int) -> str:
    return plain_number((Decimal(minutes) / day_minutes).quantize(Decimal("0.01")))


def _skipped_line(why: str, names: list[str]) -> str:
    named = ", ".join(repr(clip(name, 40)) for name in names[:MOST_NAMED])
    more = " .." if len(names) > MOST_NAMED else ""
    count = f"{len(names)} task" + ("s" if len(names) != 1 else "")
    return f"no proposal for {count}, since {why}: {named}{more}"
