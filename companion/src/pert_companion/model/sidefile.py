"""The side file of a deck: what a deck cannot say, in JSON next to it (`wing.csv`, `wing.json`).

A side file belongs to the tasks, links and calendar of one deck (`model.fitting`). It is checked
strictly when it is read: each value has its type and bounds, and no key is unknown.
"""

import json
from collections.abc import Mapping
from dataclasses import dataclass, replace
from datetime import date, datetime, timedelta
from decimal import Decimal
from pathlib import Path
from typing import Any

from pert_companion.model import strict
from pert_companion.model.calendar import Calendar
from pert_companion.model.capacities import Capacity, capacity_json, read_capacities
from pert_companion.model.errors import InputError
from pert_companion.model.lines import readable
from pert_companion.model.logic import Logic, OwnTime
from pert_companion.model.logic_json import calendar_json, logic_json, read_calendar, read_logic
from pert_companion.model.losses import Loss, LossKind
from pert_companion.model.plan import Baseline, Constraint, ConstraintKind
from pert_companion.model.terms import NO_TERMS, Terms

SIDE_FILE_VERSION = 2
"""The version that is written. A side file of version 1 has the checksum of its deck instead of
digests of its cards."""

MAX_BYTES = 64 * 1024 * 1024
"""A longer side file is not read."""
MAX_MINUTES = 10**12
"""The longest time that a side file can state, in minutes: two million years."""


@dataclass(frozen=True)
class SideOwn:
    """The calendar of a task that is not the plan's."""

    calendar: str
    """Its name among the calendars of the logic."""
    start: datetime
    """The moment from which the units of the deck count its work."""
    shortest: int | None = None
    """Its shortest duration in minutes of work; None if it is not shortened."""
    shortening: Decimal | None = None
    """What shortening it to that costs, in the currency."""


@dataclass(frozen=True)
class SideTask:
    """One real task: where it is in the source, and the cards that stand for it in the deck."""

    code: str
    """The code of its first card; unique."""
    uid: str
    row: int | None
    name: str
    outline: tuple[str, ...]
    """The names of the groups above it, from the top."""
    parts: tuple[str, ...]
    """The TASK codes that together are its work, in order: one, or more if links split it."""
    start_moment: str | None = None
    """The code of the milestone at its start, if links needed one."""
    finish_moment: str | None = None
    """The code of the milestone at its end, if links needed one."""
    normal: int = 0
    """The normal duration in units of the deck."""
    minutes: int = 0
    """The normal duration in working minutes of its own calendar, as the source has it."""
    percent: Decimal | None = None
    remaining: int | None = None
    """The remaining duration in working minutes."""
    actual_start: date | None = None
    actual_finish: date | None = None
    """The last day of work."""
    listed_start: date | None = None
    listed_finish: date | None = None
    constraint: Constraint | None = None
    deadline: date | None = None
    baselines: tuple[Baseline, ...] = ()
    own: SideOwn | None = None

    def cards(self) -> list[str]:
        """Returns the codes of its cards: its parts, and the milestones at its ends."""
        milestones = (self.start_moment, self.finish_moment)
        return [*self.parts, *(code for code in milestones if code is not None)]


@dataclass(frozen=True)
class SideGroup:
    """One group of the source, and the WBS item that stands for it."""

    code: str
    uid: str
    name: str
    row: int | None = None


@dataclass(frozen=True)
class SideFile:
    """Everything that the deck of a plan cannot say."""

    deck_sha256: str
    """The checksum of the bytes of the deck, in version 1 alone; else an empty text."""
    deck_name: str
    start: date
    calendar: Calendar
    unit_minutes: int
    """The working minutes of a unit of the deck: `calendar.day_minutes` for days, 60 for hours."""
    tasks: tuple[SideTask, ...]
    groups: tuple[SideGroup, ...] = ()
    waits: tuple[str, ...] = ()
    """The TASK codes that are neither work nor moments: waits of lags and constraints."""
    currency: str = ""
    data_date: date | None = None
    source: str = ""
    """The format of the source."""
    source_name: str = ""
    money_scale: int = 1
    """How many units of money of the deck one of the currency is: 100 if the deck has cents."""
    unit_days: int = 1
    """The days of a unit in the deck, as its PROJECT card has them."""
    cards: Mapping[str, str] | None = None
    """What identifies each card of work, by code, or None in version 1."""
    terms: Terms = NO_TERMS
    """What time costs, as it was said when the plan was imported."""
    accepted: tuple[Loss, ...] = ()
    """What is not carried over from the source, as the user accepted it."""
    logic: Logic | None = None
    """The calendars and links of the source, if a deck says them only in part."""
    capacities: tuple[Capacity, ...] = ()
    """How much there is of the resources that are limited."""

    def calendar_of(self, task: SideTask) -> Calendar:
        """Returns the calendar by which a task is done."""
        if task.own is None or self.logic is None:
            return self.calendar
        return self.logic.by_name[task.own.calendar]

    def own_time(self, task: SideTask) -> OwnTime | None:
        """Returns the time of a task with a calendar of its own; None for others."""
        if task.own is None:
            return None
        return OwnTime(self.calendar, self.calendar_of(task), task.own.start)


def side_path(deck: Path) -> Path:
    """Returns the path of the side file of a deck: `wing.json` for `wing.csv`."""
    return deck.with_suffix(".json") if deck.name else deck


def as_of(side: SideFile, day: date) -> SideFile:
    """Returns a side file with the progress that was known on the morning of another day.

    Percentages and remaining durations are those of the side file's own data date: an earlier day
    has them of finished tasks alone.
    """
    data_date = day - timedelta(days=1)
    tasks = side.tasks
    if side.data_date is not None and data_date < side.data_date:
        tasks = tuple(_task_as_of(task, day) for task in tasks)
    return replace(side, data_date=data_date, tasks=tasks)


def _task_as_of(task: SideTask, day: date) -> SideTask:
    """Returns a task with the progress that was known on the morning of an earlier day."""
    if task.actual_finish is not None and task.actual_finish < day:
        return task
    is_begun = task.actual_start is not None and task.actual_start <= day
    start = task.actual_start if is_begun else None
    return replace(task, percent=None, remaining=None, actual_start=start, actual_finish=None)


class LaterVersionError(InputError):
    """A side file that a later version of this package wrote."""


def to_json(side: SideFile) -> bytes:
    """Returns a side file as JSON: UTF-8, one entry a line, ending with a line feed."""
    content: dict[str, Any] = {
        "version": SIDE_FILE_VERSION,
        "deck": readable(side.deck_name),
        "start": side.start.isoformat(),
        "data_date": _day_text(side.data_date),
        "unit_minutes": side.unit_minutes,
        "unit_days": side.unit_days,
        "currency": side.currency,
        "money_scale": side.money_scale,
        "source": side.source,
        "source_name": readable(side.source_name),
        "calendar": calendar_json(side.calendar),
        "groups": [_group_json(group) for group in side.groups],
        "tasks": [_task_json(task) for task in side.tasks],
        "waits": list(side.waits),
        "cards": dict(side.cards or {}),
    }
    if side.terms != NO_TERMS:
        content["terms"] = _terms_json(side.terms)
    if side.logic is not None:
        content.update(logic_json(side.logic))
    if side.accepted:
        content["accepted"] = [_loss_json(loss) for loss in side.accepted]
    if side.capacities:
        content["capacities"] = [capacity_json(each) for each in side.capacities]
    lines = []
    for key, value in content.items():
        lines.append(f"{json.dumps(key)}: {_value_text(value)}")
    return ("{\n" + ",\n".join(lines) + "\n}\n").encode()


def _value_text(value: Any) -> str:
    """Returns a value as JSON, the entries of a list each on a line of its own."""
    if not isinstance(value, list) or not value:
        return json.dumps(value, ensure_ascii=False)
    entries = [json.dumps(entry, ensure_ascii=False) for entry in value]
    return "[\n" + ",\n".join(entries) + "\n]"


def _day_text(day: date | None) -> str | None:
    return None if day is None else day.isoformat()


def _decimal_text(value: Decimal | None) -> str | None:
    return None if value is None else f"{value:f}"


def _terms_json(terms: Terms) -> dict[str, Any]:
    return {
        "overhead": _decimal_text(terms.overhead),
        "bonus": _decimal_text(terms.bonus),
        "penalty": _decimal_text(terms.penalty),
        "contract": _day_text(terms.contract),
    }


def _loss_json(loss: Loss) -> dict[str, Any]:
    return {
        "kind": loss.kind.value,
        "where": loss.where,
        "name": loss.name,
        "field": loss.field,
        "text": loss.text,
        "why": loss.why,
    }


def _group_json(group: SideGroup) -> dict[str, Any]:
    return {"code": group.code, "uid": group.uid, "name": group.name, "row": group.row}


def _task_json(task: SideTask) -> dict[str, Any]:
    content: dict[str, Any] = {
        "code": task.code,
        "uid": task.uid,
        "row": task.row,
        "name": task.name,
        "outline": task.outline,
        "parts": task.parts,
        "start_moment": task.start_moment,
        "finish_moment": task.finish_moment,
        "normal": task.normal,
        "minutes": task.minutes,
        "percent": _decimal_text(task.percent),
        "remaining": task.remaining,
        "actual_start": _day_text(task.actual_start),
        "actual_finish": _day_text(task.actual_finish),
        "listed_start": _day_text(task.listed_start),
        "listed_finish": _day_text(task.listed_finish),
        "deadline": _day_text(task.deadline),
    }
    if task.constraint is not None:
        content["constraint"] = {
            "kind": task.constraint.kind.value,
            "day": _day_text(task.constraint.day),
        }
    if task.own is not None:
        start = task.own.start.isoformat(timespec="minutes")
        content["own"] = {"calendar": task.own.calendar, "start": start}
        if task.own.shortest is not None:
            content["own"]["shortest"] = task.own.shortest
            content["own"]["shortening"] = _decimal_text(task.own.shortening)
    if task.baselines:
        content["baselines"] = [_baseline_json(baseline) for baseline in task.baselines]
    return content


def _baseline_json(baseline: Baseline) -> dict[str, Any]:
    return {
        "number": baseline.number,
        "start": _day_text(baseline.start),
        "finish": _day_text(baseline.finish),
        "minutes": baseline.minutes,
        "cost": _decimal_text(baseline.cost),
    }


def from_json(data: bytes, name: str) -> SideFile:
    """Returns the side file that JSON holds.

    Raises `InputError` with one line that begins with `name` if it is no side file, and
    `LaterVersionError` if a later version of this package wrote it.
    """
    fields = strict.Fields(strict.parse(data, name), name, "")
    version = fields.integer("version", 1, 10**9)
    if version > SIDE_FILE_VERSION:
        raise LaterVersionError(
            f"{name}: version {version} of side files; this program reads up to version"
            f" {SIDE_FILE_VERSION}"
        )
    side = SideFile(
        deck_sha256=fields.text("sha256") if version == 1 else "",
        deck_name=fields.text("deck"),
        start=fields.day("start"),
        calendar=read_calendar(fields.inner("calendar")),
        unit_minutes=fields.integer("unit_minutes", 1, 7 * 24 * 60),
        tasks=tuple(_task(entry) for entry in fields.entries("tasks")),
        groups=tuple(_group(entry) for entry in fields.entries("groups")),
        waits=fields.texts("waits"),
        currency=fields.text("currency"),
        data_date=fields.optional_day("data_date"),
        source=fields.text("source"),
        source_name=fields.text("source_name"),
        money_scale=fields.integer("money_scale", 1, 10**6),
        unit_days=1 if version == 1 else fields.integer("unit_days", 1, 10**6),
        cards=None if version == 1 else fields.mapping("cards"),
        terms=_terms(fields),
        accepted=_accepted(fields),
        logic=read_logic(fields),
        capacities=read_capacities(fields),
    )
    fields.end()
    _check_codes(side, name)
    _check_logic(side, name)
    return side


def _terms(fields: strict.Fields) -> Terms:
    if not fields.has("terms"):
        return NO_TERMS
    entry = fields.inner("terms")
    terms = Terms(
        overhead=_price(entry, "overhead"),
        bonus=_price(entry, "bonus"),
        penalty=_price(entry, "penalty"),
        contract=entry.optional_day("contract"),
    )
    entry.end()
    return terms


def _price(fields: strict.Fields, name: str) -> Decimal | None:
    """Returns an amount that is not below zero, or None."""
    amount = fields.optional_decimal(name)
    if amount is not None and amount < 0:
        raise fields.fault(f"{amount} is below zero", name)
    return amount


def _accepted(fields: strict.Fields) -> tuple[Loss, ...]:
    if not fields.has("accepted"):
        return ()
    return tuple(_loss(entry) for entry in fields.entries("accepted"))


def _loss(fields: strict.Fields) -> Loss:
    kind = fields.text("kind")
    if kind not in {known.value for known in LossKind}:
        raise fields.fault(f"unknown kind of loss {kind[:40]!r}")
    loss = Loss(
        kind=LossKind(kind),
        where=fields.text("where"),
        name=fields.text("name"),
        field=fields.text("field"),
        text=fields.text("text"),
        why=fields.text("why"),
    )
    fields.end()
    return loss


def _group(fields: strict.Fields) -> SideGroup:
    group = SideGroup(
        code=fields.text("code"),
        uid=fields.text("uid"),
        name=fields.text("name"),
        row=fields.optional_integer("row", 0, 10**9),
    )
    fields.end()
    return group


def _task(fields: strict.Fields) -> SideTask:
    task = SideTask(
        code=fields.text("code"),
        uid=fields.text("uid"),
        row=fields.optional_integer("row", 0, 10**9),
        name=fields.text("name"),
        outline=fields.texts("outline"),
        parts=fields.texts("parts"),
        start_moment=fields.optional_text("start_moment"),
        finish_moment=fields.optional_text("finish_moment"),
        normal=fields.integer("normal", 0, 10**9),
        minutes=fields.integer("minutes", 0, MAX_MINUTES),
        percent=fields.optional_decimal("percent"),
        remaining=fields.optional_integer("remaining", 0, MAX_MINUTES),
        actual_start=fields.optional_day("actual_start"),
        actual_finish=fields.optional_day("actual_finish"),
        listed_start=fields.optional_day("listed_start"),
        listed_finish=fields.optional_day("listed_finish"),
        constraint=_constraint(fields),
        deadline=fields.optional_day("deadline"),
        baselines=_baselines(fields),
        own=_own(fields),
    )
    fields.end()
    if not task.parts or task.parts[0] != task.code:
        raise fields.fault("the first of its parts is not its code")
    return task


def _own(fields: strict.Fields) -> SideOwn | None:
    if not fields.has("own"):
        return None
    entry = fields.inner("own")
    own = SideOwn(
        entry.text("calendar"),
        entry.moment("start"),
        entry.optional_integer("shortest", 0, MAX_MINUTES),
        entry.optional_decimal("shortening"),
    )
    entry.end()
    return own


def _constraint(fields: strict.Fields) -> Constraint | None:
    if not fields.has("constraint"):
        return None
    entry = fields.inner("constraint")
    kind = entry.text("kind")
    day = entry.optional_day("day")
    entry.end()
    for known in ConstraintKind:
        if known.value == kind:
            return Constraint(known, day)
    raise entry.fault(f"unknown constraint {kind[:40]!r}")


def _baselines(fields: strict.Fields) -> tuple[Baseline, ...]:
    if not fields.has("baselines"):
        return ()
    baselines = []
    for entry in fields.entries("baselines"):
        baselines.append(
            Baseline(
                number=entry.integer("number", 0, 99),
                start=entry.optional_day("start"),
                finish=entry.optional_day("finish"),
                minutes=entry.optional_integer("minutes", 0, MAX_MINUTES),
                cost=entry.optional_decimal("cost"),
            )
        )
        entry.end()
    return tuple(baselines)


def _check_codes(side: SideFile, name: str) -> None:
    """Raises `InputError` if a card has two uses or a group or task has the code of another one."""
    for code, count in _counted(card_codes(side)).items():
        if count > 1:
            raise InputError(f"{name}: the card {code[:40]!r} has more than one use")
    for code, count in _counted([group.code for group in side.groups]).items():
        if count > 1:
            raise InputError(f"{name}: two groups have the code {code[:40]!r}")


def _check_logic(side: SideFile, name: str) -> None:
    """Raises `InputError` if tasks have calendars that are not there, or links name no task."""
    own = {task.own.calendar for task in side.tasks if task.own is not None}
    known = set() if side.logic is None else set(side.logic.by_name)
    for calendar in sorted(own - known):
        raise InputError(f"{name}: there is no calendar {calendar[:40]!r}")
    if side.logic is None:
        return
    codes = set(card_codes(side))
    for tie in side.logic.ties:
        for code in (tie.task, tie.before or tie.task):
            if code not in codes:
                raise InputError(f"{name}: a link names {code[:40]!r}, no task")


def card_codes(side: SideFile) -> list[str]:
    """Returns the codes of all cards that the side file says something of."""
    codes = list(side.waits)
    for task in side.tasks:
        codes.extend(task.cards())
    return codes


def _counted(codes: list[str]) -> dict[str, int]:
    counts: dict[str, int] = {}
    for code in codes:
        counts[code] = counts.get(code, 0) + 1
    return counts
