"""Puts a schedule into the rows of a file of Primavera P6, whether it is XER or XML.

Durations, units and costs are set as P6 keeps them: those of an activity that has not begun change
together; of one under way only what is left does, and at completion it has its actual and its
remaining duration. What shortening costs is an expense of the activity.
"""

from collections.abc import Callable, Iterable, Iterator, Mapping, Sequence
from dataclasses import dataclass, field
from datetime import datetime
from fractions import Fraction
from typing import Protocol

from pert_companion.analysis.schedule import Schedule, ScheduledTask
from pert_companion.model import moments
from pert_companion.model.crash_fields import COST_NAMES, CRASH_NAMES, SLOPE_NAMES
from pert_companion.model.sidefile import SideFile
from pert_companion.model.xmltree import decimal
from pert_companion.writers.p6_fields import EXPENSE_NAME, Names
from pert_companion.writers.price_fields import (
    cost_at_shortest,
    duration_like,
    keeps_cost_at_shortest,
    number_text,
    shortest_of_begun,
)

_HOUR = 60
_CENT = Fraction(1, 100)


class Row(Protocol):
    """A row of a table, or an element of the XML."""

    def text(self, name: str) -> str:
        """Returns the text of a field; an empty one if there is none."""

    def set(self, name: str, text: str) -> None:
        """Sets the text of a field that has one."""


@dataclass(frozen=True)
class Original:
    """The rows of a file that a schedule changes, by the id of their activity."""

    names: Names
    activities: Mapping[str, Row]
    projects: Mapping[str, Row]
    add_expense: Callable[[str], Row]
    """Adds the expense of what shortening an activity costs."""
    assignments: Mapping[str, Sequence[Row]] = field(default_factory=dict)
    expenses: Mapping[str, Sequence[Row]] = field(default_factory=dict)
    user_values: Mapping[str, Mapping[str, Row]] = field(default_factory=dict)
    """By the names of user-defined fields, in small letters."""
    resource_types: Mapping[str, str] = field(default_factory=dict)
    """By the ids of resources."""

    def type_of(self, assignment: Row) -> str:
        """Returns the type of the resource of an assignment."""
        known = assignment.text(self.names.resource_type)
        return known or self.resource_types.get(assignment.text(self.names.resource), "")


def put_schedule(original: Original, name: str, schedule: Schedule, side: SideFile) -> list[str]:
    """Changes the rows of a file; returns a line for each task that it lacks.

    Activities are found by their ids. Finished ones stay as they are, and begun ones keep their
    actual and planned dates.
    """
    change = _Change(original, schedule, side)
    missing = []
    projects: dict[str, datetime] = {}
    for task in schedule.tasks:
        row = original.activities.get(task.uid)
        if row is None:
            missing.append(f"{name}: no activity with id {task.uid} ({task.name})")
            continue
        change.put(row, task)
        project = row.text(original.names.project)
        projects[project] = max(task.finish, projects.get(project, task.finish))
    for key, finish in projects.items():
        if key in original.projects:
            change.put_moments(original.projects[key], original.names.project_finish, finish)
    return missing


@dataclass(frozen=True)
class _Saved:
    """What assignments cost less than before: as planned, and of what is left."""

    planned: Fraction = Fraction(0)
    left: Fraction = Fraction(0)


class _Change:
    """Puts the tasks of one schedule into their rows."""

    def __init__(self, original: Original, schedule: Schedule, side: SideFile) -> None:
        self.original = original
        self.names = original.names
        self.side = side
        self.own = {task.uid: side.calendar_of(task) for task in side.tasks}
        self.expenses = {uid: list(rows) for uid, rows in original.expenses.items()}
        self.is_shortened = any(task.shortened_minutes for task in schedule.tasks)

    def put(self, row: Row, task: ScheduledTask) -> None:
        """Puts an unfinished task of the schedule into its row."""
        if row.text(self.names.status) == self.names.finished:
            return
        if task.shortened_minutes:
            self.shorten(row, task)
        before = [row.text(of_activity) for _, of_activity in self.names.assignment_dates]
        self.put_dates(row, task)
        assigned = self.original.assignments.get(task.uid, ())
        for (name, of_activity), old in zip(self.names.assignment_dates, before):
            for each in assigned:
                if old and each.text(name) == old:
                    each.set(name, row.text(of_activity))

    def put_dates(self, row: Row, task: ScheduledTask) -> None:
        """Sets the dates of an unfinished activity; late ones if anything was shortened."""
        names = self.names
        left_start = task.left_start or task.start
        if not self.has_begun(row):
            self.put_moments(row, names.start, task.start, task)
            self.put_moments(row, names.planned_finish, task.finish, task)
        self.put_moments(row, names.left_start, left_start, task)
        self.put_moments(row, names.finish, task.finish, task)
        if not self.is_shortened:
            return
        calendar, slack = self.own[task.uid], self.own_minutes(task, task.total_float_minutes)
        late_start = calendar.add(left_start, slack)
        late_finish = calendar.end_of(task.finish, slack)
        self.put_moments(row, names.late_start, late_start, task)
        self.put_moments(row, names.late_finish, late_finish, task)
        hours = task.total_float_minutes * self.share_of(row, task) / _HOUR
        self.put_numbers(row, names.total_float, hours)

    def has_begun(self, row: Row) -> bool:
        """Says whether an activity is under way."""
        return row.text(self.names.status) == self.names.begun

    def put_moments(
        self, row: Row, names: Iterable[str], moment: datetime, task: ScheduledTask | None = None
    ) -> None:
        """Sets moments, unless the file has others with no work between them.

        The moment of a start milestone is a morning.
        """
        calendar = self.side.calendar if task is None else self.own[task.uid]
        position = calendar.position(moment)
        is_start = task is not None and task.is_milestone
        if is_start and row.text(self.names.type) == self.names.start_milestone:
            moment = calendar.at(position)
        for name in names:
            before = moments.moment(row.text(name))
            if before is None or calendar.position(before) != position:
                row.set(name, moment.strftime(self.names.moment))

    def put_numbers(self, row: Row, names: Iterable[str], number: Fraction) -> None:
        """Sets fields to a number, unless they have it."""
        for name in names:
            if _number(row, name) != number:
                row.set(name, number_text(number))

    def add(self, row: Row, names: Iterable[str], change: Fraction) -> None:
        """Adds to the numbers of fields, down to zero."""
        for name in names:
            before = _number(row, name)
            if before is not None and change:
                row.set(name, number_text(max(Fraction(0), before + change)))

    def share_of(self, row: Row, task: ScheduledTask) -> Fraction:
        """Returns the minutes in the file for each minute of the plan.

        An activity with a calendar of its own has the hours of that calendar.
        """
        planned = _number(row, self.names.planned_duration)
        if not planned or not task.normal_minutes:
            return Fraction(1)
        return planned * _HOUR / task.normal_minutes

    def own_minutes(self, task: ScheduledTask, minutes: int) -> int:
        """Returns minutes of the plan's days as those of as many days of the task's calendar."""
        if not task.calendar:
            return minutes
        own, plan = self.own[task.uid], self.side.calendar
        return round(Fraction(minutes * own.day_minutes, plan.day_minutes))

    def shorten(self, row: Row, task: ScheduledTask) -> None:
        """Gives an activity its chosen duration, and what goes with it."""
        names = self.names
        less = Fraction(task.shortened_minutes) * self.share_of(row, task) / _HOUR
        known = _number(row, names.remaining_duration)
        left = known if known is not None else _number(row, names.planned_duration)
        left = left or Fraction(0)
        if self.has_begun(row):
            lasting = task.normal_minutes
        else:
            lasting = max(0, task.normal_minutes - task.shortened_minutes)
            self.add(row, (names.planned_duration,), -less)
        self.add(row, (names.remaining_duration, *names.duration_at_completion), -less)
        self.put_percent(row)
        share = max(Fraction(0), left - less) / left if left else Fraction(1)
        saved = self.put_work(row, task, share)
        extra = Fraction(task.extra_cost, self.side.money_scale)
        self.put_expense(task, _Saved(extra + saved.planned, extra + saved.left))
        self.put_prices(row, task, lasting)

    def put_percent(self, row: Row) -> None:
        """Sets what is done of an activity by its duration, where the file says it."""
        planned = _number(row, self.names.planned_duration)
        left = _number(row, self.names.remaining_duration)
        if not planned or left is None or not self.has_begun(row):
            return
        done = max(Fraction(0), planned - left) / planned
        self.put_numbers(row, self.names.duration_percent, done)
        if row.text(self.names.percent_type) == self.names.percent_by_duration:
            self.put_numbers(row, self.names.percent, done)

    def put_work(self, row: Row, task: ScheduledTask, share: Fraction) -> _Saved:
        """Changes the assignments of an activity of which a share of what was left is left.

        With fixed units more of a resource does the same; else units go down with the duration.
        Returns what they cost less.
        """
        names = self.names
        is_fixed = row.text(names.duration_type) in names.fixed_units
        planned_share = Fraction(1) if self.has_begun(row) else share
        saved = _Saved()
        for each in self.original.assignments.get(task.uid, ()):
            if self.original.type_of(each) == names.material:
                continue
            if is_fixed:
                self.scale(each, names.planned_rate, 1 / planned_share if planned_share else 1)
                self.scale(each, names.remaining_rate, 1 / share if share else 1)
                continue
            before = _number(each, names.planned_units), _number(each, names.remaining_units)
            self.scale(each, (names.planned_units,), planned_share)
            self.scale(each, (names.remaining_units,), share)
            after = _number(each, names.planned_units), _number(each, names.remaining_units)
            self.put_sums(row, each, _less(before[0], after[0]), _less(before[1], after[1]))
            if each.text(names.cost_by_units) != names.not_by_units:
                saved = self.put_costs(each, saved, planned_share, share)
        return saved

    def put_sums(self, row: Row, each: Row, planned: Fraction, left: Fraction) -> None:
        """Takes units from those of the activity, and from those at completion."""
        names = self.names
        self.add(each, names.units_at_completion, -left)
        sums = names.unit_sums.get(self.original.type_of(each), ())
        for number, name in enumerate(sums):
            self.add(row, (name,), -planned if number == 0 else -left)

    def put_costs(
        self, each: Row, saved: _Saved, planned_share: Fraction, share: Fraction
    ) -> _Saved:
        """Changes the costs of an assignment; returns what is saved with what was before."""
        names = self.names
        planned = self.save(each, names.planned_cost, planned_share)
        left = self.save(each, names.remaining_cost, share)
        self.add(each, names.cost_at_completion, -left)
        return _Saved(saved.planned + planned, saved.left + left)

    def save(self, row: Row, name: str, share: Fraction) -> Fraction:
        """Leaves a share of a cost; returns what it is less, in whole hundredths."""
        cost = _number(row, name)
        if not cost:
            return Fraction(0)
        less = round(cost * (1 - share) / _CENT) * _CENT
        self.add(row, (name,), -less)
        return less

    def scale(self, row: Row, names: Iterable[str], factor: Fraction | int) -> None:
        """Multiplies the numbers of fields."""
        for name in names:
            before = _number(row, name)
            if before and factor != 1:
                row.set(name, number_text(before * factor))

    def put_expense(self, task: ScheduledTask, amounts: _Saved) -> None:
        """Adds what shortening costs, and what assignments cost less, to the activity's expense."""
        if not amounts.planned and not amounts.left:
            return
        names = self.names
        expense = self.expense(task.uid)
        if expense is None:
            expense = self.original.add_expense(task.uid)
            self.expenses.setdefault(task.uid, []).append(expense)
        self.add(expense, names.expense_planned, amounts.planned)
        self.add(expense, names.expense_left, amounts.left)

    def expense(self, uid: str) -> Row | None:
        """Returns the expense of an activity for its shortening, or None."""
        for row in self.expenses.get(uid, ()):
            if row.text(self.names.expense_name) == EXPENSE_NAME:
                return row
        return None

    def put_prices(self, row: Row, task: ScheduledTask, lasting: int) -> None:
        """Sets the user-defined fields of an activity that lasts so many minutes now."""
        values = self.original.user_values.get(task.uid, {})
        shortest = _first(values, CRASH_NAMES)
        if shortest is None:
            return
        least = task.shortest_minutes
        if self.has_begun(row):
            least = shortest_of_begun(task, lasting, self.side.unit_minutes)
            minutes, calendar = self.own_minutes(task, least), self.own[task.uid]
            text = duration_like(self.user_text(shortest), minutes, calendar)
            self.put_user(shortest, text)
        cost = _first(values, COST_NAMES)
        if cost is None or _first(values, SLOPE_NAMES) is not None or keeps_cost_at_shortest(task):
            return
        total = sum(self.costs_of(task.uid), Fraction(0))
        amount = cost_at_shortest(task, self.side, total, lasting, least)
        if decimal(self.user_text(cost)) != amount:
            self.put_user(cost, number_text(amount))

    def costs_of(self, uid: str) -> Iterator[Fraction]:
        """Yields the planned costs of an activity."""
        for row in (*self.original.assignments.get(uid, ()), *self.expenses.get(uid, ())):
            yield _number(row, self.names.planned_cost) or Fraction(0)

    def user_text(self, row: Row) -> str:
        """Returns the value of a user-defined field."""
        texts = (row.text(name) for name in self.names.user_values)
        return next((text for text in texts if text), "")

    def put_user(self, row: Row, text: str) -> None:
        """Sets the value of a user-defined field where the field has one."""
        for name in self.names.user_values:
            row.set(name, text)


def _first(values: Mapping[str, Row], names: Iterable[str]) -> Row | None:
    """Returns the first user-defined field that has one of these names."""
    return next((values[name] for name in names if name in values), None)


def _number(row: Row, name: str) -> Fraction | None:
    """Returns the number of a field, or None."""
    found = decimal(row.text(name))
    return None if found is None else Fraction(found)


def _less(before: Fraction | None, after: Fraction | None) -> Fraction:
    """Returns by how much a number went down."""
    return (before or Fraction(0)) - (after or Fraction(0))
