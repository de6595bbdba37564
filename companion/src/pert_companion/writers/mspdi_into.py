"""Puts a schedule into the file of MS Project (MSPDI) that its plan came from.

Only what the schedule changes is written: dates of unfinished tasks, and of shortened ones what is
left, percent complete, work, cost and the prices of further shortening. A file in which nothing
changes stays as it is, byte for byte. Fields are set as MS Project keeps them: the duration of work
under way is its actual duration and what is left. Amounts are hundredths of the currency.
"""

from collections.abc import Iterator
from datetime import datetime
from decimal import Decimal
from fractions import Fraction
from xml.etree.ElementTree import Element

from pert_companion.analysis.schedule import Schedule, ScheduledTask
from pert_companion.model import moments
from pert_companion.model.calendar import Calendar
from pert_companion.model.errors import InputError
from pert_companion.model.sidefile import SideFile
from pert_companion.model.xmltree import decimal, local_name, whole
from pert_companion.state.remaining import State
from pert_companion.writers.changed_fields import CHANGED
from pert_companion.writers.mspdi_elements import (
    ELAPSED,
    IN_DAYS,
    SHARES,
    duration_text,
    minutes_of,
    moment_text,
    name_of,
    place_in_task,
)
from pert_companion.writers.mspdi_prices import Prices
from pert_companion.writers.price_fields import number_text
from pert_companion.writers.xml_edits import XmlFile

_FIXED_WORK = "2"
"""The type of a task whose work stays when its duration changes, so that its units change."""
_MAY_CHANGE = CHANGED["mspdi"]
_WORK_RESOURCE = "1"
_PLANNED_WORK = "1"
CENTS = 100


def into_mspdi(
    original: bytes, name: str, schedule: Schedule, side: SideFile
) -> tuple[bytes, list[str]]:
    """Returns the original with a schedule of what is left, and what did not fit.

    Tasks are found by their UID. Finished tasks stay as they are; begun ones keep their start. Each
    task of the schedule that the original lacks is named. Raises `InputError` if the original is no
    file of MS Project.
    """
    xml = XmlFile(original, name)
    root = xml.root
    if root.tag != name_of("Project"):
        raise InputError(f"{name}: not a file of MS Project (MSPDI)")
    change = _Change(xml, side)
    missing = []
    for task in schedule.tasks:
        element = change.tasks.get(task.uid)
        if element is None:
            missing.append(f"{name}: no task with UID {task.uid} ({task.name})")
        elif task.state is not State.FINISHED:
            change.put(element, task)
    change.fix_shares()
    change.put_groups()
    if schedule.tasks:
        change.put_moment(root, "FinishDate", max(task.finish for task in schedule.tasks))
    return xml.changed(), missing


class _Change:
    """Changes the elements of one file."""

    def __init__(self, xml: XmlFile, side: SideFile) -> None:
        self.xml = xml
        self.calendar = side.calendar
        self.own = {task.uid: side.calendar_of(task) for task in side.tasks if task.own is not None}
        self.scale = Fraction(CENTS, side.money_scale)
        root = xml.root
        self.elements = list(root.iterfind(f"{name_of('Tasks')}/{name_of('Task')}"))
        self.tasks = {_text(element, "UID"): element for element in self.elements}
        self.assigned: dict[str, list[Element]] = {}
        for element in root.iterfind(f"{name_of('Assignments')}/{name_of('Assignment')}"):
            self.assigned.setdefault(_text(element, "TaskUID"), []).append(element)
        self.kinds = {
            _text(element, "UID"): _text(element, "Type")
            for element in root.iterfind(f"{name_of('Resources')}/{name_of('Resource')}")
        }
        self.prices = Prices(root, side)
        self.lasted: dict[str, int] = {}
        """The durations of shortened tasks before the change, in minutes."""

    def set(self, element: Element, tag: str, text: str) -> None:
        """Sets the text of a child that the element has, and that a schedule may change."""
        found = element.find(name_of(tag))
        may_change = tag in _MAY_CHANGE[local_name(element)]
        if found is not None and found.text != text and may_change:
            self.xml.set_text(found, text)

    def require(self, element: Element, tag: str, text: str) -> None:
        """Sets the text of a child of a task, which is added in its place if it is not there."""
        if element.find(name_of(tag)) is None:
            self.xml.add_text(element, place_in_task(element, tag), name_of(tag), text)
        else:
            self.set(element, tag, text)

    def put_moment(
        self, element: Element, tag: str, moment: datetime, own: Calendar | None = None
    ) -> None:
        """Sets a moment, unless the file has another one with no work between them.

        `own` is the calendar of a task that has one.
        """
        before, calendar = moments.moment(_text(element, tag)), own or self.calendar
        if before is None or calendar.position(before) != calendar.position(moment):
            self.set(element, tag, moment_text(moment))

    def put(self, element: Element, task: ScheduledTask) -> None:
        """Puts an unfinished task of the schedule into its element."""
        if (decimal(_text(element, "PercentComplete")) or 0) >= 100:
            return
        if task.shortened_minutes:
            self.shorten(element, task)
        elements = [element, *self.assigned.get(task.uid, ())]
        begun, own = moments.moment(_text(element, "ActualStart")), self.own.get(task.uid)
        for each in elements:
            if begun is None:
                for tag in ("Start", "EarlyStart", "ManualStart"):
                    self.put_moment(each, tag, task.start, own)
            for tag in ("Finish", "EarlyFinish", "ManualFinish"):
                self.put_moment(each, tag, task.finish, own)
        if begun is not None and task.left_start is not None:
            self.put_moment(element, "Resume", task.left_start, own)

    def shorten(self, element: Element, task: ScheduledTask) -> None:
        """Gives a task its chosen duration, and what goes with it."""
        before = minutes_of(_text(element, "Duration"))
        if before is None:
            before = task.normal_minutes
        self.lasted[task.uid] = before
        lasting = max(0, before - _saved(task, before))
        if whole(_text(element, "DurationFormat")) in ELAPSED and not task.calendar:
            lasting = task.chosen_minutes
            self.set(element, "DurationFormat", str(IN_DAYS))
        left_before, left = _left(element, before, before - lasting)
        lasting = max(lasting, left)
        for tag in ("Duration", "ManualDuration"):
            self.set(element, tag, duration_text(lasting))
        self.put_left(element, lasting, left)
        share = Fraction(left, left_before) if left_before else Fraction(1)
        saved = self.put_work(element, task.uid, share)
        extra = task.extra_cost * self.scale
        self.add(element, "Cost", extra)
        self.add(element, "FixedCost", extra + saved)
        if element.find(name_of("RemainingCost")) is not None:
            self.add(element, "RemainingCost", extra)
        self.prices.put(self, element, task, lasting)

    def put_left(self, element: Element, lasting: int, left: int) -> None:
        """Sets how many minutes are left of a task, and its percent complete."""
        if not decimal(_text(element, "PercentComplete")):
            self.set(element, "RemainingDuration", duration_text(left))
            return
        self.require(element, "RemainingDuration", duration_text(left))
        done = round(Fraction(100 * (lasting - left), max(1, lasting)))
        self.set(element, "PercentComplete", str(min(99, max(1, done))))

    def add(self, element: Element, tag: str, amount: Fraction) -> None:
        """Adds an amount in hundredths of the currency to one that a task has."""
        before = decimal(_text(element, tag))
        if amount or before:
            total = Fraction(before or 0) + amount
            self.require(element, tag, number_text(total))

    def put_work(self, element: Element, uid: str, share: Fraction) -> Fraction:
        """Changes the assignments of a task of which a share of what was left is left.

        Their units stay and their work changes, unless the work is fixed. Returns what they cost
        less than before, in hundredths.
        """
        is_fixed = _text(element, "Type") == _FIXED_WORK
        saved, work = Fraction(0), 0
        for each in self.assigned.get(uid, ()):
            if self.kinds.get(_text(each, "ResourceUID"), _WORK_RESOURCE) != _WORK_RESOURCE:
                continue
            if is_fixed:
                units = Fraction(decimal(_text(each, "Units")) or 1)
                self.set(each, "Units", number_text(units / share if share else units))
            else:
                change = self.change_work(each, share)
                work += change
                saved += self.change_cost(each, share)
            self.forget_days(each)
        for tag in ("Work", "RegularWork", "RemainingWork"):
            known = minutes_of(_text(element, tag))
            if known is not None and work:
                self.set(element, tag, duration_text(max(0, known + work)))
        return saved

    def change_work(self, element: Element, share: Fraction) -> int:
        """Changes the work that is left of an assignment; returns by how many minutes."""
        work = minutes_of(_text(element, "Work"))
        if work is None:
            return 0
        left = minutes_of(_text(element, "RemainingWork"))
        if left is None:
            left = work - (minutes_of(_text(element, "ActualWork")) or 0)
        change = round(left * share) - left
        for tag in ("Work", "RegularWork", "RemainingWork"):
            known = minutes_of(_text(element, tag))
            if known is not None:
                self.set(element, tag, duration_text(max(0, known + change)))
        return change

    def change_cost(self, element: Element, share: Fraction) -> Fraction:
        """Changes what is left of the cost of an assignment; returns how much less it is."""
        cost = decimal(_text(element, "Cost"))
        if cost is None:
            return Fraction(0)
        known = decimal(_text(element, "RemainingCost"))
        left = Fraction(cost - (decimal(_text(element, "ActualCost")) or 0))
        saved = Fraction(round((Fraction(known) if known is not None else left) * (1 - share)))
        self.set(element, "Cost", number_text(Fraction(cost) - saved))
        if known is not None:
            self.set(element, "RemainingCost", number_text(Fraction(known) - saved))
        return saved

    def forget_days(self, element: Element) -> None:
        """Removes the planned work of each day, which MS Project spreads again."""
        if element.find(name_of("Work")) is None:
            return
        for daily in element.findall(name_of("TimephasedData")):
            if _text(daily, "Type") == _PLANNED_WORK:
                self.xml.remove(element, daily)

    def fix_shares(self) -> None:
        """Gives lags that are a share of a shortened duration the time that they had."""
        for element in self.elements:
            for link in element.iterfind(name_of("PredecessorLink")):
                lasted = self.lasted.get(_text(link, "PredecessorUID"))
                lag = whole(_text(link, "LinkLag"))
                if lasted is None or lag is None or whole(_text(link, "LagFormat")) not in SHARES:
                    continue
                self.set(link, "LinkLag", str(round(Fraction(lag * lasted, 10))))
                self.set(link, "LagFormat", str(IN_DAYS))

    def put_groups(self) -> None:
        """Sets the dates and durations of rows with rows below them to those of these."""
        for element, below in _groups(self.elements):
            starts = list(_moments(below, "Start"))
            finishes = list(_moments(below, "Finish"))
            if not starts or not finishes:
                continue
            start, finish = min(starts), max(finishes)
            for tag in ("Start", "EarlyStart"):
                self.put_moment(element, tag, start)
            for tag in ("Finish", "EarlyFinish"):
                self.put_moment(element, tag, finish)
            if whole(_text(element, "DurationFormat")) not in ELAPSED:
                span = max(0, self.calendar.between(start, finish))
                if minutes_of(_text(element, "Duration")) != span:
                    self.set(element, "Duration", duration_text(span))


def _saved(task: ScheduledTask, before: int) -> int:
    """Returns the minutes by which a task is shorter that lasted so many before.

    Those of a task with a calendar of its own are minutes of that.
    """
    if not task.calendar or not task.normal_minutes:
        return task.shortened_minutes
    return round(Fraction(task.shortened_minutes * before, task.normal_minutes))


def _left(element: Element, before: int, less: int) -> tuple[int, int]:
    """Returns the minutes that are left of a task, as the file has them, and so many less.

    `before` is the duration in the file; without progress, all of it is left.
    """
    percent = decimal(_text(element, "PercentComplete")) or Decimal(0)
    left = before
    if _text(element, "ActualStart") or percent:
        known = minutes_of(_text(element, "RemainingDuration"))
        left = round(before * (100 - Fraction(percent)) / 100) if known is None else known
    return left, max(0, left - less)


def _groups(elements: list[Element]) -> Iterator[tuple[Element, list[Element]]]:
    """Yields rows with the active rows right below them, each after those below it."""
    opened: list[tuple[Element, int, list[Element]]] = []
    for element in elements:
        if _text(element, "IsNull") == "1":
            continue
        found = whole(_text(element, "OutlineLevel"))
        level = 1 if found is None else found
        while opened and opened[-1][1] >= level:
            yield _closed(opened)
        opened.append((element, level, []))
    while opened:
        yield _closed(opened)


def _closed(opened: list[tuple[Element, int, list[Element]]]) -> tuple[Element, list[Element]]:
    """Ends the last open row, which counts for its group, and returns it."""
    element, _, below = opened.pop()
    if opened and _text(element, "Active") != "0":
        opened[-1][2].append(element)
    return element, below


def _moments(elements: list[Element], tag: str) -> Iterator[datetime]:
    for element in elements:
        found = moments.moment(_text(element, tag))
        if found is not None:
            yield found


def _text(element: Element, tag: str) -> str:
    return (element.findtext(name_of(tag)) or "").strip()
