"""The calendars of the tasks of a list: by words such as `mon-sat`, or by a sheet of calendars."""

from collections import Counter
from collections.abc import Iterable, Mapping, Sequence
from dataclasses import replace

from pert_companion.model.calendar import Calendar, Shift, merged_shifts
from pert_companion.model.errors import UsageError
from pert_companion.model.losses import Loss, LossKind
from pert_companion.readers.columns import fields_by_word, heading_of
from pert_companion.readers.grid import GridRow, NamedWeek, clip
from pert_companion.readers.own_calendars import OwnCalendars
from pert_companion.readers.values import Unreadable, is_nothing, is_yes, text_of
from pert_companion.readers.working_times import Week, shifts_in, week_in, week_of, weekdays_in

_HEADINGS = {
    "name": ("name", "calendar", "kalender", "kalendername"),
    "days": ("weekdays", "days", "working days", "wochentage", "arbeitstage", "tage"),
    "hours": ("hours", "working hours", "working times", "arbeitszeiten", "arbeitszeit")
    + ("stunden", "zeiten"),
    "free": ("free days", "holidays", "feiertage", "freie tage"),
}
_FIELD_OF = fields_by_word(_HEADINGS)
_OF_THE_PLAN = frozenset(("none", "project", "kein", "keine", "keiner", "projekt"))


def named_weeks(
    rows: Sequence[GridRow], sheet: str, usual: tuple[Shift, ...]
) -> tuple[tuple[NamedWeek, ...], list[Loss]] | None:
    """Returns the calendars of a sheet; None if it has no headings of a list of calendars.

    A row has a name, weekdays, and hours, which are the `usual` shifts if there are none. Rows of
    the same name add up.
    """
    columns: dict[str, int] = {}
    for at, cell in enumerate(rows[0].cells if rows else ()):
        field = _FIELD_OF.get(heading_of(cell).text)
        if field is not None:
            columns.setdefault(field, at)
    if not {"name", "days"} <= set(columns):
        return None
    found: dict[str, NamedWeek] = {}
    losses = []
    for row in rows[1:]:
        words = {field: _text(row, at) for field, at in columns.items()}
        if not any(words.values()):
            continue
        try:
            read = _week_of_row(words, usual)
        except Unreadable as reason:
            where, text = f"sheet {clip(sheet)!r}, row {row.number}", " ".join(words.values())
            losses.append(Loss(LossKind.CALENDAR, where, "", "", clip(text), str(reason)))
            continue
        key = read.name.casefold()
        found[key] = read if key not in found else _joined(found[key], read)
    return tuple(found.values()), losses


def _text(row: GridRow, at: int) -> str:
    cell = row.cells[at] if at < len(row.cells) else ""
    return "" if is_nothing(cell) else " ".join(text_of(cell).split())


def _week_of_row(words: Mapping[str, str], usual: tuple[Shift, ...]) -> NamedWeek:
    if not words["name"]:
        raise Unreadable("this calendar has no name")
    hours, free = words.get("hours", ""), words.get("free", "")
    shifts = shifts_in(hours) if hours else usual
    week = week_of(weekdays_in(words["days"]), shifts)
    return NamedWeek(clip(words["name"]), week, not free or is_yes(free))


def _joined(one: NamedWeek, other: NamedWeek) -> NamedWeek:
    """Returns a calendar that works whenever one of two does."""
    week = tuple(merged_shifts((*day, *more)) for day, more in zip(one.week, other.week))
    return replace(one, week=week, has_free_days=one.has_free_days and other.has_free_days)


class ListCalendars:
    """Finds the calendar that a cell of a list names."""

    def __init__(
        self,
        plan: Calendar,
        weeks: Sequence[NamedWeek] = (),
        chosen: str = "",
        cells: Iterable[str] = (),
    ) -> None:
        """Takes the calendar of the plan with all its free days, and the calendars of a sheet.

        `chosen` is the one of these that is the plan's. Without it, and if no sheet has the
        calendar that most of the `cells` name, that is the plan's calendar by another name.
        Raises `UsageError` if no sheet has the chosen one.
        """
        self._weeks = {each.name.casefold(): each for each in weeks}
        self.notes: list[str] = []
        """What was assumed."""
        self.plan = self._chosen(plan, chosen) if chosen else plan
        """The calendar of the plan."""
        self._names_of_plan = {*_OF_THE_PLAN, self.plan.name.casefold()}
        self._own = OwnCalendars(self.plan)
        if not chosen:
            self._take_most_common(cells)

    @property
    def calendars(self) -> tuple[Calendar, ...]:
        """Returns the calendars that tasks have, besides the plan's."""
        return self._own.calendars

    def name_of(self, words: str) -> str | None:
        """Returns the name of the calendar of a task, or None for that of the plan.

        Raises `Unreadable` if no sheet has the calendar, and the words say no working time.
        """
        name = clip(" ".join(words.split()))
        known = self._weeks.get(name.casefold())
        if known is None and name.casefold() in self._names_of_plan:
            return None
        if known is None:
            known = NamedWeek(name, self._week_in(name))
        return self._own.name_of(_worked(self.plan, known), "own")

    def _chosen(self, plan: Calendar, name: str) -> Calendar:
        known = self._weeks.get(" ".join(name.split()).casefold())
        if known is None:
            raise UsageError(f"--calendar {clip(name)}: no sheet of calendars has it")
        return _worked(plan, known)

    def _take_most_common(self, cells: Iterable[str]) -> None:
        """Takes the calendar of most tasks for the plan's, if nothing says what it is."""
        counts = Counter(" ".join(cell.split()) for cell in cells if not is_nothing(cell))
        name = max(counts, key=lambda each: counts[each], default="")
        if not name or name.casefold() in {*self._weeks, *self._names_of_plan}:
            return
        try:
            self._week_in(name)
        except Unreadable:
            self._names_of_plan.add(name.casefold())
            self.notes.append(
                f"the calendar {clip(name)!r} of most tasks is taken for the plan's,"
                f" {self.plan.name!r}"
            )

    def _week_in(self, name: str) -> Week:
        usual = next((shifts for shifts in self.plan.week if shifts), ())
        try:
            return week_in(name, usual)
        except Unreadable as reason:
            raise Unreadable(
                f"{reason}, and no sheet of calendars has it; the plan's is used"
            ) from None


def _worked(plan: Calendar, known: NamedWeek) -> Calendar:
    """Returns a calendar of the sheet; its free days are those of the plan, or none."""
    exceptions = plan.exceptions if known.has_free_days else ()
    return replace(plan, name=known.name, week=known.week, exceptions=exceptions)
