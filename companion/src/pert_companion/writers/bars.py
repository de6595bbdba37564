"""Bars of tasks over days, and the axis above them, for a terminal or a pipe."""

from collections.abc import Iterator
from dataclasses import dataclass
from datetime import date, timedelta

from pert_companion.analysis.schedule import ScheduledTask

MOST_DAYS_OF_WEEKS = 70
"""Bars of at most so many days have an axis of weeks, longer ones one of months."""


@dataclass(frozen=True)
class Scale:
    """Places days on the columns of the bars."""

    first: date
    days: int
    columns: int

    def bar(self, task: ScheduledTask) -> str:
        """Returns the bar of a task: `#` where it works, `-` where it may float, `+` a moment."""
        begin = self.column(task.first_day)
        end = max(begin + 1, self.column(task.last_day + timedelta(days=1)))
        if task.is_milestone:
            return " " * begin + "+"
        return " " * begin + "#" * (end - begin)

    def axis(self) -> str:
        """Returns dates over the columns at which their days begin, as many as have room."""
        text = ""
        for day, label in self._labels():
            column = self.column(day)
            if not text or len(text) < column <= self.columns - len(label):
                text = text.ljust(column) + label
        return text

    def _labels(self) -> Iterator[tuple[date, str]]:
        """Yields the first day, then Mondays or, of a long plan, the first days of months."""
        yield self.first, self.first.isoformat()
        is_long = self.days > MOST_DAYS_OF_WEEKS
        for number in range(1, self.days):
            day = self.first + timedelta(days=number)
            if is_long and day.day == 1:
                yield day, f"{day:%Y-%m}"
            elif not is_long and day.weekday() == 0:
                yield day, f"{day:%m-%d}"

    def column(self, day: date) -> int:
        """Returns the column at which a day begins."""
        return min((day - self.first).days * self.columns // self.days, self.columns - 1)
