"""Turns the dates of a report of a counted deck into days of the calendar, and nothing else.

Reports have dates in `times`, `value`, `summary` and `load`. Columns keep their widths; codes and
titles that look like dates stay.
"""

import re

from pert_companion.model.days import Counts
from pert_companion.model.errors import InputError
from pert_companion.model.strict import parse_day

UNKNOWN_DAY = "-" * 10
"""What reports have for a day after 9999-12-31."""

_DATE = r"([0-9]{4}-[0-9]{2}-[0-9]{2})"
_HEAD = re.compile(rf"((?:SUMMARY|VALUE) \S+ ){_DATE}")
_EVENT = re.compile(rf"(\S+(?: +-?[0-9]+){{2,3}} ){_DATE}")
_PERIOD = re.compile(rf"(PERIOD +[0-9]+ ){_DATE}")
_FAULT = re.compile(rf"(F31 record [0-9]+: second TOGO of \S+ on ){_DATE}")
_EVENTS = re.compile(r"EVENT +(?:TE +TL +SLACK|FORECAST +FSLACK) DATE")
_PERIODS = re.compile(r"LOAD \S+ [0-9]+")
_OTHER = re.compile(r"(?:TIMES|LENGTH|OPTIMUM|CERT|accepted) |ITEM +LV |ACTIVITY +EXPECTED |ITEMS$")
_LAST_DATE = re.compile(rf" {_DATE}$")


def real_dates(text: str, counts: Counts, as_of_text: str, as_of_count: str) -> str:
    """Returns a report with days of the calendar.

    `as_of_count` is the counted as-of date, which becomes `as_of_text`, even if that day is free.
    Raises `InputError` if the text has dates and is no complete report.
    """
    if text.startswith("PROJECT,"):
        raise InputError("standard input: this is a deck and no report; --back is for reports")
    reader = _Report(counts, as_of_text, as_of_count)
    lines = text.split("\n")
    return "\n".join(reader.line(number, line) for number, line in enumerate(lines, 1))


class _Report:
    """Reads a report line by line and knows which part of it a line is in."""

    def __init__(self, counts: Counts, as_of_text: str, as_of_count: str) -> None:
        self._counts = counts
        self._as_of_text = as_of_text
        self._as_of_count = as_of_count
        self._part = ""

    def line(self, number: int, line: str) -> str:
        """Returns a line with its date turned, if it has one."""
        head = _HEAD.fullmatch(line)
        if head:
            self._part = "report"
            day = self._as_of_text if head[2] == self._as_of_count else self._real(head[2])
            return head[1] + day
        if self._begins_part(line):
            return line
        found = self._dated(line)
        if found is not None:
            return found[1] + self._real(found[2])
        if self._part != "report" and _LAST_DATE.search(line):
            raise InputError(
                f"standard input: line {number}: {line[:60]!r} is no part of a report; give --back"
                " the complete report, and select lines after it"
            )
        return line

    def _begins_part(self, line: str) -> bool:
        if _EVENTS.fullmatch(line):
            self._part = "events"
        elif _PERIODS.fullmatch(line):
            self._part = "periods"
        elif _OTHER.match(line):
            self._part = "report"
        else:
            return False
        return True

    def _dated(self, line: str) -> re.Match[str] | None:
        if self._part == "events":
            return _EVENT.fullmatch(line)
        if self._part == "periods":
            return _PERIOD.fullmatch(line)
        return _FAULT.fullmatch(line)

    def _real(self, text: str) -> str:
        day = parse_day(text)
        if day is None:
            raise InputError(f"standard input: {text} is no day of the calendar")
        real = self._counts.real(day)
        return UNKNOWN_DAY if real is None else real.isoformat()
