"""The names, codes and texts of MS Project's XML (MSPDI), for the two modules that write it."""

import re
from datetime import datetime
from xml.etree import ElementTree as Tree
from xml.etree.ElementTree import Element

NAMESPACE = "http://schemas.microsoft.com/project"
IN_DAYS = 7
"""MS Project's code for a duration or lag that is shown in days."""
ELAPSED = frozenset((4, 6, 8, 10, 12, 36, 38, 40, 42, 44))
"""MS Project's codes for durations by the clock."""
SHARES = frozenset((19, 20, 51, 52))
"""MS Project's codes for lags that are a share of the predecessor's duration, in percent."""
_FROM_COST_ON = (
    "FixedCost FixedCostAccrual PercentComplete PercentWorkComplete Cost OvertimeCost OvertimeWork"
    " ActualStart ActualFinish ActualDuration ActualCost ActualOvertimeCost ActualWork"
    " ActualOvertimeWork RegularWork RemainingDuration RemainingCost RemainingWork"
    " RemainingOvertimeCost RemainingOvertimeWork ACWP CV ConstraintType CalendarUID"
    " ConstraintDate Deadline LevelAssignments LevelingCanSplit LevelingDelay"
    " LevelingDelayFormat PreLeveledStart PreLeveledFinish Hyperlink HyperlinkAddress"
    " HyperlinkSubAddress IgnoreResourceCalendar Notes HideBar Rollup BCWS BCWP"
    " PhysicalPercentComplete EarnedValueMethod PredecessorLink ActualWorkProtected"
    " ActualOvertimeWorkProtected ExtendedAttribute Baseline"
).split()
"""The children of a task from its fixed cost on, in the order of the schema."""
_DURATION = re.compile(r"PT([0-9]{1,9})H([0-9]{1,9})M[0-9]{1,9}(?:\.[0-9]{0,9})?S")


def name_of(tag: str) -> str:
    """Returns the name of an element with its namespace."""
    return f"{{{NAMESPACE}}}{tag}"


def place_in_task(element: Element, tag: str) -> int:
    """Returns where a child of a task belongs, as the schema has a fixed order."""
    later = {name_of(each) for each in _FROM_COST_ON[_FROM_COST_ON.index(tag) + 1 :]}
    for place, child in enumerate(element):
        if child.tag in later:
            return place
    return len(element)


def bytes_of(root: Element) -> bytes:
    """Returns a file."""
    body = Tree.tostring(root, encoding="unicode")
    return f'<?xml version="1.0" encoding="UTF-8" standalone="yes"?>\n{body}\n'.encode()


def moment_text(moment: datetime) -> str:
    """Returns a moment as the file has it."""
    return moment.strftime("%Y-%m-%dT%H:%M:%S")


def duration_text(minutes: int) -> str:
    """Returns minutes as the file has them: `PT8H30M0S`."""
    return f"PT{minutes // 60}H{minutes % 60}M0S"


def minutes_of(text: str) -> int | None:
    """Returns the minutes of a duration such as `PT8H30M0S`, or None."""
    found = _DURATION.fullmatch(text)
    return None if found is None else int(found[1]) * 60 + int(found[2])
