"""Files of MS Project with the fields that MS Project itself writes, made of `planner_files`'.

Tasks have early, late and manual dates, work and costs; assignments have dates, costs and the work
of each day; resources have sums: a test sees which of them a schedule changes.
"""

from xml.etree import ElementTree
from xml.etree.ElementTree import Element, SubElement

from p6_files import xml_bytes
from pert_companion.model.plan import Plan
from planner_files import mspdi_bytes

NAMESPACE = "http://schemas.microsoft.com/project"
TYPES = {"DT_FixedRate": "0", "DT_FixedDrtn": "1", "DT_FixedQty": "2", "DT_FixedDUR2": "1"}
"""The type of a task that goes with one of P6."""
RATE = 4000
"""What an hour of work costs, in hundredths."""


def full_mspdi(plan: Plan, duration_type: str = "DT_FixedRate") -> bytes:
    """Returns a plan as MS Project's XML, with the fields that MS Project computes."""
    ElementTree.register_namespace("", NAMESPACE)
    root = ElementTree.fromstring(mspdi_bytes(plan))
    _add(root, "FinishDate", "2026-03-02T17:00:00")
    _add(root, "LastSaved", "2026-03-02T09:00:00")
    tasks = {_text(each, "UID"): each for each in _all(root, "Tasks", "Task")}
    for task in tasks.values():
        _complete_task(task, TYPES[duration_type])
    for number, each in enumerate(_all(root, "Assignments", "Assignment")):
        _complete_assignment(each, tasks[_text(each, "TaskUID")], number)
    for resource in _all(root, "Resources", "Resource"):
        for name in ("Start", "Finish"):
            _add(resource, name, "2026-03-02T08:00:00")
        for name in ("Work", "RegularWork", "RemainingWork"):
            _add(resource, name, "PT8H0M0S")
        _add(resource, "Cost", "4000")
    return xml_bytes(root)


def _complete_task(task: Element, task_type: str) -> None:
    """Gives a task the dates and work that MS Project computes; a group its own dates."""
    start = _text(task, "Start") or "2026-03-02T08:00:00"
    finish = _text(task, "Finish") or "2026-03-02T17:00:00"
    if _text(task, "Summary") == "1":
        _add(task, "Start", start)
        _add(task, "Finish", finish)
        _add(task, "Duration", "PT8H0M0S")
    for name in ("EarlyStart", "LateStart", "PreLeveledStart", "Stop", "Resume"):
        _add(task, name, start)
    for name in ("EarlyFinish", "LateFinish", "PreLeveledFinish"):
        _add(task, name, finish)
    _add(task, "Type", task_type)
    _add(task, "TotalSlack", "4800")
    _add(task, "FreeSlack", "0")
    _add(task, "Notes", "as agreed")
    _add(task, "ActualDuration", "PT0H0M0S")


def _complete_assignment(element: Element, task: Element, number: int) -> None:
    """Gives an assignment its dates, costs and days."""
    _add(element, "UID", str(number))
    for name in ("Start", "Finish"):
        _add(element, name, _text(task, name))
    _add(element, "PercentWorkComplete", "0")
    work = _text(element, "Work")
    if not work:
        return
    _add(element, "RegularWork", work)
    _add(element, "RemainingWork", work)
    hours = int(work.removeprefix("PT").partition("H")[0])
    for name in ("Cost", "RemainingCost"):
        _add(element, name, str(hours * RATE))
    for kind in ("1", "2"):
        day = SubElement(element, f"{{{NAMESPACE}}}TimephasedData")
        _add(day, "Type", kind)
        _add(day, "UID", str(number))
        _add(day, "Start", "2026-03-02T08:00:00")
        _add(day, "Value", "PT8H0M0S" if kind == "1" else "PT0H0M0S")


def _add(element: Element, name: str, text: str) -> None:
    """Adds a field, unless the element has it or there is nothing to say."""
    if text and element.find(f"{{{NAMESPACE}}}{name}") is None:
        SubElement(element, f"{{{NAMESPACE}}}{name}").text = text


def _all(root: Element, holder: str, name: str) -> list[Element]:
    return root.findall(f"{{{NAMESPACE}}}{holder}/{{{NAMESPACE}}}{name}")


def _text(element: Element, name: str) -> str:
    return element.findtext(f"{{{NAMESPACE}}}{name}") or ""
