"""Files of Primavera P6 with the fields that P6 itself writes, made of those in `planner_files`.

Assignments have units, rates and costs, and activities dates of every kind, so that a test sees
which of them a schedule changes.
"""

from collections.abc import Iterator
from decimal import Decimal
from xml.etree import ElementTree
from xml.etree.ElementTree import Element, SubElement

from pert_companion.model.plan import Plan
from planner_files import pmxml_bytes, xer_bytes

RATE = 40
"""What an hour of work costs."""
DURATION_TYPES = ("DT_FixedRate", "DT_FixedDrtn", "DT_FixedQty", "DT_FixedDUR2")
PMXML_NAMESPACE = "http://xmlns.oracle.com/Primavera/P6/V22.12/API/BusinessObjects"
PMXML_TYPES = {
    "DT_FixedRate": "Fixed Units/Time",
    "DT_FixedDrtn": "Fixed Duration and Units/Time",
    "DT_FixedQty": "Fixed Units",
    "DT_FixedDUR2": "Fixed Duration and Units",
}

XerTables = dict[str, list[dict[str, str]]]


def xer_tables(data: bytes) -> XerTables:
    """Returns the rows of the tables of a file."""
    found: XerTables = {}
    name, columns = "", list[str]()
    for line in data.decode().split("\r\n"):
        kind, *cells = line.split("\t")
        if kind == "%T":
            name = cells[0]
        elif kind == "%F":
            columns = cells
        elif kind == "%R":
            found.setdefault(name, []).append(dict(zip(columns, cells, strict=True)))
    return found


def xer_of(tables: XerTables) -> bytes:
    """Returns a file of tables."""
    lines = ["ERMHDR\t19.12\t2026-03-02"]
    for name, rows in tables.items():
        columns = list(dict.fromkeys(column for row in rows for column in row))
        lines += [f"%T\t{name}", "\t".join(("%F", *columns))]
        lines += ["\t".join(("%R", *(row.get(each, "") for each in columns))) for row in rows]
    return "\r\n".join((*lines, "%E", "")).encode()


def full_xer(plan: Plan, duration_type: str = "DT_FixedRate") -> bytes:
    """Returns a plan as XER, with the fields that P6 computes."""
    tables = xer_tables(xer_bytes(plan))
    activities = {row["task_id"]: row for row in tables["TASK"]}
    for row in activities.values():
        row["duration_type"] = duration_type
        row["total_float_hr_cnt"] = "8"
        for start in ("target_start_date", "restart_date", "late_start_date"):
            row[start] = row.get("early_start_date", "")
        for finish in ("target_end_date", "reend_date", "late_end_date"):
            row[finish] = row.get("early_end_date", "")
        row["target_work_qty"] = row["remain_work_qty"] = "0"
    kinds = {row["rsrc_id"]: row["rsrc_type"] for row in tables.get("RSRC", [])}
    for row in tables.get("TASKRSRC", []):
        _complete(row, activities[row["task_id"]], kinds[row["rsrc_id"]])
    tables["PROJECT"][0]["scd_end_date"] = "2026-03-02 08:00"
    return xer_of(tables)


def _complete(row: dict[str, str], activity: dict[str, str], kind: str) -> None:
    """Gives an assignment its units, rate, costs and dates."""
    quantity = Decimal(row["target_qty"])
    planned = Decimal(activity["target_drtn_hr_cnt"])
    left = Decimal(activity["remain_drtn_hr_cnt"])
    share = left / planned if planned else Decimal(0)
    row["rsrc_type"] = kind
    row["remain_qty"] = f"{round(quantity * share, 2):f}"
    row["target_qty_per_hr"] = row["remain_qty_per_hr"] = "1"
    row["target_cost"] = f"{round(quantity * RATE, 2):f}"
    row["remain_cost"] = f"{round(quantity * share * RATE, 2):f}"
    row["target_start_date"] = activity["target_start_date"]
    row["restart_date"] = "2026-03-02 08:00"
    row["reend_date"] = activity["reend_date"]
    if kind == "RT_Labor":
        for name, units in (("target_work_qty", "target_qty"), ("remain_work_qty", "remain_qty")):
            activity[name] = f"{Decimal(activity[name]) + Decimal(row[units]):f}"


def full_pmxml(plan: Plan, duration_type: str = "DT_FixedRate") -> bytes:
    """Returns a plan as P6's XML, with the fields that P6 computes; those of `full_xer`."""
    root = ElementTree.fromstring(pmxml_bytes(plan))
    ElementTree.register_namespace("", PMXML_NAMESPACE)
    project = next(each for each in root if each.tag.endswith("}Project"))
    full = xer_tables(full_xer(plan, duration_type))
    rows = {row["task_id"]: row for row in full["TASK"]}
    for element in _named(project, "Activity"):
        _complete_activity(element, rows[text_of(element, "ObjectId")])
    assigned = list(_named(project, "ResourceAssignment"))
    for element, row in zip(assigned, full.get("TASKRSRC", []), strict=True):
        _complete_assignment(element, row)
    _add(project, "ScheduledFinishDate", "2026-03-02T08:00:00")
    return xml_bytes(root)


def xml_bytes(root: Element) -> bytes:
    """Returns a file of a tree."""
    return ElementTree.tostring(root, encoding="unicode", xml_declaration=True).encode()


def _complete_activity(element: Element, row: dict[str, str]) -> None:
    finish = text_of(element, "FinishDate")
    _add(element, "DurationType", PMXML_TYPES[row["duration_type"]])
    _add(element, "AtCompletionDuration", row["target_drtn_hr_cnt"])
    _add(element, "DurationPercentComplete", "0")
    _add(element, "PlannedStartDate", text_of(element, "StartDate"))
    _add(element, "PlannedFinishDate", finish)
    _add(element, "RemainingEarlyFinishDate", finish)
    _add(element, "RemainingLateFinishDate", finish)
    _add(element, "TotalFloat", row["total_float_hr_cnt"])
    _add(element, "PlannedLaborUnits", row["target_work_qty"])
    _add(element, "RemainingLaborUnits", row["remain_work_qty"])
    _add(element, "AtCompletionLaborUnits", row["target_work_qty"])


def _complete_assignment(element: Element, row: dict[str, str]) -> None:
    _add(element, "RemainingUnits", row["remain_qty"])
    _add(element, "AtCompletionUnits", row["target_qty"])
    _add(element, "PlannedUnitsPerTime", "1")
    _add(element, "RemainingUnitsPerTime", "1")
    _add(element, "PlannedCost", row["target_cost"])
    _add(element, "RemainingCost", row["remain_cost"])
    _add(element, "AtCompletionCost", row["target_cost"])


def _add(element: Element, name: str, text: str) -> None:
    if text:
        SubElement(element, f"{{{PMXML_NAMESPACE}}}{name}").text = text


def _named(element: Element, name: str) -> Iterator[Element]:
    return element.iterfind(f"{{{PMXML_NAMESPACE}}}{name}")


def text_of(element: Element, name: str) -> str:
    """Returns the text of a field of an element, or an empty text."""
    return element.findtext(f"{{{PMXML_NAMESPACE}}}{name}") or ""
