"""Puts a schedule into the file of Primavera P6 (XML) that its plan came from.

Elements that do not change keep their bytes.
"""

from collections.abc import Iterator
from functools import cached_property
from xml.etree.ElementTree import Element
from xml.sax.saxutils import escape

from pert_companion.analysis.schedule import Schedule
from pert_companion.model.errors import InputError
from pert_companion.model.sidefile import SideFile
from pert_companion.model.xmltree import local_name, whole
from pert_companion.writers.p6_fields import EXPENSE_NAME, PMXML
from pert_companion.writers.p6_into import Original, put_schedule
from pert_companion.writers.xml_edits import XmlFile

_ROOT = "APIBusinessObjects"


def into_pmxml(
    original: bytes, name: str, schedule: Schedule, side: SideFile
) -> tuple[bytes, list[str]]:
    """Returns the original with a schedule of what is left, and what did not fit.

    Each task of the schedule that the original lacks is named. Raises `InputError` if the original
    is no XML of Primavera P6.
    """
    xml = XmlFile(original, name)
    if local_name(xml.root) != _ROOT:
        raise InputError(f"{name}: not a file of Primavera P6 (no {_ROOT})")
    file = _File(xml)
    missing = put_schedule(file.rows(), name, schedule, side)
    return file.data(), missing


class _Row:
    """An element whose fields are its elements."""

    def __init__(self, xml: XmlFile, element: Element, project: str = "") -> None:
        self._xml = xml
        self.element = element
        self._project = project
        self._fields: dict[str, Element] = {}
        for child in element:
            self._fields.setdefault(local_name(child), child)

    def text(self, name: str) -> str:
        """Returns the text of a field; an empty one if there is none."""
        if name == PMXML.project:
            return self._project
        found = self._fields.get(name)
        return "" if found is None else (found.text or "").strip()

    def set(self, name: str, text: str) -> None:
        """Sets the text of a field that has one."""
        if self.text(name):
            self._xml.set_text(self._fields[name], text)


class _NewExpense:
    """An expense that is added to a file: its fields, written when they are known."""

    def __init__(self, project: Element, uid: str, project_id: str, number: int) -> None:
        """Takes the element of the project, and the ids of activity, project and expense."""
        self.project = project
        self._fields = {
            "AccrualType": "Uniform Over Activity",
            "ActivityObjectId": uid,
            "ActualCost": "0",
            "AtCompletionCost": "0",
            "AutoComputeActuals": "0",
            "ExpenseItem": EXPENSE_NAME,
            "ObjectId": str(number),
            "PlannedCost": "0",
            "PlannedUnits": "1",
            "PricePerUnit": "0",
            "ProjectObjectId": project_id,
            "RemainingCost": "0",
        }

    def text(self, name: str) -> str:
        """Returns the text of a field; an empty one if there is none."""
        return self._fields.get(name, "")

    def set(self, name: str, text: str) -> None:
        """Sets the text of a field."""
        self._fields[name] = text

    def xml(self, prefix: str) -> str:
        """Returns the element."""
        parts = []
        for name, text in self._fields.items():
            parts.append(f"<{prefix}{name}>{escape(text)}</{prefix}{name}>")
        return f"<{prefix}ActivityExpense>{''.join(parts)}</{prefix}ActivityExpense>"


class _File:
    """The elements of a file that a schedule changes."""

    def __init__(self, xml: XmlFile) -> None:
        self._xml = xml
        self._added: list[_NewExpense] = []
        self._projects = {_id(element): element for element in _children(xml.root, "Project")}
        self._activities: dict[str, _Row] = {}
        for key, project in self._projects.items():
            for element in _children(project, "Activity"):
                self._activities[_id(element)] = _Row(xml, element, key)

    def rows(self) -> Original:
        """Returns the rows that a schedule changes."""
        return Original(
            names=PMXML,
            activities=self._activities,
            projects={key: _Row(self._xml, each) for key, each in self._projects.items()},
            add_expense=self.add_expense,
            assignments=self._by_activity("ResourceAssignment"),
            expenses=self._by_activity("ActivityExpense"),
            user_values=self._user_values(),
            resource_types=dict(self._resource_types()),
        )

    def _by_activity(self, tag: str) -> dict[str, list[_Row]]:
        found: dict[str, list[_Row]] = {}
        for project in self._projects.values():
            for element in _children(project, tag):
                row = _Row(self._xml, element)
                found.setdefault(row.text("ActivityObjectId"), []).append(row)
        return found

    def _user_values(self) -> dict[str, dict[str, _Row]]:
        """Returns the user-defined fields of activities that have a value, by their titles."""
        titles = {}
        for element in _children(self._xml.root, "UDFType"):
            kind = _Row(self._xml, element)
            if kind.text("SubjectArea") in ("", "Activity"):
                titles[kind.text("ObjectId")] = kind.text("Title").casefold()
        found: dict[str, dict[str, _Row]] = {}
        for uid, activity in self._activities.items():
            for element in _children(activity.element, "UDF"):
                value = _Row(self._xml, element)
                title = titles.get(value.text("TypeObjectId"))
                if title is not None and any(map(value.text, PMXML.user_values)):
                    found.setdefault(uid, {}).setdefault(title, value)
        return found

    def _resource_types(self) -> Iterator[tuple[str, str]]:
        """Yields the type of each resource by its id."""
        for element in _children(self._xml.root, "Resource"):
            row = _Row(self._xml, element)
            yield row.text("ObjectId"), row.text("ResourceType")

    def add_expense(self, uid: str) -> _NewExpense:
        """Returns a new expense for an activity, with nothing planned and nothing left."""
        key = self._activities[uid].text(PMXML.project)
        number = self._last_expense + len(self._added) + 1
        self._added.append(_NewExpense(self._projects[key], uid, key, number))
        return self._added[-1]

    def data(self) -> bytes:
        """Returns the bytes of the file, with new expenses after those of their project."""
        for project in self._projects.values():
            held = list(_children(project, "ActivityExpense"))
            held = held or list(_children(project, "Activity"))
            for expense in self._added:
                if expense.project is project:
                    self._xml.insert_after(held[-1], expense.xml(self._xml.prefix_of(held[-1])))
        return self._xml.changed()

    @cached_property
    def _last_expense(self) -> int:
        """Returns the highest id of an expense; 0 without any."""
        known = [0]
        for project in self._projects.values():
            known.extend(whole(_id(each)) or 0 for each in _children(project, "ActivityExpense"))
        return max(known)


def _children(element: Element, name: str) -> Iterator[Element]:
    """Yields the elements of a name in an element."""
    return (child for child in element if local_name(child) == name)


def _id(element: Element) -> str:
    found = next(_children(element, "ObjectId"), None)
    return "" if found is None else (found.text or "").strip()
