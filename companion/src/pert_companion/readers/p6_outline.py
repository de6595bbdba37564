"""Puts the items of Primavera's work breakdown structure and their activities in order."""

from collections.abc import Sequence
from dataclasses import dataclass
from typing import TYPE_CHECKING

from pert_companion.model.errors import InputError
from pert_companion.model.xmltree import decimal

if TYPE_CHECKING:
    from pert_companion.readers.p6 import Record


@dataclass(frozen=True)
class Node:
    """An item with its id and that of the item above it."""

    uid: str
    parent: str
    record: "Record"

    @property
    def order(self) -> tuple[float, str]:
        """Returns what items below the same one are sorted by."""
        number = decimal(self.record.text("seq_num"))
        return (
            float(number) if number is not None else 0.0,
            self.record.text("wbs_short_name"),
        )


@dataclass(frozen=True)
class OutlineOrder:
    """Items and activities in order, each with the uid of its group, and whether it is a group.

    `root` is the item of the project itself, which is no group.
    """

    entries: tuple[tuple["Record", str | None, bool], ...]
    root: "Record | None"


def outline_order(nodes: Sequence[Node], tasks: Sequence["Record"], file: str) -> OutlineOrder:
    """Returns the outline: the activities of an item, then the items below it.

    Raises `InputError` if two items have one id, or items are in each other.
    """
    by_uid: dict[str, Node] = {}
    for node in nodes:
        if node.uid in by_uid:
            raise InputError(f"{file}: {node.record.where}: two items have this id {node.uid[:20]}")
        by_uid[node.uid] = node
    roots = [node for node in nodes if node.parent not in by_uid]
    builder = _Builder(nodes, tasks, by_uid)
    root = roots[0] if len(roots) == 1 else None
    if root is not None:
        builder.add_inside(root.uid, None)
    else:
        builder.add_all(roots, None)
    for node in nodes:
        if node.uid not in builder.seen:
            where = node.record.where
            raise InputError(f"{file}: {where}: the items of the outline are in a loop")
    builder.add_tasks_outside()
    return OutlineOrder(tuple(builder.entries), root.record if root is not None else None)


class _Builder:
    """Walks down the items without recursion."""

    def __init__(
        self, nodes: Sequence[Node], tasks: Sequence["Record"], by_uid: dict[str, Node]
    ) -> None:
        self.entries: list[tuple["Record", str | None, bool]] = []
        self.seen: set[str] = set()
        self._by_uid = by_uid
        self._below: dict[str, list[Node]] = {}
        for node in sorted(nodes, key=lambda node: node.order):
            self._below.setdefault(node.parent, []).append(node)
        self._tasks: dict[str, list["Record"]] = {}
        for task in tasks:
            self._tasks.setdefault(task.text("wbs_id"), []).append(task)

    def add_inside(self, uid: str, group: str | None) -> None:
        """Adds what is inside an item, whose group has the uid `group`."""
        self.seen.add(uid)
        for task in self._tasks.get(uid, []):
            self.entries.append((task, group, False))
        self.add_all(self._below.get(uid, []), group)

    def add_all(self, nodes: Sequence[Node], parent: str | None) -> None:
        """Adds items and all that is inside them."""
        waiting = [(node, parent) for node in reversed(nodes)]
        while waiting:
            node, above = waiting.pop()
            self.seen.add(node.uid)
            group = "W" + node.uid
            self.entries.append((node.record, above, True))
            for task in self._tasks.get(node.uid, []):
                self.entries.append((task, group, False))
            below = self._below.get(node.uid, [])
            waiting.extend((child, group) for child in reversed(below))

    def add_tasks_outside(self) -> None:
        """Adds the activities whose item is not in the file."""
        for uid, tasks in self._tasks.items():
            if uid not in self._by_uid:
                self.entries.extend((task, None, False) for task in tasks)
