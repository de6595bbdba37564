"""Turns the links and constraints of a plan into ties between tasks; those of groups into several.

Lags are in working minutes here. A tie to a group is one to each of its tasks that begins it; a tie
from the end of a group is one from its last task, or from a milestone after its last tasks.
"""

import math
from collections.abc import Mapping
from datetime import date

from pert_companion.carry.codes import Codes
from pert_companion.carry.model import End, Node, Tie
from pert_companion.model.losses import Loss, LossKind
from pert_companion.model.plan import (
    Constraint,
    ConstraintKind,
    Group,
    Lag,
    LagCalendar,
    Link,
    Plan,
    Task,
)

_START_KINDS = (ConstraintKind.START_NO_EARLIER, ConstraintKind.MUST_START)
_FINISH_KINDS = (ConstraintKind.FINISH_NO_EARLIER, ConstraintKind.MUST_FINISH)


class Ties:
    """The ties of a plan's tasks, which are put into their nodes."""

    def __init__(
        self,
        plan: Plan,
        nodes: Mapping[str, Node],
        codes: Codes,
        items: Mapping[str, str],
    ) -> None:
        """Takes the node of each task and the item of each group by uid, and the codes of tasks."""
        self.losses: list[Loss] = []
        self.milestones: dict[str, Node] = {}
        """The milestones at the ends of groups, by the uid of the group."""
        self._plan = plan
        self._nodes = nodes
        self._codes = codes
        self._items = items
        self._entries = {entry.uid: entry for entry in plan.outline}
        self._inside = _tasks_inside(plan, nodes)

    def add_links(self) -> None:
        """Adds the ties of all links: those between small groups first, which big ones build on."""
        known = [link for link in self._plan.links if self._is_known(link)]
        for link in sorted(known, key=self._breadth):
            self._add_link(link)

    def add_constraints(self) -> None:
        """Adds the ties of constraints and of manual tasks to the first day of the project."""
        calendar = self._plan.calendar
        origin = calendar.position(calendar.morning(self._plan.start))
        for task in self._plan.tasks():
            node = self._nodes[task.uid]
            constraint = effective_constraint(task)
            if constraint is None or constraint.day is None:
                continue
            if constraint.kind in _START_KINDS:
                wait = calendar.position(calendar.morning(constraint.day)) - origin
                node.starts += _first_day_ties(wait, constraint.day, node)
            elif constraint.kind in _FINISH_KINDS:
                wait = calendar.position(calendar.evening(constraint.day)) - origin
                node.finishes += _first_day_ties(wait, constraint.day, node)

    def _is_known(self, link: Link) -> bool:
        for uid in (link.predecessor, link.successor):
            if uid not in self._entries:
                self._lose(link, "one of the tasks that it links is not carried over")
                return False
        return True

    def _breadth(self, link: Link) -> int:
        return max(len(self._tasks(link.predecessor)), len(self._tasks(link.successor)))

    def _tasks(self, uid: str) -> list[Node]:
        """Returns the nodes of a task or of all tasks in a group."""
        if uid in self._nodes:
            return [self._nodes[uid]]
        return self._inside.get(uid, [])

    def _add_link(self, link: Link) -> None:
        own, others = set(self._tasks(link.predecessor)), set(self._tasks(link.successor))
        if own & others:
            self._lose(link, "it links a task with itself, or a group with what is inside it")
            return
        sources, targets = self._sources(link), self._targets(link)
        if not sources or not targets:
            kind = link.kind.value[0] if not sources else link.kind.value[1]
            end = "start" if kind == "S" else "finish"
            self._lose(link, f"it ties the {end} of a group, which is not that of one task")
            return
        for source in sources:
            lag, elapsed = self._lag(link, source)
            for target in targets:
                ties = target.starts if link.kind.value[1] == "S" else target.finishes
                calendar = self._lag_calendar(source, target)
                ties.append(Tie(source, End(link.kind.value[0]), lag, elapsed, link, calendar))

    def _lag_calendar(self, source: Node, target: Node) -> str:
        """Returns the name of the calendar by which a lag between two tasks runs."""
        kind = self._plan.lag_calendar
        if kind is LagCalendar.PLAN:
            return ""
        node = source if kind is LagCalendar.PREDECESSOR else target
        return "" if node.own is None else node.own.calendar.name

    def _lag(self, link: Link, source: Node) -> tuple[int, bool]:
        """Returns a lag in minutes, and whether they are elapsed ones."""
        lag: Lag = link.lag
        if lag.share is None:
            return lag.minutes, lag.elapsed
        if link.predecessor not in self._nodes:
            self._lose(
                link,
                "its lag is a share of the duration of a group; it is taken as none",
            )
            return 0, False
        minutes = lag.share * source.minutes
        if source.task is not None and source.task.crash is not None:
            why = f"its lag is taken from the normal duration of {source.name!r}"
            self._lose(link, why, LossKind.FRACTION)
        return math.ceil(minutes), False

    def _sources(self, link: Link) -> list[Node]:
        """Returns the nodes whose ends are that of the predecessor; one for the end of a group."""
        inside = self._tasks(link.predecessor)
        if link.predecessor in self._nodes:
            return inside
        if link.kind.value[0] == "S":
            firsts = _firsts(inside)
            return firsts if len(firsts) == 1 else []
        lasts = _lasts(inside)
        if len(lasts) > 1:
            return [self._milestone(link.predecessor, lasts)]
        return lasts

    def _targets(self, link: Link) -> list[Node]:
        """Returns the nodes whose ends the successor waits with."""
        inside = self._tasks(link.successor)
        if link.successor in self._nodes:
            return inside
        if link.kind.value[1] == "S":
            return _firsts(inside)
        lasts = _lasts(inside)
        return lasts if len(lasts) == 1 else []

    def _milestone(self, uid: str, lasts: list[Node]) -> Node:
        """Returns the milestone that a group is finished."""
        if uid not in self.milestones:
            group = self._entries[uid]
            assert isinstance(group, Group)
            code = self._codes.make(self._items.get(uid, lasts[-1].item), ".F")
            node = Node(code, lasts[-1].item, f"End of {group.name}", group.where, 0)
            node.starts = [Tie(last, End.FINISH, 0) for last in lasts]
            self.milestones[uid] = node
        return self.milestones[uid]

    def _lose(self, link: Link, why: str, kind: LossKind = LossKind.LINK) -> None:
        entry = self._entries.get(link.successor) or self._entries.get(link.predecessor)
        name = entry.name if entry is not None else ""
        where = link.where or (entry.where if entry is not None else "link")
        self.losses.append(Loss(kind, where, name, "link", link.text or _shown(link), why))


def effective_constraint(task: Task) -> Constraint | None:
    """Returns the constraint of a task; the listed start is that of a manual one."""
    if task.manual and task.listed_start is not None:
        return Constraint(ConstraintKind.START_NO_EARLIER, task.listed_start)
    return task.constraint


def _shown(link: Link) -> str:
    return f"{link.predecessor}{link.kind.value}"


def _first_day_ties(wait: int, day: date, node: Node) -> list[Tie]:
    """Returns the tie to a day; a task with a calendar of its own may wait within free days."""
    if wait <= 0 and node.own is None:
        return []
    return [Tie(None, End.START, max(0, wait), day=day)]


def _tasks_inside(plan: Plan, nodes: Mapping[str, Node]) -> dict[str, list[Node]]:
    """Returns the nodes of the tasks in each group, at any depth, in the order of the plan."""
    parents = {group.uid: group.parent for group in plan.groups()}
    inside: dict[str, list[Node]] = {uid: [] for uid in parents}
    for task in plan.tasks():
        above = task.parent
        while above is not None:
            inside[above].append(nodes[task.uid])
            above = parents[above]
    return inside


def _firsts(inside: list[Node]) -> list[Node]:
    """Returns the nodes that no other one of them comes before."""
    members = set(inside)
    return [node for node in inside if not _waits_for(node, members)]


def _waits_for(node: Node, members: set[Node]) -> bool:
    return any(tie.before in members and tie.lag >= 0 for tie in node.starts)


def _lasts(inside: list[Node]) -> list[Node]:
    """Returns the nodes that no other one of them finishes after."""
    leaders: set[Node] = set()
    members = set(inside)
    for node in inside:
        for tie in node.starts + node.finishes:
            if tie.before in members and tie.end is End.FINISH and tie.lag >= 0:
                leaders.add(tie.before)
    return [node for node in inside if node not in leaders]
