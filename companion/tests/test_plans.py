"""The drawn plans keep the promises that other tests build on."""

from hypothesis import given

from pert_companion.model.plan import Group, Plan, Task
from plans import ALL_FEATURES, Feature, plans


def _inside(plan: Plan, uid: str | None, group: str) -> bool:
    """Says whether an entry is the group or is inside it."""
    parents = {entry.uid: entry.parent for entry in plan.outline}
    while uid is not None:
        if uid == group:
            return True
        uid = parents[uid]
    return False


@given(plans())
def test_parts_refer_to_entries(plan: Plan) -> None:
    """Parents are earlier groups, links lead forward and not into their own group."""
    position = {entry.uid: number for number, entry in enumerate(plan.outline)}
    assert len(position) == len(plan.outline)
    groups = {group.uid for group in plan.groups()}
    for entry in plan.outline:
        assert entry.parent is None or entry.parent in groups
        assert entry.parent is None or position[entry.parent] < position[entry.uid]
    for link in plan.links:
        assert position[link.predecessor] < position[link.successor]
        assert not _inside(plan, link.successor, link.predecessor)
        assert not _inside(plan, link.predecessor, link.successor)
    assert {a.task for a in plan.assignments} <= {task.uid for task in plan.tasks()}
    assert {a.resource for a in plan.assignments} == {r.uid for r in plan.resources}


@given(plans())
def test_groups_hold_tasks(plan: Plan) -> None:
    """Every group has a task somewhere below it."""
    for group in plan.groups():
        assert any(_inside(plan, task.uid, group.uid) for task in plan.tasks())


@given(plans())
def test_crash_is_below_normal(plan: Plan) -> None:
    """A shortest duration is positive and below the normal one, with one price."""
    for task in plan.tasks():
        if task.crash is not None:
            assert 0 < task.crash.minutes < task.minutes
            assert (task.crash.slope is None) != (task.crash.cost is None)


@given(plans(features=frozenset()))
def test_absent_features_are_absent(plan: Plan) -> None:
    """Without features a plan has groups, tasks of whole days and plain links only."""
    assert not plan.resources and not plan.calendar.exceptions
    for task in plan.tasks():
        plain = Task(task.uid, task.where, task.name, task.minutes, task.parent, row=task.row)
        assert task == plain
        assert task.minutes % 480 == 0
    entries = {entry.uid: entry for entry in plan.outline}
    for link in plan.links:
        assert link.kind.value == "FS" and link.lag.minutes == 0
        assert not isinstance(entries[link.predecessor], Group)


def test_all_features_are_named() -> None:
    """The default draws every feature."""
    assert ALL_FEATURES == frozenset(Feature)
