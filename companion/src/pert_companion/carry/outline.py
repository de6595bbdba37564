"""The WBS items of a plan: one for each group, and one of their own for tasks next to groups.

A deck has 16 levels of items, and tasks belong only to items with none below them.
"""

from dataclasses import dataclass, field

from pert_companion.carry.codes import CODE, Codes, one_line, shortened, title
from pert_companion.model.cards import ItemCard
from pert_companion.model.errors import InputError
from pert_companion.model.losses import Loss, LossKind
from pert_companion.model.plan import Group, Plan
from pert_companion.model.sidefile import SideGroup

MAX_LEVEL = 16


@dataclass
class Outline:
    """The items of a deck, and the item of each task."""

    items: list[ItemCard] = field(default_factory=list)
    groups: list[SideGroup] = field(default_factory=list)
    item_of: dict[str | None, str] = field(default_factory=dict)
    """The code of the item of the tasks right in a group, by the group's uid (None: the top)."""
    losses: list[Loss] = field(default_factory=list)


def build(plan: Plan) -> Outline:
    """Returns the items of a plan, each after the one above it.

    If one group holds everything it is the top; else the top has the name of the plan. Groups below
    level 16 are no items of their own: their tasks belong to the item above, and each is a loss.
    Raises `InputError` for groups that are in each other.
    """
    builder = _Builder(plan)
    roots = builder.below.get(None, [])
    if len(roots) == 1 and None not in builder.has_tasks:
        builder.add_all([_Placed(roots[0], "", 1)])
    else:
        top = builder.add_top(plan.name, bool(roots))
        builder.add_all([_Placed(group, top, 2) for group in roots])
    return builder.finished()


@dataclass(frozen=True)
class _Placed:
    """A group with the code of the item above it, and its level; the top has level 1."""

    group: Group
    parent: str
    level: int


class _Builder:
    """Gives each group its item, from the top down."""

    def __init__(self, plan: Plan) -> None:
        self.plan = plan
        self.codes = Codes()
        self.outline = Outline()
        self.has_tasks = {task.parent for task in plan.tasks()}
        self.below: dict[str | None, list[Group]] = {}
        for group in plan.groups():
            self.below.setdefault(group.parent, []).append(group)

    def add_top(self, name: str, has_groups: bool) -> str:
        """Adds a top item for a plan that has none, and returns its code."""
        code = self.codes.make(shortened(name))
        self.outline.items.append(ItemCard(code, "", title(name)))
        self.add_own(None, code, has_items=has_groups or None in self.has_tasks)
        return code

    def add_all(self, placed: list[_Placed]) -> None:
        """Adds the items of groups and of all groups below them."""
        waiting = list(reversed(placed))
        while waiting:
            at = waiting.pop()
            below = self.below.get(at.group.uid, [])
            code = at.parent
            if at.level <= MAX_LEVEL:
                code = self.add(at, has_items=bool(below) and at.level < MAX_LEVEL)
            else:
                self.fold(at)
            waiting.extend(_Placed(group, code, at.level + 1) for group in reversed(below))

    def add(self, at: _Placed, has_items: bool) -> str:
        """Adds the item of a group and returns its code."""
        group = at.group
        own = group.code.strip(".")
        if CODE.fullmatch(own) and self.codes.is_free(own):
            code = self.codes.take(own)
        else:
            code = self.codes.make(shortened(group.name))
        self.outline.items.append(ItemCard(code, at.parent, title(group.name)))
        self.outline.groups.append(SideGroup(code, group.uid, one_line(group.name), group.row))
        self.add_own(group.uid, code, has_items or at.level == 1)
        return code

    def add_own(self, uid: str | None, code: str, has_items: bool) -> None:
        """Says which item the tasks right in a group have: its own, or one next to its groups."""
        self.outline.item_of[uid] = code
        if has_items and uid in self.has_tasks:
            own = self.codes.make(code, ".own")
            self.outline.items.append(ItemCard(own, code, "Tasks of no further group"))
            self.outline.item_of[uid] = own

    def fold(self, at: _Placed) -> None:
        """Puts the tasks of a group that is too deep into the item above it."""
        group = at.group
        self.outline.item_of[group.uid] = at.parent
        why = f"a deck has {MAX_LEVEL} levels; its tasks belong to the item {at.parent}"
        self.outline.losses.append(Loss(LossKind.GROUP, group.where, group.name, "", "", why))

    def finished(self) -> Outline:
        """Returns the outline, or raises `InputError` if groups were never reached."""
        for group in self.plan.groups():
            if group.uid not in self.outline.item_of:
                raise InputError(f"{group.where}: group {group.name!r} is in itself")
        return self.outline
