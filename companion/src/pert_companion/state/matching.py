"""Matches the real tasks and the accounts of two states of one project.

A task is the same by the id of its source, else by the project's map of renames, else by its code.
In a deck without source ids the code is no id, so that a rename holds there too.
"""

from collections.abc import Callable, Iterable, Mapping, Sequence
from dataclasses import dataclass

from pert_companion.model.deck import Deck
from pert_companion.model.registers import Renames
from pert_companion.model.sidefile import SideTask
from pert_companion.state.project import ProjectState


@dataclass(frozen=True)
class Matching:
    """Which tasks of an old state are which of a new one, and who has no counterpart."""

    pairs: tuple[tuple[SideTask, SideTask], ...]
    """Old and new entry, in the order of the new state."""
    gone: tuple[SideTask, ...]
    new: tuple[SideTask, ...]

    def old_of(self) -> dict[str, SideTask]:
        """Returns the old entry of each matched task by its new code."""
        return {new.code: old for old, new in self.pairs}


def match_states(old: ProjectState, new: ProjectState) -> Matching:
    """Returns how the tasks of two states match, by the renames that the newer one knows."""
    return match_tasks(old.side.tasks, new.side.tasks, new.registers.renames)


def match_tasks(
    old: Sequence[SideTask], new: Sequence[SideTask], renames: Renames = Renames()
) -> Matching:
    """Returns how the tasks of two states match. A task is matched at most once."""
    by_uid = {task.uid: task for task in old}
    by_name = {task.code: task for task in old} | by_uid
    by_code = {task.code: task for task in old}
    rounds: tuple[tuple[dict[str, SideTask], Callable[[SideTask], Iterable[str]]], ...] = (
        (by_uid, lambda task: _source_ids(task, by_uid)),
        (by_name, lambda task: (*renames.others(task.code), *renames.others(task.uid))),
        (by_code, _code),
    )
    taken: set[str] = set()
    found: dict[str, SideTask] = {}
    for keys, names_of in rounds:
        for task in new:
            if task.code in found:
                continue
            before = _first_free(keys, names_of(task), taken)
            if before is not None:
                found[task.code] = before
                taken.add(before.code)
    pairs = tuple((found[task.code], task) for task in new if task.code in found)
    gone = tuple(task for task in old if task.code not in taken)
    added = tuple(task for task in new if task.code not in found)
    return Matching(pairs, gone, added)


def _first_free(
    keys: dict[str, SideTask], names: Iterable[str], taken: set[str]
) -> SideTask | None:
    """Returns the first task with one of these names that no other task is matched with."""
    for name in names:
        task = keys.get(name)
        if task is not None and task.code not in taken:
            return task
    return None


def _source_ids(task: SideTask, by_uid: Mapping[str, SideTask]) -> tuple[str, ...]:
    """Returns the id of a task; none if neither it nor the older one has an id but its code."""
    before = by_uid.get(task.uid)
    if before is not None and task.uid == task.code and before.uid == before.code:
        return ()
    return (task.uid,)


def _code(task: SideTask) -> tuple[str, ...]:
    return (task.code,)


def match_accounts(old: Deck, new: Deck, renames: Renames = Renames()) -> dict[str, str]:
    """Returns the newer code of each account of an older deck that the newer one still has."""
    names = renames.names_of(account.code for account in new.accounts)
    found: dict[str, str] = {}
    taken: set[str] = set()
    for account in old.accounts:
        code = names.get(account.code)
        if code is not None and code not in taken:
            found[account.code] = code
            taken.add(code)
    return found


def proposed_renames(
    matching: Matching, old: ProjectState, new: ProjectState
) -> tuple[tuple[SideTask, SideTask], ...]:
    """Returns tasks that went with the one that came in their place, if just one is like them.

    Alike are tasks of the same duration and cost; of several the one in the same groups.
    """
    costs_old = {card.code: card.cost for card in old.deck.work}
    costs_new = {card.code: card.cost for card in new.deck.work}
    scale_old, scale_new = old.side.money_scale, new.side.money_scale
    found = []
    for gone in matching.gone:
        cost = sum(costs_old[part] for part in gone.parts) * scale_new
        alike = []
        for task in matching.new:
            same_cost = sum(costs_new[part] for part in task.parts) * scale_old == cost
            if same_cost and task.minutes == gone.minutes:
                alike.append(task)
        if len(alike) > 1:
            alike = [task for task in alike if task.outline == gone.outline]
        if len(alike) == 1:
            found.append((gone, alike[0]))
    claimed = [task.code for _, task in found]
    return tuple((gone, task) for gone, task in found if claimed.count(task.code) == 1)
