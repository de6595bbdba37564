"""Proposals for `renames.csv`: what went, each with the one that came in its place and is like it.

Tasks are alike if they last and cost the same. Accounts are alike if the tasks of the one are now
in the package of the other, or else if they have the same budget. Nothing is proposed where several
are alike.
"""

from collections.abc import Iterator
from dataclasses import dataclass

from pert_companion.model.cards import AccountCard
from pert_companion.state.matching import Matching, match_accounts, proposed_renames
from pert_companion.state.project import ProjectState


@dataclass(frozen=True)
class Renaming:
    """A task or an account that may have another code now."""

    what: str
    """`task` or `account`."""
    old: str
    new: str
    old_name: str
    new_name: str


def renamings(matching: Matching, old: ProjectState, new: ProjectState) -> tuple[Renaming, ...]:
    """Returns what may have been renamed from an older state to a newer one: tasks, accounts."""
    found = []
    for gone, came in proposed_renames(matching, old, new):
        found.append(Renaming("task", gone.code, came.code, gone.name, came.name))
    accounts = list(_account_renamings(matching, old, new))
    claimed = [each.new for each in accounts]
    found.extend(each for each in accounts if claimed.count(each.new) == 1)
    return tuple(found)


def _account_renamings(
    matching: Matching, old: ProjectState, new: ProjectState
) -> Iterator[Renaming]:
    """Yields each account that went with the one that is like it, which others may be like too."""
    names = match_accounts(old.deck, new.deck, new.registers.renames)
    known = set(names.values())
    came = [account for account in new.deck.accounts if account.code not in known]
    scales = old.side.money_scale, new.side.money_scale
    packages = _packages_now(matching, old, new)
    for gone in old.deck.accounts:
        if gone.code in names:
            continue
        alike = [account for account in came if account.item in packages.get(gone.item, ())]
        if len(alike) != 1:
            alike = [account for account in alike or came if _same_budget(gone, account, scales)]
        if len(alike) == 1:
            yield Renaming("account", gone.code, alike[0].code, gone.title, alike[0].title)


def _same_budget(gone: AccountCard, came: AccountCard, scales: tuple[int, int]) -> bool:
    """Says whether two accounts have the same budget, which is not 0, in one unit of money."""
    return bool(gone.budget) and gone.budget * scales[1] == came.budget * scales[0]


def _packages_now(matching: Matching, old: ProjectState, new: ProjectState) -> dict[str, set[str]]:
    """Returns the packages in which the tasks of each package of the older state are now."""
    before = {card.code: card.item for card in old.deck.work}
    after = {card.code: card.item for card in new.deck.work}
    found: dict[str, set[str]] = {}
    for older, newer in matching.pairs:
        found.setdefault(before[older.parts[0]], set()).add(after[newer.parts[0]])
    return found
