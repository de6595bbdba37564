"""What differs between two states of a project: as a list, and as a diff of the files."""

from collections.abc import Iterator, Mapping
from dataclasses import dataclass
from difflib import unified_diff

from pert_companion.desk.project_edits import PRICES, contract_day
from pert_companion.desk.amounts import amounts_of
from pert_companion.desk.saving import files_of
from pert_companion.desk.views import Json, Rows, data_date
from pert_companion.importing.month_end import Books
from pert_companion.model.figures import plain_number
from pert_companion.model.sidefile import SideTask

FIELDS = {
    "name": "name",
    "normal": "normal duration",
    "shortest": "shortest duration",
    "price": "price of a day less",
    "cost": "cost",
    "optimistic": "optimistic estimate",
    "likely": "likely estimate",
    "pessimistic": "pessimistic estimate",
    "links_text": "comes after",
    "percent": "per cent complete",
    "actual_start": "actual start",
    "actual_finish": "actual finish",
    "remaining": "remaining duration",
}
"""The fields of a row that are compared, as people call them."""
MOST_LINES = 5000
"""Lines of a diff that are shown."""


@dataclass(frozen=True)
class Change:
    """A field that is not what it was; of the project if `task` is empty."""

    task: str
    name: str
    field: str
    before: str
    after: str

    def json(self) -> Json:
        """Returns the change as JSON has it."""
        return {
            "task": self.task,
            "name": self.name,
            "field": self.field,
            "before": self.before,
            "after": self.after,
        }


def changes_between(before: Books, after: Books) -> list[Change]:
    """Returns what is not as it was, the project first, then tasks in the order of the plan."""
    if before is after:
        return []
    found = list(_of_project(before, after))
    codes = set(changed_codes(before, after))
    old_rows, new_rows = Rows(before, {}), Rows(after, {})
    old = {task.code: task for task in before.side.tasks}
    new = {task.code: task for task in after.side.tasks}
    for task in after.side.tasks:
        if task.code not in old:
            found.append(Change(task.code, task.name, "task", "", "new"))
        elif task.code in codes:
            found.extend(_of_task(old_rows.row(old[task.code]), new_rows.row(task)))
    for task in before.side.tasks:
        if task.code not in new:
            found.append(Change(task.code, task.name, "task", "there", ""))
    return found


def _of_task(old: Json, new: Json) -> Iterator[Change]:
    for field, name in FIELDS.items():
        before, after = old[field], new[field]
        if before != after:
            yield Change(str(new["code"]), str(new["name"]), name, _text(before), _text(after))


def _of_project(before: Books, after: Books) -> Iterator[Change]:
    old, new = _project_texts(before), _project_texts(after)
    for name in {**old, **new}:
        texts = old.get(name, ""), new.get(name, "")
        if texts[0] != texts[1]:
            yield Change("", "", name, *texts)


def _project_texts(books: Books) -> dict[str, str]:
    """Returns what the project has besides its tasks, as texts."""
    amounts, terms = amounts_of(books.side), books.deck.terms
    found = {
        "title": books.deck.project.title,
        "first day": books.deck.project.start_date.isoformat(),
        "data date": _text(data_date(books)),
        "contract date": _text(contract_day(books.deck, books.side)),
        "vouchers": str(len(books.ledger.vouchers)),
        "spent": amounts.money(sum(card.amount for card in books.deck.charges)),
    }
    for name in PRICES:
        price = 0 if terms is None else getattr(terms, name)
        found[f"{name} of a day"] = amounts.price(price) if price else ""
    for each in books.side.capacities:
        found[f"capacity of {each.name}"] = plain_number(each.units)
    return found


def _text(value: object) -> str:
    return "" if value is None else str(value)


def changed_codes(before: Books, after: Books) -> Iterator[str]:
    """Yields the codes of the tasks of the later state whose cards, links or progress differ."""
    old = _facts(before)
    for code, facts in _facts(after).items():
        if old.get(code) != facts:
            yield code


def _facts(books: Books) -> Mapping[str, tuple[object, ...]]:
    """Returns what each task has: its entry, its cards, what they come after, and their status."""
    deck = books.deck
    cards = {card.code: card for card in deck.work}
    more: dict[str, list[object]] = {}
    for after in deck.afters:
        more.setdefault(after.task, []).append(after.before)
    for status in deck.statuses:
        more.setdefault(status.activity, []).append((status.letter, status.day))
    return {task.code: (task, *_card_facts(task, cards, more)) for task in books.side.tasks}


def _card_facts(
    task: SideTask, cards: Mapping[str, object], more: Mapping[str, list[object]]
) -> Iterator[object]:
    for code in (*task.parts, task.start_moment, task.finish_moment):
        if code is not None:
            yield cards[code]
            yield from more.get(code, [])


def diff_between(before: Books, after: Books, name: str) -> str:
    """Returns the difference of the decks, and of the side files if the decks are the same."""
    old, new = files_of(before), files_of(after)
    lines = _diff(old.deck, new.deck, name)
    if not lines and old.side != new.side:
        lines = _diff(old.side or b"", new.side or b"", f"{name.removesuffix('.csv')}.json")
    if len(lines) > MOST_LINES:
        lines = [*lines[:MOST_LINES], f".. and {len(lines) - MOST_LINES} lines more\n"]
    return "".join(lines)


def _diff(old: bytes, new: bytes, name: str) -> list[str]:
    before, after = (data.decode().splitlines(keepends=True) for data in (old, new))
    return list(unified_diff(before, after, f"{name} as opened", f"{name} now"))
