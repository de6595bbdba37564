"""Makes the groups and tasks of a plan from the rows of a list, each with a stable id."""

from collections.abc import Sequence, Set
from dataclasses import dataclass, field, replace
from decimal import Decimal

from pert_companion.model.figures import plain_number
from pert_companion.model.logic import CLOCK_NAME
from pert_companion.model.losses import LossKind
from pert_companion.model.plan import Group, Task
from pert_companion.readers.cells import CellReader
from pert_companion.readers.grid import clip
from pert_companion.readers.list_calendars import ListCalendars
from pert_companion.readers.outline import Node, Row
from pert_companion.readers.values import is_nothing, is_yes, text_of

TOTALS = frozenset(
    "total totals sum summe gesamt gesamtsumme insgesamt subtotal sub-total zwischensumme".split()
    + [
        "grand total",
        "total cost",
        "total costs",
        "total project",
        "gesamtkosten",
        "endsumme",
    ]
)
LEVELS_OF_EFFORT = frozenset(("level of effort", "wbs summary", "tt_loe", "tt_wbs", "hammock"))
MILESTONES = frozenset(("start milestone", "finish milestone", "milestone", "meilenstein"))
MANUAL = frozenset(("manually scheduled", "manual", "manuell geplant", "manuell"))


@dataclass
class Entries:
    """The entries of a plan in the order of the list, and which row each one is."""

    of_node: dict[Node, Task | Group] = field(default_factory=dict)
    node_of: dict[int, Node] = field(default_factory=dict)
    """The node of each row that is an entry, by the number of the row."""

    def of_row(self, row: Row) -> Task | Group | None:
        """Returns the entry of a row; None if the row is none."""
        node = self.node_of.get(row.number)
        return None if node is None else self.of_node[node]

    def parents(self) -> dict[str, str | None]:
        """Returns the uid of the group that holds each entry, by the entry's uid."""
        return {entry.uid: entry.parent for entry in self.of_node.values()}

    def tasks(self) -> list[tuple[Task, Row]]:
        """Returns the tasks with their rows, in the order of the list."""
        found = []
        for node, entry in self.of_node.items():
            if isinstance(entry, Task) and node.row is not None:
                found.append((entry, node.row))
        return found


def without_passed_over(rows: Sequence[Row], reader: CellReader) -> list[Row]:
    """Returns the rows that are entries of the plan; names those that are not."""
    kept = []
    for row in rows:
        if row.text("active") and not is_yes(row.cell("active")):
            reader.lose(row, "active", "the task is not active", kind=LossKind.TASK)
        elif is_total(row):
            reader.notes.append(f"row {row.number}, a row of totals, is not read")
        elif row.text("type").casefold() in LEVELS_OF_EFFORT:
            why = "its duration follows from other activities"
            reader.lose(row, "type", why, kind=LossKind.LOE)
        elif not row.name and not row.text("code"):
            text = " ".join(text_of(cell) for cell in row.cells.values())
            reader.lose(row, "name", "this row has no name", text, LossKind.TASK)
        else:
            kept.append(row)
    return kept


def is_total(row: Row) -> bool:
    """Says whether a row holds the totals of others."""
    return row.name.casefold().strip(" :") in TOTALS


def make_entries(nodes: Sequence[Node], reader: CellReader, calendars: ListCalendars) -> Entries:
    """Returns the entries of the nodes. Rows without a duration, and empty groups, are named."""
    entries = Entries()
    uids: dict[Node, str] = {}
    taken: set[str] = set()
    wbs_codes = _codes_of_one(nodes)
    durations = _durations(nodes, reader)
    id_fields = _id_fields(nodes)
    for node in _with_content(nodes, durations, reader):
        uids[node] = _uid(node, id_fields, taken, reader)
        parent = uids[node.parent] if node.parent is not None else None
        if node.row is not None:
            entries.node_of[node.row.number] = node
        if node.is_group or node.row is None:
            entries.of_node[node] = _group(node, uids[node], parent, reader)
        else:
            code = _code(node, node.row, wbs_codes)
            basis = Task(uids[node], node.row.where, "", durations[node], parent, code)
            basis = _task(basis, node.row, reader)
            entries.of_node[node] = _with_calendar(basis, node.row, reader, calendars)
    return entries


def _durations(nodes: Sequence[Node], reader: CellReader) -> dict[Node, int]:
    """Returns the normal duration of each node that is no group and has one."""
    found = {}
    for node in nodes:
        if node.row is not None and not node.is_group:
            minutes = _normal(node.row, reader)
            if minutes is not None:
                found[node] = minutes
    return found


def _normal(row: Row, reader: CellReader) -> int | None:
    """Returns the normal duration of a row; the most likely one if the list has no other."""
    for name in ("duration", "likely"):
        if not is_nothing(row.cell(name)):
            return reader.minutes(row, name)
    return 0 if _is_milestone(row) else None


def _with_content(
    nodes: Sequence[Node], durations: dict[Node, int], reader: CellReader
) -> list[Node]:
    """Returns the nodes that are tasks or hold some; names the rows of the others."""
    kept: set[Node] = set()
    for node in reversed(nodes):
        if node in kept or node in durations:
            kept.add(node)
            if node.parent is not None:
                kept.add(node.parent)
    for node in nodes:
        if node not in kept and node.row is not None:
            _name_empty(node, node.row, reader)
    return [node for node in nodes if node in kept]


def _is_milestone(row: Row) -> bool:
    return is_yes(row.cell("milestone")) or row.text("type").casefold() in MILESTONES


def _name_empty(node: Node, row: Row, reader: CellReader) -> None:
    if not is_nothing(row.cell("duration")) and not node.is_group:
        return  # the duration is named already
    if row.is_lone:
        reader.notes.append(f"row {row.number} is not read: {clip(row.name)!r}")
    elif node.is_group:
        reader.lose(row, "name", "this group holds no task", "", LossKind.GROUP)
    else:
        why = "this row has no duration and no rows below it"
        reader.lose(row, "duration", why, kind=LossKind.TASK)


def _id_fields(nodes: Sequence[Node]) -> tuple[str, ...]:
    """Returns the columns that hold the id of a row, best first.

    A column of numbers next to codes is one if each row has its own and they do not just count the
    rows: then a code may change, and the task is still the same.
    """
    ids = [node.row.text("id") for node in nodes if node.row is not None]
    numbers = [int(text) if text.isascii() and text.isdigit() else -1 for text in ids]
    counted = [number - at for at, number in enumerate(numbers)]
    if all(ids) and len(set(ids)) == len(ids) and len(set(counted)) > 1:
        return ("uid", "id", "code")
    return ("uid", "code", "id")


def _uid(node: Node, id_fields: Sequence[str], taken: set[str], reader: CellReader) -> str:
    """Returns the id of an entry: of its own columns first, or else of its row."""
    row = node.row
    if row is None:
        return _unique(node.wbs or node.name, "", taken)
    for name in id_fields:
        key = clip(row.text(name))
        if key:
            if key in taken:
                why = "an earlier row has this one too"
                reader.lose(row, name, why, kind=LossKind.CODE)
            return _unique(key, f"@{row.number}", taken)
    return _unique(f"row {row.number}", "", taken)


def _unique(wanted: str, ending: str, taken: set[str]) -> str:
    uid = wanted
    if uid in taken and ending:
        uid = wanted + ending
    number = 2
    while uid in taken:
        uid = f"{wanted}@{number}"
        number += 1
    taken.add(uid)
    return uid


def _codes_of_one(nodes: Sequence[Node]) -> frozenset[str]:
    """Returns the outline codes that only one node has."""
    once: set[str] = set()
    more: set[str] = set()
    for node in nodes:
        (more if node.wbs in once else once).add(node.wbs)
    return frozenset(once - more - {""})


def _number_of(row: Row) -> int:
    """Returns the number that people know a row by: of its column of numbers, or of the file."""
    text = row.text("id")
    return int(text) if text.isascii() and text.isdigit() and len(text) <= 9 else row.number


def _group(node: Node, uid: str, parent: str | None, reader: CellReader) -> Group:
    if node.row is None:
        return Group(uid, "", clip(node.name, 200), parent, clip(node.wbs))
    reader.check_group(node.row)
    code = node.row.text("code") or node.wbs
    return Group(uid, node.row.where, node.name, parent, clip(code), _number_of(node.row))


def _code(node: Node, row: Row, wbs_codes: frozenset[str]) -> str:
    code = row.text("code")
    number = row.text("id")
    if code or not number or number.isdigit():
        return clip(code or (node.wbs if node.wbs in wbs_codes else ""))
    return clip(number)


def _task(basis: Task, row: Row, reader: CellReader) -> Task:
    """Returns a task with everything that its row says."""
    cost = reader.amount(row, "cost")
    return replace(
        basis,
        name=row.name or row.text("code"),
        row=_number_of(row),
        estimates=reader.estimates(row, basis.minutes),
        crash=reader.crash(row, basis.minutes, cost),
        cost=cost,
        constraint=reader.constraint(row),
        deadline=reader.day(row, "deadline"),
        listed_start=reader.day(row, "start"),
        listed_finish=reader.day(row, "finish"),
        progress=reader.progress(row),
        baselines=reader.baselines(row),
        manual=row.text("mode").casefold() in MANUAL,
    )


def _with_calendar(task: Task, row: Row, reader: CellReader, calendars: ListCalendars) -> Task:
    """Returns a task with its calendar, if that is not the plan's."""
    if reader.is_by_clock(row):
        return replace(task, calendar=CLOCK_NAME)
    name = reader.read(row, "calendar", lambda cell: calendars.name_of(text_of(cell)))
    return replace(task, calendar=name)


def check_totals(rows: Sequence[Row], entries: Entries, reader: CellReader) -> None:
    """Names the costs of groups and rows of totals that are not the sum of their tasks' costs."""
    for name in ("cost", "actcost"):
        if name not in reader.head.columns:
            continue
        sums, total = _sums(entries, name)
        for node, entry in entries.of_node.items():
            if isinstance(entry, Group) and node.row is not None:
                _compare(node.row, name, sums.get(node, Decimal(0)), reader)
        for row in rows:
            if is_total(row):
                _compare_total(row, name, total, {*sums.values(), total}, reader)


def _sums(entries: Entries, name: str) -> tuple[dict[Node, Decimal], Decimal]:
    """Returns the sum of the tasks' costs, or actual costs, for each group and for all."""
    sums: dict[Node, Decimal] = {}
    total = Decimal(0)
    for node, entry in entries.of_node.items():
        if not isinstance(entry, Task):
            continue
        cost = entry.cost if name == "cost" else entry.progress.actual_cost
        total += cost or 0
        above = node.parent
        while above is not None:
            sums[above] = sums.get(above, Decimal(0)) + (cost or 0)
            above = above.parent
    return sums, total


def _compare(row: Row, name: str, total: Decimal, reader: CellReader) -> None:
    given = reader.amount(row, name)
    if given and given != total:
        why = f"the sum of its tasks is {plain_number(total)}; what is over needs a task of its own"
        reader.lose(row, name, why)


def _compare_total(
    row: Row, name: str, total: Decimal, sums: Set[Decimal], reader: CellReader
) -> None:
    """Names a total that is neither the sum of all tasks nor that of a group."""
    given = reader.amount(row, name)
    if given and given not in sums:
        reader.lose(row, name, f"the sum of the tasks is {plain_number(total)}")
