"""Finds the moments that each task starts and finishes after: what AFTER cards can say.

A deck knows one kind of link: a task begins when another has ended. A lead ends before the finish
of a task, so it needs a cut there: the task becomes parts. A lead before a start, or before a
finish that waits for others, is one before everything that these wait for. Of several lags after
one end only the longest counts.
"""

from collections.abc import Iterable, Iterator, Sequence
from heapq import heappop, heappush
from itertools import chain

from pert_companion.carry.model import End, Moment, Node, Tie
from pert_companion.model.errors import InputError
from pert_companion.model.losses import Loss, LossKind

MAX_PASSED = 300
"""How many tasks a lead may reach back over."""
MAX_MOMENTS = 200_000
"""How many moments the tasks of a plan may wait for: many times what a deck has links for."""


class CannotCarry(Exception):
    """Why a tie has no equivalent in a deck."""


def resolve(order: Sequence[Node]) -> list[Loss]:
    """Gives each node the moments that its start and its finish come after.

    Ties without equivalent are taken out, each with a loss. Lags and durations are in units. Raises
    `InputError` if leads of groups make more moments than any deck can have.
    """
    losses: list[Loss] = []
    moments = 0
    begins_others = set(_begun_from(order))
    for node in order:
        node.latest_early = _early_start(node)
    for node in order:
        if node.is_milestone:
            node.starts, node.finishes = node.starts + node.finishes, []
        node.starts = _carried(node, node.starts, losses)
        node.finishes = _carried(node, node.finishes, losses)
        if node in begins_others:
            _tie_start_to_finish(node, losses)
        node.after_start = moments_of(node.starts)
        node.after_finish = moments_of(node.finishes)
        moments += len(node.after_start) + len(node.after_finish)
        if moments > MAX_MOMENTS:
            raise InputError(
                f"the links of groups with leads are more than {MAX_MOMENTS} links of their tasks;"
                " link milestones at the ends of the groups instead"
            )
    for node in order:
        for moment in node.after_start + node.after_finish:
            _note_need(moment)
    return losses


def _begun_from(order: Sequence[Node]) -> Iterator[Node]:
    """Yields the nodes after whose start another one comes."""
    for node in order:
        for tie in node.starts + node.finishes:
            if tie.end is End.START and tie.before is not None:
                yield tie.before


def _early_start(node: Node) -> int:
    """Returns the earliest start of a node at normal durations, in units."""
    bounds = [_end_of(tie) + tie.lag for tie in node.starts]
    bounds.extend(_end_of(tie) + tie.lag - node.normal for tie in node.finishes)
    return max([0, *bounds])


def _end_of(tie: Tie) -> int:
    if tie.before is None:
        return 0
    return tie.before.latest_early + (tie.before.normal if tie.end is End.FINISH else 0)


def _note_need(moment: Moment) -> None:
    if moment.node is None:
        return
    if moment.end is End.START:
        moment.node.needs_start = True
    elif moment.end is End.CUT:
        moment.node.cuts.add(moment.lag)


def _carried(node: Node, ties: list[Tie], losses: list[Loss]) -> list[Tie]:
    """Returns the ties that have an equivalent; the others are losses."""
    try:
        moments_of(ties)
        return ties
    except CannotCarry:
        pass  # one by one then
    kept = []
    for tie in ties:
        try:
            moments_of([tie])
            kept.append(tie)
        except CannotCarry as reason:
            losses.append(_loss(LossKind.LINK, node, tie, str(reason)))
    return kept


def _tie_start_to_finish(node: Node, losses: list[Loss]) -> None:
    """Lets the start of a task that others wait for come late enough for its finish.

    A planner's task is done in one piece, so it starts no earlier than its normal duration before
    its finish may be. In a deck the time between them may be longer: it would pause.
    """
    for tie in list(node.finishes):
        early = Tie(tie.before, tie.end, tie.lag - node.normal, False, tie.link)
        try:
            moments_of([early])
            node.starts.append(early)
        except CannotCarry as reason:
            why = f"others wait for its start, and it may pause before its finish: {reason}"
            losses.append(_loss(LossKind.PAUSE, node, tie, why))


def _loss(kind: LossKind, node: Node, tie: Tie, why: str) -> Loss:
    if tie.link is None:
        return Loss(kind, node.where, node.name, "constraint", "", why)
    return Loss(kind, tie.link.where or node.where, node.name, "link", tie.link.text, why)


def moments_of(ties: Iterable[Tie]) -> list[Moment]:
    """Returns the moments after which all ties hold, in the order of the plan.

    There is at most one for each end of a task.

    Raises `CannotCarry` if a lead is longer than a task that can be shortened, or reaches back over
    too many tasks.
    """
    listed = list(ties)
    try:
        found = _search(listed)
    except CannotCarry:
        if len(listed) < 2:
            raise
        found = longest(chain.from_iterable(_search([tie]) for tie in listed))
    return sorted(found, key=lambda moment: moment.order)


def _search(ties: Iterable[Tie]) -> list[Moment]:
    search = _Search()
    for tie in ties:
        search.add(tie, 0)
    return search.moments()


def longest(moments: Iterable[Moment]) -> list[Moment]:
    """Returns one moment for each end of a task: the latest, which all others come before."""
    found: dict[tuple[Node | None, End], Moment] = {}
    for moment in moments:
        key = (moment.node, moment.end)
        known = found.setdefault(key, moment)
        is_later = moment.lag < known.lag if moment.end is End.CUT else moment.lag > known.lag
        if is_later:
            found[key] = moment
    return list(found.values())


class _Search:
    """Walks from ends with leads back to ends without them, latest task first.

    An end that comes before the start of the project, less its lead, says nothing.
    """

    def __init__(self) -> None:
        self._lags: dict[tuple[Node, End], int] = {}
        self._waiting: list[int] = []
        self._by_index: dict[int, Node] = {}
        self._first_day = 0
        self._passed = 0

    def add(self, tie: Tie, lag: int) -> None:
        """Adds the end of a tie, with a lag (or lead, if negative) after the tie's own."""
        if tie.before is None:
            self._first_day = max(self._first_day, tie.lag + lag)
            return
        end = End.START if tie.before.is_milestone else tie.end
        self._add(tie.before, end, tie.lag + lag)

    def _add(self, node: Node, end: End, lag: int) -> None:
        if lag < 0 and _end_of(Tie(node, end, 0)) + lag <= 0:
            return
        key = (node, end)
        if key not in self._lags:
            heappush(self._waiting, -node.index)
            self._by_index[node.index] = node
        self._lags[key] = max(lag, self._lags.get(key, lag))

    def moments(self) -> list[Moment]:
        """Returns the moments of all ties that were added."""
        found: list[Moment] = []
        while self._waiting:
            node = self._by_index[-heappop(self._waiting)]
            finish = self._lags.pop((node, End.FINISH), None)
            if finish is not None:
                found.extend(self._at_finish(node, finish))
            start = self._lags.pop((node, End.START), None)
            if start is not None:
                found.extend(self._at_start(node, start))
        if self._first_day > 0:
            found.append(Moment(None, End.START, self._first_day))
        return found

    def _at_finish(self, node: Node, lag: int) -> list[Moment]:
        if lag >= 0:
            return [Moment(node, End.FINISH, lag)]
        self._pass_over(node, node.finishes, lag)
        if node.is_fixed and -lag >= node.normal:
            self._add(node, End.START, node.normal + lag)
            return []
        if -lag > node.shortest:
            raise CannotCarry(f"the lead is longer than {node.name!r} may become")
        return [Moment(node, End.CUT, -lag)]

    def _at_start(self, node: Node, lag: int) -> list[Moment]:
        if lag >= 0:
            end = End.FINISH if node.is_milestone else End.START
            return [Moment(node, end, lag)]
        self._pass_over(node, node.starts, lag)
        return []

    def _pass_over(self, node: Node, ties: Sequence[Tie], lag: int) -> None:
        """Adds what an end of a node waits for, with a lead before it.

        The end of a group is no task that a lead passes over.
        """
        if ties and node.task is not None:
            self._passed += 1
            if self._passed > MAX_PASSED:
                raise CannotCarry(f"its leads reach back over more than {MAX_PASSED} tasks")
        for tie in ties:
            self.add(tie, lag)
