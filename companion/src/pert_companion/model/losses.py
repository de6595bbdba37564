"""What a reader or `carry` could not take over, each with its place in the source."""

import re
from collections import Counter
from collections.abc import Iterable, Sequence
from dataclasses import dataclass
from enum import Enum

from pert_companion.model.lines import one_line


class LossKind(str, Enum):
    """The kinds of losses, as `--accept` names them."""

    TASK = "task"
    LINK = "link"
    DURATION = "duration"
    FRACTION = "fraction"
    ELAPSED = "elapsed"
    CRASH = "crash"
    COST = "cost"
    CONSTRAINT = "constraint"
    DEADLINE = "deadline"
    PROGRESS = "progress"
    DATE = "date"
    RESOURCE = "resource"
    CALENDAR = "calendar"
    LOE = "loe"
    TITLE = "title"
    CODE = "code"
    GROUP = "group"
    PAUSE = "pause"
    BASELINE = "baseline"
    FIELD = "field"
    SIZE = "size"


MEANINGS: dict[LossKind, str] = {
    LossKind.TASK: "a row or task that is left out: inactive, without a duration, unreadable",
    LossKind.LINK: "a link that is left out, or an end of a group that is not that of one task",
    LossKind.DURATION: "a duration or an estimate that cannot be read or is too long for a deck",
    LossKind.FRACTION: "a duration, lag, amount or quantity that is rounded up to a whole number",
    LossKind.ELAPSED: "elapsed time of a task that counts as working time",
    LossKind.CRASH: "a shortest duration that makes no sense or has no price; it is not used",
    LossKind.COST: "an amount that cannot be read or is not from 0 to a million millions",
    LossKind.CONSTRAINT: "a date constraint that cannot be read, or that no side file keeps",
    LossKind.DEADLINE: "a deadline that cannot be read, or that no side file keeps",
    LossKind.PROGRESS: "progress without a date, or with one outside of the project so far",
    LossKind.DATE: "a date that cannot be read",
    LossKind.RESOURCE: "a resource or a quantity of one that is left out",
    LossKind.CALENDAR: "a calendar, or a part of one, that is not followed",
    LossKind.LOE: "a task whose duration follows from other tasks (level of effort)",
    LossKind.TITLE: "a title of more than 80 bytes that no side file keeps",
    LossKind.CODE: "a code that an earlier task has",
    LossKind.GROUP: "a group that is too deep, or what belongs to tasks and a group has",
    LossKind.PAUSE: "a task that is split, or that a deck lets pause although others wait for its"
    " start",
    LossKind.BASELINE: "a baseline that cannot be read, or that no side file keeps",
    LossKind.FIELD: "a column, a field or a value of the file that is not read",
    LossKind.SIZE: "a part of the file that is too much",
}
"""What each kind of loss is, as `pert-import --help` and its page say it."""


@dataclass(frozen=True)
class Loss:
    """One thing that is not carried over."""

    kind: LossKind
    where: str
    """The place in the source: `row 12`, `task UID 7`, `table TASK, line 40`."""
    name: str
    """The name of the task or group, or an empty text."""
    field: str
    """The column or field of the source, or an empty text."""
    text: str
    """What the source has there."""
    why: str
    """Why it is not carried over, and what was done instead."""

    def line(self, file: str) -> str:
        """Returns the line for the user, which names file, place, task, field, text and reason."""
        parts = [f"{file}: {self.where}"]
        if self.name:
            parts.append(f"task {self.name!r}")
        if self.field:
            parts.append(f"{self.field} {self.text!r}")
        elif self.text:
            parts.append(repr(self.text))
        return f"{', '.join(parts)}: {self.why} [{self.kind.value}]"

    def kept(self) -> "Loss":
        """Returns the loss as a side file keeps it: on one line, and not without bounds."""
        where, name, field = _short(self.where), _short(self.name), _short(self.field)
        return Loss(self.kind, where, name, field, _short(self.text), _short(self.why))


MOST_KEPT = 500
"""The characters of each text of a loss that a side file keeps."""


def _short(text: str) -> str:
    return one_line(text)[:MOST_KEPT]


_NUMBER = re.compile(r"\b(row |line |cell [A-Z]*)[0-9]+")
"""What of a place changes when something is put in above it."""


def _identity(loss: Loss) -> tuple[str, ...]:
    """Returns what a loss is known by: its task, or without one its place but for its number."""
    kept = loss.kept()
    place = _NUMBER.sub(r"\1", kept.where)
    return (kept.kind.value, kept.name or place, kept.field, kept.text)


@dataclass(frozen=True)
class Acceptance:
    """What the user lets go: losses of some kinds, and those that were accepted before."""

    kinds: frozenset[LossKind] = frozenset()
    earlier: tuple[Loss, ...] = ()

    def divided(self, losses: Iterable[Loss]) -> tuple[list[Loss], list[Loss]]:
        """Returns the losses that are accepted and those that are not, in their order."""
        listed = list(losses)
        known = self._known(listed)
        taken: list[Loss] = []
        refused: list[Loss] = []
        for at, loss in enumerate(listed):
            is_taken = loss.kind in self.kinds or at in known
            (taken if is_taken else refused).append(loss)
        return taken, refused

    def _known(self, losses: Sequence[Loss]) -> set[int]:
        """Returns the places in the list of the losses that were accepted before.

        Each earlier loss makes one known: the one at its own place, or else the first like it.
        """
        left = Counter(map(_identity, self.earlier))
        there = Counter((loss.kept().where, _identity(loss)) for loss in self.earlier)
        known: set[int] = set()
        for at, loss in enumerate(losses):
            key = loss.kept().where, _identity(loss)
            if there[key]:
                there[key] -= 1
                left[key[1]] -= 1
                known.add(at)
        for at, loss in enumerate(losses):
            if at not in known and left[_identity(loss)]:
                left[_identity(loss)] -= 1
                known.add(at)
        return known


def counted_kinds(losses: Iterable[Loss]) -> str:
    """Returns how many losses there are of each kind: `3 deadline, 1 link`."""
    counts = Counter(loss.kind.value for loss in losses)
    return ", ".join(f"{count} {kind}" for kind, count in counts.items())


NAMED = {
    LossKind.TASK: "left-out row",
    LossKind.LINK: "left-out link",
    LossKind.DURATION: "unread duration",
    LossKind.FRACTION: "rounded number",
    LossKind.ELAPSED: "elapsed duration that counts as working time",
    LossKind.CRASH: "shortest duration that is not used",
    LossKind.COST: "cost that is not used",
    LossKind.CONSTRAINT: "date constraint that is not followed",
    LossKind.DEADLINE: "unread deadline",
    LossKind.PROGRESS: "report of progress that is not used",
    LossKind.DATE: "unread date",
    LossKind.RESOURCE: "left-out resource",
    LossKind.CALENDAR: "calendar that is not followed",
    LossKind.LOE: "level of effort",
    LossKind.TITLE: "shortened title",
    LossKind.CODE: "changed code",
    LossKind.GROUP: "property of a group that is not kept",
    LossKind.PAUSE: "task in pieces",
    LossKind.BASELINE: "unread baseline",
    LossKind.FIELD: "unread field",
    LossKind.SIZE: "left-out part of the file",
}
"""What one loss of each kind is called where accepted losses are counted."""


def accepted_text(losses: Iterable[Loss]) -> str:
    """Returns what was accepted, for people: `6 × calendar that is not followed`."""
    counts = Counter(loss.kind for loss in losses)
    return ", ".join(f"{count} \u00d7 {NAMED[kind]}" for kind, count in counts.items())
