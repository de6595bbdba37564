"""Codes of cards: from the source's own ids first, else from names, and the same next month.

A code that a task has this month must not mean another one next month. So a code is made of what
belongs to the task alone: its id, or its name. The names of groups are added only where names are
not unique, a checksum only where shortened names are not.
"""

import re
import unicodedata
from collections import Counter
from collections.abc import Iterable, Mapping, Sequence
from hashlib import sha256

from pert_companion.model.plan import Group, Plan, Task

MAX_LENGTH = 16
CODE = re.compile(r"[A-Za-z0-9.-][A-Za-z0-9._-]{0,15}")
"""A code that a deck of tasks accepts: it does not begin with an underscore."""

STABLE_SOURCES = frozenset({"mspdi", "xer", "pmxml", "gan", "gnome_planner"})
"""The formats whose ids stay with a task when rows are added above it."""

_WORD = re.compile(r"[A-Za-z0-9]+(?:\.[0-9]+)*")
_STOP_WORDS = frozenset(
    "the a an of and for to in on der die das den dem des und im am fur fuer von".split()
)
_LETTERS = str.maketrans(
    {"ä": "ae", "ö": "oe", "ü": "ue", "Ä": "Ae", "Ö": "Oe", "Ü": "Ue", "ß": "ss"}
    | {"æ": "ae", "ø": "o", "å": "a", "Æ": "Ae", "Ø": "O", "Å": "A", "ł": "l", "Ł": "L"}
)


class Codes:
    """Codes that are each given once, capital and small letters alike."""

    def __init__(self) -> None:
        self._taken: set[str] = set()
        self._numbers: dict[tuple[str, str], int] = {}
        """The last number that was tried for a base and a suffix; lower ones are taken."""

    def is_free(self, code: str) -> bool:
        """Says whether nobody has the code."""
        return code.casefold() not in self._taken

    def take(self, code: str) -> str:
        """Returns the code, which is free, and gives it."""
        self._taken.add(code.casefold())
        return code

    def make(self, base: str, suffix: str = "") -> str:
        """Returns a free code of a base and a suffix, with a number between them if need be."""
        code = base[: MAX_LENGTH - len(suffix)].rstrip("-._") + suffix
        number = self._numbers.get((base, suffix), 1)
        while not self.is_free(code):
            number += 1
            ending = f"-{number}{suffix}"
            code = base[: MAX_LENGTH - len(ending)].rstrip("-._") + ending
        self._numbers[base, suffix] = number
        return self.take(code)


def plain(text: str) -> str:
    """Returns a text in ASCII letters, as far as it has any."""
    decomposed = unicodedata.normalize("NFKD", text.translate(_LETTERS))
    return decomposed.encode("ascii", "ignore").decode()


def words_of(text: str) -> list[str]:
    """Returns the words of a text that a code can have, without articles and the like."""
    words = _WORD.findall(plain(text[:1000]).replace("'", ""))
    telling = [word for word in words if word.casefold() not in _STOP_WORDS]
    return telling or words or ["task"]


def shortened(text: str) -> str:
    """Returns a code that reads like a text and depends on nothing else.

    Words are joined by hyphens. If they are too long, the longest one (the last of several) loses
    its last letter until they fit; words with digits stay as long as others have letters to lose.
    """
    words = [_Word(word) for word in words_of(text)[:8]]
    excess = _excess(words)
    while excess > 0:
        *others, longest = sorted(words, key=_Word.letters_to_lose)
        lead = longest.letters_to_lose() - others[-1].letters_to_lose() if others else excess
        longest.lose(max(1, min(lead, excess)))
        words = [word for word in words if word.length]
        excess = _excess(words)
    return "-".join(word.text[: word.length] for word in words).rstrip(".")


def _excess(words: Sequence["_Word"]) -> int:
    """Returns how many letters a code of these words has too many."""
    return sum(word.length for word in words) + len(words) - 1 - MAX_LENGTH


class _Word:
    """A word of a code that loses letters at its end."""

    def __init__(self, text: str) -> None:
        self.text = text
        digits = (at for at, character in enumerate(text) if character.isdigit())
        self._first_digit = next(digits, None)
        self.length = len(text)
        if self._first_digit is None:  # such a word never keeps more
            self.length = min(self.length, MAX_LENGTH)

    def letters_to_lose(self) -> int:
        """Returns how ready the word is to lose a letter; one with digits comes last."""
        return self.length - (100 if self._digits() else 0)

    def lose(self, letters: int) -> None:
        """Takes so many letters off the end, or fewer: those from the first digit on, or all."""
        self.length -= min(letters, self._digits() or self.length)

    def _digits(self) -> int:
        """Returns how many characters are left from the first digit on."""
        return 0 if self._first_digit is None else max(0, self.length - self._first_digit)


def task_codes(plan: Plan, codes: Codes) -> tuple[dict[str, str], list[str]]:
    """Returns the code of each task by uid, and notes on codes that a deck cannot have.

    A task has its own code or id if a deck can have it and no earlier task does. The ids of a list
    that only count its rows are none.
    """
    found: dict[str, str] = {}
    notes: list[str] = []
    candidates = [{task.uid: task.code for task in plan.tasks()}]
    if has_stable_ids(plan):
        candidates.append({task.uid: _code_of_uid(task.uid) for task in plan.tasks()})
    for wanted in candidates:
        for uid, code in wanted.items():
            if uid not in found and CODE.fullmatch(code) and codes.is_free(code):
                found[uid] = codes.take(code)
    rest = [task for task in plan.tasks() if task.uid not in found]
    found.update(_codes_of_names(rest, plan, codes))
    for task in plan.tasks():
        if task.code not in ("", task.name, found[task.uid]):
            notes.append(f"{task.where}: the code {task.code!r} becomes {found[task.uid]}")
    return found, notes


def has_stable_ids(plan: Plan) -> bool:
    """Says whether the ids of tasks stay with them when rows are added above them."""
    if plan.source in STABLE_SOURCES:
        return True
    return any(task.row is None or task.uid != str(task.row) for task in plan.tasks())


def _code_of_uid(uid: str) -> str:
    if uid.isascii() and uid.isdigit():
        return f"T{uid}"
    return uid


def _codes_of_names(tasks: Sequence[Task], plan: Plan, codes: Codes) -> dict[str, str]:
    """Returns codes of the names of tasks, by uid."""
    texts = _distinct_texts(tasks, plan)
    bases = {uid: shortened(text) for uid, text in texts.items()}
    shared = _shared(base.casefold() for base in bases.values())
    found = {}
    for uid, base in bases.items():
        if base.casefold() in shared or not codes.is_free(base):
            mark = "-" + sha256(texts[uid].encode("utf-8", "replace")).hexdigest()[:3]
            base = base[: MAX_LENGTH - len(mark)].rstrip("-.") + mark
        found[uid] = codes.make(base)
    return found


def _distinct_texts(tasks: Sequence[Task], plan: Plan) -> dict[str, str]:
    """Returns the name of each task, with the names of its groups where others have it too."""
    groups = {group.uid: group for group in plan.groups()}
    texts = {task.uid: task.name for task in tasks}
    above = {task.uid: path_of(task, groups) for task in tasks}
    for depth in range(1, 4):
        shared = _shared(text.casefold() for text in texts.values())
        if not shared:
            break
        for task in tasks:
            names = above[task.uid][-depth:]
            if texts[task.uid].casefold() in shared and names:
                texts[task.uid] = " ".join([task.name, *reversed(names)])
    return texts


def path_of(entry: Task | Group, groups: Mapping[str, Group]) -> tuple[str, ...]:
    """Returns the names of the groups above a task or group, from the top."""
    names = []
    parent = entry.parent
    while parent is not None:
        names.append(groups[parent].name)
        parent = groups[parent].parent
    return tuple(reversed(names))


def _shared(texts: Iterable[str]) -> set[str]:
    return {text for text, count in Counter(texts).items() if count > 1}


def title(text: str) -> str:
    """Returns a text as the title of a card: printable, and at most 80 bytes of it."""
    return one_line(text).encode("utf-8", "replace")[:80].decode("utf-8", "ignore").rstrip()


def one_line(text: str) -> str:
    """Returns a text with single spaces for all that is not printable."""
    if text.isprintable():
        return " ".join(text.split())
    return " ".join("".join(c if c.isprintable() else " " for c in text).split())
