"""The data that a report page holds, so that anybody can check it and make the page again.

A page has four elements, `<script type="application/json" id="..">`, each once, whose text
`embedded` makes. Their SHA-256 (`checksum_of_blocks`) is that of the data of the page:

`pert-deck`
    `{"name": NAME, "text": TEXT}`: the name of the deck's file, and the text that the programs
    read. For a deck of tasks that is what `pert arrows` wrote, for remaining work the deck of
    the remaining work. TEXT has the same lines, line ends and byte order mark as the file.

`pert-certificate`
    The certificate in compact form, at most `MOST_BYTES`. Instead of a larger one there is
    `null`, and the page says so. The form has changes from each segment to the next, not whole
    segments:

        {"form": 1,
         "head": "1 SHED 3 3",
         "normal": "A B", "crash": "A B",
         "events": "S M T", "activities": "A B C",
         "segments": ["9 7 45 3|1 4 1;2 9 1|0 4 3 0;1 5 3 0;2 7",
                      "7 5 51 7|1|0 2 3 2;1 5 5 0;2 7 2 0"]}

    - `head`: what follows `CERT ` in the first line.
    - `normal`, `crash`: the activities of the two walks. All lists have one space between two
      words, and are empty texts if there are none.
    - `events`, `activities`: their codes in the order of the EVENT and ACT lines.
    - Each segment has three parts, separated by `|`: the four numbers of the SEGMENT line, the
      changes of events and the changes of activities. Changes are separated by `;` and rise by
      the place of their event or activity, counted from 0. Who has no change is as expected.
    - An event is expected to keep its bit, and a moving one to be earlier by upper minus lower of
      the segment before. Before the first segment all events have time 0 and bit 0. Its change is
      `PLACE` if only the bit is the other one, else `PLACE TIME BIT`.
    - An activity is expected to keep duration and flows. Before the first segment these are 0 and
      the flows `0 0`. Its change is `PLACE DURATION` if the flows stay, else
      `PLACE DURATION FLOWS`.

`pert-side`
    `{"sha256": DIGEST, "text": TEXT}`: what a deck cannot say of the one in `pert-deck`, whose
    text has this SHA-256. TEXT is a side file as docs/side-file.md describes it, with the calendar,
    the currency and the tasks.

`pert-source`
    The states and options that the page is a function of (source.py).

`certificate.js` reads the compact form in the page. `expand` there and here are the same.
"""

from __future__ import annotations

import json
import re
from collections.abc import Iterator, Mapping, Sequence
from dataclasses import dataclass
from hashlib import sha256
from itertools import compress
from operator import ne

from pert_companion.model.errors import CompanionError
from pert_companion.programs.certificate import parts

FORM = 1
MOST_BYTES = 8_000_000

BLOCKS = ("pert-source", "pert-deck", "pert-side", "pert-certificate")
"""The elements in their order, which is that of their checksum."""

_NUMBER = "(?:0|[1-9][0-9]{0,17})"
_CODE = "[A-Za-z0-9._-]{1,16}"
_HEAD = re.compile(f"CERT ([12] {_CODE} {_NUMBER} {_NUMBER})")
_STEP = re.compile(f"STEP ({_CODE})")
_SEGMENT = re.compile(f"SEGMENT ({_NUMBER} {_NUMBER} {_NUMBER} {_NUMBER})")
_EVENT = re.compile(f"EVENT ({_CODE}) ({_NUMBER}) ([01])")
_ACT = re.compile(f"ACT ({_CODE}) ({_NUMBER}) ({_NUMBER}(?: {_NUMBER}){{1,5}})")


class DataError(CompanionError):
    """A certificate that has no compact form, or data that no page of ours holds."""


@dataclass
class _State:
    """What a segment is expected to be: an entry per event or activity, in the order of lines."""

    times: list[int]
    bits: list[int]
    durations: list[str]
    flows: list[str]

    @staticmethod
    def initial(events: int, activities: int) -> _State:
        return _State([0] * events, [0] * events, ["0"] * activities, ["0 0"] * activities)

    def fall(self, span: int) -> None:
        """Moves the events that move to the lower end of a segment."""
        for event, bit in enumerate(self.bits):
            self.times[event] -= bit * span


def _matched(form: re.Pattern[str], line: str) -> re.Match[str]:
    """Returns the match of a line that must have a form."""
    found = form.fullmatch(line)
    if found is None:
        raise DataError("a line of the certificate is not well-formed")
    return found


class _Expected:
    """The lines of events and activities that a segment has if nothing changes.

    Most lines of a segment are as expected, so only the others are taken apart.
    """

    def __init__(self, lines: Sequence[str]) -> None:
        """Takes the lines of the first segment, for their codes."""
        is_event = [line.startswith("EVENT ") for line in lines]
        count = sum(is_event)
        if not all(is_event[:count]):
            raise DataError("an event of the certificate follows an activity")
        self.events = [_matched(_EVENT, line)[1] for line in lines[:count]]
        self.activities = [_matched(_ACT, line)[1] for line in lines[count:]]
        self._lines = [f"EVENT {code} 0 0" for code in self.events]
        self._lines += [f"ACT {code} 0 0 0" for code in self.activities]
        self._moving: dict[int, int] = {}
        """The times of the events that move, by place."""

    def changes(self, lines: Sequence[str]) -> tuple[str, str]:
        """Returns the changes of events and of activities in the next segment, and takes them."""
        if len(lines) != len(self._lines):
            raise DataError(_DIFFERENT)
        events, activities = [], []
        for place in list(compress(range(len(lines)), map(ne, lines, self._lines))):
            if place < len(self.events):
                events.append(self._event_change(place, lines[place]))
            else:
                activities.append(self._activity_change(place, lines[place]))
            self._lines[place] = lines[place]
        return ";".join(events), ";".join(activities)

    def _event_change(self, event: int, line: str) -> str:
        found = _matched(_EVENT, line)
        if found[1] != self.events[event]:
            raise DataError(_DIFFERENT)
        expected_time = self._lines[event].split(" ")[2]
        if found[3] == "1":
            self._moving[event] = int(found[2])
        else:
            self._moving.pop(event, None)
        return str(event) if found[2] == expected_time else f"{event} {found[2]} {found[3]}"

    def _activity_change(self, place: int, line: str) -> str:
        found = _matched(_ACT, line)
        activity = place - len(self.events)
        if found[1] != self.activities[activity]:
            raise DataError(_DIFFERENT)
        expected_flows = self._lines[place].split(" ", 3)[3]
        change = f"{activity} {found[2]}"
        return change if found[3] == expected_flows else f"{change} {found[3]}"

    def fall(self, span: int) -> None:
        """Moves the events that move to the lower end of a segment."""
        for event in self._moving:
            self._moving[event] -= span
            self._lines[event] = f"EVENT {self.events[event]} {self._moving[event]} 1"


_DIFFERENT = "the segments of the certificate differ in their events or activities"


class Compactor:
    """Takes a certificate as its parts come and keeps its compact form.

    Every certificate that `pert certify` writes has one. A malformed text has none, nor has one in
    which events or activities differ from segment to segment: taking it raises `DataError`. What is
    larger than a page may carry is not kept.
    """

    def __init__(self, most: int = MOST_BYTES) -> None:
        """Takes the most bytes that the segments may have."""
        self._most = most
        self._head: dict[str, str] = {}
        self._expected = _Expected([])
        self._segments: list[str] = []
        self._size = 0
        self._has_ended = False

    def take(self, part: bytes) -> None:
        """Takes the next part, as `certificate.parts` has them."""
        if self._size > self._most:
            return
        if not part.endswith(b"\n"):
            raise DataError("the last line of the certificate has no line feed")
        if self._has_ended:
            raise DataError("something follows the end of the certificate")
        lines = part[:-1].decode("ascii").split("\n")
        if not self._head:
            lines = self._without_head(lines)
        if lines[-1] == "CLOSE":
            self._take_segment(lines[0], lines[1:-1])
        elif lines == ["END"]:
            self._has_ended = True
        else:
            raise DataError("a part of the certificate is neither a segment nor its end")

    def _without_head(self, lines: list[str]) -> list[str]:
        """Takes the lines before the first segment, and returns the others."""
        count = 0
        while not lines[count].startswith("SEGMENT ") and lines[count] != "END":
            count += 1
            if count == len(lines):
                raise DataError("the certificate has no end")
        walks = lines[1:count]
        if "CRASH" not in walks or walks[0] != "NORMAL":
            raise DataError("the certificate does not have its two walks")
        middle = walks.index("CRASH")
        self._head = {
            "head": _matched(_HEAD, lines[0])[1],
            "normal": " ".join(_matched(_STEP, line)[1] for line in walks[1:middle]),
            "crash": " ".join(_matched(_STEP, line)[1] for line in walks[middle + 1 :]),
        }
        return lines[count:]

    def _take_segment(self, ends: str, lines: Sequence[str]) -> None:
        segment = _matched(_SEGMENT, ends)[1]
        if not self._segments:
            self._expected = _Expected(lines)
        self._segments.append("|".join([segment, *self._expected.changes(lines)]))
        self._size += len(self._segments[-1])
        upper, lower = _ends(segment)
        self._expected.fall(upper - lower)

    def data(self) -> dict[str, object]:
        """Returns the compact form of a certificate that has ended."""
        if not self._has_ended:
            raise DataError("the certificate has no end")
        return {
            "form": FORM,
            **self._head,
            "events": " ".join(self._expected.events),
            "activities": " ".join(self._expected.activities),
            "segments": self._segments,
        }

    def text(self) -> str | None:
        """Returns the text of the element `pert-certificate`, or None if it is too large."""
        if self._size > self._most:
            return None
        text = embedded(self.data())
        return text if len(text) <= self._most else None


def compact(certificate: str) -> dict[str, object]:
    """Returns the compact form of a certificate. Raises `DataError` if it has none."""
    compactor = Compactor(len(certificate))
    for part in parts([certificate.encode("ascii")]):
        compactor.take(part)
    return compactor.data()


def expand(data: object) -> str:
    """Returns the certificate of a compact form, byte for byte the one that `compact` was given.

    Data that somebody changed gives another text, which need not be a certificate.

    Raises `DataError` if the data does not have the form that `compact` returns.
    """
    return "".join(expanded(data))


def expanded(data: object) -> Iterator[str]:
    """Yields the text that `expand` returns, segment by segment."""
    texts = _texts(data)
    events, activities = _words(texts["events"]), _words(texts["activities"])
    yield f"CERT {texts['head']}\nNORMAL\n"
    yield "".join(f"STEP {code}\n" for code in _words(texts["normal"]))
    yield "CRASH\n"
    yield "".join(f"STEP {code}\n" for code in _words(texts["crash"]))
    state = _State.initial(len(events), len(activities))
    for segment in _segments(data):
        ends, event_changes, activity_changes = _three_parts(segment)
        _change_events(state, event_changes)
        _change_activities(state, activity_changes)
        lines = [f"SEGMENT {ends}\n"]
        for code, time, bit in zip(events, state.times, state.bits):
            lines.append(f"EVENT {code} {time} {bit}\n")
        for code, duration, flows in zip(activities, state.durations, state.flows):
            lines.append(f"ACT {code} {duration} {flows}\n")
        lines.append("CLOSE\n")
        yield "".join(lines)
        upper, lower = _ends(ends)
        state.fall(upper - lower)
    yield "END\n"


def _texts(data: object) -> dict[str, str]:
    if not isinstance(data, dict) or data.get("form") != FORM:
        raise DataError("not the compact form of a certificate")
    texts = {}
    for name in ("head", "normal", "crash", "events", "activities"):
        if not isinstance(data.get(name), str):
            raise DataError(f"the certificate has no {name}")
        texts[name] = data[name]
    return texts


def _segments(data: object) -> list[str]:
    segments = data.get("segments") if isinstance(data, dict) else None
    if not isinstance(segments, list) or not all(isinstance(it, str) for it in segments):
        raise DataError("the certificate has no list of segments")
    return segments


def _words(text: str) -> list[str]:
    return text.split(" ") if text else []


def _three_parts(segment: str) -> list[str]:
    parts = segment.split("|")
    if len(parts) != 3:
        raise DataError("a segment of the certificate does not have three parts")
    return parts


def _number(word: str) -> int:
    if not re.fullmatch("[0-9]{1,18}", word):
        raise DataError("a change in the certificate has a word that is no number")
    return int(word)


def _ends(text: str) -> tuple[int, int]:
    """Returns the two ends of a segment, or 0 and 0 if the line is malformed."""
    found = re.match("([0-9]{1,18}) ([0-9]{1,18}) ", text)
    return (int(found[1]), int(found[2])) if found else (0, 0)


def _changes(text: str, count: int) -> Iterator[tuple[int, list[str]]]:
    """Yields the place of each change and its further words."""
    for change in text.split(";") if text else []:
        place, *words = change.split(" ")
        if _number(place) >= count:
            raise DataError("a change in the certificate is at a place that there is not")
        yield int(place), words


def _change_events(state: _State, changes: str) -> None:
    for event, words in _changes(changes, len(state.times)):
        if not words:
            state.bits[event] = 1 - state.bits[event]
        elif len(words) == 2 and words[1] in ("0", "1"):
            state.times[event], state.bits[event] = _number(words[0]), int(words[1])
        else:
            raise DataError("a change of an event does not have a time and a bit")


def _change_activities(state: _State, changes: str) -> None:
    for activity, words in _changes(changes, len(state.durations)):
        if not words:
            raise DataError("a change of an activity has no duration")
        state.durations[activity] = words[0]
        if len(words) > 1:
            state.flows[activity] = " ".join(words[1:])


def embedded(data: object) -> str:
    """Returns data as the text of a `<script type="application/json">` element.

    The text is ASCII without `<`, `>` and `&`, so nothing in it can end the element or begin
    another one.
    """
    text = json.dumps(data, ensure_ascii=True, separators=(",", ":"))
    for mark in "<>&":
        text = text.replace(mark, f"\\u{ord(mark):04x}")
    return text


def embedded_deck(name: str, text: str) -> str:
    """Returns the text of the element `pert-deck`."""
    return embedded({"name": name, "text": text})


def checksum_of_blocks(blocks: Mapping[str, str]) -> str:
    """Returns the SHA-256 of the texts of all elements in their order, each with a line feed."""
    return sha256("".join(f"{blocks[name]}\n" for name in BLOCKS).encode()).hexdigest()


def block_of(page: str, name: str) -> str:
    """Returns the text of the one element of a page with this id.

    Raises `DataError` if the page has none or more of them.
    """
    found = re.findall(f'<script type="application/json" id="{name}">([^<]*)</script>', page)
    if len(found) != 1:
        raise DataError(f"{'no' if not found else f'{len(found)} copies of'} {name}")
    return str(found[0])


def checksum_of(page: str) -> str:
    """Returns the SHA-256 of the data of a page."""
    return checksum_of_blocks({name: block_of(page, name) for name in BLOCKS})
