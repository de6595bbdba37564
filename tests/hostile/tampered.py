"""Certificates that somebody changed: single bytes, single words, and the structure as a whole.

Everything is determined by the `random.Random` that is passed in.
"""

from __future__ import annotations

import copy
from collections.abc import Callable, Iterator
from dataclasses import dataclass
from random import Random

OTHERS = [bytes([byte]) for byte in b"0123456789ABCSTMEN \n\t\r-+.x\xff"]


def one_byte_changed(text: bytes) -> Iterator[bytes]:
    """Yields each prefix, and the text with each byte replaced, left out, doubled or preceded."""
    for i in range(len(text)):
        yield text[:i]
        for other in OTHERS:
            if other != text[i : i + 1]:
                yield text[:i] + other + text[i + 1 :]
        yield text[:i] + text[i + 1 :]
        for other in (text[i : i + 1], b"0", b" ", b"\n"):
            yield text[:i] + other + text[i:]
    for other in (b"0", b" ", b"\n", b"x"):
        yield text + other


def endless(text: bytes) -> Iterator[bytes]:
    """Yields long texts: of one byte or line again and again, alone or after a right beginning."""
    yield bytes(1_000_000)
    yield b"\n" * 1_000_000
    yield b"STEP A\n" * 100_000
    yield text + b"y\n" * 100_000
    yield text[: text.index(b"STEP")] + b"STEP A\n" * 100_000


def one_line_changed(text: bytes, chance: Random) -> bytes:
    """Returns the text with one number, word, line or pair of lines changed."""
    lines = text.split(b"\n")[:-1]
    k = chance.randrange(len(lines))
    words = lines[k].split(b" ")
    way = chance.randrange(6)
    w = chance.randrange(len(words))
    if way < 3 and words[w].isdigit():
        step = chance.choice([1, -1, 2, 10, 10**17])
        words[w] = str(abs(int(words[w]) + step)).encode()
        lines[k] = b" ".join(words)
    elif way == 3:
        del lines[k]
    elif way == 4:
        lines.insert(k, chance.choice(lines))
    else:
        lines[k] = chance.choice(lines)
    return b"".join(line + b"\n" for line in lines)


# ---- The structure of a certificate


@dataclass
class Segment:
    """A segment: its four numbers, and the words of its EVENT and ACT lines after the kind."""

    upper: int
    lower: int
    cost: int
    slope: int
    events: list[list[str]]
    acts: list[list[str]]

    @property
    def fall(self) -> int:
        """By how much the segment is shortened."""
        return self.upper - self.lower

    def lines(self) -> list[list[str]]:
        """Returns the lines in four sections."""
        ends = f"SEGMENT {self.upper} {self.lower} {self.cost} {self.slope}"
        events = [" ".join(["EVENT", *words]) for words in self.events]
        acts = [" ".join(["ACT", *words]) for words in self.acts]
        return [[ends], events, acts, ["CLOSE"]]

    def shorten(self, span: int) -> None:
        """Moves the upper end down as far as the schedule of the segment says."""
        self.upper -= span
        self.cost += self.slope * span
        for words in self.events:
            words[1] = str(max(0, int(words[1]) - span * int(words[2])))

    def rest(self) -> None:
        """Makes all events rest and all flows 0, as in a segment with equal ends."""
        self.slope = 0
        for words in self.events:
            words[2] = "0"
        for words in self.acts:
            words[2:] = ["0"] * len(words[2:])


@dataclass
class Certificate:
    """A certificate by its parts. The walks are lists of codes."""

    head: str
    normal: list[str]
    crash: list[str]
    segments: list[Segment]

    @staticmethod
    def parse(text: bytes) -> Certificate:
        """Returns the parts of a right certificate."""
        head, *lines = text.decode().splitlines()
        walks: list[list[str]] = []
        segments: list[Segment] = []
        for line in lines:
            kind, *words = line.split(" ")
            if kind in ("NORMAL", "CRASH"):
                walks.append([])
            elif kind == "STEP":
                walks[-1] += words
            elif kind == "SEGMENT":
                upper, lower, cost, slope = map(int, words)
                segments.append(Segment(upper, lower, cost, slope, [], []))
            elif kind == "EVENT":
                segments[-1].events.append(words)
            elif kind == "ACT":
                segments[-1].acts.append(words)
        return Certificate(head, walks[0], walks[1], segments)

    def sections(self) -> list[list[str]]:
        """Returns the lines in sections: head, walks, four for each segment, end."""
        sections = [[self.head]]
        sections.append(["NORMAL", *(f"STEP {code}" for code in self.normal)])
        sections.append(["CRASH", *(f"STEP {code}" for code in self.crash)])
        for segment in self.segments:
            sections += segment.lines()
        return [*sections, ["END"]]


# ---- Changes of structure. Each changes a certificate in place; it may have no segment left.


def repeat_segment(certificate: Certificate, chance: Random) -> None:
    """Inserts a segment again, at any place."""
    again = copy.deepcopy(chance.choice(certificate.segments))
    certificate.segments.insert(chance.randint(0, len(certificate.segments)), again)


def drop_segment(certificate: Certificate, chance: Random) -> None:
    """Leaves out a segment."""
    del certificate.segments[chance.randrange(len(certificate.segments))]


def swap_segments(certificate: Certificate, chance: Random) -> None:
    """Exchanges two segments."""
    segments = certificate.segments
    i, k = chance.randrange(len(segments)), chance.randrange(len(segments))
    segments[i], segments[k] = segments[k], segments[i]


def join_segments(certificate: Certificate, chance: Random) -> None:
    """Makes one segment of two neighbours, with the schedule or the flows of one of them."""
    if len(certificate.segments) < 2:
        return
    k = chance.randrange(len(certificate.segments) - 1)
    first, second = certificate.segments[k : k + 2]
    joined = copy.deepcopy(first)
    joined.lower = second.lower
    if chance.random() < 0.5:
        joined.slope = second.slope
        joined.acts = copy.deepcopy(second.acts)
    certificate.segments[k : k + 2] = [joined]


def split_segment(certificate: Certificate, chance: Random) -> None:
    """Makes two segments of one; where it is longer than a unit, both go down."""
    k = chance.randrange(len(certificate.segments))
    first = certificate.segments[k]
    second = copy.deepcopy(first)
    span = chance.randint(0, max(0, first.fall))
    first.lower = first.upper - span
    second.shorten(span)
    certificate.segments.insert(k + 1, second)


def insert_degenerate(certificate: Certificate, chance: Random) -> None:
    """Inserts a segment with equal ends at an end of another one, mostly before the first."""
    k = chance.choice([0, chance.randrange(len(certificate.segments))])
    added = copy.deepcopy(certificate.segments[k])
    is_above = chance.random() < 0.6
    if not is_above:
        added.shorten(added.fall)
    added.lower = added.upper
    if chance.random() < 0.8:
        added.rest()
    if chance.random() < 0.2 and added.events:
        added.events[-1][2] = "1"
    certificate.segments.insert(k if is_above else k + 1, added)


def make_degenerate(certificate: Certificate, chance: Random) -> None:
    """Gives a segment equal ends."""
    segment = chance.choice(certificate.segments)
    segment.lower = segment.upper
    if chance.random() < 0.8:
        segment.rest()


def shift_ends(certificate: Certificate, chance: Random) -> None:
    """Moves an end of a segment, and mostly the end that it meets."""
    k = chance.randrange(len(certificate.segments))
    span = chance.choice([1, -1, 2])
    certificate.segments[k].lower = max(0, certificate.segments[k].lower - span)
    if k + 1 < len(certificate.segments) and chance.random() < 0.7:
        certificate.segments[k + 1].upper = certificate.segments[k].lower


def permute_rows(certificate: Certificate, chance: Random) -> None:
    """Exchanges two EVENT or two ACT lines, or only their codes, in one segment or in all."""
    is_event = chance.random() < 0.5
    whole = chance.random() < 0.5
    everywhere = chance.random() < 0.3
    chosen = certificate.segments if everywhere else [chance.choice(certificate.segments)]
    tables = [segment.events if is_event else segment.acts for segment in chosen]
    count = min(len(rows) for rows in tables)
    if count == 0:
        return
    i, k = chance.randrange(count), chance.randrange(count)
    for rows in tables:
        if whole:
            rows[i], rows[k] = rows[k], rows[i]
        else:
            rows[i][0], rows[k][0] = rows[k][0], rows[i][0]


def change_rows(certificate: Certificate, chance: Random) -> None:
    """Takes a row of events or activities from another segment, or drops or repeats one."""
    segment, other = chance.choice(certificate.segments), chance.choice(certificate.segments)
    rows, others = segment.events, other.events
    if chance.random() < 0.5:
        rows, others = segment.acts, other.acts
    count = min(len(rows), len(others))
    if count == 0:
        return
    k = chance.randrange(count)
    way = chance.randrange(4)
    if way == 0:
        del rows[k]
    elif way == 1:
        rows.insert(k, list(others[k]))
    else:
        rows[k] = list(others[k])


def change_walk(certificate: Certificate, chance: Random) -> None:
    """Inserts, drops or replaces a step of a walk, or shuffles all."""
    walk = chance.choice([certificate.normal, certificate.crash])
    codes = [words[0] for words in certificate.segments[0].acts] or ["A"]
    at = chance.randint(0, len(walk))
    way = chance.randrange(4)
    if way == 0:
        walk.insert(at, chance.choice(codes))
    elif way == 1 and walk:
        del walk[at - 1]
    elif way == 2 and walk:
        walk[at - 1] = chance.choice(codes)
    else:
        chance.shuffle(walk)


def exchange_walks(certificate: Certificate, _: Random) -> None:
    """Exchanges the two walks."""
    certificate.normal, certificate.crash = certificate.crash, certificate.normal


def turn_bits(certificate: Certificate, chance: Random) -> None:
    """Turns the bit of an event, from a segment on."""
    first = chance.randrange(len(certificate.segments))
    event = chance.randrange(10)
    for segment in certificate.segments[first:]:
        if event < len(segment.events):
            words = segment.events[event]
            words[2] = "1" if words[2] == "0" else "0"


def move_flow(certificate: Certificate, chance: Random) -> None:
    """Moves flow from one knee of an activity to the next, or to the number beside the knees."""
    acts = chance.choice(certificate.segments).acts
    if not acts:
        return
    words = chance.choice(acts)
    i, k = chance.randrange(2, len(words)), chance.randrange(2, len(words))
    words[i], words[k] = words[k], words[i]


CHANGES: list[Callable[[Certificate, Random], None]] = [
    repeat_segment,
    drop_segment,
    swap_segments,
    join_segments,
    split_segment,
    insert_degenerate,
    insert_degenerate,
    make_degenerate,
    shift_ends,
    permute_rows,
    change_rows,
    change_walk,
    exchange_walks,
    turn_bits,
    move_flow,
]


def move_section(sections: list[list[str]], chance: Random) -> None:
    """Moves, repeats or leaves out a section."""
    section = sections[chance.randrange(len(sections))]
    if chance.random() < 0.7:
        sections.remove(section)
    if chance.random() < 0.8:
        sections.insert(chance.randint(0, len(sections)), section)


def structure_changed(text: bytes, chance: Random) -> bytes:
    """Returns a right certificate with one to three changes of its structure."""
    certificate = Certificate.parse(text)
    for _ in range(chance.choice([1, 1, 2, 3])):
        if certificate.segments:
            change = chance.choice(CHANGES)
            change(certificate, chance)
    sections = certificate.sections()
    if chance.random() < 0.1:
        move_section(sections, chance)
    lines = [line for section in sections for line in section]
    return "".join(f"{line}\n" for line in lines).encode()


# ---- Decks


@dataclass
class Draft:
    """An activity of a generated deck: its ends, durations and prices."""

    ends: tuple[int, int]
    normal: int
    crash: int
    cost: int
    slope: int
    pieces: list[tuple[int, int]]


def drafted(chance: Random, ends: tuple[int, int], is_fixed: bool) -> Draft:
    """Returns an activity with these events, drawn at random; a fixed one has one duration."""
    normal = chance.choice([0, 1, 2, 3, 4, 8])
    crash = normal if is_fixed else chance.randint(0, normal)
    slope = chance.choice([0, 1, 2, 5])
    draft = Draft(ends, normal, crash, chance.randint(0, 9), slope, [])
    left = normal - crash
    while left > 1 and len(draft.pieces) < 3 and chance.random() < 0.4:
        units = chance.randint(1, left - 1)
        slope += chance.randint(1, 4)
        left -= units
        draft.pieces.append((units, slope))
    return draft


def random_deck(chance: Random) -> bytes:
    """Returns a deck with two to five events. One in five has a single length."""
    events = chance.randint(2, 5)
    ends = [(event, event + 1) for event in range(events - 1)]
    while len(ends) < 7 and chance.random() < 0.75:
        begin = chance.randrange(events - 1)
        ends.append((begin, chance.randint(begin + 1, events - 1)))
    is_fixed = chance.random() < 0.2
    drafts = [drafted(chance, pair, is_fixed) for pair in ends]
    lines = [f"PROJECT,N,E0,E{events - 1},2024-01-01,1,,", "WBS,1,,"]
    lines += [f"EVENT,E{event}," for event in range(events)]
    for a, draft in enumerate(drafts):
        begin, end = draft.ends
        numbers = [draft.normal] * 4 + [draft.crash, draft.cost, draft.slope]
        fields = ",".join(map(str, numbers))
        lines.append(f"ACT,A{a},E{begin},E{end},1,{fields},")
        lines += [f"PIECE,A{a},{units},{slope}" for units, slope in draft.pieces]
    lines.append(f"ACCT,X,1,{sum(draft.cost for draft in drafts)},")
    return "".join(f"{line}\n" for line in [*lines, "END"]).encode()
