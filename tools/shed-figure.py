#!/usr/bin/env python3
"""Draws docs/shed.svg: the shed's network, its time-cost curve, and the flow and the cut of the
first segment.

    tools/shed-figure.py FOLDER >docs/shed.svg     FOLDER: where the programs are

Every number comes from examples/shed.csv, from `pert curve` and from the certificate of `pert
certify`, which `pert_check` has certified. `tests/docs/figure.sh` draws it again and compares.
"""

from __future__ import annotations

import csv
import subprocess
import sys
from dataclasses import dataclass
from pathlib import Path

TOP = Path(__file__).resolve().parent.parent
DECK = TOP / "examples" / "shed.csv"
PLACES = {"S": (60, 200), "M": (250, 96), "T": (440, 200)}
LABELS = {"A": (148, 108, "end"), "B": (352, 108, "start"), "C": (250, 272, "middle")}
INK, QUIET, RESTS, MOVES = "#1b1f24", "#656d76", "#ffffff", "#dbe9f9"
FLOW, CUT = "#1f5fa8", "#b3541e"
# The curve: the left and the lower edge, the width of a day, the height of a unit of cost, and the
# cost at the lower edge
LEFT, LOW, ACROSS, UP, BASE = 580, 310, 62, 9.0, 40
TITLE = (
    "The shed: its network, its time-cost curve, and the flow and the cut that prove one segment"
)


@dataclass(frozen=True)
class Activity:
    """An activity of the deck: its two events, its durations in days and what a day less costs."""

    code: str
    begin: str
    end: str
    normal: int
    crash: int
    slope: int


@dataclass(frozen=True)
class Point:
    """A breakpoint of the curve. The last one has no slope."""

    length: int
    cost: int
    slope: int | None


@dataclass(frozen=True)
class Segment:
    """The first segment of the certificate: its four numbers, which events move and when they are,
    and the flow of each activity.
    """

    upper: int
    lower: int
    cost: int
    slope: int
    moves: dict[str, bool]
    times: dict[str, int]
    flows: dict[str, int]

    def gain(self, acts: list[Activity]) -> int:
        """Returns what the cut gives: the slopes of the activities that it shortens."""
        gain = 0
        for act in acts:
            moved = self.moves[act.end] - self.moves[act.begin]
            gap = self.times[act.end] - self.times[act.begin] - (self.upper - self.lower) * moved
            if not self.moves[act.begin] and self.moves[act.end] and act.normal > gap:
                gain += act.slope
        return gain


class Figure:
    """The lines of an SVG."""

    def __init__(self) -> None:
        """Begins with nothing."""
        self.lines: list[str] = []

    def add(self, name: str, text: object = None, **attributes: object) -> None:
        """Adds an element; `_` in the name of an attribute is written as `-`."""
        names = (key.strip("_").replace("_", "-") for key in attributes)
        written = "".join(f' {key}="{it}"' for key, it in zip(names, attributes.values()))
        end = "/>" if text is None else f">{text}</{name}>"
        self.lines.append(f"  <{name}{written}{end}")

    def text(
        self,
        x: float,
        y: float,
        text: object,
        size: int = 14,
        fill: str = INK,
        anchor: str = "middle",
        weight: str = "normal",
    ) -> None:
        """Adds a text."""
        font = {"font_size": size, "fill": fill, "text_anchor": anchor, "font_weight": weight}
        self.add("text", text, x=x, y=y, **font)

    def line(self, path: str, stroke: str, width: float | None = None, **more: object) -> None:
        """Adds a line that encloses nothing."""
        if width is not None:
            more["stroke_width"] = width
        self.add("path", d=path, fill="none", stroke=stroke, **more)


def printed(folder: Path, program: str, *words: str, given: bytes) -> str:
    """Returns what a program prints on the given bytes."""
    command = [str(folder / program), *words]
    done = subprocess.run(command, input=given, stdout=subprocess.PIPE, check=True)
    return done.stdout.decode()


def activities_of(deck: bytes) -> list[Activity]:
    """Returns the activities of a deck."""
    rows = [row for row in csv.reader(deck.decode().splitlines()) if row[0] == "ACT"]
    return [
        Activity(row[1], row[2], row[3], int(row[8]), int(row[9]), int(row[11])) for row in rows
    ]


def points_of(curve: str) -> list[Point]:
    """Returns the breakpoints that `pert curve` prints."""
    rows = [line.split() for line in curve.splitlines()]
    return [
        Point(int(length), int(cost), None if slope == "-" else int(slope))
        for length, cost, slope in rows
    ]


def first_segment(certificate: str) -> Segment:
    """Returns the first segment of a certificate."""
    lines = [line.split() for line in certificate.splitlines()]
    kinds = [line[0] for line in lines]
    begin, close = kinds.index("SEGMENT"), kinds.index("CLOSE")
    upper, lower, cost, slope = map(int, lines[begin][1:])
    events = [line for line in lines[begin:close] if line[0] == "EVENT"]
    acts = [line for line in lines[begin:close] if line[0] == "ACT"]
    moves = {line[1]: line[3] == "1" for line in events}
    times = {line[1]: int(line[2]) for line in events}
    flows = {line[1]: int(line[3]) for line in acts}
    return Segment(upper, lower, cost, slope, moves, times, flows)


def draw_activity(figure: Figure, act: Activity, flow: int) -> None:
    """Draws an activity, and how much flows along it."""
    (x, y), (u, v) = PLACES[act.begin], PLACES[act.end]
    width, colour = (1.5 + 1.5 * flow, FLOW) if flow else (1.5, QUIET)
    path = f"M {x} {y} L {u} {v}"
    if act.code == "C":
        path = f"M {x} {y + 22} Q 250 290 {u} {v + 22}"
    figure.line(path, colour, width)
    at, down, anchor = LABELS[act.code]
    durations = f"{act.code}: {act.normal} to {act.crash} days"
    figure.text(at, down, durations, anchor=anchor, weight="bold")
    price = f"{act.slope} a day less, flow {flow}"
    figure.text(at, down + 18, price, 13, FLOW if flow else QUIET, anchor)


def draw_network(figure: Figure, acts: list[Activity], segment: Segment, gain: int) -> None:
    """Draws the events and activities, how much flows, and the cut."""
    figure.text(250, 30, "The network", 16, weight="bold")
    for act in acts:
        draw_activity(figure, act, segment.flows[act.code])
    for event, (x, y) in PLACES.items():
        fill = MOVES if segment.moves[event] else RESTS
        figure.add("circle", cx=x, cy=y, r=24, fill=fill, stroke=INK, stroke_width=1.5)
        figure.text(x, y + 5, event, 16, weight="bold")
    dashed = {"stroke_width": 2, "stroke_dasharray": "7 5", "fill": "none"}
    figure.add("path", d="M 222 48 L 112 330", stroke=CUT, **dashed)
    figure.text(120, 334, f"the cut: {gain} a day", 13, CUT, anchor="start")
    figure.text(60, 244, "stays", 12, QUIET)
    figure.text(250, 62, "earlier", 12, QUIET)
    figure.text(440, 244, "earlier", 12, QUIET)


def draw_curve(figure: Figure, points: list[Point], segment: Segment) -> None:
    """Draws the curve, with the segment that the flow and the cut prove."""
    least = points[-1].length - 1

    def place(length: int, cost: int) -> tuple[int, float]:
        """Returns where a length and a cost are drawn."""
        return LEFT + (length - least) * ACROSS, LOW - (cost - BASE) * UP

    figure.text(740, 30, "The time-cost curve", 16, weight="bold")
    figure.line(f"M {LEFT} 50 L {LEFT} {LOW} L {LEFT + 5.6 * ACROSS:g} {LOW}", QUIET)
    for length in range(points[-1].length, points[0].length + 1):
        figure.text(place(length, BASE)[0], LOW + 20, length, 13, QUIET)
    figure.text(LEFT + 3 * ACROSS, LOW + 40, "days", 13, QUIET)
    for number, point in enumerate(points):
        x, y = place(point.length, point.cost)
        if point.slope is not None:
            shorter = points[number + 1]
            u, v = place(shorter.length, shorter.cost)
            chosen = (point.length, shorter.length) == (segment.upper, segment.lower)
            figure.line(f"M {x:g} {y:g} L {u:g} {v:g}", FLOW, 5 if chosen else 2)
            price = f"{point.slope} a day"
            figure.text((x + u) / 2 + 12, (y + v) / 2 - 10, price, 13, FLOW, anchor="start")
        figure.add("circle", cx=f"{x:g}", cy=f"{y:g}", r=5, fill=INK)
        is_last = point.slope is None
        left, down = (9, -10) if is_last else (0, 24)
        figure.text(x - left, y + down, f"costs {point.cost}", 13, anchor="middle")


def draw_proof(figure: Figure, acts: list[Activity], segment: Segment) -> None:
    """Writes what the flow proves in the middle of the segment, if it and the cut prove it."""
    gain, flows, slope = segment.gain(acts), segment.flows, segment.slope
    products = " + ".join(f"{it.normal}·{flows[it.code]}" for it in acts if flows[it.code])
    total = sum(act.normal * flows[act.code] for act in acts)
    length = (segment.upper + segment.lower) // 2
    bound = segment.cost + total - length * slope
    wanted = segment.cost + (segment.upper - length) * slope
    if gain != slope or bound != wanted:
        sys.exit("the flow or the cut does not prove the segment")
    cheapest = (
        f"At {length} days: cost {segment.cost} + {segment.upper - length}·{slope} = {wanted}. "
        "The flow proves that nothing is cheaper:"
    )
    figure.text(480, 388, cheapest, 14)
    proof = (
        f"{segment.cost} + {products} - {length}·{slope} = {bound}. "
        f"The cut gives the {slope} once more."
    )
    figure.text(480, 408, proof, 14)


def main() -> None:
    """Draws the figure."""
    if len(sys.argv) != 2:
        sys.exit(__doc__)
    folder = Path(sys.argv[1]).resolve()
    deck = DECK.read_bytes()
    acts = activities_of(deck)
    points = points_of(printed(folder, "pert", "curve", given=deck))
    certificate = printed(folder, "pert", "certify", given=deck)
    printed(folder, "pert_check", str(DECK), given=certificate.encode())
    segment = first_segment(certificate)
    figure = Figure()
    figure.add("rect", width=960, height=420, fill="#ffffff")
    draw_network(figure, acts, segment, segment.gain(acts))
    draw_curve(figure, points, segment)
    draw_proof(figure, acts, segment)
    font = 'font-family="Helvetica, Arial, sans-serif"'
    print(f'<svg xmlns="http://www.w3.org/2000/svg" viewBox="0 0 960 420" {font} role="img">')
    print(f"  <title>{TITLE}</title>")
    print("\n".join(figure.lines))
    print("</svg>")


main()
