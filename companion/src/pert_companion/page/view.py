"""What templates show: plain records of texts and places, without a decision left to make."""

from dataclasses import dataclass

from pert_companion.page.words import MINUS


@dataclass(frozen=True)
class Piece:
    """A part of a text."""

    text: str
    is_title: bool = False
    is_strong: bool = False


Line = tuple[Piece, ...]
"""A text in parts."""


def plain(text: str) -> Line:
    """Returns a text as one part."""
    return (Piece(text),)


def strong(text: str) -> Line:
    """Returns a text that stands out."""
    return (Piece(text, is_strong=True),)


def title(text: str) -> Line:
    """Returns a title of the deck, which keeps to its own direction."""
    return (Piece(text, is_title=True),)


@dataclass(frozen=True)
class Tile:
    """A key figure with its name and a note."""

    name: str
    value: Line
    note: Line
    tone: str = ""
    """`bad` if it is worse than agreed."""


@dataclass(frozen=True)
class Row:
    """A row of a table: its name, its other cells, and how deep it is."""

    name: Line
    cells: tuple[Line, ...]
    level: int = 0
    is_sum: bool = False
    key: str = ""
    """The id of a row that the script draws."""


@dataclass(frozen=True)
class Table:
    """A table with a caption; columns from the second on are numbers unless they say otherwise."""

    caption: str
    heads: tuple[str, ...]
    rows: tuple[Row, ...]
    texts: tuple[int, ...] = ()
    """Columns that are texts, counted from 0."""
    has_phrases: bool = False
    """Whether its texts are phrases, which take several lines."""


@dataclass(frozen=True)
class Tick:
    """A mark on an axis, at per mille of its width or at so many pixels of its height."""

    at: str
    label: str
    anchor: str = "middle"
    is_minor: bool = False
    """Whether a telephone leaves it out."""
    is_roomy: bool = False
    """Whether windows of less than 720 pixels leave it out."""


@dataclass(frozen=True)
class Series:
    """A line of a chart: points in a box of 1000 by 1000, and the name of its style."""

    name: str
    label: str
    points: str


@dataclass(frozen=True)
class Dot:
    """A point of a chart, in per cent of its width and pixels of its height."""

    name: str
    x: str
    y: str
    label: str = ""
    side: str = "start"
    """`start` if its label is at its right, `end` if at its left."""


@dataclass(frozen=True)
class Column:
    """A column of a chart."""

    x: str
    width: str
    y: str
    height: str
    label: str
    is_above: bool = False
    """Whether it is above a capacity."""


@dataclass(frozen=True)
class Chart:
    """A chart: axes, and lines, dots or columns. Pixels are those of the drawing's height."""

    label: str
    height: int
    margin: int
    """The width of the labels at the left, in pixels."""
    x_ticks: tuple[Tick, ...]
    y_ticks: tuple[Tick, ...]
    series: tuple[Series, ...] = ()
    dots: tuple[Dot, ...] = ()
    columns: tuple[Column, ...] = ()
    verticals: tuple[Tick, ...] = ()
    """Lines over the complete height, such as the contract date."""
    prices: tuple[Tick, ...] = ()
    """Labels of stretches of the curve."""
    x_label: str = ""
    ring: str = ""
    """What the ring of the chosen length is called in the legend."""


@dataclass(frozen=True)
class Bar:
    """A bar of the schedule, in per cent of the width."""

    name: str
    x: str
    width: str


@dataclass(frozen=True)
class TaskRow:
    """A task, or a group of tasks, of the schedule."""

    key: str
    """`t12` for the task with this place, empty for a group."""
    name: Line
    level: int
    state: str
    start: str
    finish: str
    slack: str
    duration: Line
    bars: tuple[Bar, ...] = ()
    is_critical: bool = False
    is_milestone: bool = False
    flag: str = ""
    """What is wrong with it: `should have begun 3 Mar 2024`."""
    is_other: bool = False
    """Whether it is shown only if all tasks are, or if it becomes critical."""


@dataclass(frozen=True)
class Section:
    """A section of the page, for its contents."""

    key: str
    name: str


def signed(text: str) -> str:
    """Returns a number, which a currency may follow, with its sign; 0 has none."""
    number = text.partition("\u00a0")[0]
    return text if number.startswith(MINUS) or number.strip("0.,") == "" else f"+{text}"


@dataclass(frozen=True)
class Alert:
    """Something to look at first, and the place on the page that has more of it."""

    key: str
    text: Line


@dataclass(frozen=True)
class Word:
    """A term of the page with its definition."""

    key: str
    name: str
    meaning: str
