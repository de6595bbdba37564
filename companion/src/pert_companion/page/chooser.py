"""The choice of a length: the curve, its breakpoints with dates, and what a length costs."""

from collections.abc import Sequence
from dataclasses import dataclass
from fractions import Fraction
from itertools import chain

from pert_companion.analysis.options import chosen_option, time_price, total_cost
from pert_companion.page import charts
from pert_companion.page.decision import part_of_day
from pert_companion.page.gathering import Gathered
from pert_companion.page.view import Chart, Dot, Line, Row, Series, Table, Tick, plain, signed
from pert_companion.page.words import Words, day_text
from pert_companion.programs import results
from pert_companion.state.work import Work

HEIGHT = 240
MOST_OPEN = 24
"""Breakpoints of a table that is not folded."""


@dataclass(frozen=True)
class Choice:
    """What the page shows of the length that is chosen, at first."""

    length: int
    """In units of the deck, as the slider has it."""
    least: int
    most: int
    days: str
    """The length as a number of days."""
    end: str
    late: str
    costs: tuple[tuple[str, str, Line], ...]
    """Key, name and amount: work, overhead, bonus, penalty, total."""
    next: Line
    """What one day less costs in all."""
    more: Line
    """What it costs in all beyond today's plan."""


@dataclass(frozen=True)
class Stretch:
    """Lengths that cost the same."""

    lower: int
    upper: int
    text: str


@dataclass(frozen=True)
class Chooser:
    """Everything about lengths."""

    choice: Choice
    chart: Chart
    breakpoints: Table
    is_long: bool
    """Whether the table of breakpoints is folded at first."""
    stretches: tuple[Stretch, ...]
    scale: charts.Scale
    """The axis of costs of the chart."""


def chooser(gathered: Gathered, words: Words) -> Chooser:
    """Returns what the page shows of lengths."""
    points = gathered.state.rest.curve
    return Chooser(
        choice(gathered, words),
        curve_chart(gathered, words),
        breakpoints(gathered, words),
        len(points) > MOST_OPEN,
        tuple(stretches(gathered.state.rest, words)),
        cost_axis(curve_lines(gathered))[0],
    )


def choice(gathered: Gathered, words: Words) -> Choice:
    """Returns the figures of the length that is chosen at first."""
    rest = gathered.state.rest
    option = chosen_option(rest, gathered.length)
    costs = [("cost", "Cost of the work", plain(words.money(option.work)))]
    if rest.deck.terms is not None:
        price = time_price(rest.deck.terms, option.length)
        costs.append(("overhead", "Overhead", plain(words.money(price.overhead))))
        costs.append(("bonus", "Bonus", plain(words.money(price.bonus))))
        costs.append(("penalty", "Penalty", plain(words.money(price.penalty))))
        costs.append(("total", "In all", plain(words.money(option.total))))
    following = "no length is shorter"
    if option.next is not None:
        following = f"{signed(words.money(option.next))}{part_of_day(option, words)}"
    return Choice(
        option.length,
        rest.shortest,
        rest.longest,
        words.days(option.length),
        day_text(option.end),
        late_words(gathered, words),
        tuple(costs),
        plain(following),
        plain(signed(words.money(option.against_today))),
    )


def late_words(gathered: Gathered, words: Words) -> str:
    """Returns how the chosen length is to the contract date: `3 days after the contract date`."""
    contract = gathered.contract
    if contract is None:
        return ""
    late = gathered.length - gathered.state.rest.clock.units_until(contract.day)
    if late == 0:
        return f"on the {contract.name}"
    return f"{words.length(abs(late))} {'after' if late > 0 else 'before'} the {contract.name}"


def breakpoints(gathered: Gathered, words: Words) -> Table:
    """Returns the breakpoints with dates, costs and the price of a day at each."""
    rest = gathered.state.rest
    heads = ["Length", "Ends", "Cost of the work"]
    if rest.deck.terms is not None:
        heads.append("In all")
    rows = []
    for point in rest.curve:
        cells = [day_text(rest.clock.end(point.length)), words.digits(point.cost)]
        if rest.deck.terms is not None:
            cells.append(words.digits(total_cost(rest, point.length)))
        cells.append("\u2013" if point.slope is None else step_price(point.slope, words))
        rows.append(Row(plain(words.length(point.length)), tuple(plain(cell) for cell in cells)))
    heads.append(f"Work of {words.one_less[0].lower()}{words.one_less[1:]}")
    return Table("Breakpoints of the curve", tuple(heads), tuple(rows), (1,))


def step_price(slope: int, words: Words) -> str:
    """Returns what a day costs at a price of a unit."""
    return words.digits(slope * words.measure.step)


def stretches(work: Work, words: Words) -> list[Stretch]:
    """Returns the lengths that cost the same as others, with what to take."""
    curve, terms = work.curve, work.deck.terms
    lengths = {point.length for point in curve}
    if terms is not None and curve[-1].length < terms.target < curve[0].length:
        lengths.add(terms.target)
    ordered = sorted(lengths, reverse=True)
    found = []
    for upper, lower in zip(ordered, ordered[1:]):
        price = results.cost_at(curve, upper)[1] or 0
        if terms is not None:
            saved = total_cost(work, upper) - total_cost(work, lower)
            if saved == 0 and price:
                text = f"{range_text(lower, upper, words)} cost the same in all: take"
                text = f"{text} {words.days(upper)}, which shortens less."
                found.append(Stretch(lower, upper, text))
        if price == 0:
            text = f"{range_text(lower, upper, words)} cost the same work: take"
            found.append(Stretch(lower, upper, f"{text} {words.days(lower)}."))
    return found


def range_text(lower: int, upper: int, words: Words) -> str:
    """Returns a range of lengths: `30 to 32 days`."""
    return f"{words.days(lower)} to {words.length(upper)}"


def curve_lines(gathered: Gathered) -> list[list[tuple[int, int]]]:
    """Returns the least cost by length, and with a price of time the total by length."""
    curve, terms = gathered.state.rest.curve, gathered.state.rest.deck.terms
    lengths = {point.length for point in curve}
    if terms is not None and curve[-1].length < terms.target < curve[0].length:
        lengths.add(terms.target)
    ordered = sorted(lengths)
    lines = [[(length, results.cost_at(curve, length)[0]) for length in ordered]]
    if terms is not None:
        lines.append([(length, total_cost(gathered.state.rest, length)) for length in ordered])
    return lines


def cost_axis(lines: list[list[tuple[int, int]]]) -> tuple[charts.Scale, list[int]]:
    """Returns the axis of costs with its ticks."""
    costs = [cost for _, cost in chain.from_iterable(lines)]
    return charts.round_scale(min(costs), max(costs))


def curve_chart(gathered: Gathered, words: Words) -> Chart:
    """Returns the chart of least cost by length, with dates beside lengths."""
    state, curve = gathered.state, gathered.state.rest.curve
    lines = curve_lines(gathered)
    scale, ticks = cost_axis(lines)
    texts = [words.digits(tick) for tick in ticks]
    x = charts.Scale(state.rest.shortest, max(state.rest.longest, state.rest.shortest + 1))
    named = [("curve", "least cost of the work"), ("total", "with the price of time")]
    series = [
        Series(name, label, box_points(line, x, scale)) for (name, label), line in zip(named, lines)
    ]
    return Chart(
        "Least cost by length",
        HEIGHT,
        charts.margin_for(texts),
        length_ticks(gathered, x, words),
        charts.y_axis(HEIGHT, texts),
        tuple(series),
        dots=(chosen_dot(gathered, x, scale),),
        verticals=contract_line(gathered, x),
        prices=tuple(prices(curve, x, scale, words)),
        x_label=f"Length in {words.day}s, and the last day of work",
        ring="chosen length",
    )


def box_points(line: Sequence[tuple[int, int]], x: charts.Scale, y: charts.Scale) -> str:
    """Returns the points of a line in its box."""
    points = []
    for at, value in line:
        left = round(x.share(at) * charts.BOX * 10)
        top = round((1 - y.share(value)) * charts.BOX * 10)
        points.append(f"{left / 10:g},{top / 10:g}")
    return " ".join(points)


def chosen_dot(gathered: Gathered, x: charts.Scale, y: charts.Scale) -> Dot:
    """Returns the mark of the chosen length."""
    share = x.share(gathered.length)
    cost = results.cost_at(gathered.state.rest.curve, gathered.length)[0]
    return Dot("chosen", charts.percent(share, 1), charts.pixels(y.share(cost), HEIGHT))


def contract_line(gathered: Gathered, x: charts.Scale) -> tuple[Tick, ...]:
    """Returns the line of the contract date, if the curve has that length."""
    contract, state = gathered.contract, gathered.state
    if contract is None:
        return ()
    units = state.rest.clock.units_until(contract.day)
    if not state.rest.shortest <= units <= state.rest.longest:
        return ()
    share = x.share(units)
    return (Tick(charts.percent(share, 1), contract.name, charts.anchor(share)),)


def length_ticks(gathered: Gathered, x: charts.Scale, words: Words) -> tuple[Tick, ...]:
    """Returns ticks of lengths with their dates below, as many as have room."""
    state = gathered.state
    span = state.rest.longest - state.rest.shortest
    count = max(1, min(4, span))
    numbers = range(count + 1) if span else range(1)
    labels = []
    for number in numbers:
        length = state.rest.shortest + (span * number + count // 2) // count
        end = day_text(state.rest.clock.end(length))
        labels.append((x.share(length), f"{words.days(length)}|{end}"))
    return charts.spread(labels)


def prices(
    curve: Sequence[results.Breakpoint], x: charts.Scale, y: charts.Scale, words: Words
) -> list[Tick]:
    """Returns the price of a day over each stretch that is wide enough for it.

    A stretch that is too narrow has none, so that no price is beside another stretch.
    """
    found = []
    for upper, lower in zip(curve, curve[1:]):
        width = x.share(upper.length) - x.share(lower.length)
        text = f"+{step_price(upper.slope or 0, words)}"
        needed = Fraction(charts.LETTER) * len(text) + 6
        if width * charts.WIDE < needed:
            continue
        middle = (x.share(upper.length) + x.share(lower.length)) / 2
        height = (y.share(upper.cost) + y.share(lower.cost)) / 2
        at = f"{charts.percent(middle, 1)}|{charts.pixels(height, HEIGHT)}"
        is_minor = width * charts.NARROW < needed
        found.append(Tick(at, text, "middle", is_minor, width * charts.MIDDLE < needed))
    return found
