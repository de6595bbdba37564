"""How sure the end is: P50 and P80, the chances of dates, a chart, and the tasks that drive it."""

from dataclasses import dataclass
from datetime import date

from pert_companion.analysis.chance import EVEN, LIKELY
from pert_companion.analysis.sureness import NOTHING_KNOWN, Sureness, percent_text
from pert_companion.page import charts
from pert_companion.page.chooser import box_points
from pert_companion.page.gathering import Gathered
from pert_companion.page.view import (
    Chart,
    Dot,
    Line,
    Row,
    Series,
    Table,
    Tick,
    plain,
    title,
)
from pert_companion.page.words import day_text, shown

HEIGHT = 150
MOST_DRIVERS = 10
MOST_POINTS = 200
LEAD = (
    "Simulated, not proved: {runs} runs in which each task lasts a PERT-beta time by its three"
    " estimates, independently of the others. Where paths meet, the latest counts, so that the even"
    " chance is later than the normal durations say. What delays all tasks together, such as a hard"
    " winter, is not in it."
)


@dataclass(frozen=True)
class Sure:
    """The section about how sure the end is."""

    lead: str
    scope: str
    """How many tasks have three estimates, if not all have."""
    facts: Table | None
    chart: Chart | None
    drivers: Table | None


def sure(gathered: Gathered) -> Sure:
    """Returns how sure the end of a page's plan is."""
    found = gathered.sureness
    if found is None:
        lead = "The work is finished." if gathered.is_done else NOTHING_KNOWN
        return Sure(lead, "", None, None, None)
    lead = LEAD.format(runs=f"{len(found.runs.lengths):,}")
    chart = chance_chart(gathered, found)
    return Sure(lead, found.scope, facts(gathered, found), chart, drivers(found))


def sure_sentence(gathered: Gathered) -> Line:
    """Returns how sure the date of the headline is: `even chance is 11 December`."""
    found, end = gathered.sureness, gathered.state.rest.end
    if found is None or end is None:
        return plain(NOTHING_KNOWN)
    text = f"That day has a chance of {percent_text(found.chance_by(end))}"
    name, day = contract_day(gathered)
    if day is not None and day != end:
        text = f"{text}, and the {name} one of {percent_text(found.chance_by(day))}"
    even, likely = day_text(found.even_end), day_text(found.likely_end)
    return plain(f"{text}; even chance is {even}, and four in five {likely} (simulated).")


def facts(gathered: Gathered, found: Sureness) -> Table:
    """Returns the dates with their chances."""
    contract = gathered.contract
    dates: list[tuple[str, date | None]] = [("By normal durations", gathered.state.rest.end)]
    if contract is not None:
        dates.append((contract.name[0].upper() + contract.name[1:], contract.day))
    dates += [("Even chance (P50)", found.even_end), ("Four in five (P80)", found.likely_end)]
    rows = []
    for name, day in dates:
        chance = "\u2013" if day is None else percent_text(found.chance_by(day))
        rows.append((day, Row(plain(name), (plain(day_text(day)), plain(chance)))))
    rows.sort(key=lambda pair: pair[0] or date.max)
    return Table(
        "Chance of ending by a day", ("", "Day", "Chance"), tuple(r for _, r in rows), (1,)
    )


def drivers(found: Sureness) -> Table:
    """Returns the tasks that are critical in most runs."""
    rows = []
    for driver in found.drivers(MOST_DRIVERS):
        rows.append(Row(title(shown(driver.name)), (plain(percent_text(driver.share)),)))
    return Table("Tasks that drive the end", ("Task", "Critical in"), tuple(rows))


def chance_chart(gathered: Gathered, found: Sureness) -> Chart:
    """Returns the chance of ending within each length."""
    least, most = chart_ends(gathered, found)
    x, y = charts.Scale(least, most), charts.Scale(0, 100)
    points = [(length, round(found.runs.chance_of(length) * 100)) for length in drawn(least, most)]
    marks = []
    for name, day in (("normal durations", gathered.state.rest.end), contract_day(gathered)):
        if day is not None:
            marks.append(mark(found, day, name, x))
    return Chart(
        "Chance of ending by a day",
        HEIGHT,
        charts.margin_for(["100 %"]),
        length_ticks(found, x),
        charts.y_axis(HEIGHT, ["0 %", "50 %", "100 %"]),
        (Series("chance", "chance of ending by then", box_points(points, x, y)),),
        dots=tuple(rings(found, x, y)),
        verticals=tuple(tick for tick in marks if tick is not None),
        x_label="simulated, not proved",
    )


def chart_ends(gathered: Gathered, found: Sureness) -> tuple[int, int]:
    """Returns the lengths at the ends of the chart, which has the contract date too."""
    lengths, longest = found.runs.lengths, gathered.state.rest.longest
    marked = [lengths[0], lengths[-1], longest]
    _, day = contract_day(gathered)
    if day is not None:
        marked.append(max(0, found.clock.units_until(day)))
    return min(marked) - 1, max(marked)


def rings(found: Sureness, x: charts.Scale, y: charts.Scale) -> list[Dot]:
    """Returns the rings of P50 and P80, or one for both if they are of one length."""
    even, likely = found.runs.length_with(EVEN), found.runs.length_with(LIKELY)
    named = [(even, "P50", "end"), (likely, "P80", "start")]
    if even == likely:
        named = [(even, "P50 and P80", "start")]
    dots = []
    for length, name, side in named:
        left = charts.percent(x.share(length), 1)
        height = charts.pixels(y.share(found.runs.chance_of(length) * 100), HEIGHT)
        dots.append(Dot("chance", left, height, name, side))
    return dots


def drawn(least: int, most: int) -> list[int]:
    """Returns the lengths of the points of the line, both ends among them."""
    step = max(1, (most - least) // MOST_POINTS)
    return [*range(least, most, step), most]


def contract_day(gathered: Gathered) -> tuple[str, date | None]:
    """Returns the day that the project is held to, with its name."""
    contract = gathered.contract
    if contract is None or not contract.is_binding:
        return "", None
    return contract.name, contract.day


def mark(found: Sureness, day: date, name: str, x: charts.Scale) -> Tick | None:
    """Returns a line at a day, if the chart has it."""
    length = found.clock.units_until(day)
    if not x.least <= length <= x.most:
        return None
    share = x.share(length)
    return Tick(charts.percent(share, 1), name, charts.anchor(share))


def length_ticks(found: Sureness, x: charts.Scale) -> tuple[Tick, ...]:
    """Returns ticks with the days on which lengths end, as many as have room."""
    span = x.most - x.least
    count = max(1, min(4, span))
    labels = []
    for number in range(count + 1):
        length = x.least + (span * number + count // 2) // count
        labels.append((x.share(length), day_text(found.clock.end(length))))
    return charts.spread(labels)
