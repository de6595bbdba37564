"""Writes the history of a project as text for people."""

from collections.abc import Iterator, Sequence

from pert_companion.analysis.compare import Comparison, CurveSide, History, StateFigures
from pert_companion.analysis.earned_value import EarnedValue
from pert_companion.model.figures import NOTHING, ratio_text
from pert_companion.model.text_form import TextForm
from pert_companion.writers.aligned import aligned
from pert_companion.writers.text import shown

STATE_HEADINGS = (
    "STATE",
    "DATA DATE",
    "END",
    "DAYS LEFT",
    "BUDGET",
    "SPENT",
    "LATEST ESTIMATE",
    "VALUE",
    "EV",
    "SPI",
    "CPI",
)
NEWEST_HEADINGS = ("NOW SPI", "NOW CPI")
"""By the newest baseline, where a state was reported by an older one."""


def to_text(history: History, on_terminal: bool = False) -> str:
    """Returns a row for each state, and what changed from each one to the next."""
    form = TextForm(on_terminal, history.money_scale)
    project = history.states[-1].state.deck.project
    lines = [shown(f"COMPARE {project.code}, {_baselines(history)}{_currency(history)}")]
    has_newer = any(state.by_newest for state in history.states)
    headings = (*STATE_HEADINGS, *(NEWEST_HEADINGS if has_newer else ()))
    rows = [row[: len(headings)] for row in _state_rows(history, form)]
    lines.extend(aligned(headings, rows, "lll" + "r" * (len(headings) - 3)))
    for comparison in history.comparisons:
        lines.append("")
        lines.append(shown(f"{comparison.old.name} -> {comparison.new.name}"))
        lines.extend(_parts(comparison, form))
    return "".join(f"{line}\n" for line in lines)


def _baselines(history: History) -> str:
    """Returns the baselines; SPI and CPI are by the one in force, and NOW by the last one."""
    if len(history.baselines) == 1:
        return f"baseline {history.baseline.name}"
    return f"baselines {', then '.join(history.baselines)}"


def _currency(history: History) -> str:
    return f", amounts in {history.currency}" if history.currency else ""


def _state_rows(history: History, form: TextForm) -> Iterator[tuple[str, ...]]:
    for state in history.states:
        amounts = (state.budget, state.actual, state.latest, state.value)
        newest = state.by_newest or state.earned
        yield (
            state.name,
            str(state.data_day),
            str(state.end),
            form.days(state.left_minutes, state.day_minutes),
            *(form.money(amount) for amount in amounts),
            NOTHING if state.earned is None else form.money(state.earned.total.ev),
            *_ratios(state.earned),
            *_ratios(newest),
        )


def _ratios(earned: EarnedValue | None) -> tuple[str, str]:
    """Returns SPI and CPI."""
    if earned is None:
        return NOTHING, NOTHING
    return ratio_text(earned.total.spi, 2), ratio_text(earned.total.cpi, 2)


def _parts(comparison: Comparison, form: TextForm) -> Iterator[str]:
    """Yields the parts of a comparison that have anything to say."""
    yield from _end(comparison, form)
    yield from _critical(comparison)
    yield from _slack(comparison, form)
    yield from _changes(comparison)
    yield from _renamed(comparison)
    yield from _restated(comparison)
    yield from _credits(comparison, form)
    yield from _curves(comparison, form)


def _end(comparison: Comparison, form: TextForm) -> Iterator[str]:
    old, new = comparison.old, comparison.new
    minutes = comparison.end_moved_minutes
    if minutes:
        way = "later" if minutes > 0 else "earlier"
        yield f"END {new.end}, {form.day_words(abs(minutes), new.day_minutes)} {way} than {old.end}"
    else:
        yield f"END {new.end}, as before"
    if new.directed is not None:
        yield f"BY {new.directed}: before {_recovery(old, form)}; now {_recovery(new, form)}"


def _recovery(state: StateFigures, form: TextForm) -> str:
    """Returns what it costs to end on the day that is asked for."""
    if state.directed is None:
        return "not asked for"
    price = state.recovery_cost
    if price is None:
        return f"impossible ({state.earliest_end} at the earliest)"
    return "in time" if state.end <= state.directed else f"for {form.money(price)} more"


def _critical(comparison: Comparison) -> Iterator[str]:
    rows = [("joined", each.code, each.why, each.name) for each in comparison.joined]
    rows += [("left", each.code, each.why, each.name) for each in comparison.left]
    yield from _table("CRITICAL PATH", ("", "CODE", "WHY", "TASK"), rows, "llll")


def _slack(comparison: Comparison, form: TextForm) -> Iterator[str]:
    rows = []
    for each in comparison.slack_used:
        days = comparison.new.day_minutes
        used = "all used" if each.is_used_up else ""
        texts = form.days(each.old_minutes, days), form.days(each.new_minutes, days)
        rows.append((each.code, *texts, used, each.name))
    yield from _table("SLACK USED", ("CODE", "OLD", "NEW", "", "TASK"), rows, "lrrll")


def _changes(comparison: Comparison) -> Iterator[str]:
    rows = []
    for each in comparison.changes:
        rows.append((each.kind.value, each.code, each.old or NOTHING, each.new or NOTHING))
    yield from _table("CHANGED", ("WHAT", "CODE", "OLD", "NEW"), rows, "llll")


def _restated(comparison: Comparison) -> Iterator[str]:
    title = f"RESTATED: since the report of {comparison.old.data_day}"
    rows = []
    for each in comparison.restated:
        rows.append((each.what, each.subject, str(each.day), each.old, each.new, each.name))
    headings = ("WHAT", "OF", "DAY", "OLD", "NEW", "TITLE")
    yield from _table(title, headings, rows, "lllrrl")


def _renamed(comparison: Comparison) -> Iterator[str]:
    rows = []
    for each in comparison.renamed:
        rows.append((each.what, each.old, each.new, each.old_name, each.new_name))
    title = "RENAMED? Rows old,new for renames.csv: what went, and what is like it and came"
    yield from _table(title, ("WHAT", "OLD", "NEW", "TITLE", "NOW"), rows, "lllll")


def _credits(comparison: Comparison, form: TextForm) -> Iterator[str]:
    title = f"CREDITS: booked after {comparison.old.data_day}"
    rows = []
    for each in comparison.credits:
        amount = form.money(each.amount)
        rows.append((str(each.day), each.account, amount, each.number, each.text, each.name))
    yield from _table(title, ("DAY", "OF", "AMOUNT", "NUMBER", "TEXT", "TITLE"), rows, "llrlll")


def _curves(comparison: Comparison, form: TextForm) -> Iterator[str]:
    rows = []
    for row in comparison.curves:
        rows.append((str(row.end), *_curve_cells(row.old, form), *_curve_cells(row.new, form)))
    headings = ("LAST DAY", "OLD COST", "NEXT DAY", "NEW COST", "NEXT DAY")
    yield from _table("CURVES: least cost of the work, and of a day less", headings, rows, "lrrrr")


def _curve_cells(side: CurveSide | None, form: TextForm) -> tuple[str, str]:
    if side is None:
        return NOTHING, NOTHING
    day = NOTHING if side.next_day_cost is None else form.money(side.next_day_cost)
    return form.money(side.cost), day


def _table(
    title: str, headings: tuple[str, ...], rows: Sequence[tuple[str, ...]], right: str
) -> Iterator[str]:
    """Yields a title and an indented table, or nothing if there are no rows."""
    if not rows:
        return
    yield title
    for line in aligned(headings, rows, right):
        yield f"  {line}"
