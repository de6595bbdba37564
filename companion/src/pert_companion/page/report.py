"""The report page: everything that is on it, from what was gathered."""

from dataclasses import dataclass

from markupsafe import Markup

from pert_companion.analysis.forecast import WHY_DIFFERENT, end_of_sixths
from pert_companion.analysis.estimate_bridge import uncharged_budgets
from pert_companion.analysis.latest import contract_minutes, latest_of
from pert_companion.analysis.sureness import percent_text
from pert_companion.model.deck import Deck, checksum
from pert_companion.model.fitting import fitted_to
from pert_companion.model.sidefile import SideTask, to_json
from pert_companion.page import data, money
from pert_companion.page.changed import Changes, changes_view
from pert_companion.page.checks import Checks, checks
from pert_companion.page.chooser import HEIGHT, Chooser, chooser
from pert_companion.page.decision import Decision, decision
from pert_companion.page.definitions import definitions
from pert_companion.page.doubts import doubts_table
from pert_companion.page.exact import exact_dates
from pert_companion.page.first import FirstScreen, first_screen
from pert_companion.page.gathering import Gathered, item_amounts, project_amounts
from pert_companion.page.load import LoadView
from pert_companion.page.sure import Sure, sure
from pert_companion.page.timeline import Timeline, progress_of, timeline
from pert_companion.page.view import Section, Table, Word
from pert_companion.page.words import Words, day_text, shown, words_of
from pert_companion.state.remaining import State


@dataclass(frozen=True)
class PageView:
    """What the templates show: what was gathered, and what is made of it for the page."""

    gathered: Gathered
    day: str
    """What a day of work is called."""
    is_daily: bool
    """Whether a unit of the deck is a day."""
    one_less: str
    """What the price of a day less is called."""
    title: str
    as_of: str
    deck_name: str
    digest: str
    """The SHA-256 of the data of the page."""
    blocks: tuple[tuple[str, Markup], ...]
    """The elements that hold data: their ids and texts."""
    words: dict[str, Word]
    first: FirstScreen
    sections: tuple[Section, ...]
    length_lead: str
    most_bytes: str
    chooser: Chooser
    decision: Decision
    sure: Sure
    schedule_lead: tuple[str, ...]
    rows_name: str
    timeline: Timeline
    changes: Changes | None
    money: money.Money
    doubts: Table | None
    steps: tuple[str, ...]
    assumptions: tuple[str, ...]
    left_out: tuple[str, ...]
    checks: Checks


def page_of(gathered: Gathered) -> PageView:
    """Returns the page of what was gathered."""
    state = gathered.state
    words = words_of(state.rest.side, gathered.wishes.currency)
    chosen, drawn = chooser(gathered, words), timeline(gathered, words)
    amounts = money.money(gathered, words)
    found = checks(gathered)
    texts = data_blocks(gathered)
    view = data.embedded(view_data(gathered, words, chosen, drawn))
    blocks = [*texts.items(), ("pert-view", view)]
    return PageView(
        gathered=gathered,
        day=words.day,
        is_daily=words.days(1) == "1",
        one_less=words.one_less,
        title=shown(state.deck.project.title or state.deck.project.code),
        as_of=day_text(state.data_day),
        deck_name=shown(state.name),
        digest=data.checksum_of_blocks(texts),
        blocks=tuple((name, Markup(text)) for name, text in blocks),
        words={} if gathered.wishes.brief else definitions(words),
        first=first_screen(gathered, words),
        sections=tuple(sections(gathered, amounts.load, found)),
        length_lead=length_lead(gathered),
        most_bytes=f"{data.MOST_BYTES:,}",
        chooser=chosen,
        decision=decision(gathered, words),
        sure=sure(gathered),
        schedule_lead=tuple(schedule_lead(gathered)),
        rows_name=rows_name(gathered, drawn),
        timeline=drawn,
        changes=None if gathered.changes is None else changes_view(gathered.changes, words),
        money=amounts,
        doubts=doubts_table(gathered),
        steps=tuple(steps(gathered)),
        assumptions=tuple(map(shown, state.remaining.notes)) if state.has_begun else (),
        left_out=tuple(left_out(gathered)),
        checks=found,
    )


def data_blocks(gathered: Gathered) -> dict[str, str]:
    """Returns the texts of the elements that hold the data of the page."""
    rest = gathered.state.rest
    side = to_json(fitted_to(rest.side, rest.network)).decode()
    return {
        "pert-source": data.embedded(gathered.source.data()),
        "pert-deck": data.embedded_deck(gathered.state.name, rest.text.decode()),
        "pert-side": data.embedded({"sha256": checksum(rest.text), "text": side}),
        "pert-certificate": gathered.certificate or "null",
    }


def sections(gathered: Gathered, load: LoadView | None, found: Checks) -> list[Section]:
    """Returns the sections of the page in their order, for its contents."""
    listed = [Section("length", "What to decide"), Section("sure", "How sure")]
    listed.append(Section("schedule", "Schedule"))
    if gathered.changes is not None:
        listed.append(Section("changes", "What changed"))
    if found.tables:
        listed.append(Section("checks", "Missed and left out"))
    if gathered.earned is not None:
        listed.append(Section("value", "Earned value"))
    if item_amounts(gathered.state) is not None:
        listed.append(Section("cost", "Cost by item"))
    if load is not None:
        listed.append(Section("load", "Load by period"))
    if gathered.doubts:
        listed.append(Section("doubts", "What to check"))
    listed.append(Section("checked", "What is proved"))
    return listed


def length_lead(gathered: Gathered) -> str:
    """Returns the sentence above the choice of a length."""
    state = gathered.state
    if gathered.is_done:
        return "All work is finished."
    if not gathered.has_choice:
        return "There is only one length, so nothing can be chosen here."
    what = "the plan"
    if state.has_begun:
        what = f"the work that is left after {day_text(state.data_day)}"
    return (
        f"Lengths of {what}, each with its cheapest schedule. Nothing that has begun or is past is"
        " changed. Everything here is computed in this page from the certificate."
        if state.has_begun
        else f"Lengths of {what}, each with its cheapest schedule, computed in this page from the"
        " certificate."
    )


def schedule_lead(gathered: Gathered) -> list[str]:
    """Returns the sentences above the schedule."""
    state = gathered.state
    texts = ["The schedule of the chosen length. A finish is the last day of work."]
    if not state.has_begun or gathered.is_done:
        return texts
    texts.append(
        f"By what is left of each task, with nothing shortened, the end is"
        f" {day_text(state.rest.end)}."
    )
    if state.deck.as_of is not None:
        end = state.plan.value.events[state.plan.network.project.end].time
        day = end_of_sixths(state, end)
        why = f" {WHY_DIFFERENT}" if day != state.rest.end else ""
        texts.append(f"By pert value it is {day_text(day)}.{why}")
    return texts


def rows_name(gathered: Gathered, drawn: Timeline) -> str:
    """Returns the name of the table of the schedule."""
    if not drawn.others:
        return "Schedule"
    if not gathered.state.has_begun:
        return "Critical tasks"
    return "Critical and late tasks, and those of the next 30 days"


def steps(gathered: Gathered) -> list[str]:
    """Returns which step is proved and which is a stated rule."""
    texts = [
        "Proved: at each length of the curve no schedule of the deck is cheaper. The program that"
        " writes the certificate, and pert_check, which has certified this one, are proved."
    ]
    if gathered.state.has_begun:
        texts.append(
            "A stated rule, not proved: the deck of the work that is left. Finished tasks last 0;"
            " begun ones last what is left of them; the others are as planned."
        )
    texts.append(
        "Computed, not proved: dates by the calendar, bars, and the money that is not in the curve."
    )
    return texts


def left_out(gathered: Gathered) -> list[str]:
    """Returns what is not on the page, and why."""
    texts = []
    state = gathered.state
    if item_amounts(state) is None:
        texts.append("Cost by item: the deck has no ACCT card.")
    if state.rest.deck.terms is None:
        texts.append("Overhead, bonus and penalty: the deck has no TERMS card.")
    if not state.has_begun:
        texts.append("Earned value and what is left: the deck has no STATUS card.")
    if gathered.load is None:
        texts.append("Load by period: it has more periods or larger amounts than pert load takes.")
    if not state.rest.network.resources:
        texts.append("Load of resources: the deck has no RES card.")
    if gathered.previous is None:
        texts.append("What changed: no report before this one is given (--previous).")
    return texts


def view_data(
    gathered: Gathered, words: Words, chosen: Chooser, drawn: Timeline
) -> dict[str, object]:
    """Returns what the script of the page needs and the certificate does not have."""
    state = gathered.state
    contract = gathered.contract
    top = project_amounts(state)
    return {
        "day": words.day,
        "day_minutes": words.measure.day_minutes,
        "currency": words.currency,
        "decimals": words.decimals,
        "length": gathered.length,
        "has_choice": gathered.has_choice,
        "latest": None if top is None else str(top.latest),
        "uncharged": str(sum(each.figures.bac for each in uncharged_budgets(state))),
        "chances": [[str(it), percent_text(chance)] for it, chance in gathered.chances.items()],
        "calendar": {
            "first": state.rest.clock.first_day.isoformat(),
            "unit": state.rest.side.unit_minutes,
            "runs": state.rest.clock.runs(state.rest.longest),
        },
        "drawing": {"first": drawn.first.isoformat(), "days": drawn.days},
        "contract": None
        if contract is None
        else {
            "units": state.rest.clock.units_until(contract.day),
            "name": contract.name,
        },
        "exact": exact_dates(gathered),
        "latest_end": contract_minutes(state.rest.side, state.rest.network),
        "stretches": [[s.lower, s.upper, s.text] for s in chosen.stretches],
        "chart": {
            "least": chosen.scale.least,
            "most": chosen.scale.most,
            "height": HEIGHT,
        },
        "tasks": tasks_data(gathered, state.rest.network),
    }


def latest_minutes(gathered: Gathered, task: SideTask) -> tuple[int | None, int | None]:
    """Returns the working minutes after the start by which a task has to begin and to end."""
    side = gathered.state.rest.side
    first = side.calendar.morning(side.start)
    latest = latest_of(side, task)
    moments = (latest.start, latest.finish)
    start, finish = (None if it is None else side.calendar.between(first, it) for it in moments)
    return start, finish


def tasks_data(gathered: Gathered, network: Deck) -> list[list[object]]:
    """Returns the real tasks for the script.

    Each has the places of its activities, of its moments, its state, its name, and the working
    minutes after the start by which it has to begin and to end.
    """
    places = {card.code: place for place, card in enumerate(network.activities)}
    progress = progress_of(gathered)
    rows: list[list[object]] = []
    for task in gathered.state.rest.side.tasks:
        parts = [places[part] for part in task.parts]
        start = -1 if task.start_moment is None else places[task.start_moment]
        finish = -1 if task.finish_moment is None else places[task.finish_moment]
        state = list(State).index(progress[task.code].state)
        name = shown(task.name or task.code)
        rows.append([parts, start, finish, state, name, *latest_minutes(gathered, task)])
    return rows
