"""The first screen: what a reader who has twenty seconds needs, in sentences and tiles."""

from dataclasses import dataclass

from pert_companion.analysis.forecast import current_end
from pert_companion.analysis.options import Reason
from pert_companion.analysis.sureness import percent_text
from pert_companion.page.decision import decision_sentence, option_for, part_of_day
from pert_companion.page.gathering import Gathered, original_budget, project_amounts
from pert_companion.page.sure import sure_sentence
from pert_companion.page.view import Line, Tile, plain, signed, strong, title
from pert_companion.page.words import Words, day_text, number_text, plural, shown


@dataclass(frozen=True)
class FirstScreen:
    """What a reader sees first."""

    sentences: tuple[Line, ...]
    tiles: tuple[Tile, ...]


def first_screen(gathered: Gathered, words: Words) -> FirstScreen:
    """Returns the first screen of a page."""
    sentences = [when_sentence(gathered, words)]
    if not gathered.is_done:
        sentences.append(sure_sentence(gathered))
    sentences.append(money_sentence(gathered, words))
    if gathered.previous is not None:
        sentences.append(changed_sentence(gathered, words))
    sentences.append(decision_sentence(gathered, words))
    tiles = (*date_tiles(gathered, words), *money_tiles(gathered, words))
    return FirstScreen(tuple(sentences), tiles)


def lateness(gathered: Gathered) -> int:
    """Returns the units by which today's plan ends after the date that it is held to."""
    rest = gathered.state.rest
    if gathered.contract is None:
        return 0
    units = rest.longest
    if gathered.is_done and gathered.end is not None:
        units = rest.clock.units_until(gathered.end)
    return units - rest.clock.units_until(gathered.contract.day)


def late_text(words: Words, late: int) -> str:
    """Returns how late something is, of which units of the deck are given: `3 days late`."""
    if late == 0:
        return "on time"
    return f"{words.length(abs(late))} {'late' if late > 0 else 'early'}"


def when_sentence(gathered: Gathered, words: Words) -> Line:
    """Returns the sentence about the end of the work."""
    what = "What is left ends" if gathered.state.has_begun else "The work ends"
    what = "All work is finished: it ended" if gathered.is_done else what
    line = (*plain(f"{what} on "), *strong(day_text(gathered.end)))
    if not gathered.is_done:
        line = (*line, *plain(" by normal durations"))
    contract = gathered.contract
    if contract is not None:
        late = late_text(words, lateness(gathered))
        line = (*line, *plain(f", {late} against the {contract.name} {day_text(contract.day)}"))
    return (*line, *plain("."))


def money_sentence(gathered: Gathered, words: Words) -> Line:
    """Returns the sentence about the money: the estimate against the last and the first budget."""
    top, money = project_amounts(gathered.state), words.money
    if top is None:
        cost = money(gathered.state.rest.curve[0].cost)
        return plain(f"The work costs {cost}; the deck has no accounts.")
    line = (*plain("The latest estimate is "), *strong(money(top.latest)))
    line = (
        *line,
        *plain(f" against a budget of {money(top.budget)}, {over_text(top.overrun, words)}"),
    )
    first = original_budget(gathered.state, gathered.baseline)
    if first is not None and first != top.budget:
        grown = over_text(top.latest - first, words)
        line = (*line, *plain(f"; the first budget was {money(first)}, so that it is {grown}"))
    return (*line, *plain("."))


def over_text(overrun: int, words: Words) -> str:
    """Returns how an estimate is to a budget: `217,934 over`."""
    if overrun == 0:
        return "as budgeted"
    return f"{words.money(abs(overrun))} {'over' if overrun > 0 else 'under'} it"


def changed_sentence(gathered: Gathered, words: Words) -> Line:
    """Returns how end and estimate have moved since the report before."""
    previous, state = gathered.previous, gathered.state
    assert previous is not None
    before, now = current_end(previous), gathered.end
    line = plain(f"Since the report of {day_text(previous.data_day)} ")
    if before is None or now is None or before == now:
        line = (*line, *plain("the end has not moved"))
    else:
        days = state.side.calendar.count_days(min(before, now), max(before, now))
        way = "later" if now > before else "earlier"
        moved = f"the end is {plural(days, words.day)} {way}, from {day_text(before)}"
        line = (*line, *plain(moved), *main_cause(gathered))
    amounts = project_amounts(previous), project_amounts(state)
    if amounts[0] is not None and amounts[1] is not None:
        scale = state.side.money_scale // previous.side.money_scale or 1
        more = amounts[1].latest - amounts[0].latest * scale
        text = "the estimate is as it was"
        if more:
            text = f"the estimate is {words.money(abs(more))} {'more' if more > 0 else 'less'}"
        line = (*line, *plain(f", and {text}"))
    return (*line, *plain("."))


def main_cause(gathered: Gathered) -> Line:
    """Returns the task that moved the end most: `, the largest move by Roof (+3)`."""
    moves = None if gathered.changes is None else gathered.changes.bridges.moves
    if moves is None or not moves.tasks:
        return ()
    most = max(moves.tasks, key=lambda move: abs(move.days))
    task = most.new or most.old
    if task is None or not most.days:
        return ()
    name = title(shown(task.name or task.code))
    return (*plain(", the largest move by "), *name, *plain(f" ({signed(number_text(most.days))})"))


def date_tiles(gathered: Gathered, words: Words) -> tuple[Tile, ...]:
    """Returns the tiles of the end, of how sure it is, and of the date that it is held to."""
    contract, found, late = gathered.contract, gathered.sureness, lateness(gathered)
    note = "finished" if gathered.is_done else "by normal durations"
    if contract is not None:
        note = f"{note}, {late_text(words, late)}"
    end = Tile("End", plain(day_text(gathered.end)), plain(note), tone(late))
    why = "the work is finished" if gathered.is_done else "the deck has single estimates"
    even = Tile("Even chance (P50)", plain("\u2013"), plain(why))
    if found is not None:
        note = f"four in five (P80): {day_text(found.likely_end)}; simulated"
        even = Tile("Even chance (P50)", plain(day_text(found.even_end)), plain(note))
    if contract is None:
        return end, even, Tile("Contract date", plain("\u2013"), plain("none"))
    name = contract.name[0].upper() + contract.name[1:]
    note = contract.kind
    if found is not None and contract.is_binding:
        note = f"chance {percent_text(found.chance_by(contract.day))} (simulated)"
    return end, even, Tile(name, plain(day_text(contract.day)), plain(note))


def tone(excess: int) -> str:
    """Returns the tone of a tile with something that is more than agreed."""
    return "bad" if excess > 0 else ""


def money_tiles(gathered: Gathered, words: Words) -> tuple[Tile, ...]:
    """Returns the tiles of the latest estimate, the budget and the decision."""
    top, money = project_amounts(gathered.state), words.money
    decision = decision_tile(gathered, words)
    if top is None:
        cost = plain(money(gathered.state.rest.curve[0].cost))
        none = Tile("Budget", plain("\u2013"), plain("the deck has no accounts"))
        return Tile("Cost of the work", cost, plain("at normal durations")), none, decision
    note = over_text(top.overrun, words).replace(" it", " the budget")
    latest = Tile("Latest estimate", plain(money(top.latest)), plain(note), tone(top.overrun))
    budget = Tile("Budget", plain(money(top.budget)), plain(f"spent {money(top.actual)}"))
    return latest, budget, decision


def decision_tile(gathered: Gathered, words: Words) -> Tile:
    """Returns the tile of the option that is best in all, or of the price of the first day."""
    cheapest = option_for(gathered.options, Reason.CHEAPEST)
    if cheapest is not None:
        note = "which is today’s plan"
        if cheapest.against_today:
            note = f"saves {words.money(-cheapest.against_today)} in all"
        return Tile("Cheapest in all", plain(f"ends {day_text(cheapest.end)}"), plain(note))
    today = gathered.options[0]
    if today.next is None:
        return Tile("Decision", plain("none"), plain("nothing can be shortened"))
    price = f"{words.money(today.next)}{part_of_day(today, words)}"
    return Tile(words.one_less, plain(price), plain("for the work"))
