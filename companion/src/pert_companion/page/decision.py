"""The decision: what each option costs in all, and how its price comes to the latest estimate."""

from collections.abc import Sequence
from dataclasses import dataclass

from pert_companion.analysis.estimate_bridge import Step, estimate_bridge
from pert_companion.analysis.options import Option, Reason
from pert_companion.analysis.sureness import percent_text
from pert_companion.page.gathering import Gathered
from pert_companion.page.view import Line, Row, Table, plain, signed, strong, title
from pert_companion.page.words import MINUS, Words, day_text, shown

CHOSEN_ROW = "option-chosen"


@dataclass(frozen=True)
class Decision:
    """The section of options."""

    lead: Line
    terms: tuple[str, ...]
    """What time costs, and from when on."""
    options: Table
    bridge: Table | None


def decision(gathered: Gathered, words: Words) -> Decision:
    """Returns the options of a page."""
    return Decision(
        decision_sentence(gathered, words),
        tuple(terms_texts(gathered, words)),
        options_table(gathered, words),
        bridge_table(gathered, words),
    )


def option_for(options: Sequence[Option], reason: Reason) -> Option | None:
    """Returns the option with a reason, or None if it is none of them."""
    return next((option for option in options if option.has(reason)), None)


def decision_sentence(gathered: Gathered, words: Words) -> Line:
    """Returns in one sentence what there is to decide, and its price in all."""
    options = gathered.options
    if gathered.is_done:
        return plain("There is nothing to decide: all work is finished.")
    if not gathered.has_choice:
        return plain("There is nothing to decide: no task of what is left can be shortened.")
    cheapest = option_for(options, Reason.CHEAPEST)
    if cheapest is not None and cheapest.against_today < 0:
        return saving_sentence(cheapest, words)
    start = plain("Today’s plan costs least in all. ") if cheapest is not None else ()
    return (*start, *date_sentence(gathered, words))


def date_sentence(gathered: Gathered, words: Words) -> Line:
    """Returns what keeping the contract date costs, or what one day less does if it is kept."""
    contract, options = gathered.contract, gathered.options
    today, shortest = options[0], options[-1]
    if contract is None or today.end is None or today.end <= contract.day:
        return first_day_sentence(today, words)
    for reason in (Reason.CONTRACT, Reason.PLANNED, Reason.TARGET):
        wanted = option_for(options, reason)
        if wanted is not None:
            return price_sentence(wanted, words)
    start = plain(f"{day_text(contract.day)} cannot be kept. ")
    return (*start, *price_sentence(shortest, words))


def saving_sentence(option: Option, words: Words) -> Line:
    """Returns what an option that is cheaper than today's plan saves."""
    start = (*plain("Ending on "), *strong(day_text(option.end)), *plain(" saves "))
    saved = (*strong(words.money(-option.against_today)), *plain(" in all: "))
    return (*start, *saved, *plain(f"{parts_text(option, words)}."))


def price_sentence(option: Option, words: Words) -> Line:
    """Returns what an option costs beyond today's plan."""
    start = (*plain("Ending on "), *strong(day_text(option.end)), *plain(" costs "))
    more = strong(words.money(option.against_today))
    if option.time is None:
        return (*start, *more, *plain(" more for the work; the deck has no price of time."))
    return (*start, *more, *plain(f" in all: {parts_text(option, words)}."))


def parts_text(option: Option, words: Words) -> str:
    """Returns how work and time differ from today's plan: `72,250 more for the work, ..`."""
    work = more_text(option.work_against_today, words)
    return f"{work} for the work, {more_text(option.time_against_today, words)} for time"


def more_text(amount: int, words: Words) -> str:
    """Returns an amount with `more` or `less`."""
    return f"{words.money(abs(amount))} {'less' if amount < 0 else 'more'}"


def first_day_sentence(today: Option, words: Words) -> Line:
    """Returns what the first day less costs."""
    more = today.next or 0
    text = f"{words.one_less} would {'save' if more < 0 else 'cost'} "
    end = " in all." if today.time is not None else " for the work."
    part = part_of_day(today, words)
    return (*plain(text), *plain(f"{words.money(abs(more))}{part}"), *plain(end))


def terms_texts(gathered: Gathered, words: Words) -> list[str]:
    """Returns what time costs, with dates; a text without a price of time."""
    rest, terms = gathered.state.rest, gathered.state.rest.deck.terms
    if terms is None:
        return ["The deck has no price of time (TERMS), so an option costs what its work costs."]

    def money(price: int) -> str:
        return words.money(price * words.measure.step)

    texts = [f"Each {words.step} costs {money(terms.overhead)} of overhead."]
    day = day_text(rest.clock.end(terms.target))
    if terms.bonus:
        texts.append(f"Each {words.step} before the target, {day}, earns {money(terms.bonus)}.")
    if terms.penalty:
        texts.append(
            f"Each {words.step} after the target, {day}, costs {money(terms.penalty)} more."
        )
    contract = gathered.contract
    if (
        contract is not None
        and contract.is_binding
        and contract.day != rest.clock.end(terms.target)
    ):
        texts.append(f"The contract date is {day_text(contract.day)}.")
    return texts


def options_table(gathered: Gathered, words: Words) -> Table:
    """Returns the options from the longest to the shortest."""
    has_time = gathered.state.rest.deck.terms is not None
    heads = ["Option", "Ends", "Cost of the work"]
    heads += ["Price of time", "In all"] if has_time else []
    heads += ["Against today", words.one_less]
    has_chances = bool(gathered.chances)
    heads += ["Chance"] if has_chances else []
    rows = []
    chosen = (gathered.chosen,) if gathered.has_choice else ()
    for option in (*gathered.options, *chosen):
        cells = [plain(day_text(option.end)), plain(words.digits(option.work))]
        if has_time:
            cells.append(plain(words.digits(option.time or 0)))
            cells.append(plain(words.digits(option.total)))
        cells.append(plain(signed_text(option.against_today, words)))
        cells.append(plain(next_text(option, words)))
        if has_chances:
            chance = gathered.chances.get(option.length)
            cells.append(plain("\u2013" if chance is None else percent_text(chance)))
        rows.append(option_row(option, cells, words))
    return Table("Options", tuple(heads), tuple(rows), (1,))


def option_row(option: Option, cells: list[Line], words: Words) -> Row:
    """Returns the row of an option; the cheapest in all stands out."""
    name = (*plain(f"{words.length(option.length)}: "), *mark_names(option))
    key = CHOSEN_ROW if option.has(Reason.CHOSEN) else ""
    return Row(name, tuple(cells), is_sum=option.has(Reason.CHEAPEST), key=key)


def mark_names(option: Option) -> Line:
    """Returns why a length is an option."""
    line: Line = ()
    for mark in option.marks:
        if line:
            line = (*line, *plain(", "))
        line = (*line, *plain(mark.reason.value))
        if mark.name:
            line = (*line, *plain(" of "), *title(shown(mark.name)))
    return line


def next_text(option: Option, words: Words) -> str:
    """Returns what a day less costs: `+120`, or `+30 for 0.25 days` if no complete day is left."""
    if option.next is None:
        return "\u2013"
    return f"{signed_text(option.next, words)}{part_of_day(option, words)}"


def part_of_day(option: Option, words: Words) -> str:
    """Returns what the price of the next shortening is for if no complete day is left."""
    if option.step == words.measure.step:
        return ""
    return f" for {words.length(option.step)}"


def signed_text(amount: int, words: Words) -> str:
    """Returns an amount with its sign; 0 has none."""
    return signed(words.digits(amount))


def bridge_table(gathered: Gathered, words: Words) -> Table | None:
    """Returns how the cost of the work becomes the latest estimate, and that of the chosen length.

    The script draws the rows that have a key again when another length is chosen.
    """
    steps = estimate_bridge(gathered.state, gathered.chosen)
    if not steps:
        return None
    rows = tuple(bridge_row(step, words) for step in steps)
    caption = "From the cost of the work to all that the project costs at the chosen length"
    return Table(caption, ("", "Amount"), rows)


def bridge_row(step: Step, words: Words) -> Row:
    """Returns a line of the bridge."""
    text = words.digits(step.amount) if step.is_sum else signed_text(step.amount, words)
    name = step.name[0].upper() + step.name[1:]
    key = f"bridge-{step.key}" if step.key else ""
    return Row(plain(name), (plain(text.replace("-", MINUS)),), is_sum=step.is_sum, key=key)
