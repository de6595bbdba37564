"""The terms of the page with their definitions; a name on the page is a link to its own."""

from collections.abc import Mapping

from pert_companion.page.view import Word
from pert_companion.page.words import Words

MEANINGS = {
    "End": "The last day of work by normal durations: what today's plan says.",
    "Even chance (P50)": "The first day by which at least half of the simulated runs end.",
    "Chosen length": "How long the work that is left takes: as the slider or the address says; at"
    " first as the command says, or the cheapest in all.",
    "Ends on": "The last day of work at the chosen length.",
    "Contract date": "The day on the PROJECT card by which the project has to end.",
    "Target date": "The day on the TERMS card before which a bonus is earned, or after which a"
    " penalty is due.",
    "Planned end": "The last day of work of the baseline; the deck has no contract date.",
    "Latest estimate": "What was spent, and what is still to be spent as last estimated.",
    "Budget": "What the accounts were given, as of today.",
    "Cheapest in all": "The length with the least sum of the cost of the work and the price of"
    " time; of those that cost the same, the shortest.",
    "Decision": "Which length to choose; none if no task of what is left can be shortened.",
    "Cost of the work": "The least cost of all tasks at this length. It is proved by the"
    " certificate.",
    "Overhead": "What the time costs: the overhead of a day, for each day.",
    "Bonus": "What the contract pays for days before the target.",
    "Penalty": "What days after the target cost.",
    "Price of time": "Overhead for each day, less the bonus for days before the target, plus the"
    " penalty for days after it.",
    "In all": "Cost of the work and price of time together.",
    "Against today\u2019s plan": "What a length costs in all, less what today's plan costs in all.",
    "Against today": "What an option costs in all, less what today's plan costs in all.",
    "Chance": "The share of simulated runs that end by the day, with the estimates of shortened"
    " tasks shortened in proportion.",
    "Critical in": "Criticality index: the share of simulated runs in which the task was on the"
    " longest path.",
    "Spent": "The charges until now.",
    "Estimate over it": "The latest estimate less that budget.",
    "Cost": "The cost of the work of a period; that of a task is spread evenly over its time.",
    "To go": "What is still to be spent: the last estimate, or what is left of the budget.",
    "Over budget": "The latest estimate less the budget.",
    "Planned (PV)": "Planned value: the baseline's budget of the work that it had planned to be"
    " done by now.",
    "Earned (EV)": "Earned value: the baseline's budget of the work that is done.",
    "Spent (AC)": "Actual cost: the charges of these packages until now.",
    "CPI": "Cost performance index: earned value divided by actual cost.",
    "SPI": "Schedule performance index: earned value divided by planned value.",
    "CV": "Cost variance: earned value less actual cost.",
    "Budget at completion (BAC)": "The baseline's budget of all packages whose work is measured.",
    "EAC at planned cost": "Estimate at completion if the remaining work costs what was planned:"
    " AC + BAC \u2212 EV.",
    "EAC at the CPI so far": "Estimate at completion if the remaining work costs as the work so far"
    " did: BAC / CPI.",
    "EAC at CPI and SPI so far": "Estimate at completion if cost and time go on as they did:"
    " AC + (BAC \u2212 EV) / (CPI \u00d7 SPI).",
    "TCPI": "To-complete performance index: the CPI that the remaining work needs to end at the"
    " budget, (BAC \u2212 EV) / (BAC \u2212 AC).",
    "SV(t)": "Schedule variance in time: earned schedule less the time passed. Earned schedule is"
    " the time at which the baseline planned what is earned now.",
    "SPI(t)": "Schedule performance index in time: earned schedule divided by the time passed.",
    "Level of effort": "The part of BAC that is earned as planned, whatever was done.",
    "Undistributed budget": "Budget of the baseline that no package has yet. It is not in BAC.",
    "Changes since the baseline": "Budget that packages got or lost since the baseline, by"
    " changes.csv. It is not in BAC.",
    "Performance measurement baseline": "BAC, undistributed budget and changes since the baseline"
    " together.",
    "Management reserve": "Budget for what nobody can foresee. It is in no baseline.",
    "Scope": "The part of the change of an estimate that is a change of the budget.",
    "Re-estimate": "The part of the change of an estimate that is neither scope nor a charge of the"
    " time before the last report.",
    "Restated past": "Charges of the time before the last report that it did not have.",
}
SLACK = "Total float: how much later the task can end without the project ending later"


def definitions(words: Words) -> dict[str, Word]:
    """Returns the terms by the names that the page uses."""
    meanings = dict(MEANINGS)
    less = words.one_less
    one = less.removesuffix(" less").lower()
    meanings[less] = f"What ending {one} sooner costs more, in all."
    meanings[f"Work of {one} less"] = f"What the work of ending {one} sooner costs more."
    meanings["Slack"] = f"{SLACK}, in {words.day}s."
    meanings["Days"] = f"What is left to do of a task, in {words.day}s."
    return by_name(meanings)


def by_name(meanings: Mapping[str, str]) -> dict[str, Word]:
    """Returns terms with these names and meanings, by their names."""
    return {name: Word(_key(name), name, meaning) for name, meaning in meanings.items()}


def _key(name: str) -> str:
    """Returns the id of a term: letters and hyphens."""
    letters = "".join(letter if letter.isalnum() else "-" for letter in name.lower())
    return f"word-{letters.strip('-')}"
