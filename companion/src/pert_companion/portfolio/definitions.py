"""The headings of the page of several projects with their definitions."""

from pert_companion.page.definitions import by_name

MEANINGS = {
    "Late": "Working days from the date that the project is held to until its forecast end, with"
    " the deadlines that tasks miss.",
    "Overrun": "The latest estimate less the budget: what was spent and is still to be spent, less"
    " what the accounts were given.",
    "Forecast end": "The last day of work by what is left, at normal durations.",
    "80 % sure by": "P80: the first day by which at least four in five simulated runs end. It is"
    " simulated from three estimates, not proved.",
    "Held to": "The contract date; without one the target date, without both the planned end.",
    "Moved": "Working days by which the forecast end moved since the report before.",
    "One day less costs": "What ending one day before the forecast end costs more.",
    "Next milestone": "The first milestone that is not reached, with its day.",
    "As of": "The day of the figures.",
}
WORDS = by_name(MEANINGS)
"""The definitions by heading."""
