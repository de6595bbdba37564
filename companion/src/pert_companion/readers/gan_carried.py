"""What becomes of the fields of GanttProject's files, as `gan` and `task_tree` read them."""

from pert_companion.readers.carried import Carried

GAN = (
    Carried(
        "names, ids, outline",
        "titles, codes, groups",
        {
            "project": "name",
            "task": "id name",
        },
    ),
    Carried(
        "start, duration, milestone",
        "dates to compare with; whole days, `--day-hours` long",
        {
            "task": "start duration meeting",
        },
    ),
    Carried(
        "earliest start, links with lags",
        "a constraint, links",
        {
            "task": "thirdDate-constraint thirdDate",
            "depend": "id type difference",
        },
    ),
    Carried(
        "percent complete",
        "progress as of `--as-of`",
        {
            "task": "complete",
        },
    ),
    Carried(
        "costs, or rates by the day; resources",
        "costs, loads; there is one of each",
        {
            "task": "cost-calculated cost-manual-value",
            "rate": "name value",
            "resource": "id name",
            "allocation": "task-id resource-id load",
        },
    ),
    Carried(
        "free weekdays, holidays",
        "the calendar; those of each year for 30 years",
        {
            "default-week": "mon tue wed thu fri sat sun",
            "date": "year month date type",
        },
    ),
    Carried(
        "columns `Crash`, `Slope`, `Calendar`",
        "as in a list",
        {
            "taskproperty": "id name type",
            "customproperty": "taskproperty-id value",
        },
    ),
    Carried(
        "saved states",
        "baselines",
        {
            "previous-task": "id start duration",
        },
    ),
    Carried(
        "vacations of resources",
        "noted: they move no task",
    ),
)
"""The rows of the table, in the order of the page."""
