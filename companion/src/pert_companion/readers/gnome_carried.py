"""What becomes of the fields of GNOME Planner's files, as `gnome_planner` and others read them."""

from pert_companion.readers.carried import Carried

GNOME = (
    Carried(
        "names, ids, outline",
        "titles, codes, groups",
        {
            "project": "name project-start",
            "task": "id name",
        },
    ),
    Carried(
        "work, duration",
        "work is shared by those who do it; a fixed duration stays",
        {
            "task": "work duration scheduling type",
        },
    ),
    Carried(
        "links with lags",
        "links; lags by the clock, from the evening on",
        {
            "predecessor": "predecessor-id type lag",
        },
    ),
    Carried(
        "dates, constraints",
        "dates to compare with, constraints",
        {
            "task": "start work-start end",
            "constraint": "type time",
        },
    ),
    Carried(
        "percent complete",
        "progress as of `--as-of`",
        {
            "task": "percent-complete",
        },
    ),
    Carried(
        "resources, rates",
        "loads, costs; no quantities of materials",
        {
            "resource": "id name type std-rate ovt-rate",
            "allocation": "task-id resource-id units",
        },
    ),
    Carried(
        "calendar",
        "that of the plan",
        {
            "project": "calendar",
            "calendar": "id name",
            "default-week": "mon tue wed thu fri sat sun",
            "overridden-day-type": "id",
            "interval": "start end",
            "day": "date id",
        },
    ),
)
"""The rows of the table, in the order of the page."""
