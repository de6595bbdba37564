"""The names, in small letters, of custom fields of planners that say how a task is shortened."""

CRASH_NAMES = (
    "crash",
    "crash duration",
    "shortest duration",
    "minimum duration",
    "kürzeste dauer",
    "crashdauer",
)
SLOPE_NAMES = (
    "slope",
    "cost slope",
    "cost per day",
    "crash cost per day",
    "kosten pro tag",
    "mehrkosten pro tag",
    "mehrkosten je tag",
)
COST_NAMES = ("crash cost", "crash costs", "cost at crash", "crashkosten")
