"""What becomes of the fields of MS Project's XML, as `mspdi`, `mspdi_tasks` and so on read them."""

from pert_companion.readers.carried import Carried

MSPDI = (
    Carried(
        "title, start, currency",
        "those of the plan",
        {"Project": "Title Name StartDate CurrencyCode"},
    ),
    Carried("UID of a task", "its code, `T7`: it stays when rows move", {"Task": "UID"}),
    Carried(
        "name, ID, WBS code, outline",
        "title, row number, groups",
        {"Task": "Name ID WBS OutlineNumber OutlineLevel IsNull"},
    ),
    Carried(
        "duration, start, finish",
        "the normal duration; dates to compare with",
        {"Task": "Duration Start Finish Milestone"},
    ),
    Carried(
        "links of tasks and of summary tasks",
        "links, with lags in time, elapsed time and percent",
        {"PredecessorLink": "PredecessorUID Type LinkLag LagFormat CrossProject"},
    ),
    Carried(
        "an elapsed duration (`14 ed`)",
        "a calendar that never stops ([several calendars](#several-calendars))",
        {"Task": "DurationFormat"},
    ),
    Carried(
        "a manual task",
        "starts no earlier than its own start; without a duration it has that of its dates",
        {"Task": "Manual ManualStart ManualFinish"},
    ),
    Carried(
        "an inactive task, a task of another file",
        "left out, named",
        {"Task": "Active ExternalTask IsSubproject"},
    ),
    Carried("a split task", "in one piece, named", {"Task": "Duration Start Finish"}),
    Carried(
        "constraints, deadlines, baselines 0 to 10",
        "kept in the side file; earliest dates hold in the deck",
        {
            "Task": "ConstraintType ConstraintDate Deadline",
            "Baseline": "Number Start Finish Duration Cost",
        },
    ),
    Carried(
        "percent complete, actual dates, remaining duration",
        "progress as of the status date",
        {
            "Project": "StatusDate",
            "Task": "PercentComplete ActualStart ActualFinish RemainingDuration",
        },
    ),
    Carried(
        "costs, resources, assignments, Max. Units",
        "costs, loads, capacities",
        {
            "Task": "Cost FixedCost ActualCost RemainingCost",
            "Resource": "UID Name Type MaterialLabel StandardRate OvertimeRate MaxUnits",
            "Assignment": "TaskUID ResourceUID Units Work",
            "TimephasedData": "Type Value",
        },
    ),
    Carried(
        "calendar of the project, with its base and exceptions",
        "the calendar of the plan",
        {
            "Project": "CalendarUID MinutesPerDay MinutesPerWeek DaysPerMonth",
            "Calendar": "UID Name BaseCalendarUID",
            "WeekDay": "DayType DayWorking",
            "Exception": "Name DayWorking",
            "TimePeriod": "FromDate ToDate",
            "WorkingTime": "FromTime ToTime",
        },
    ),
    Carried(
        "calendar of a task",
        "its own calendar ([several calendars](#several-calendars))",
        {"Task": "CalendarUID"},
    ),
    Carried(
        "calendar of a resource",
        "named if its working time is another one, unless its tasks ignore it",
        {"Resource": "CalendarUID", "Task": "IgnoreResourceCalendar"},
    ),
    Carried(
        "exceptions that come back each year or week",
        "their days; other recurrences are named",
        {"Exception": "Type Period Month MonthDay DaysOfWeek"},
    ),
    Carried(
        "Duration1, Cost1, ..",
        "`--crash-field`, `--crash-cost-field`, or an alias such as `Crash`, `Slope`",
        {"ExtendedAttribute": "FieldID FieldName Alias Value"},
    ),
)
"""The rows of the table, in the order of the page."""
