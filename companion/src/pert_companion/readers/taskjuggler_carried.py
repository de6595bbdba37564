"""What becomes of what TaskJuggler writes as MSPDI, where that is not as in MS Project's files."""

from pert_companion.readers.carried import Carried

TASKJUGGLER = (
    Carried(
        "fixed dates of each task",
        "the day of a task without links; dates to compare with",
        {
            "Task": "ConstraintType Start Finish Manual ManualStart ManualFinish DurationFormat",
        },
    ),
    Carried(
        "links",
        "links; gaps (`gaplength`) are not in the export",
        {
            "PredecessorLink": "PredecessorUID Type",
        },
    ),
    Carried(
        "percent complete, actual dates",
        "progress as of `now`, of tasks that have begun",
        {
            "Project": "StatusDate",
            "Task": "PercentComplete ActualStart ActualFinish",
        },
    ),
    Carried(
        "all else; several tasks at the top",
        "as in MS Project's files; groups",
        {
            "Project": (
                "Name StartDate CurrencyCode CalendarUID MinutesPerDay MinutesPerWeek DaysPerMonth"
            ),
            "Task": "UID ID Name WBS OutlineNumber OutlineLevel Active IsNull",
            "Resource": "UID Name Type MaxUnits StandardRate OvertimeRate CalendarUID",
            "Assignment": "TaskUID ResourceUID",
            "TimephasedData": "Type Value",
            "Calendar": "UID Name BaseCalendarUID",
            "WeekDay": "DayType DayWorking",
            "WorkingTime": "FromTime ToTime",
        },
    ),
)
"""The rows of the table, in the order of the page."""
