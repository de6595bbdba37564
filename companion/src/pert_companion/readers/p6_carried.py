"""What becomes of the fields of Primavera P6, by their names in XER.

P6's XML has most of them under names of its own, which `pmxml` translates.
"""

from pert_companion.readers.carried import Carried

P6 = (
    Carried("activity id", "the code", {"TASK": "task_id task_code task_name"}),
    Carried(
        "items of the WBS",
        "groups; the project's own item is the plan",
        {
            "PROJWBS": "wbs_id proj_id parent_wbs_id wbs_short_name wbs_name seq_num",
            "TASK": "wbs_id",
            "PROJECT": "proj_name proj_short_name",
        },
    ),
    Carried(
        "start, Must Finish By, currency",
        "those of the plan",
        {
            "PROJECT": "proj_id plan_start_date plan_end_date base_curr_id",
            "CURRTYPE": "curr_id curr_short_name",
        },
        in_xml={"Currency": "ObjectId Id"},
    ),
    Carried(
        "data date",
        "a morning: progress is as of the evening before",
        {"PROJECT": "last_recalc_date"},
    ),
    Carried(
        "durations, dates, percent of each type",
        "duration and progress; dates to compare with",
        {
            "TASK": "target_drtn_hr_cnt remain_drtn_hr_cnt status_code complete_pct_type"
            " phys_complete_pct act_work_qty remain_work_qty act_start_date act_end_date"
            " early_start_date early_end_date target_start_date target_end_date"
        },
        in_xml={"Activity": "PhysicalPercentComplete"},
    ),
    Carried(
        "calendar of most activities",
        "the calendar of the plan; `--calendar NAME` takes another one",
        {
            "PROJECT": "clndr_id",
            "CALENDAR": "clndr_id clndr_name day_hr_cnt week_hr_cnt month_hr_cnt clndr_data",
        },
        in_xml={
            "Calendar": "ObjectId Name HoursPerDay HoursPerWeek HoursPerMonth",
            "StandardWorkHours": "DayOfWeek",
            "HolidayOrException": "Date",
            "WorkTime": "Start Finish",
        },
    ),
    Carried(
        "an activity with another calendar",
        "its own calendar ([several calendars](#several-calendars))",
        {"TASK": "clndr_id", "RSRC": "clndr_id"},
    ),
    Carried(
        "links with lags",
        "links; lags by the calendar of the scheduling options, or else the predecessor's",
        {
            "TASKPRED": "task_id pred_task_id proj_id pred_type lag_hr_cnt",
            "SCHEDOPTIONS": "proj_id sched_calendar_on_relationship_lag",
        },
    ),
    Carried(
        "costs of resources, expenses",
        "added up",
        {
            "TASKRSRC": "target_cost act_reg_cost act_ot_cost remain_cost",
            "PROJCOST": "task_id target_cost act_cost remain_cost",
        },
    ),
    Carried("primary constraint", "the constraint", {"TASK": "cstr_type cstr_date"}),
    Carried(
        "secondary constraint",
        'a deadline if it is "finish on or before", else named',
        {"TASK": "cstr_type2 cstr_date2"},
    ),
    Carried(
        "level of effort, WBS summary", "left out with its links, named", {"TASK": "task_type"}
    ),
    Carried(
        "suspended activity, dates from other projects",
        "named",
        {"TASK": "suspend_date external_early_start_date external_late_end_date proj_id"},
    ),
    Carried(
        "resources, roles, rates, units per time",
        "resources, capacities; of those that change the first one",
        {
            "RSRC": "rsrc_id rsrc_name rsrc_short_name rsrc_type unit_id",
            "RSRCRATE": "rsrc_id cost_per_qty max_qty_per_hr start_date",
            "ROLES": "role_id role_name",
            "ROLELIMIT": "role_id max_qty_per_hr start_date",
            "TASKRSRC": "task_id rsrc_id role_id target_qty",
            "UMEASURE": "unit_id unit_abbrev",
        },
    ),
    Carried(
        "user-defined fields",
        "`Crash Duration`, `Slope`, .., or `--crash-field`; numbers are days",
        {
            "UDFTYPE": "udf_type_id table_name udf_type_label",
            "UDFVALUE": "udf_type_id fk_id udf_number udf_text",
        },
        in_xml={
            "UDFType": "SubjectArea",
            "UDF": "TypeObjectId IntegerValue DoubleValue CostValue TextValue",
        },
    ),
    Carried(
        "baseline projects (.xml)",
        "baselines",
        in_xml={
            "BaselineProject": "OriginalProjectObjectId",
            "Activity": "PlannedLaborCost PlannedNonLaborCost PlannedExpenseCost",
        },
    ),
)
"""The rows of the table, in the order of the page; they name all fields that XER is read for."""
