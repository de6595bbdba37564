"""What XER and P6's XML call the fields that a schedule changes, and the words of some of them."""

from collections.abc import Mapping
from dataclasses import dataclass

EXPENSE_NAME = "Shortening"
"""The expense of an activity that has what its shortening costs."""


@dataclass(frozen=True)
class Names:
    """The fields of one format. Those in tuples are all set; a field that is empty stays empty."""

    moment: str
    """How moments are written, for `strftime`."""
    status: str
    begun: str
    finished: str
    type: str
    start_milestone: str
    project: str
    project_finish: tuple[str, ...]
    planned_duration: str
    remaining_duration: str
    duration_at_completion: tuple[str, ...]
    start: tuple[str, ...]
    """Of an activity that has not begun."""
    planned_finish: tuple[str, ...]
    """Of an activity that has not begun."""
    left_start: tuple[str, ...]
    """When what is left of it begins."""
    finish: tuple[str, ...]
    late_start: tuple[str, ...]
    late_finish: tuple[str, ...]
    total_float: tuple[str, ...]
    percent_type: str
    percent_by_duration: str
    duration_percent: tuple[str, ...]
    percent: tuple[str, ...]
    duration_type: str
    fixed_units: frozenset[str]
    """The types of activities whose units stay when their duration changes."""
    resource: str
    resource_type: str
    material: str
    unit_sums: Mapping[str, tuple[str, ...]]
    """The units of an activity by type of resource: planned, and those that are left."""
    planned_units: str
    remaining_units: str
    units_at_completion: tuple[str, ...]
    planned_rate: tuple[str, ...]
    remaining_rate: tuple[str, ...]
    cost_by_units: str
    not_by_units: str
    planned_cost: str
    remaining_cost: str
    cost_at_completion: tuple[str, ...]
    assignment_dates: tuple[tuple[str, str], ...]
    """Dates of assignments that go along if they are those of the activity."""
    expense_name: str
    expense_planned: tuple[str, ...]
    expense_left: tuple[str, ...]
    user_values: tuple[str, ...]


XER = Names(
    moment="%Y-%m-%d %H:%M",
    status="status_code",
    begun="TK_Active",
    finished="TK_Complete",
    type="task_type",
    start_milestone="TT_Mile",
    project="proj_id",
    project_finish=("scd_end_date",),
    planned_duration="target_drtn_hr_cnt",
    remaining_duration="remain_drtn_hr_cnt",
    duration_at_completion=(),
    start=("target_start_date",),
    planned_finish=("target_end_date",),
    left_start=("early_start_date", "restart_date"),
    finish=("early_end_date", "reend_date"),
    late_start=("late_start_date", "rem_late_start_date"),
    late_finish=("late_end_date", "rem_late_end_date"),
    total_float=("total_float_hr_cnt",),
    percent_type="complete_pct_type",
    percent_by_duration="CP_Drtn",
    duration_percent=(),
    percent=(),
    duration_type="duration_type",
    fixed_units=frozenset(("DT_FixedQty", "DT_FixedDUR2")),
    resource="rsrc_id",
    resource_type="rsrc_type",
    material="RT_Mat",
    unit_sums={
        "RT_Labor": ("target_work_qty", "remain_work_qty"),
        "RT_Equip": ("target_equip_qty", "remain_equip_qty"),
    },
    planned_units="target_qty",
    remaining_units="remain_qty",
    units_at_completion=(),
    planned_rate=("target_qty_per_hr",),
    remaining_rate=("remain_qty_per_hr",),
    cost_by_units="cost_qty_link_flag",
    not_by_units="N",
    planned_cost="target_cost",
    remaining_cost="remain_cost",
    cost_at_completion=(),
    assignment_dates=(
        ("target_start_date", "target_start_date"),
        ("target_end_date", "target_end_date"),
        ("restart_date", "restart_date"),
        ("reend_date", "reend_date"),
        ("rem_late_start_date", "rem_late_start_date"),
        ("rem_late_end_date", "rem_late_end_date"),
    ),
    expense_name="cost_name",
    expense_planned=("target_cost", "cost_per_qty"),
    expense_left=("remain_cost",),
    user_values=("udf_number", "udf_text"),
)
PMXML = Names(
    moment="%Y-%m-%dT%H:%M:%S",
    status="Status",
    begun="In Progress",
    finished="Completed",
    type="Type",
    start_milestone="Start Milestone",
    project="ProjectObjectId",
    project_finish=("ScheduledFinishDate", "FinishDate"),
    planned_duration="PlannedDuration",
    remaining_duration="RemainingDuration",
    duration_at_completion=("AtCompletionDuration",),
    start=("StartDate", "PlannedStartDate"),
    planned_finish=("PlannedFinishDate",),
    left_start=("RemainingEarlyStartDate", "EarlyStartDate"),
    finish=("FinishDate", "RemainingEarlyFinishDate", "EarlyFinishDate"),
    late_start=("RemainingLateStartDate", "LateStartDate"),
    late_finish=("RemainingLateFinishDate", "LateFinishDate"),
    total_float=("TotalFloat",),
    percent_type="PercentCompleteType",
    percent_by_duration="Duration",
    duration_percent=("DurationPercentComplete",),
    percent=("PercentComplete",),
    duration_type="DurationType",
    fixed_units=frozenset(("Fixed Units", "Fixed Duration and Units")),
    resource="ResourceObjectId",
    resource_type="ResourceType",
    material="Material",
    unit_sums={
        "Labor": ("PlannedLaborUnits", "RemainingLaborUnits", "AtCompletionLaborUnits"),
        "Nonlabor": ("PlannedNonLaborUnits", "RemainingNonLaborUnits", "AtCompletionNonLaborUnits"),
    },
    planned_units="PlannedUnits",
    remaining_units="RemainingUnits",
    units_at_completion=("AtCompletionUnits",),
    planned_rate=("PlannedUnitsPerTime",),
    remaining_rate=("RemainingUnitsPerTime",),
    cost_by_units="IsCostUnitsLinked",
    not_by_units="0",
    planned_cost="PlannedCost",
    remaining_cost="RemainingCost",
    cost_at_completion=("AtCompletionCost",),
    assignment_dates=(
        ("PlannedStartDate", "PlannedStartDate"),
        ("PlannedFinishDate", "PlannedFinishDate"),
        ("StartDate", "StartDate"),
        ("FinishDate", "FinishDate"),
        ("RemainingStartDate", "RemainingEarlyStartDate"),
        ("RemainingFinishDate", "RemainingEarlyFinishDate"),
    ),
    expense_name="ExpenseItem",
    expense_planned=("PlannedCost", "PricePerUnit"),
    expense_left=("RemainingCost", "AtCompletionCost"),
    user_values=("IntegerValue", "DoubleValue", "CostValue", "TextValue"),
)
