"""Progress that a list brings, against progress that an import of the same plan brings."""

from dataclasses import replace

from hypothesis import assume, given, settings
from plans import ALL_FEATURES, Feature, plans

from pert_companion.carry import carry
from pert_companion.carry.progress import morning_after
from pert_companion.carry.reporting import with_progress
from pert_companion.model.losses import LossKind
from pert_companion.model.plan import Plan, Progress, Task
from pert_companion.model.progress import Reported


def without_progress(plan: Plan) -> Plan:
    """Returns the plan as it was before any work had begun."""
    outline = tuple(
        replace(entry, progress=Progress()) if isinstance(entry, Task) else entry
        for entry in plan.outline
    )
    return replace(plan, outline=outline, data_date=None)


def rows(plan: Plan) -> list[Reported]:
    """Returns the rows of a list that says what the plan says of each task."""
    found = []
    for task in plan.tasks():
        said = task.progress
        if said == Progress():
            continue
        found.append(
            Reported(
                task.uid,
                task.where,
                said.percent,
                said.remaining,
                said.actual_start,
                said.actual_finish,
            )
        )
    return found


@settings(max_examples=300)
@given(plans(ALL_FEATURES - {Feature.LISTED_DATES}))
def test_a_list_does_what_an_import_does(plan: Plan) -> None:
    """Parts, moments, waits and ends of groups have the statuses that an import gives them."""
    assume(plan.data_date is not None)
    assert plan.data_date is not None
    wanted = carry(plan)
    assume(not any(loss.kind is LossKind.PROGRESS for loss in wanted.losses))
    before = carry(without_progress(plan))
    deck = replace(before.deck, as_of=morning_after(plan.data_date))
    found = with_progress(deck, before.side, rows(plan), True)
    assume(not found.findings)
    assert found.deck.statuses == wanted.deck.statuses
