"""The tables next to a deck as JSON: what a report page holds of them, to be made again from it."""

from typing import Any

from pert_companion.model.registers import (
    BudgetChange,
    Explanation,
    PackageRule,
    Registers,
    Rename,
    Renames,
    Technique,
)
from pert_companion.model.strict import Fields

MOST_WEIGHT = 999


def registers_json(registers: Registers) -> dict[str, Any]:
    """Returns the tables as JSON has them."""
    return {
        "packages": [_package_json(rule) for rule in registers.packages],
        "changes": [_change_json(change) for change in registers.changes],
        "renames": [{"old": row.old, "new": row.new} for row in registers.renames.rows],
        "explanations": [_explanation_json(each) for each in registers.explanations],
    }


def _package_json(rule: PackageRule) -> dict[str, Any]:
    return {
        "item": rule.item,
        "technique": rule.technique.value,
        "manager": rule.manager,
        "weights": [{"task": code, "weight": weight} for code, weight in rule.weights],
        "base": rule.base,
        "budget": None if rule.budget is None else f"{rule.budget:f}",
        "start": None if rule.start is None else rule.start.isoformat(),
        "finish": None if rule.finish is None else rule.finish.isoformat(),
        "title": rule.title,
        "place": rule.place,
    }


def _change_json(change: BudgetChange) -> dict[str, Any]:
    return {
        "date": change.day.isoformat(),
        "from": change.source,
        "to": change.target,
        "amount": f"{change.amount:f}",
        "reason": change.reason,
        "approved": change.approved,
        "place": change.place,
    }


def _explanation_json(explanation: Explanation) -> dict[str, Any]:
    return {
        "date": explanation.day.isoformat(),
        "item": explanation.item,
        "figure": explanation.figure,
        "cause": explanation.cause,
        "action": explanation.action,
        "place": explanation.place,
    }


def read_registers(fields: Fields) -> Registers:
    """Returns the tables that JSON holds; `InputError` names the first value that is none."""
    renames = tuple(_rename(row) for row in fields.entries("renames"))
    registers = Registers(
        packages=tuple(_package(row) for row in fields.entries("packages")),
        changes=tuple(_change(row) for row in fields.entries("changes")),
        renames=Renames(renames),
        explanations=tuple(_explanation(row) for row in fields.entries("explanations")),
    )
    fields.end()
    return registers


def _package(row: Fields) -> PackageRule:
    weights = []
    for part in row.entries("weights"):
        weights.append((part.text("task"), part.integer("weight", 0, MOST_WEIGHT)))
        part.end()
    name = row.text("technique")
    if name not in {technique.value for technique in Technique}:
        raise row.fault(f"{name[:40]!r} is no technique", "technique")
    rule = PackageRule(
        item=row.text("item"),
        technique=Technique(name),
        manager=row.text("manager"),
        weights=tuple(weights),
        base=row.text("base"),
        budget=row.optional_decimal("budget"),
        start=row.optional_day("start"),
        finish=row.optional_day("finish"),
        title=row.text("title"),
        place=row.text("place"),
    )
    row.end()
    return rule


def _change(row: Fields) -> BudgetChange:
    amount = row.optional_decimal("amount")
    if amount is None:
        raise row.fault("it is missing", "amount")
    change = BudgetChange(
        day=row.day("date"),
        source=row.text("from"),
        target=row.text("to"),
        amount=amount,
        reason=row.text("reason"),
        approved=row.text("approved"),
        place=row.text("place"),
    )
    row.end()
    return change


def _rename(row: Fields) -> Rename:
    rename = Rename(row.text("old"), row.text("new"))
    row.end()
    return rename


def _explanation(row: Fields) -> Explanation:
    explanation = Explanation(
        day=row.day("date"),
        item=row.text("item"),
        figure=row.text("figure"),
        cause=row.text("cause"),
        action=row.text("action"),
        place=row.text("place"),
    )
    row.end()
    return explanation
