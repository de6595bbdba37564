"""What time costs a project, and the date of its contract, as people say it: by working day."""

from dataclasses import dataclass, fields, replace
from datetime import date
from decimal import Decimal


@dataclass(frozen=True)
class Terms:
    """The terms of an imported plan; what nobody said is None. Amounts are of the currency."""

    overhead: Decimal | None = None
    """What each working day of the project costs."""
    bonus: Decimal | None = None
    """What each working day before the contract's date earns."""
    penalty: Decimal | None = None
    """What each working day after the contract's date costs."""
    contract: date | None = None
    """The last day of work by the contract."""

    def over(self, earlier: "Terms") -> "Terms":
        """Returns earlier terms with what these say in their place."""
        said = {field.name: getattr(self, field.name) for field in fields(self)}
        return replace(
            earlier, **{name: value for name, value in said.items() if value is not None}
        )

    def text(self) -> str:
        """Returns the terms for people: `overhead 4000/day, contract 2026-08-11`."""
        parts = []
        for name, amount in (
            ("overhead", self.overhead),
            ("bonus", self.bonus),
            ("penalty", self.penalty),
        ):
            if amount is not None:
                parts.append(f"{name} {amount:f}/day")
        if self.contract is not None:
            parts.append(f"contract {self.contract}")
        return ", ".join(parts)


NO_TERMS = Terms()
