"""The TERMS card of a plan: what a unit of time costs, from what a working day does."""

import math
from dataclasses import dataclass
from decimal import Decimal
from fractions import Fraction

from pert_companion.model.cards import TermsCard
from pert_companion.model.errors import UsageError
from pert_companion.model.losses import Loss, LossKind
from pert_companion.model.terms import Terms

MAX_PRICE = 10**9
"""The most that a unit of time costs on a TERMS card."""


@dataclass(frozen=True)
class Prices:
    """Turns amounts by the working day into whole units of money by the unit of time."""

    day_units: Fraction
    """The units of time of a working day."""
    scale: int
    """How many units of money one of the currency is."""
    losses: list[Loss]
    """Gets a loss for each amount that is rounded up."""

    def of(self, name: str, amount: Decimal | None) -> int:
        """Returns what a unit of time costs. Raises `UsageError` if a card cannot have it."""
        exact = Fraction(amount or 0) * self.scale / self.day_units
        if not 0 <= exact <= MAX_PRICE:
            raise UsageError(f"--{name} {amount}: a deck has prices of time from 0 to {MAX_PRICE}")
        price = math.ceil(exact)
        if price != exact:
            why = f"{float(exact):.10g} for a unit of the deck is rounded up to {price}"
            self.losses.append(Loss(LossKind.FRACTION, "TERMS", "", name, f"{amount}", why))
        return price


def terms_card(terms: Terms, target: int | None, prices: Prices) -> TermsCard | None:
    """Returns the card, or None if nobody said what time costs.

    `target` is the contract's length in units. Raises `UsageError` for terms that make no sense.
    """
    amounts = (terms.overhead, terms.bonus, terms.penalty)
    if amounts == (None, None, None):
        return None
    if target is None and (terms.bonus or terms.penalty):
        raise UsageError("--bonus and --penalty need the contract's date: --contract YYYY-MM-DD")
    if (terms.bonus or 0) > (terms.penalty or 0):
        raise UsageError(f"--bonus {terms.bonus} is above --penalty {terms.penalty or 0}")
    return TermsCard(
        overhead=prices.of("overhead", terms.overhead),
        target=target or 0,
        bonus=prices.of("bonus", terms.bonus),
        penalty=prices.of("penalty", terms.penalty),
    )
