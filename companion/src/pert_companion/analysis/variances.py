"""Variances that a report has to explain, and the explanations that are kept for them."""

from collections.abc import Iterable, Iterator
from dataclasses import dataclass
from datetime import date
from decimal import Decimal
from fractions import Fraction

from pert_companion.analysis.performance import Line
from pert_companion.model.registers import Explanation


@dataclass(frozen=True)
class Threshold:
    """From when on a variance is explained: what is set has to be reached, both if both are."""

    percent: Decimal | None = None
    """Of PV for SV, of EV for CV, of BAC for VAC."""
    amount: Decimal | None = None
    """In the currency."""

    def is_reached(self, variance: int, base: int, scale: int) -> bool:
        """Says whether a variance of either sign, in units of money, has to be explained."""
        size = abs(variance)
        if not size or (self.amount is not None and size < self.amount * scale):
            return False
        if self.percent is None:
            return True
        return base == 0 or Fraction(size * 100, abs(base)) >= Fraction(self.percent)


@dataclass(frozen=True)
class Variance:
    """A variance that has to be explained."""

    code: str
    title: str
    manager: str
    figure: str
    """`SV`, `CV` or `VAC`."""
    amount: int
    """In units of money; negative is late, dear, or over budget."""
    percent: Fraction | None
    """Of PV, EV or BAC; None of nothing."""
    explanation: Explanation | None
    """What is written down for this data date; None if nothing is."""


def variances(
    lines: Iterable[Line],
    threshold: Threshold,
    explanations: Iterable[Explanation],
    day: date,
    scale: int,
) -> tuple[Variance, ...]:
    """Returns the variances of lines that reach a threshold, with the explanations of a data date.

    VAC is BAC less the latest estimate. `scale` is how many units of money one of the currency is.
    """
    written = {(each.item, each.figure): each for each in explanations if each.day == day}
    found = []
    for line in lines:
        for figure, amount, base in _figures(line):
            if not threshold.is_reached(amount, base, scale):
                continue
            percent = Fraction(amount * 100, base) if base else None
            said = written.get((line.code, figure)) or written.get((line.code, ""))
            found.append(
                Variance(line.code, line.title, line.manager, figure, amount, percent, said)
            )
    return tuple(found)


def _figures(line: Line) -> Iterator[tuple[str, int, int]]:
    """Yields the variances of a line with what each is a percentage of."""
    figures = line.figures
    yield "SV", figures.sv, figures.pv
    yield "CV", figures.cv, figures.ev
    left = line.variance_at_completion
    if left is not None:
        yield "VAC", left, figures.bac
