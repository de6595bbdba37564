"""What a list of vouchers, of estimates or of progress has that a state does not take as it is."""

from collections.abc import Iterable
from dataclasses import dataclass
from enum import Enum


class BookingKind(str, Enum):
    """The kinds of findings, as `--accept` names them."""

    ROW = "row"
    ACCOUNT = "account"
    CLOSED = "closed"
    LATER = "later"
    NUMBER = "number"
    BALANCE = "balance"
    FRACTION = "fraction"
    CHARGE = "charge"
    TASK = "task"
    PROGRESS = "progress"


MEANINGS: dict[BookingKind, str] = {
    BookingKind.ROW: "a row without a date, an account or an amount that can be read; left out",
    BookingKind.ACCOUNT: "an account that the deck does not have; kept in the ledger alone",
    BookingKind.CLOSED: "a package whose work is finished and that needs nothing more; booked",
    BookingKind.LATER: "a day after the data date; kept in the ledger until a later data date",
    BookingKind.NUMBER: "a voucher number that another voucher has; booked",
    BookingKind.BALANCE: "an account whose balance is below zero; the deck has 0",
    BookingKind.FRACTION: "a part of a unit of money; the balance is rounded",
    BookingKind.CHARGE: "charges of the deck that no ledger has; replaced by the ledger's",
    BookingKind.TASK: "a task or account of a list that the deck does not have; left out",
    BookingKind.PROGRESS: "progress that makes no sense; left out",
}
"""What each kind is and what happens if it is accepted, as `pert-ledger --help` says it."""


@dataclass(frozen=True)
class Finding:
    """One row or balance that is not taken as it is."""

    kind: BookingKind
    place: str
    """The file and the row, or the account and the day."""
    why: str

    def line(self) -> str:
        """Returns the line for the user."""
        return f"{self.place}: {self.why} [{self.kind.value}]"


def not_accepted(findings: Iterable[Finding], accepted: frozenset[BookingKind]) -> list[Finding]:
    """Returns the findings whose kind the user did not accept, in their order."""
    return [finding for finding in findings if finding.kind not in accepted]
