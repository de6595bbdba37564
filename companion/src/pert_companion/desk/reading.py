"""What the desk lets a process of its own do: read a file that somebody has dropped.

The process has limits of time and memory, and ends with the desk. It gets one line of JSON, and
answers with lines: `{"percent": .., "text": ..}` for each step that is done, then `{"outcome": ..}`
or `{"failed": ..}`. What it makes are files in a folder of the desk; it writes none of the user's.
"""

import json
import os
import resource
import sys
from collections.abc import Callable, Iterable
from datetime import date
from decimal import Decimal
from pathlib import Path
from threading import Thread
from typing import Any

from pert_companion.carry import CarryOptions
from pert_companion.carry.charges import close_of
from pert_companion.desk.amounts import read_day, read_number
from pert_companion.desk.projects import books_of
from pert_companion.desk.saving import Files, files_of
from pert_companion.importing import conversion
from pert_companion.importing.capacities import kept_capacities
from pert_companion.importing.conversion import Capacities, CrashSources, Imported
from pert_companion.importing.last import last_import
from pert_companion.importing.month_end import Books, Lists, close_month
from pert_companion.importing.overtime import Overtime, parse_overtime
from pert_companion.importing.reconcile import Reconciliation
from pert_companion.model import bookings
from pert_companion.model.bookings import BookingKind, Finding, not_accepted
from pert_companion.model.errors import CompanionError
from pert_companion.model.losses import MEANINGS, Acceptance, Loss, LossKind
from pert_companion.model.sidefile import SideFile, to_json
from pert_companion.model.terms import NO_TERMS, Terms
from pert_companion.programs.client import Programs
from pert_companion.readers.base import ReaderOptions
from pert_companion.readers.estimates import read_progress, read_to_go
from pert_companion.readers.vouchers import read_vouchers

MEMORY = 4 << 30
"""The most bytes of memory."""
SECONDS = 300
"""The most seconds of computing."""
STAGED = ("deck.csv", "deck.json", "deck.ledger.csv")
"""The files that the process makes."""

Request = dict[str, Any]


def main() -> None:
    """Does the work of one request."""
    _limit()
    request: Request = json.loads(sys.stdin.buffer.readline())
    Thread(target=_wait_for_desk, daemon=True).start()
    try:
        work = {"import": import_file, "book": book_list}[request["work"]]
        _say({"outcome": work(request, _tell)})
    except (CompanionError, OSError) as error:
        _say({"failed": _without_folder(str(error), Path(request["file"]))})
    except (ValueError, TypeError):
        _say({"failed": "this request makes no sense"})
    except MemoryError:
        _say({"failed": "this file needs more memory than the desk gives it"})
    except RecursionError:
        _say({"failed": "this file is nested too deeply"})


def _without_folder(text: str, file: Path) -> str:
    """Returns a fault that names the file as people know it, not where the desk keeps it."""
    return text.replace(str(file), file.name)


def _limit() -> None:
    """Sets the limits of this process, which the programs that it calls have too."""
    resource.setrlimit(resource.RLIMIT_AS, (MEMORY, MEMORY))
    resource.setrlimit(resource.RLIMIT_CPU, (SECONDS, SECONDS))
    resource.setrlimit(resource.RLIMIT_CORE, (0, 0))


def _wait_for_desk() -> None:
    """Ends this process when the desk closes its standard input, or is gone."""
    os.read(0, 1)
    os._exit(1)


def _say(line: Request) -> None:
    sys.stdout.write(json.dumps(line) + "\n")
    sys.stdout.flush()


def _tell(percent: int, text: str) -> None:
    _say({"percent": percent, "text": text})


# ---------------------------------------------------------------------------------- importing


def import_file(request: Request, tell: Callable[[int, str], None]) -> Request:
    """Returns what an import makes of a file, and stages the deck if all losses are accepted."""
    options, path = request["options"], Path(request["file"])
    last = Path(request["last"]) if request["last"] else None
    side = None if last is None else last_import(last)
    tell(5, f"reading {path.name}")
    imported = conversion.import_plan(
        conversion.read_source(path),
        _reader_options(options),
        CarryOptions(_text(options, "unit") or "auto", terms=_terms(options, side)),
        Path(request["deck"]),
        CrashSources(None, _overtime(options)),
        Capacities(kept=kept_capacities(side)),
    )
    tell(60, "comparing dates with those of the file")
    state = conversion.state_of(imported, Programs(_folder(request)))
    dates = conversion.compare_dates(state)
    tell(80, "looking for tasks that pause")
    pauses = conversion.pause_line(imported, state)
    tell(95, "done")
    acceptance = _acceptance(request["kinds"], side)
    taken, refused = acceptance.divided(imported.losses)
    is_complete = not refused and request["is_wanted"]
    if is_complete:
        _stage_import(Path(request["staging"]), conversion.with_accepted(imported, taken))
    return {**_outcome(imported, taken, dates), "pauses": pauses, "is_complete": is_complete}


def _acceptance(kinds: Iterable[str], side: SideFile | None) -> Acceptance:
    earlier = () if side is None else side.accepted
    return Acceptance(frozenset(LossKind(kind) for kind in kinds), earlier)


def _folder(request: Request) -> Path | None:
    return Path(request["bin"]) if request["bin"] else None


def _stage_import(staging: Path, imported: Imported) -> None:
    (staging / "deck.csv").write_bytes(imported.carried.data)
    (staging / "deck.json").write_bytes(to_json(imported.side))


def _reader_options(options: Request) -> ReaderOptions:
    """Returns what a request says about a file; what it leaves out is found in the file."""
    return ReaderOptions(
        name=_text(options, "name"),
        start=_day(options, "start"),
        data_date=_day(options, "as_of"),
        decimal=_text(options, "decimal"),
        day_first=options.get("day_first"),
        sheet=_text(options, "sheet"),
        crash_field=_text(options, "crash_field"),
        crash_cost_field=_text(options, "crash_cost_field"),
        calendar=_text(options, "calendar"),
    )


def _text(options: Request, name: str) -> str:
    return str(options.get(name) or "")


def _day(options: Request, name: str) -> date | None:
    return read_day(_text(options, name))


def _price(options: Request, name: str) -> Decimal | None:
    text = _text(options, name)
    return read_number(text, "money") if text else None


def _overtime(options: Request) -> Overtime | None:
    text = _text(options, "overtime")
    return parse_overtime(text) if text else None


def _terms(options: Request, last: SideFile | None) -> Terms:
    """Returns what the request says of the price of time, over what the last import was told."""
    said = Terms(
        _price(options, "overhead"),
        _price(options, "bonus"),
        _price(options, "penalty"),
        _day(options, "contract"),
    )
    return said.over(NO_TERMS if last is None else last.terms)


def _outcome(imported: Imported, taken: Iterable[Loss], dates: Reconciliation) -> Request:
    """Returns what was read, what was not, and how dates differ."""
    side, accepted = imported.side, set(taken)
    differences = [
        {
            "code": each.task.code,
            "row": each.task.row,
            "name": each.task.name,
            "field": each.field,
            "listed": each.listed.isoformat(),
            "computed": each.computed.isoformat(),
        }
        for each in dates.differences
    ]
    return {
        "file": imported.source.path.name,
        "format": imported.format,
        "tasks": len(side.tasks),
        "groups": len(side.groups),
        "links": len(imported.plan.links),
        "start": side.start.isoformat(),
        "data_date": None if side.data_date is None else side.data_date.isoformat(),
        "summary": conversion.summary(imported),
        "notes": [*imported.plan.notes, *imported.carried.notes],
        "losses": _by_kind(imported.losses, accepted),
        "dates": None
        if not dates.compared
        else {
            "compared": dates.compared,
            "summary": dates.summary(),
            "differences": differences,
        },
    }


def _by_kind(losses: Iterable[Loss], accepted: set[Loss]) -> list[Request]:
    """Returns losses by kind, in the order in which kinds come."""
    kinds: dict[LossKind, list[Loss]] = {}
    for loss in losses:
        kinds.setdefault(loss.kind, []).append(loss)
    found = []
    for kind, listed in kinds.items():
        texts = [
            {
                "where": loss.where,
                "name": loss.name,
                "field": loss.field,
                "text": loss.text,
                "why": loss.why,
            }
            for loss in listed
        ]
        is_accepted = all(loss in accepted for loss in listed)
        meaning = MEANINGS[kind]
        found.append(
            {"kind": kind.value, "meaning": meaning, "is_accepted": is_accepted, "losses": texts}
        )
    return found


# ------------------------------------------------------------------------------------ booking


def book_list(request: Request, tell: Callable[[int, str], None]) -> Request:
    """Returns what booking a list does to a deck, and stages the deck as it is then."""
    staging, options = Path(request["staging"]), request["options"]
    books = staged_books(staging, Path(request["deck"]))
    tell(10, "reading the list")
    lists = _lists(books, Path(request["file"]), options)
    month = close_month(books, lists, _day(options, "as_of"))
    accepted = frozenset(BookingKind(kind) for kind in request["kinds"])
    if not not_accepted(month.findings, accepted):
        stage(staging, files_of(month.books))
    unit = month.books.ledger.currency or books.side.currency
    return {
        "summary": month.sums.line(unit),
        "new": month.count,
        "notes": list(month.notes),
        "findings": _findings(month.findings, accepted),
        "is_complete": not not_accepted(month.findings, accepted),
    }


def _lists(books: Books, path: Path, options: Request) -> Lists:
    """Returns the list of a request as what it is said to be."""
    source, calendar = conversion.read_source(path), books.side.calendar
    style: Request = {
        "decimal": _text(options, "decimal"),
        "day_first": options.get("day_first"),
    }
    timed = ReaderOptions(
        day_minutes=calendar.day_minutes, week_minutes=calendar.week_minutes, **style
    )
    kind = options.get("list", "vouchers")
    if kind == "progress":
        return Lists(progress=(read_progress(source, timed),))
    if kind == "to-go":
        close = _day(options, "as_of") or close_of(books.deck)
        return Lists(to_go=(read_to_go(source, timed, close),))
    headings = books.ledger.headings
    return Lists(vouchers=(read_vouchers(source, ReaderOptions(**style), headings),))


def _findings(findings: Iterable[Finding], accepted: frozenset[BookingKind]) -> list[Request]:
    kinds: dict[BookingKind, list[Request]] = {}
    for each in findings:
        kinds.setdefault(each.kind, []).append({"place": each.place, "why": each.why})
    return [
        {
            "kind": kind.value,
            "meaning": bookings.MEANINGS[kind],
            "is_accepted": kind in accepted,
            "list": listed,
        }
        for kind, listed in kinds.items()
    ]


# ------------------------------------------------------------------------------------ staging


def stage(staging: Path, files: Files) -> None:
    """Writes the files of a project into a folder of the desk."""
    for name, data in zip(STAGED, (files.deck, files.side, files.ledger)):
        if data is not None:
            (staging / name).write_bytes(data)


def staged_files(staging: Path) -> Files:
    """Returns the files of a project in a folder of the desk."""
    deck, side, ledger = (staging / name for name in STAGED)
    return Files(
        deck.read_bytes(),
        side.read_bytes() if side.is_file() else None,
        ledger.read_bytes() if ledger.is_file() else None,
    )


def staged_books(staging: Path, deck: Path) -> Books:
    """Returns the project in a folder of the desk, as one at the path of a deck."""
    return books_of(staged_files(staging), deck)


if __name__ == "__main__":
    main()
