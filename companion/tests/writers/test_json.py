"""The JSON of results, against the schemas that docs/json/ has."""

import csv
import io
import json
from collections.abc import Sequence
from dataclasses import dataclass
from datetime import date
from decimal import Decimal
from enum import Enum
from fractions import Fraction
from pathlib import Path
from types import ModuleType
from typing import Any

import jsonschema
import pytest
from running import EXAMPLES, HOUSE, MONTHS, Outcome, run_words

from pert_companion.cli import (
    check_status,
    compare,
    days,
    exporting,
    importing,
    ledger,
    portfolio,
    remaining,
    report,
    schedule,
)
from pert_companion.cli.json_schemas import RESULTS, file_name, schemas
from pert_companion.writers.json_file import Document, jsonable, schema_of, to_json

SCHEMAS = Path(__file__).resolve().parents[3] / "docs" / "json"
Capture = pytest.CaptureFixture[bytes]


class Colour(Enum):
    """A choice."""

    RED = "red"


@dataclass(frozen=True)
class Inner:
    """A part."""

    day: date
    share: Fraction | None

    @property
    def is_known(self) -> bool:
        """Says whether there is a share."""
        return self.share is not None


@dataclass(frozen=True)
class Outer:
    """A whole."""

    colour: Colour
    amount: Decimal
    parts: tuple[Inner, ...]
    pair: tuple[str, int]
    by_name: dict[str, int]


WHOLE = Outer(
    Colour.RED,
    Decimal("1.50"),
    (Inner(date(2026, 3, 31), Fraction(2, 3)), Inner(date(2026, 4, 1), None)),
    ("a", 1),
    {"x": 2},
)


def test_values_are_written_by_their_types() -> None:
    """Fields and properties, dates and fractions as texts."""
    assert jsonable(WHOLE) == {
        "colour": "red",
        "amount": "1.50",
        "parts": [
            {"day": "2026-03-31", "share": "0.666667", "is_known": True},
            {"day": "2026-04-01", "share": None, "is_known": False},
        ],
        "pair": ["a", 1],
        "by_name": {"x": 2},
    }
    with pytest.raises(TypeError, match="object is no part of a result"):
        jsonable(object())


def test_a_document_is_valid_by_its_own_schema() -> None:
    """And one with a field more, a float or a wrong date is not."""
    schema = schema_of("pert-test", Outer)
    document = json.loads(to_json(Document("pert-test", 100, "EUR", WHOLE)))
    jsonschema.validate(document, schema)
    for name, wrong in (
        ("colour", "blue"),
        ("amount", 1.5),
        ("pair", ["a"]),
        ("more", 1),
    ):
        broken = json.loads(json.dumps(document))
        broken["result"][name] = wrong
        with pytest.raises(jsonschema.ValidationError):
            jsonschema.validate(broken, schema)


def test_the_schemas_of_the_documents_are_up_to_date() -> None:
    """tools/json-schemas.py writes them."""
    assert sorted(path.name for path in SCHEMAS.iterdir()) == sorted(schemas())
    for name, schema in schemas().items():
        assert json.loads((SCHEMAS / name).read_text()) == json.loads(json.dumps(schema)), name


DECK = MONTHS / "may.csv"
LISTS = EXAMPLES / "pump" / "lists"
WORDS: dict[str, list[object]] = {
    "pert-compare": [MONTHS],
    "pert-check-status": [MONTHS],
    "pert-schedule": [DECK],
    "pert-remaining": [DECK],
    "pert-days": [DECK],
    "pert-portfolio": [DECK, HOUSE, "missing.csv", "--no-cache"],
    "pert-import": [LISTS / "plan.csv", "--start", "2026-01-05", "--cents"],
    "pert-ledger": [EXAMPLES / "pump" / "january.csv", LISTS / "february-vouchers.csv"],
    "pert-export": [DECK],
    "pert-report": [DECK],
}
"""What each command is run on."""
VALUES = {"--threshold": ["1%,100"], "--count": ["2026-05-04"]}
"""What the last option of a command needs."""
MODULES: dict[str, ModuleType] = {
    module.NAME: module
    for module in (
        check_status,
        compare,
        days,
        exporting,
        importing,
        ledger,
        portfolio,
        remaining,
        report,
        schedule,
    )
}
WRITERS = {"pert-import": "pump.csv", "pert-export": "may.xlsx", "pert-report": "may.html"}
"""The commands that write a file, each with its name."""


def run(capture: Capture, words: Sequence[object]) -> Outcome:
    """Runs a command, whose name is the first word."""
    name, *rest = words
    module = MODULES[str(name)]
    return run_words(capture, module.NAME, (module.parser, module.run), rest)


def valid(command: str, text: str) -> Any:
    """Returns the result of a document, which its schema in docs/json allows."""
    document = json.loads(text)
    schema = json.loads((SCHEMAS / file_name(command)).read_text())
    jsonschema.validate(document, schema)
    assert document["command"] == command
    return document["result"]


@pytest.mark.parametrize("command", RESULTS)
def test_what_commands_print_is_valid(command: str, capfdbinary: Capture, tmp_path: Path) -> None:
    """Each command on an example; of three decks one is missing, and of one list rows are odd."""
    name, *options = command.split(" ")
    words = [name, *WORDS[name], *options, *VALUES.get(options[-1] if options else "", [])]
    if name in WRITERS:
        words += ["-o", tmp_path / WRITERS[name]]
    if command == "pert-report --check":
        assert run(capfdbinary, [name, *WORDS[name], "-o", tmp_path / "may.html"]).status == 0
        words = [command.split(" ")[0], "--check", tmp_path / "may.html"]
    found = run(capfdbinary, [*words, "--json"])
    assert found.status == (1 if name in ("pert-portfolio", "pert-ledger") else 0), found.errors
    assert valid(command, found.output) is not None


def test_chances_are_those_of_the_text(capfdbinary: Capture) -> None:
    """The house has three estimates."""
    words = ["pert-schedule", HOUSE, "--chance"]
    result = valid("pert-schedule --chance", run(capfdbinary, [*words, "--json"]).output)
    text = run(capfdbinary, words).output
    assert result["runs"] == 4000 and f"P80        {result['likely_end']}" in text
    assert result["drivers"][0]["code"] in text


def test_a_schedule_has_the_tasks_that_are_asked_for(capfdbinary: Capture) -> None:
    """Dates and money are those of the table; `--critical` leaves others out."""
    words = ["pert-schedule", DECK, "--critical"]
    result = valid("pert-schedule", run(capfdbinary, [*words, "--json"]).output)
    table = run(capfdbinary, [*words, "--csv"]).output
    rows = list(csv.DictReader(io.StringIO(table)))
    assert [task["code"] for task in result["tasks"]] == [row["Code"] for row in rows]
    assert [task["first_day"] for task in result["tasks"]] == [row["Start"] for row in rows]
    assert all(task["is_critical"] for task in result["tasks"])


def test_what_is_left_adds_up(capfdbinary: Capture) -> None:
    """The sums of the JSON are those of the table."""
    result = valid("pert-remaining", run(capfdbinary, ["pert-remaining", DECK, "--json"]).output)
    total = run(capfdbinary, ["pert-remaining", DECK]).output.splitlines()[-1].split()
    cost = sum(task["cost"] for task in result["tasks"])
    sunk = sum(task["sunk"] for task in result["tasks"])
    assert total[-2:] == [str(cost), str(sunk)]


def test_an_import_names_losses_differences_and_the_deck(
    capfdbinary: Capture, tmp_path: Path
) -> None:
    """A list with a loss makes no deck; accepted, the JSON names the loss and the deck."""
    table, deck = tmp_path / "list.csv", tmp_path / "deck.csv"
    table.write_text("id,task,duration,start\n1,Dig,2,2026-03-03\n2,Pour,nonsense,\n")
    words = ["pert-import", table, "--start", "2026-03-02", "-o", deck, "--json"]
    refused = run(capfdbinary, words)
    result = valid("pert-import", refused.output)
    assert refused.status == 1 and result["deck"] == "" and not deck.exists()
    (loss,) = result["losses"]
    assert (loss["where"], loss["text"], loss["is_accepted"]) == ("row 3", "nonsense", False)
    taken = run(capfdbinary, [*words, "--accept", loss["kind"]])
    result = valid("pert-import", taken.output)
    assert taken.status == 0 and result["deck"] == str(deck) and deck.exists()
    assert result["losses"][0]["is_accepted"] and result["compared"] == 1
    (moved,) = result["differences"]
    assert (moved["listed"], moved["computed"]) == ("2026-03-03", "2026-03-02")


def test_a_ledger_names_findings_and_sums(capfdbinary: Capture) -> None:
    """Vouchers of February are after the close of January: not booked, or accepted."""
    words = ["pert-ledger", *WORDS["pert-ledger"], "--json"]
    result = valid("pert-ledger", run(capfdbinary, words).output)
    kinds = {each["kind"] for each in result["findings"]}
    assert kinds and not any(each["is_accepted"] for each in result["findings"])
    taken = run(capfdbinary, [*words, "--accept", ",".join(sorted(kinds))])
    result = valid("pert-ledger", taken.output)
    assert taken.status == 0 and result["close"] == "2026-01-31" and result["deck"] == ""
    assert all(each["is_accepted"] for each in result["findings"])
    sums = {name: Decimal(amount) for name, amount in result["sums"].items()}
    assert sums["listed"] == sums["new"] + sums["known"] + sums["left_out"]


def test_what_was_written_is_said(capfdbinary: Capture, tmp_path: Path) -> None:
    """The days of the export are those of its schedule; the page's size is that of the file."""
    book, page = tmp_path / "may.xlsx", tmp_path / "may.html"
    words = ["pert-export", DECK, "-o", book, "--json"]
    exported = valid("pert-export", run(capfdbinary, words).output)
    listed = valid("pert-schedule", run(capfdbinary, ["pert-schedule", DECK, "--json"]).output)
    assert (exported["file"], exported["format"]) == (str(book), "xlsx")
    assert exported["tasks"] == len(listed["tasks"]) and exported["end"] == listed["end"]
    reported = valid(
        "pert-report", run(capfdbinary, ["pert-report", DECK, "-o", page, "--json"]).output
    )
    assert reported["size"] == page.stat().st_size and reported["data_date"] == "2026-05-29"
    page.write_bytes(page.read_bytes().replace(b"May", b"June", 1))
    checked = run(capfdbinary, ["pert-report", "--check", page, "--json"])
    verdict = valid("pert-report --check", checked.output)
    assert checked.status == 1 and not verdict["is_right"]


def test_json_is_the_only_thing_that_is_printed(capfdbinary: Capture) -> None:
    """What would print something else too is refused."""
    for words, fault in (
        (["pert-import", LISTS / "plan.csv"], "--json goes with -o DECK"),
        (["pert-days", DECK], "--json goes with --count"),
        (["pert-remaining", DECK, "-o", "-"], "name the deck"),
        (["pert-ledger", DECK, "-o", "-"], "name the deck"),
        (["pert-portfolio", DECK, "-o", "-"], "name the page"),
        (["pert-report", DECK, "-o", "-"], "name the page"),
        (["pert-export", DECK, "-o", "-"], "name the file"),
    ):
        found = run(capfdbinary, [*words, "--json"])
        assert found.status == 2 and fault in found.errors and not found.output
