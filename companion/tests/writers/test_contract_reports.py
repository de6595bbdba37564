"""Workbooks of earned value and of the contract reports, read back cell by cell."""

import io
from collections.abc import Sequence
from decimal import Decimal
from pathlib import Path

import pytest
from openpyxl import load_workbook
from openpyxl.worksheet.worksheet import Worksheet
from running import EXAMPLES, Outcome, run_words

from pert_companion.analysis.variances import Threshold
from pert_companion.cli import compare
from pert_companion.cli.earned import threshold_word

PUMP = EXAMPLES / "pump"
STATES = [PUMP / f"{name}.csv" for name in ("plan", "january", "february", "march")]
Capture = pytest.CaptureFixture[bytes]


def run(capture: Capture, *words: object) -> Outcome:
    """Runs `pert-compare --earned` on the pump station up to March."""
    command = (compare.parser, compare.run)
    return run_words(capture, compare.NAME, command, [*STATES, "--earned", *words])


def rows(sheet: Worksheet) -> list[tuple[object, ...]]:
    """Returns the values of a sheet."""
    return list(sheet.iter_rows(values_only=True))


def row_of(sheet: Worksheet, first: Sequence[object]) -> tuple[object, ...]:
    """Returns the row that begins with these values."""
    return next(row for row in rows(sheet) if row[: len(first)] == tuple(first))


def test_the_workbook(tmp_path: Path, capfdbinary: Capture) -> None:
    """Amounts are numbers in the currency; charts are the spreadsheet's own."""
    path = tmp_path / "value.xlsx"
    assert run(capfdbinary, "-o", path).status == 0
    book = load_workbook(io.BytesIO(path.read_bytes()))
    assert book.sheetnames == [
        "Earned value",
        "By account",
        "By manager",
        "Time-phased",
        "Changes",
    ]
    shaft = row_of(book["By account"], ["Shaft"])
    assert shaft[5:11] == (84000, 84000, 38400, 67500.75, -45600, -29100.75)
    total = row_of(book["Time-phased"], ["TOTAL", rows(book["Time-phased"])[1][1]])
    assert total[2:5] == (120680, 110360, 89250.5)  # 45000 + 15000 + 45000 + 7200 + 8480
    assert rows(book["Changes"])[1][1:] == (
        "reserve",
        "Shaft",
        6000,
        "Rock below the slab",
        "Cleo",
    )


def test_the_contract_reports(tmp_path: Path, capfdbinary: Capture) -> None:
    """Format 1 by item, format 3 over time, format 5 with what is explained and what is not."""
    path = tmp_path / "report.xlsx"
    assert run(capfdbinary, "-o", path, "--threshold", "10%,5000").status == 0
    book = load_workbook(io.BytesIO(path.read_bytes()))
    assert book.sheetnames == ["Format 1", "Format 3", "Format 5"]
    shaft = row_of(book["Format 1"], ["Shaft"])
    assert shaft[2:7] == (36000, 28800, 39100, -7200, -10300)
    assert shaft[7:12] == (84000, 38400, 67500.75, -45600, -29100.75)
    assert shaft[12:] == (84000, 129500.75, -45500.75)
    amounts = {row[1]: row[12] for row in rows(book["Format 1"])[-5:]}
    assert amounts == {
        "Undistributed budget": 8000,
        "Changes not in the plan yet": 6000,
        "Performance measurement baseline": 363800,
        "Management reserve": 9000,
        "Total": 372800,  # as before the 6000 went from the reserve to the shaft
    }
    changed, baseline = rows(book["Format 3"])[1:3]
    assert changed[-1] == 6000
    to_date, period, *months, later, total = baseline[1:]
    assert (to_date, total) == (323288, 349800) and period == 102328
    assert sum(Decimal(str(month)) for month in (*months, later)) == 349800 - 323288
    said = {(row[0], row[3]): row[6] for row in rows(book["Format 5"])[1:]}
    assert said["Shaft", "SV"] == "Rock below the slab: the walls began 11 days late"
    assert said["Shaft", "CV"] is None


def test_variances_of_other_lines(capfdbinary: Capture) -> None:
    """By item, or by manager: Ada's work is late, dear and over budget, Ben's is cheap."""
    words = ("--threshold", "10%,5000", "--csv")
    by_item = run(capfdbinary, *words).output
    assert "\nShaft,Shaft,Ada,SV,-45600.00,-54.3," in by_item
    by_manager = run(capfdbinary, *words, "--lines", "managers").output
    found = [line.split(",")[:6] for line in by_manager.splitlines()[1:]]
    assert found == [
        ["Ada", "", "Ada", "SV", "-45600.00", "-24.6"],  # of 75000 + 84000 + 26288
        ["Ada", "", "Ada", "CV", "-33262.75", "-23.8"],  # of 75000 + 38400 + 26288
        ["Ada", "", "Ada", "VAC", "-47450.75", "-24.9"],  # of 75000 + 84000 + 31800
        ["Ben", "", "Ben", "CV", "29869.35", "23.7"],  # of 90000 + 36000
    ]


def test_thresholds() -> None:
    """What is set has to be reached, both if both are; nothing is no variance."""
    both = threshold_word("10%,50000")
    assert both == Threshold(Decimal(10), Decimal(50000))
    assert both.is_reached(-50000, 500000, 1) and not both.is_reached(-50000, 500001, 1)
    assert not both.is_reached(49999, 100, 1) and both.is_reached(-5_000_000, 10, 100)
    assert both.is_reached(60000, 0, 1) and not both.is_reached(0, 0, 1)
    assert threshold_word("7.5%").is_reached(3, 40, 1)
    assert threshold_word("100").is_reached(-100, 10**9, 1)


def test_words_that_make_no_sense(tmp_path: Path, capfdbinary: Capture) -> None:
    """Options of --earned without it, other endings, and thresholds that are none."""
    command = (compare.parser, compare.run)
    wrong: list[list[object]] = [
        ["--lines", "accounts"],
        ["--earned", "-o", tmp_path / "x.csv"],
        ["--earned", "--threshold", "much"],
        ["--earned", "--threshold", "10%", "--lines", "months"],
    ]
    for words in wrong:
        found = run_words(capfdbinary, compare.NAME, command, [*STATES, *words])
        assert found.status == 2 and found.errors.count("\n") == 1
