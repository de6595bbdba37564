"""Columns have the same names in text, CSV and workbooks; text has them in capitals."""

import csv
import io
import re
from pathlib import Path

import pytest
from openpyxl import load_workbook
from running import EXAMPLES, Outcome, run_words

from pert_companion.cli import check_status, compare, exporting, schedule
from pert_companion.writers import earned_headings as headings
from pert_companion.writers import performance_xlsx

PUMP = EXAMPLES / "pump"
PLAN, MARCH, APRIL = (PUMP / f"{name}.csv" for name in ("plan", "march", "april"))
COMMANDS = {
    module.NAME: (module.parser, module.run)
    for module in (check_status, compare, exporting, schedule)
}
EARNED = f"pert-compare {MARCH} {APRIL} --baseline {PLAN} --earned"
TABLES = (
    f"pert-schedule {APRIL}",
    f"pert-schedule {APRIL} --forecast",
    f"pert-check-status {APRIL} --previous {MARCH} --baseline {PLAN}",
    f"pert-compare {APRIL} --money --baseline {PLAN}",
    EARNED,
    f"{EARNED} --lines accounts",
    f"{EARNED} --lines months",
    f"{EARNED} --threshold 1%",
)
"""A command line for each table that there is as CSV with the same columns."""
HEADING = re.compile(r"^ *(?:[A-Z][A-Z()]*(?: [A-Z()]+)* {2,}){2,}[A-Z()]+(?: [A-Z()]+)*$", re.M)
"""A line of headings: capitals alone, with at least two spaces between columns."""
PART = "Period "
"""What CSV has before the names of the columns of the second table of lines."""
Capture = pytest.CaptureFixture[bytes]


def run(capture: Capture, line: str) -> Outcome:
    """Runs a command line in this process."""
    name, *words = line.split()
    return run_words(capture, name, COMMANDS[name], words)


def csv_columns(text: str) -> list[str]:
    """Returns the names in the first row of CSV."""
    return next(csv.reader(io.StringIO(text)))


def text_columns(text: str) -> set[str]:
    """Returns the names of the columns of all tables of a text."""
    found: set[str] = set()
    for line in HEADING.findall(text):
        found.update(re.split(" {2,}", line.strip()))
    return found


def short(line: str) -> str:
    """Returns the name of a test of a command line."""
    return line.replace(f"{EXAMPLES}/", "")


@pytest.mark.parametrize("line", TABLES, ids=short)
def test_text_has_the_names_of_csv(line: str, capfdbinary: Capture) -> None:
    """Each column of the text is one of CSV, in capitals."""
    known = set()
    for name in csv_columns(run(capfdbinary, f"{line} --csv").output):
        known.add(name.removeprefix(PART).upper())
    columns = text_columns(run(capfdbinary, line).output)
    assert len(columns) >= 4
    assert columns <= known


def test_workbooks_have_the_names_of_csv(tmp_path: Path, capfdbinary: Capture) -> None:
    """The sheet of tasks has the columns of CSV, and that of a schedule in text is among them."""
    book, table = tmp_path / "april.xlsx", tmp_path / "april.csv"
    for path in (book, table):
        assert run(capfdbinary, f"pert-export {APRIL} -o {path}").status == 0
    sheet = load_workbook(book)["Schedule"]
    columns = [cell.value for cell in sheet[1] if cell.value is not None]
    assert columns == csv_columns(table.read_text(encoding="utf-8-sig"))


def test_workbooks_of_earned_value_have_the_names_of_csv(capfdbinary: Capture) -> None:
    """Each column of the workbook of earned value is one of CSV."""
    known = csv_columns(run(capfdbinary, f"{EARNED} --lines accounts --csv").output)
    assert headings.LATEST in known
    assert set(performance_xlsx.HEADINGS) <= set(known)
