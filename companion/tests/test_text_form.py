"""Thousands have separators on a terminal alone, in every table and message of every command."""

import re
from decimal import Decimal
from pathlib import Path

import pytest
from hypothesis import given
from hypothesis import strategies as st
from running import EXAMPLES, HOUSE, Outcome, run_words

from pert_companion.cli import (
    check_status,
    compare,
    days,
    ledger,
    remaining,
    schedule,
)
from pert_companion.model.text_form import PLAIN, TextForm

PUMP = EXAMPLES / "pump"
PLAN, MARCH, APRIL = (PUMP / f"{name}.csv" for name in ("plan", "march", "april"))
COMMANDS = {
    module.NAME: (module.parser, module.run)
    for module in (check_status, compare, days, ledger, remaining, schedule)
}
TABLES = (
    f"pert-schedule {APRIL}",
    f"pert-schedule {APRIL} --load",
    f"pert-schedule {APRIL} --plan",
    f"pert-schedule {APRIL} --forecast",
    f"pert-schedule {HOUSE} --chance",
    f"pert-remaining {APRIL}",
    f"pert-check-status {APRIL} --previous {MARCH} --baseline {PLAN}",
    f"pert-compare {PLAN} {MARCH} {APRIL}",
    f"pert-compare {APRIL} --money --baseline {PLAN}",
    f"pert-compare {MARCH} {APRIL} --baseline {PLAN} --earned",
    f"pert-compare {MARCH} {APRIL} --baseline {PLAN} --earned --lines structure",
    f"pert-compare {MARCH} {APRIL} --baseline {PLAN} --earned --lines accounts",
    f"pert-compare {MARCH} {APRIL} --baseline {PLAN} --earned --lines managers",
    f"pert-compare {MARCH} {APRIL} --baseline {PLAN} --earned --lines totals",
    f"pert-compare {MARCH} {APRIL} --baseline {PLAN} --earned --lines months",
    f"pert-compare {MARCH} {APRIL} --baseline {PLAN} --earned --threshold 1%",
)
"""A command line for each table that people read."""
LARGE = re.compile(r"(?<![\w.,-])-?[0-9]{4,}(?![\w-])")
"""A number of thousands without separators; dates and codes are none."""
SEPARATOR = re.compile(r"(?<=[0-9]),(?=[0-9]{3})")
COLOUR = re.compile("\x1b\\[[0-9;]*m")
Capture = pytest.CaptureFixture[bytes]


def run(capture: Capture, line: str) -> Outcome:
    """Runs a command line in this process."""
    name, *words = line.split()
    return run_words(capture, name, COMMANDS[name], words)


def on_terminal(monkeypatch: pytest.MonkeyPatch) -> None:
    """Lets commands believe that both their outputs are a wide terminal."""
    monkeypatch.setattr("sys.stdout.isatty", lambda: True)
    monkeypatch.setattr("sys.stderr.isatty", lambda: True)
    monkeypatch.setenv("COLUMNS", "400")


def words_of(text: str) -> list[str]:
    """Returns the words of a text without colours and separators."""
    return SEPARATOR.sub("", COLOUR.sub("", text)).split()


def short(line: str) -> str:
    """Returns the name of a test of a command line."""
    return line.replace(f"{EXAMPLES}/", "")


@pytest.mark.parametrize("line", TABLES, ids=short)
def test_tables(line: str, capfdbinary: Capture, monkeypatch: pytest.MonkeyPatch) -> None:
    """On a terminal each number of thousands has separators, and else a table is that of a pipe."""
    piped = run(capfdbinary, line)
    assert piped.status == 0
    assert not SEPARATOR.search(piped.output)
    on_terminal(monkeypatch)
    shown = run(capfdbinary, line)
    assert not LARGE.search(COLOUR.sub("", shown.output))
    assert words_of(shown.output) == words_of(piped.output)


def test_tables_have_thousands(capfdbinary: Capture) -> None:
    """All of the tables but the forecast, which has days alone, have something to separate."""
    without = [line for line in TABLES if not LARGE.search(run(capfdbinary, line).output)]
    assert [line.split("--")[-1] for line in without] == ["forecast"]


@pytest.mark.parametrize("line", [line for line in TABLES if "chance" not in line])
@pytest.mark.parametrize("form", ["--csv", "--json"])
def test_files(line: str, form: str, capfdbinary: Capture, monkeypatch: pytest.MonkeyPatch) -> None:
    """CSV and JSON are the same on a terminal and in a pipe."""
    if line.startswith("pert-remaining") and form == "--csv":
        pytest.skip("pert-remaining has no CSV")
    piped = run(capfdbinary, f"{line} {form}")
    on_terminal(monkeypatch)
    assert run(capfdbinary, f"{line} {form}") == piped


def test_messages(tmp_path: Path, capfdbinary: Capture, monkeypatch: pytest.MonkeyPatch) -> None:
    """The sums of `pert-ledger` on standard error have separators on a terminal alone."""
    vouchers = tmp_path / "vouchers.csv"
    vouchers.write_text("date,account,amount,number\n2026-04-20,Pumps,12345.60,V-1\n")
    line = f"pert-ledger {APRIL} {vouchers} --as-of 2026-04-30"
    piped = run(capfdbinary, line)
    assert "lists 12345.60 = new 12345.60" in piped.errors
    on_terminal(monkeypatch)
    shown = run(capfdbinary, line)
    assert "lists 12,345.60 = new 12,345.60" in shown.errors
    assert words_of(shown.errors) == words_of(piped.errors)


def test_count(capfdbinary: Capture, monkeypatch: pytest.MonkeyPatch) -> None:
    """`pert-days --count` is plain for scripts."""
    line = f"pert-days {APRIL} --count 2034-10-12"
    piped = run(capfdbinary, line).output
    on_terminal(monkeypatch)
    assert run(capfdbinary, line).output == f"{int(piped):,}\n"
    assert int(piped) > 1000


def test_numbers_of_both_forms() -> None:
    """Signs and decimals stay; so does what is no number."""
    form = TextForm(True, 100)
    texts = {
        "1234": "1,234",
        "-1234567.50": "-1,234,567.50",
        "+1000": "+1,000",
        "999": "999",
        "-": "-",
        "": "",
        "2026-04-08": "2026-04-08",
        "A1234": "A1234",
    }
    assert {text: form.number(text) for text in texts} == texts
    assert {text: PLAIN.number(text) for text in texts} == {text: text for text in texts}
    assert form.money(-123456) == "-1,234.56" and form.money(None) == "-"
    assert form.money_cell(None) == "" and form.money_cell(100000) == "1,000.00"
    assert form.currency(Decimal("1234.5")) == "1,234.50"
    assert form.days(480 * 1030 + 240, 480) == "1,030.5"
    assert form.day_words(480, 480) == "1 day"
    assert form.day_words(480 * 1000, 480) == "1,000 days"
    assert form.signed_days(480 * 1000, 480) == "+1,000" and form.signed_days(None, 480) == "-"


@given(st.integers(-(10**15), 10**15))
def test_separators_take_nothing_away(number: int) -> None:
    """A count without its separators is the plain one, and Python groups it in the same way."""
    assert TextForm(True).count(number) == f"{number:,}"
    assert PLAIN.count(number) == str(number)
