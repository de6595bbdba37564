"""How sure an end is, as days, and what `pert-schedule --chance` prints."""

from datetime import date, timedelta
from fractions import Fraction
from pathlib import Path

import pytest

from page.certificates import HOUSE, PROGRAMS
from pert_companion.analysis.chance import simulate
from pert_companion.analysis.sureness import NOTHING_KNOWN, percent_text, sureness
from pert_companion.cli import schedule
from pert_companion.cli.common import run_command
from pert_companion.state.project import open_state


def run(*words: object) -> int:
    """Runs the command and returns its status."""
    words_of = [str(word) for word in words]
    return run_command(schedule.NAME, schedule.parser(), schedule.run, words_of)


def single(deck: bytes) -> bytes:
    """Returns a deck in which the likely estimate of each activity is its only one."""
    lines = []
    for line in deck.split(b"\n"):
        cells = line.split(b",")
        if cells[0] == b"ACT":
            cells[5] = cells[7] = cells[6]
        lines.append(b",".join(cells))
    return b"\n".join(lines)


def test_the_days_are_those_of_the_runs() -> None:
    rest = open_state(HOUSE, PROGRAMS).rest
    runs = simulate(rest.network, [task.parts for task in rest.side.tasks])
    found = sureness(rest)
    assert found is not None and runs is not None and rest.end is not None
    assert found.runs == runs
    first = rest.side.start
    for chance, day in ((Fraction(1, 2), found.even_end), (Fraction(4, 5), found.likely_end)):
        assert day is not None
        assert day == first + timedelta(days=runs.length_with(chance) - 1)
        assert found.chance_by(day) >= chance > found.chance_by(day - timedelta(days=1))
    assert found.chance_by(date(2024, 3, 17)) == 0
    shares = [driver.share for driver in found.drivers(20)]
    assert shares == sorted(shares, reverse=True)
    assert {driver.code for driver in found.drivers(20)} <= {
        card.code for card in rest.network.activities
    }
    assert len(found.drivers(3)) == 3
    assert found.drivers(1)[0].name == "Dig, pour, cure"


def test_estimates_that_do_not_differ_are_said(tmp_path: Path) -> None:
    (tmp_path / "one.csv").write_bytes(single(HOUSE.read_bytes()))
    assert sureness(open_state(tmp_path / "one.csv", PROGRAMS).rest) is None
    text = HOUSE.read_bytes().replace(b"8,10,12,10,7,2400", b"10,10,10,10,7,2400")
    (tmp_path / "some.csv").write_bytes(text)
    found = sureness(open_state(tmp_path / "some.csv", PROGRAMS).rest)
    assert found is not None
    assert found.scope.startswith(f"{found.runs.uncertain} of {found.runs.tasks} tasks have")


def test_chances_in_per_cent() -> None:
    texts = {Fraction(0): "0 %", Fraction(1, 1000): "under 1 %", Fraction(1, 2): "50 %"}
    texts |= {Fraction(999, 1000): "over 99 %", Fraction(1): "100 %", Fraction(1, 100): "1 %"}
    assert {chance: percent_text(chance) for chance in texts} == texts


def test_the_command_prints_days_and_chances(capsys: pytest.CaptureFixture[str]) -> None:
    assert run(HOUSE, "--chance") == 0
    lines = capsys.readouterr().out.splitlines()
    found = sureness(open_state(HOUSE, PROGRAMS).rest)
    assert found is not None
    assert lines[0] == "SIMULATED, NOT PROVED  4000 runs by the three estimates"
    assert lines[1] == f"P50        {found.even_end}"
    assert lines[2] == f"P80        {found.likely_end}"
    chance = percent_text(found.chance_by(date(2024, 4, 11)))
    assert lines[3] == f"SCHEDULE   2024-04-11  {chance:>9}"
    assert lines[4] == "CRITICAL   TASK"
    assert lines[5].endswith("FOUND  Dig, pour, cure")


def test_a_shorter_schedule_ends_earlier(capsys: pytest.CaptureFixture[str]) -> None:
    ends = []
    for words in (("--normal",), ("--length", "20")):
        assert run(HOUSE, "--chance", *words) == 0
        ends.append(capsys.readouterr().out.splitlines()[1])
    assert ends[1] < ends[0]


def test_the_contract_date_has_its_chance(
    tmp_path: Path, capsys: pytest.CaptureFixture[str]
) -> None:
    text = HOUSE.read_bytes().replace(b"2024-03-04,1,,", b"2024-03-04,1,33,")
    (tmp_path / "held.csv").write_bytes(text)
    assert run(tmp_path / "held.csv", "--chance") == 0
    assert "CONTRACT   2024-04-05" in capsys.readouterr().out


def test_single_estimates_and_wrong_words(
    tmp_path: Path, capsys: pytest.CaptureFixture[str]
) -> None:
    (tmp_path / "one.csv").write_bytes(single(HOUSE.read_bytes()))
    assert run(tmp_path / "one.csv", "--chance") == 0
    assert capsys.readouterr().out == f"{NOTHING_KNOWN}\n"
    assert run(HOUSE, "--chance", "--csv") == 2
    assert "--chance has no --csv" in capsys.readouterr().err
