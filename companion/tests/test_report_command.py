"""`pert-report`: options, faults in one line, progress, and no half file."""

import io
import os
import shutil
import signal
import subprocess
import sys
import time
from hashlib import sha256
from pathlib import Path

import pytest

from page.certificates import HOUSE, PROGRAMS, bench, house_with_terms
from page.reports import gathered_of
from pert_companion.cli import remaining, report, schedule
from pert_companion.cli.common import run_command
from pert_companion.page.verify import verify_page
from running import EXAMPLES, WITH_INTERRUPTS

HERE = Path(__file__).resolve().parent
SOURCE = HERE.parent / "src"


def run(*words: object) -> int:
    return run_command(report.NAME, report.parser(), report.run, [str(word) for word in words])


def test_a_page_is_written(tmp_path: Path, capsys: pytest.CaptureFixture[str]) -> None:
    page = tmp_path / "house.html"
    assert run(HOUSE, "-o", page, "--currency", "EUR", "--brief", "--length", 20) == 0
    text = page.read_text("utf-8")
    assert '<body class="brief">' in text
    assert "13,220" in text and "\u00a0EUR" in text
    size = str(page.stat().st_size)
    assert capsys.readouterr().err == f"pert-report: {page}: {size} bytes, certified 4\n"


def test_a_charge_of_the_past_that_came_or_went(tmp_path: Path) -> None:
    """A charge before the last report that only one of the two decks has is restated past."""
    last_month = tmp_path / "march.csv"
    deck = HOUSE.read_text("utf-8")
    charge = next(line for line in deck.splitlines() if line.startswith("CHARGE,"))
    last_month.write_text(deck.replace(f"{charge}\n", ""), "utf-8")
    amount = int(charge.split(",")[3])
    for now, before, sign in ((HOUSE, last_month, "+"), (last_month, HOUSE, "\u2212")):
        page = tmp_path / "page.html"
        assert run(now, "-o", page, "--previous", before) == 0
        text = page.read_text("utf-8")
        assert "Restated past" in text and f"{sign}{amount:,}" in text


def pump_page(folder: Path, page: Path) -> str:
    """Returns the page of February of the pump station, as it was written."""
    february, plan, january = (folder / f"{name}.csv" for name in ("february", "plan", "january"))
    words = (february, "-o", page, "--baseline", plan, "--previous", january)
    assert run(*words) == 0
    return page.read_text("utf-8").replace("\u00a0", " ")


def test_a_page_has_the_ledger_and_the_tables(
    tmp_path: Path, capsys: pytest.CaptureFixture[str]
) -> None:
    """Level of effort, reserve, credits and one date; the page is made again without the files."""
    page = tmp_path / "february.html"
    text = pump_page(EXAMPLES / "pump", page)
    assert "· as of 28 Feb 2026<" in text and "1 Mar 2026<" not in text
    assert "Level of effort</a></dt><dd>31,800.00<" in text
    assert "Management reserve</a></dt><dd>15,000.00<" in text
    assert "Credits since the last report" in text and "Credit note: tipping" in text
    assert "of the time before it changed" not in text
    capsys.readouterr()
    assert run("--check", page) == 0
    assert "the page is what version" in capsys.readouterr().out


def test_a_restated_past_in_cents(tmp_path: Path) -> None:
    """January said 1.00 more of one voucher: the estimate of its account is bridged by that."""
    folder = tmp_path / "pump"
    shutil.copytree(EXAMPLES / "pump", folder)
    ledger = folder / "january.ledger.csv"
    changed = ledger.read_text().replace("Ground,26150.00,", "Ground,26151.00,")
    assert changed != ledger.read_text()
    ledger.write_text(changed)
    text = pump_page(folder, tmp_path / "february.html")
    assert "1 figure of the time before it changed" in text
    assert "\u22121.00" in text and "26,151.00" not in text and "26151.00" in text


@pytest.mark.parametrize("has_terms", [False, True])
def test_help_says_which_length_a_page_opens_with(has_terms: bool, tmp_path: Path) -> None:
    deck = tmp_path / "house.csv"
    deck.write_bytes(house_with_terms() if has_terms else HOUSE.read_bytes())
    opened = {}
    for word in ("", "--optimum", "--normal") if has_terms else ("", "--normal"):
        words = [word] if word else []
        options = report.parser().parse_args([str(deck), "-o", "page.html", *words])
        wishes = {"optimum": options.optimum, "normal": options.normal}
        opened[word] = gathered_of(deck, **wishes).length
    said = " ".join(report.parser().format_help().split())
    if has_terms:
        assert opened[""] == opened["--optimum"] != opened["--normal"]
        assert "time (the default if the deck has TERMS)" in said
    else:
        assert opened[""] == opened["--normal"]
        assert "durations (the default if the deck has no TERMS)" in said


def test_the_optimum_without_terms_is_refused(
    tmp_path: Path, capsys: pytest.CaptureFixture[str]
) -> None:
    """No length is the cheapest if time has no price; one line says so, and there is no page."""
    page = tmp_path / "house.html"
    assert run(HOUSE, "-o", page, "--optimum") == 1
    assert capsys.readouterr().err == (
        f"pert-report: {HOUSE}: no TERMS, so that no length is the cheapest\n"
    )
    assert not page.exists()


def test_a_title_with_a_next_line_character(
    tmp_path: Path, capsys: pytest.CaptureFixture[str]
) -> None:
    """U+0085 is a character of a title, not the end of a line, and is shown as an escape."""
    deck = HERE / "cases" / "hostile" / "report" / "nel.csv"
    assert "Ground\x85work" in deck.read_text("utf-8")
    assert run(deck, "-o", tmp_path / "nel.html") == 0
    text = (tmp_path / "nel.html").read_text("utf-8")
    shown = text.partition('type="application/json"')[0]
    assert "Ground\\x85work" in shown and "\x85" not in shown
    for module in (schedule, remaining):
        capsys.readouterr()
        assert run_command(module.NAME, module.parser(), module.run, [str(deck)]) == 0
        captured = capsys.readouterr()
        assert "\x85" not in captured.out + captured.err and "Traceback" not in captured.err


def test_the_page_that_checks_pages(tmp_path: Path, capsys: pytest.CaptureFixture[str]) -> None:
    assert run("--verify-page", tmp_path / "verify.html") == 0
    assert (tmp_path / "verify.html").read_text("utf-8") == verify_page().decode()
    readme = (EXAMPLES.parent / "README.md").read_text("utf-8")
    assert sha256(verify_page()).hexdigest() in readme
    assert capsys.readouterr().err.endswith("the page that checks a report or a certificate\n")


@pytest.mark.parametrize(
    ("words", "status", "line"),
    [
        ([], 2, "name a deck and a page: pert-report DECK -o PAGE"),
        ([HOUSE], 2, "name a deck and a page: pert-report DECK -o PAGE"),
        (["none.csv", "-o", "x.html"], 1, "none.csv: No such file or directory"),
        (
            [HOUSE, "-o", "x.html", "--length", 26],
            1,
            "there is no schedule of 26 days: the shortest",
        ),
        ([HOUSE, "-o", "no/x.html"], 1, "No such file or directory"),
        ([HOUSE, "-o", "x.html", "--length", "x"], 2, "'x' is no length in days such as 76"),
    ],
)
def test_faults_are_one_line(
    words: list[object],
    status: int,
    line: str,
    tmp_path: Path,
    monkeypatch: pytest.MonkeyPatch,
    capsys: pytest.CaptureFixture[str],
) -> None:
    monkeypatch.chdir(tmp_path)
    assert run(*words) == status
    error = capsys.readouterr().err
    assert line in error
    assert error.count("\n") == 1
    assert os.listdir(tmp_path) == []


def test_a_refused_deck_gives_no_page(tmp_path: Path, capsys: pytest.CaptureFixture[str]) -> None:
    deck = tmp_path / "broken.csv"
    deck.write_bytes(HOUSE.read_bytes().replace(b"ACT,WALLS,30", b"ACT,WALLS,31"))
    assert run(deck, "-o", tmp_path / "page.html") == 1
    assert capsys.readouterr().err == "pert-report: F13 record 26: unknown event 31\n"
    assert not (tmp_path / "page.html").exists()


def test_a_certificate_that_is_not_confirmed_gives_no_page(
    tmp_path: Path, capsys: pytest.CaptureFixture[str]
) -> None:
    folder = tmp_path / "bin"
    folder.mkdir()
    (folder / "pert").symlink_to(PROGRAMS.find("pert"))
    check = folder / "pert_check"
    check.write_text("#!/bin/sh\necho not certified line 3 reason 9\nexit 6\n")
    check.chmod(0o755)
    assert run(HOUSE, "-o", tmp_path / "page.html", "--bin", folder) == 1
    assert capsys.readouterr().err == (
        f"pert-report: {HOUSE}: pert_check says not certified line 3 reason 9; there is no page\n"
    )
    assert not (tmp_path / "page.html").exists()


def test_progress_is_shown_on_a_terminal_alone(monkeypatch: pytest.MonkeyPatch) -> None:
    shown = io.StringIO()
    monkeypatch.setattr(sys, "stderr", shown)
    with report.Meter(True) as meter:
        meter.begun -= 10
        meter("certify: segment 3, length 30, 50 %")
        meter("too soon after the one before, 51 %")
    assert shown.getvalue() == (
        "\r\x1b[Kcertify: segment 3, length 30, 50 %, about 10 s left\r\x1b[K\r"
    )
    assert report.Meter(True).estimate("certify: segment 1, length 30, 4 %", 0) == ""
    with report.Meter(False) as quiet:
        quiet("certify: segment 3, length 30, 50 %")
    assert shown.getvalue().count("certify") == 1


def test_ctrl_c_leaves_no_half_file(tmp_path: Path) -> None:
    (tmp_path / "plan.csv").write_bytes(bench(400))
    (tmp_path / "plan.html").write_text("the page before")
    folder = tmp_path / "bin"
    folder.mkdir()
    real = PROGRAMS.find("pert")
    begun = tmp_path / "begun"
    (folder / "pert").write_text(
        f'#!/bin/sh\n[ $1 = certify ] || exec {real} "$@"\n'
        f"{real} certify | head -n 40\ntouch {begun}\nexec sleep 900\n"
    )
    (folder / "pert").chmod(0o755)
    (folder / "pert_check").symlink_to(PROGRAMS.find("pert_check"))
    command = [
        sys.executable,
        "-m",
        "pert_companion",
        "pert-report",
        "plan.csv",
        "-o",
        "plan.html",
        "--overwrite",
    ]
    running = subprocess.Popen(
        [*WITH_INTERRUPTS, *command, "--bin", str(folder)],
        cwd=tmp_path,
        env={**os.environ, "PYTHONPATH": str(SOURCE)},
        stderr=subprocess.PIPE,
        start_new_session=True,
    )
    while not begun.exists():
        assert running.poll() is None
        time.sleep(0.01)
    os.killpg(running.pid, signal.SIGINT)
    _, errors = running.communicate(timeout=600)
    assert running.returncode == 1
    assert errors.decode() == "pert-report: interrupted\n"
    assert (tmp_path / "plan.html").read_text() == "the page before"
    assert sorted(os.listdir(tmp_path)) == ["begun", "bin", "plan.csv", "plan.html"]
