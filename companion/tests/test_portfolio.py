"""`pert-portfolio`: rows, faults, what moved, shared weeks, cache, CSV, hosts and progress."""

import csv
import io
import json
import os
import shutil
import signal
import socket
import subprocess
import sys
import time
from collections.abc import Iterator
from contextlib import contextmanager
from dataclasses import replace
from datetime import date, timedelta
from pathlib import Path

import pytest

from page.browser import Browser
from page.certificates import HOUSE, SHED, TOP
from pert_companion.analysis.sureness import sureness
from pert_companion.cli import portfolio
from pert_companion.cli.common import run_command
from pert_companion.model.errors import UsageError
from pert_companion.portfolio.row import Row, row_of, week_name
from pert_companion.portfolio.stored import Cache, row_from, row_text
from pert_companion.portfolio.sums import sums_of
from pert_companion.portfolio.urgency import Alarm, Freshness, alarms, by_urgency
from pert_companion.portfolio import work
from pert_companion.portfolio.hosts import host_of, packed
from pert_companion.portfolio.job import Job
from pert_companion.portfolio.work import rows_of, serve
from pert_companion.programs.client import Programs
from running import WITH_INTERRUPTS, opened
from test_endings import WITHIN, left_after

PROGRAMS = Programs()
BIN = Path(PROGRAMS.find("pert")).parent
COMMAND = TOP / "companion" / "bin" / "pert-portfolio"
MONDAY_DECK = """PROJECT,MON,S,T,2026-03-02,1,,Roof,2
WBS,1,,Roof
EVENT,S,
EVENT,M,Roof closed
EVENT,T,
ACT,A,S,M,1,10,10,10,10,8,0,5,Frame
ACT,B,M,T,1,4,4,4,4,4,0,0,Tiles
RES,CREW,Crew
LOAD,A,CREW,20
LOAD,B,CREW,40
END
"""
TASKS = """PROJECT,{code},S,T,2026-03-02,1,,{code}
WBS,1,,Top
WBS,1.1,1,Work
TASK,A,1.1,3,3,3,3,2,0,50,Dig
TASK,M,1.1,0,0,0,0,0,0,0,Handed over
TASK,B,1.1,4,4,4,4,3,0,70,Build
AFTER,M,A
AFTER,B,M
END
"""


@pytest.fixture(name="decks")
def _decks(tmp_path: Path) -> Path:
    """A folder with decks: the house, the shed, one with a crew, one of tasks, one refused."""
    shutil.copy(HOUSE, tmp_path / "house.csv")
    shutil.copy(SHED, tmp_path / "shed.csv")
    (tmp_path / "roof.csv").write_text(MONDAY_DECK)
    (tmp_path / "tasks.csv").write_text(TASKS.format(code="T1"))
    (tmp_path / "bad.csv").write_text("PROJECT,X\nEND\n")
    return tmp_path


def run(*words: object) -> int:
    """Runs the command in this process and returns its status."""
    return run_command("pert-portfolio", portfolio.parser(), portfolio.run, [str(w) for w in words])


def test_a_row_has_the_figures_of_the_programs(decks: Path) -> None:
    """The house: forecast and price by hand from `pert curve` of what is left and the summary."""
    row = row_of(PROGRAMS, Job(decks / "house.csv", None, "house.csv"))
    plan = opened(decks / "house.csv")
    top = next(iter(PROGRAMS.summary(plan.deck).values()))
    assert (row.code, row.as_of, row.fault) == ("H1", "2024-03-18", "")
    assert (row.latest, row.budget, row.overrun) == (14020, 13600, 420)
    assert (top.latest, top.budget, top.overrun) == (
        row.latest,
        row.budget,
        row.overrun,
    )
    late = date.fromisoformat(row.forecast) - date.fromisoformat(row.contract)
    assert row.late == late.days * row.day_minutes  # every day counts in this deck


def test_the_shed_is_on_time_and_its_next_day_costs_3(decks: Path) -> None:
    """At 9 days the shed costs 45, and a day less costs 3."""
    row = row_of(PROGRAMS, Job(decks / "shed.csv", None, "shed.csv"))
    assert (row.forecast, row.contract, row.late, row.day_price) == (
        "2024-01-09",
        "2024-01-09",
        0,
        3,
    )


def test_the_day_that_is_likely_is_that_of_the_simulation(decks: Path) -> None:
    """The house has three estimates; a deck with one for each task says nothing of chances."""
    row = row_of(PROGRAMS, Job(decks / "house.csv", None, "house.csv"))
    known = sureness(opened(decks / "house.csv").rest)
    assert known is not None and known.likely_end is not None
    assert row.likely == known.likely_end.isoformat() >= row.forecast
    assert row_of(PROGRAMS, Job(decks / "roof.csv", None, "roof.csv")).likely == ""


def test_the_next_milestone_is_named_with_its_day(decks: Path) -> None:
    """A takes three days from Monday, so it is handed over on Wednesday evening."""
    row = row_of(PROGRAMS, Job(decks / "tasks.csv", None, "tasks.csv"))
    assert row.milestone is not None
    assert (row.milestone.name, row.milestone.day) == ("Handed over", "2026-03-04")


def test_what_moved_is_counted_in_working_time(decks: Path) -> None:
    """The deck before has one day less of tiles, so the forecast is a day later now."""
    before = decks / "before"
    before.mkdir()
    (before / "roof.csv").write_text(MONDAY_DECK.replace("4,4,4,4,4", "3,3,3,3,3"))
    row = row_of(PROGRAMS, Job(decks / "roof.csv", before / "roof.csv", "roof.csv"))
    assert (row.moved, row.previous_as_of) == (row.day_minutes, "2026-03-02")
    back = row_of(PROGRAMS, Job(before / "roof.csv", decks / "roof.csv", "roof.csv"))
    assert back.moved == -row.day_minutes


def test_a_baseline_is_what_end_and_budget_are_held_to(decks: Path) -> None:
    """The plan had three days for the building instead of four, and a budget of 120, not of 130."""
    plan = decks / "plan"
    plan.mkdir()
    money = "ACCT,X,1.1,{budget},Work\nEND\n"
    now = TASKS.format(code="T1").replace("1.1,3,3,3,3,2,0,50", "1.1,3,3,3,3,2,50,0")
    now = now.replace("1.1,4,4,4,4,3,0,70", "1.1,4,4,4,4,3,70,0")
    (decks / "tasks.csv").write_text(now.replace("END\n", money.format(budget=120)))
    first = now.replace("1.1,4,4,4,4,3,70,0", "1.1,3,3,3,3,3,60,0")
    (plan / "tasks.csv").write_text(first.replace("END\n", money.format(budget=110)))
    alone = row_of(PROGRAMS, Job(decks / "tasks.csv", None, "tasks.csv"))
    assert (alone.contract, alone.late, alone.first_budget) == ("2026-03-08", 0, None)
    job = Job(decks / "tasks.csv", None, "tasks.csv", plan / "tasks.csv")
    row = row_of(PROGRAMS, job)
    assert (row.forecast, row.contract) == ("2026-03-08", "2026-03-07")
    assert (row.contract_name, row.late) == ("planned end", row.day_minutes)
    assert (row.latest, row.budget, row.overrun, row.first_budget) == (120, 120, 0, 110)
    words = (decks / "tasks.csv", "--baseline", plan, "--csv", "--no-cache")
    assert run(*words, "-o", decks / "page.html") == 0
    assert "10 against the first budget" in (decks / "page.html").read_text()
    (cells,) = csv.DictReader(io.StringIO((decks / "page.csv").read_text()))
    assert (cells["contract"], cells["late_days"], cells["first_budget"]) == (
        *("2026-03-07", "1"),
        "110",
    )


@pytest.mark.parametrize("option", ["--previous", "--baseline"])
def test_a_folder_that_there_is_not_is_refused(
    decks: Path, option: str, capsys: pytest.CaptureFixture[str]
) -> None:
    """It is no folder without decks: nothing would have moved, in silence."""
    words = (decks / "shed.csv", option, decks / "none", "-o", decks / "page.html")
    assert run(*words) == 2
    assert f"{option}: there is no folder {decks}/none" in capsys.readouterr().err


def test_loads_are_spread_over_calendar_weeks(decks: Path) -> None:
    """Frame is 2 a day for 10 days from Monday 2 March, tiles 10 a day for 4 days after it."""
    row = row_of(PROGRAMS, Job(decks / "roof.csv", None, "roof.csv"))
    found = [(load.resource, load.week, load.amount) for load in row.loads]
    assert found == [("CREW", "2026-W10", 14), ("CREW", "2026-W11", 46)]
    plan = opened(decks / "roof.csv")
    load = PROGRAMS.load(PROGRAMS.network(plan.deck), 7)
    assert list(load.resources["CREW"].values()) == [14, 46]


def test_an_activity_without_length_loads_the_week_it_is_in(decks: Path) -> None:
    """The tiles take no time and are on Thursday of the second week."""
    deck = MONDAY_DECK.replace("ACT,B,M,T,1,4,4,4,4,4", "ACT,B,M,T,1,0,0,0,0,0")
    (decks / "roof.csv").write_text(deck)
    row = row_of(PROGRAMS, Job(decks / "roof.csv", None, "roof.csv"))
    assert [(load.week, load.amount) for load in row.loads] == [
        ("2026-W10", 14),
        ("2026-W11", 46),
    ]


def test_weeks_are_those_of_iso_8601() -> None:
    """The first days of January may belong to the last week of the year before."""
    assert week_name(date(2027, 1, 3)) == "2026-W53"
    assert week_name(date(2027, 1, 4)) == "2027-W01"


def test_a_deck_with_a_fault_has_it_in_its_row(decks: Path) -> None:
    """A refused deck and a missing one leave the others as they are."""
    assert "record 1" in row_of(PROGRAMS, Job(decks / "bad.csv", None, "bad.csv")).fault
    missing = row_of(PROGRAMS, Job(decks / "none.csv", None, "none.csv"))
    assert missing.fault == "No such file or directory"


def test_the_page_and_the_table(decks: Path, capsys: pytest.CaptureFixture[str]) -> None:
    """Each deck has a row; the refused one its fault, and the status is 1."""
    names = ["house.csv", "roof.csv", "tasks.csv", "bad.csv"]
    words = [decks / name for name in names]
    assert run(*words, "--csv", "--no-cache", "-o", decks / "page.html") == 1
    text = (decks / "page.html").read_text()
    assert text.count('<th scope="row" data-key=') == 4
    assert "refused: <bdi>" in text
    rows = list(csv.DictReader(io.StringIO((decks / "page.csv").read_text())))
    assert [row["code"] for row in rows] == ["H1", "MON", "T1", ""]
    assert "old figures" in rows[0]["alarms"] and rows[3]["alarms"] == "refused"
    assert rows[0]["overrun"] == "420"
    said = capsys.readouterr().err
    assert "bad.csv" in said and "4 decks, 1 refused" in said and "\r" not in said


def test_the_table_has_money_and_data_dates(tmp_path: Path) -> None:
    """A deck in cents of 30 April: amounts are in its currency, the day is a close of business."""
    deck = tmp_path / "april.csv"
    for name in ("april.csv", "april.json"):
        shutil.copy(TOP / "examples" / "pump" / name, tmp_path / name)
    assert run(deck, "--csv", "--no-cache", "-o", tmp_path / "page.html") == 0
    (row,) = csv.DictReader(io.StringIO((tmp_path / "page.csv").read_text()))
    assert (row["as_of"], row["budget"], row["latest"]) == ("2026-04-30", "355800.00", "408381.40")
    assert row["overrun"] == "52581.40"


def test_one_deck_is_counted_as_one(decks: Path, capsys: pytest.CaptureFixture[str]) -> None:
    """The last line says `1 deck`."""
    assert run(decks / "house.csv", "--no-cache", "-o", decks / "page.html") == 0
    assert capsys.readouterr().err.endswith(": 1 deck, 0 refused\n")


def test_stale_is_measured_from_the_newest() -> None:
    """Exactly so many days are not yet stale."""
    row = Row("a", as_of="2026-03-01")
    newest = date(2026, 3, 1) + timedelta(days=31)
    after = newest + timedelta(days=1)
    assert not Freshness(newest.isoformat(), 31).is_stale(row)
    assert Freshness(after.isoformat(), 31).is_stale(row)
    assert not Freshness(newest.isoformat(), 31).is_stale(Row("b", fault="x"))


FRESH = Freshness("2026-03-01", 31)
HELD = Row("a", as_of="2026-03-01", contract="2026-04-01", contract_name="contract date")


def test_the_most_urgent_is_first_and_refused_decks_are_last() -> None:
    """Missed deadlines, late, overrun, old figures; the later of two late ones first, by days."""
    rows = [
        Row("refused", fault="x"),
        Row("well", as_of="2026-03-01"),
        Row("old", as_of="2026-01-01"),
        Row("over", as_of="2026-03-01", overrun=1),
        replace(HELD, path="late", late=480, day_minutes=480),
        replace(HELD, path="later", late=120, day_minutes=60),
        Row("missed", as_of="2026-03-01", missed=1, missed_first="Dig"),
        Row("behind its plan", as_of="2026-03-01", contract_name="planned end", late=480),
    ]
    names = ["missed", "later", "late", "over", "old", "behind its plan", "well", "refused"]
    assert [row.path for row in by_urgency(rows, FRESH)] == names


def test_alarms_are_what_is_over_a_limit() -> None:
    """On time, on budget and early are none; a planned end is no date to be late against."""
    row = replace(HELD, late=0, overrun=0)
    assert alarms(row, FRESH) == ()
    row = replace(HELD, late=1, overrun=1, missed=1)
    assert alarms(row, FRESH) == (Alarm.DEADLINE, Alarm.LATE, Alarm.OVERRUN)
    row = Row("a", as_of="2026-03-01", contract_name="planned end", late=5)
    assert alarms(row, FRESH) == ()
    assert alarms(Row("a", fault="x"), FRESH) == (Alarm.REFUSED,)


def test_sums_are_of_one_currency() -> None:
    """Euros and cents are added; a deck alone, without amounts or without a currency is not."""
    rows = [
        Row("a", currency="EUR", money_scale=1, latest=110, budget=100, overrun=10),
        Row("b", currency="EUR", money_scale=100, latest=5050, budget=5000, overrun=50),
        Row("c", currency="EUR"),
        Row("d", currency="USD", latest=7, budget=6, overrun=1),
        Row("e", latest=7, budget=6, overrun=1),
        Row("f", latest=7, budget=6, overrun=1),
    ]
    (found,) = sums_of(rows)
    assert found.name == "2 projects with amounts in EUR"
    assert found.overrun == "10.50\u00a0EUR" and found.is_bad
    assert found.note == "latest estimate 160.50\u00a0EUR, budget 150.00\u00a0EUR"


def test_a_project_links_the_page_next_to_its_deck(decks: Path) -> None:
    """The address is relative to the page, with escapes; without a page there is no link."""
    folder = decks / "a b"
    folder.mkdir()
    shutil.copy(SHED, folder / "shed.csv")
    (folder / "shed.html").write_text("page")
    words = (
        folder / "shed.csv",
        decks / "roof.csv",
        "--no-cache",
        "-o",
        decks / "page.html",
    )
    assert run(*words) == 0
    text = (decks / "page.html").read_text()
    assert 'href="a%20b/shed.html"' in text and text.count("<a href") == 1


def test_titles_cannot_forge_the_page(decks: Path) -> None:
    """Markup is text, and control characters are shown as escapes."""
    title = "<script>alert(1)</script>\u202e\u2028=1+1"
    (decks / "roof.csv").write_text(MONDAY_DECK.replace(",Roof,2", f",{title},2"))
    assert run(decks / "roof.csv", "--csv", "--no-cache", "-o", decks / "page.html") == 0
    text = (decks / "page.html").read_text()
    assert "<script>alert" not in text and "\u202e" not in text and "\u2028" not in text
    assert "&lt;script&gt;" in text and "\\u202e" in text
    (decks / "roof.csv").write_text(MONDAY_DECK.replace(",Roof,2", ",=1+1,2"))
    assert run(decks / "roof.csv", "--csv", "--no-cache", "-o", decks / "page.html") == 0
    assert "'=1+1" in (decks / "page.csv").read_text()


def test_shared_resources_have_sums_by_week(decks: Path) -> None:
    """Two decks with the same crew, one of them a week later."""
    (decks / "other.csv").write_text(MONDAY_DECK.replace("2026-03-02", "2026-03-09"))
    words = (
        decks / "roof.csv",
        decks / "other.csv",
        "--no-cache",
        "-o",
        decks / "page.html",
    )
    assert run(*words) == 0
    text = (decks / "page.html").read_text()
    section = text[text.index('id="shared"') :]
    assert "<bdi>Crew</bdi>" in section
    last = section[section.index('class="sum"') :]
    cells = [part.split("</td>")[0] for part in last.split('<td class="number">')[1:]]
    assert cells == ["14", "60", "46"]


def test_the_table_is_sorted_by_a_heading(decks: Path) -> None:
    """In a browser: by overrun up and down, rows without a value at the end, and no message."""
    if shutil.which("chromium") is None:
        pytest.skip("no chromium")
    names = ["shed.csv", "roof.csv", "house.csv", "bad.csv"]
    run(*[decks / name for name in names], "--no-cache", "-o", decks / "page.html")
    rows = "[...document.querySelectorAll('#projects tbody th bdi')].map(it => it.textContent)"
    picked = "document.querySelectorAll('#projects thead button')[2].click()"
    with Browser() as browser:
        page = browser.open((decks / "page.html").as_uri())
        page.run(picked)
        up = json.loads(page.run(f"JSON.stringify({rows}.filter((_, at) => at % 2 === 0))"))
        page.run(picked)
        down = json.loads(page.run(f"JSON.stringify({rows}.filter((_, at) => at % 2 === 0))"))
        assert not page.messages()
        assert all(request.startswith("file:") for request in page.requests())
    assert up[:2] == ["A garden shed", "House, two floors"]
    assert down[:2] == ["House, two floors", "A garden shed"]
    assert set(up[2:]) == set(down[2:]) == {"Roof", "bad"}


@pytest.fixture(name="page")
def _page(decks: Path) -> Path:
    """Returns a page of the house, the shed, one of tasks that is late, and a refused deck."""
    if shutil.which("chromium") is None:
        pytest.skip("no chromium")
    late = TASKS.format(code="T1").replace(",S,T,2026-03-02,1,,T1", ",S,T,2026-03-02,1,5,T1")
    (decks / "tasks.csv").write_text(late)
    names = ["shed.csv", "house.csv", "tasks.csv", "bad.csv"]
    assert run(*[decks / name for name in names], "--no-cache", "-o", decks / "page.html") == 1
    return decks / "page.html"


def test_each_heading_leads_to_its_definition(page: Path) -> None:
    """The mark next to each heading but the project's leads to the term of that name."""
    heads = """JSON.stringify([...document.querySelectorAll('#projects thead th')].map((head) => {
        const link = head.querySelector('a.word');
        const term = link && document.querySelector(`dl.words dt${link.getAttribute('href')}`);
        return [head.querySelector('button').textContent, term ? term.textContent : ''];
    }))"""
    with Browser() as browser:
        names = json.loads(browser.open(page.as_uri()).run(heads))
    assert names[0] == ["Project", ""]
    assert len(names) == 10
    assert all(term == name for name, term in names[1:])


def test_all_columns_fit_and_a_phone_has_late_and_overrun_first(page: Path) -> None:
    """Nothing is to be scrolled at 1280 px; at 390 px the first three columns are in view."""
    table = "document.getElementById('projects')"
    with Browser() as browser:
        wide = browser.open(page.as_uri(), width=1280)
        assert wide.run(f"{table}.parentNode.scrollWidth <= {table}.parentNode.clientWidth")
        phone = browser.open(page.as_uri(), width=390)
        heads = json.loads(
            phone.run(
                f"JSON.stringify([...{table}.tHead.rows[0].cells].filter("
                "it => it.getBoundingClientRect().right <= 390)"
                ".map(it => it.querySelector('button').textContent))"
            )
        )
        assert heads[:3] == ["Project", "Late", "Overrun"]
        assert phone.run("document.documentElement.scrollWidth <= 390")


def test_projects_are_filtered_by_alarm_and_name(page: Path) -> None:
    """The late one alone, then nothing with another name, and all of them again."""
    rows = (
        "JSON.stringify([...document.querySelectorAll('#projects tbody tr:not([hidden]) th')]"
        ".map(it => it.querySelector('bdi').textContent))"
    )
    typed = "(it => { it.value = %r; it.dispatchEvent(new Event('input')); })(named)"
    with Browser() as browser:
        shown = browser.open(page.as_uri())
        everything = json.loads(shown.run(rows))
        assert everything[-1] == "bad" and len(everything) == 4
        shown.run("document.querySelector('[data-only=refused]').click()")
        assert json.loads(shown.run(rows)) == ["bad"]
        shown.run(typed % "house")
        assert json.loads(shown.run(rows)) == []
        shown.run("document.querySelector('[data-only=\"\"]').click()")
        assert json.loads(shown.run(rows)) == ["House, two floors"]
        assert shown.text("#count") == "1 of 4 shown"
        shown.run(typed % "")
        assert json.loads(shown.run(rows)) == everything
        assert not shown.messages()


def jobs_of(folder: Path, *names: str) -> list[Job]:
    """Returns jobs for decks of a folder."""
    return [Job(folder / name, None, name) for name in names]


class Counter:
    """Counts the decks that were not taken from the cache."""

    def __init__(self) -> None:
        """Begins at nothing."""
        self.calls: list[tuple[int, int, str]] = []

    def __call__(self, done: int, count: int, name: str) -> None:
        """Notes a call of the progress."""
        self.calls.append((done, count, name))


def test_unchanged_decks_come_from_the_cache(decks: Path) -> None:
    """A second run reads nothing; a changed deck is read again; faults are not kept."""
    jobs = jobs_of(decks, "shed.csv", "roof.csv", "bad.csv")
    first, second, third = Counter(), Counter(), Counter()
    rows = rows_of(PROGRAMS, jobs, Cache(decks / "kept", PROGRAMS), None, first)
    assert [call[0] for call in first.calls] == [0, 1, 2, 3]
    again = rows_of(PROGRAMS, jobs, Cache(decks / "kept", PROGRAMS), None, second)
    assert again == rows and second.calls == [(2, 3, ""), (3, 3, "bad.csv")]
    (decks / "roof.csv").write_text(MONDAY_DECK.replace("ACT,A,S,M,1,10", "ACT,A,S,M,1,9"))
    rows_of(PROGRAMS, jobs, Cache(decks / "kept", PROGRAMS), None, third)
    assert third.calls[0][0] == 1


def test_the_cache_goes_by_side_file_previous_deck_and_name(decks: Path) -> None:
    """Whatever a row is made of changes its key."""
    cache = Cache(decks / "kept", PROGRAMS)
    job, roof = Job(decks / "shed.csv", None, "shed.csv"), decks / "roof.csv"
    plain = cache.key(job)
    assert plain == cache.key(replace(job))
    others = [replace(job, previous=roof), replace(job, baseline=roof), replace(job, name="other")]
    assert len({plain, *map(cache.key, others)}) == 4
    (decks / "shed.json").write_text("{}")
    assert plain != cache.key(job)


def test_what_is_kept_is_checked(decks: Path) -> None:
    """A row goes through JSON unchanged; anything else is no row."""
    row = row_of(PROGRAMS, Job(decks / "roof.csv", None, "roof.csv"))
    text = row_text(row)
    assert row_from(text, "roof.csv") == row
    assert row_from(text, "other.csv") is None
    found = json.loads(text)

    def read(values: dict[str, object]) -> Row | None:
        return row_from(json.dumps(values), "roof.csv")

    for key in found:
        assert read({k: v for k, v in found.items() if k != key}) is None
        assert read({**found, key: {"x": 1}}) is None
    assert read({**found, "more": 1}) is None
    assert read({**found, "late": True}) is None
    for text in ("[]", "x", "[" * 100000):
        assert row_from(text, "roof.csv") is None


WRONG: dict[str, list[object]] = {
    "as_of": ["", "2026-02-30", "20260301", "2026-3-1", "2026-W10-1", "1 Mar 2026"],
    "forecast": ["soon", "9999-99-99"],
    "likely": ["soon"],
    "contract": ["", "x"],
    "contract_name": ["", "a date"],
    "previous_as_of": ["x"],
    "money_scale": [0, -1, 7, 20, 10**12],
    "day_minutes": [0, -480, 1441],
    "late": [None, 10**19, 1.5, "1"],
    "latest": [1],
    "first_budget": [1, "1"],
    "missed": [-1, 1],
    "moved": [1],
    "day_price": [-(10**19)],
    "fault": ["refused"],
    "milestone": [{"name": "M", "day": ""}, {"name": "M", "day": "x"}, {"name": "M"}],
    "loads": [
        [{"resource": "C", "title": "C", "week": week, "amount": amount}]
        for week, amount in [("2026-W54", 1), ("2026-W1", 1), ("x", 1), ("2026-W10", 0)]
    ],
}


@pytest.mark.parametrize("key", WRONG)
def test_a_row_with_a_value_that_no_deck_has_is_none(decks: Path, key: str) -> None:
    """Dates that are none, numbers out of range, scales, and halves of what belongs together."""
    row = row_of(PROGRAMS, Job(decks / "roof.csv", None, "roof.csv"))
    found = json.loads(row_text(row))
    assert row_from(json.dumps(found), "roof.csv") == row
    for value in WRONG[key]:
        assert row_from(json.dumps({**found, key: value}), "roof.csv") is None, value


def test_a_damaged_cache_is_not_used(decks: Path) -> None:
    """A half file is read again as if it were not there."""
    jobs = jobs_of(decks, "shed.csv")
    cache = Cache(decks / "kept", PROGRAMS)
    rows = rows_of(PROGRAMS, jobs, cache, None, Counter())
    for path in (decks / "kept").iterdir():
        path.write_bytes(path.read_bytes()[:40] + b"\xff")
    counter = Counter()
    assert rows_of(PROGRAMS, jobs, Cache(decks / "kept", PROGRAMS), None, counter) == rows
    assert counter.calls[0] == (0, 1, "")


def test_a_cache_that_cannot_be_written_keeps_nothing(decks: Path) -> None:
    """The page is made all the same."""
    (decks / "kept").write_text("a file")
    words = (decks / "shed.csv", "--cache", decks / "kept", "-o", decks / "page.html")
    assert run(*words) == 0


def test_wrong_words_are_refused(decks: Path, capsys: pytest.CaptureFixture[str]) -> None:
    """Nothing is written."""
    assert run(decks / "shed.csv") == 2
    assert run("-o", decks / "page.html") == 2
    assert run(decks / "shed.csv", "--stale", "x", "-o", decks / "page.html") == 2
    assert run(decks / "shed.csv", "--no-cache", "-o", decks / "shed.csv") == 2
    assert (decks / "shed.csv").read_bytes() == SHED.read_bytes()
    assert not (decks / "page.html").exists()
    assert "shed.csv: this is read by the same command" in capsys.readouterr().err


def test_the_cache_is_that_of_the_user(monkeypatch: pytest.MonkeyPatch, tmp_path: Path) -> None:
    """By XDG_CACHE_HOME if it is absolute, else below the home, else none."""
    monkeypatch.setenv("XDG_CACHE_HOME", str(tmp_path))
    assert portfolio._cache_folder(None) == tmp_path / "pert-portfolio"
    monkeypatch.setenv("XDG_CACHE_HOME", "relative")
    monkeypatch.setenv("HOME", str(tmp_path / "home"))
    assert portfolio._cache_folder(None) == tmp_path / "home" / ".cache" / "pert-portfolio"
    monkeypatch.setenv("HOME", "")
    assert portfolio._cache_folder(None) is None


def test_the_bar_is_for_terminals(capsys: pytest.CaptureFixture[str]) -> None:
    """In a pipe nothing is shown."""
    for is_shown in (False, True):
        bar = portfolio.Bar(is_shown)
        bar(1, 2, "a\x1b.csv")
        bar.clear()
        said = capsys.readouterr().err
        assert ("[###############...............] 1 of 2 a\\x1b.csv" in said) == is_shown
        assert bool(said) == is_shown


def rows_by_hosts(decks: Path, logins: Path, names: list[str]) -> list[str]:
    """Returns the codes of the CSV that two hosts made."""
    words: list[object] = [*[decks / name for name in names], "--csv", "--bin", BIN]
    words += [
        "--hosts",
        logins,
        "--remote",
        f"{COMMAND} --bin {BIN}",
        "-o",
        decks / "page.html",
    ]
    assert run(*words) == 1
    rows = list(csv.DictReader(io.StringIO((decks / "page.csv").read_text())))
    assert rows[-1]["fault"].startswith(str(decks / "bad.csv"))
    return [row["code"] for row in rows]


def many(decks: Path) -> list[str]:
    """Writes ten decks of tasks and returns the names of these, two more and a refused one."""
    for number in range(10):
        (decks / f"t{number}.csv").write_text(TASKS.format(code=f"P{number}"))
    return [
        *[f"t{number}.csv" for number in range(10)],
        "shed.csv",
        "house.csv",
        "bad.csv",
    ]


WANTED = [*[f"P{number}" for number in range(10)], "SHED", "H1", ""]


@pytest.mark.parametrize("shell", [None, "/bin/false"])
def test_hosts_by_a_stub_for_ssh(
    decks: Path, shell: str | None, monkeypatch: pytest.MonkeyPatch
) -> None:
    """A stub takes the place of ssh and notes the host; the user's shell does not matter."""
    if shutil.which("parallel") is None:
        pytest.skip("no GNU parallel")
    monkeypatch.delenv("SHELL", raising=False)
    if shell is not None:
        monkeypatch.setenv("SHELL", shell)
    stub = decks / "stub-ssh"
    stub.write_text(
        f'#!/bin/sh\necho "$1" >>{decks}/met\nshift\n[ "$1" != -- ] || shift\nexec sh -c "$*"\n'
    )
    stub.chmod(0o755)
    logins = decks / "hosts"
    logins.write_text(f"1/{stub} one\n1/{stub} two\n")
    codes = rows_by_hosts(decks, logins, many(decks))
    assert codes == WANTED
    assert set((decks / "met").read_text().split()) == {"one", "two"}


@contextmanager
def _server(folder: Path, port: int) -> Iterator[str]:
    """Runs a server of ssh on this machine, for this user alone, and yields the login for it."""
    host, user = folder / f"host{port}", folder / "user"
    for key in (host, user):
        if not key.exists():
            subprocess.run(
                ["ssh-keygen", "-q", "-t", "ed25519", "-N", "", "-f", str(key)],
                check=True,
            )
    settings = folder / f"config{port}"
    settings.write_text(
        f"Port {port}\nListenAddress 127.0.0.1\nHostKey {host}\nPidFile none\nUsePAM no\n"
        f"AuthorizedKeysFile {user}.pub\nStrictModes no\nPermitRootLogin yes\nLogLevel ERROR\n"
    )
    sshd = shutil.which("sshd", path="/usr/sbin:/usr/bin")
    assert sshd is not None
    with subprocess.Popen([sshd, "-D", "-e", "-f", str(settings)]) as running:
        try:
            _wait_for(port, running)
            yield (
                f"1/ssh -p {port} -i {user} -o StrictHostKeyChecking=no -o LogLevel=ERROR"
                f" -o UserKnownHostsFile={folder}/known 127.0.0.1"
            )
        finally:
            running.terminate()


def _wait_for(port: int, server: "subprocess.Popen[bytes]") -> None:
    """Waits until a server answers; one that has ended never does."""
    while server.poll() is None:
        with socket.socket() as probe:
            if probe.connect_ex(("127.0.0.1", port)) == 0:
                return
        time.sleep(0.1)
    raise TimeoutError(port)


def _free_port() -> int:
    with socket.socket() as probe:
        probe.bind(("127.0.0.1", 0))
        return int(probe.getsockname()[1])


def test_two_hosts_by_ssh(decks: Path) -> None:
    """Two servers of ssh on this machine make the rows."""
    for name in ("parallel", "ssh", "ssh-keygen"):
        if shutil.which(name) is None:
            pytest.skip(f"no {name}")
    if shutil.which("sshd", path="/usr/sbin:/usr/bin") is None:
        pytest.skip("no sshd")
    if os.getuid() == 0:
        Path("/run/sshd").mkdir(mode=0o755, exist_ok=True)
    folder = decks / "ssh"
    folder.mkdir(mode=0o700)
    with _server(folder, _free_port()) as one, _server(folder, _free_port()) as two:
        logins = decks / "hosts"
        logins.write_text(f"{one}\n{two}\n")
        codes = rows_by_hosts(decks, logins, many(decks))
    assert codes == WANTED


BAD_HOSTS = {
    "cat >/dev/null; echo 0 {}": "answered something that is no row of its decks",
    "cat >/dev/null; printf 'broken off'": "answered something that is no row of its decks",
    "exit 3": "ended with status 3",
    "cat >/dev/null": "did not answer for all of its decks",
    "kill -9 $$": "ended with status 137",
}
"""What a host does instead of its work, and how it is named."""


def stub_hosts(decks: Path, wrong: str, names: str) -> Path:
    """Returns a file of hosts by a stub for ssh, of which the one that is called `bad` fails."""
    stub = decks / "stub-ssh"
    stub.write_text(
        f'#!/bin/sh\nhost=$1\nshift\n[ "$1" != -- ] || shift\n'
        f'if [ "$host" = bad ]; then\n{wrong}\nelse\nexec sh -c "$*"\nfi\n'
    )
    stub.chmod(0o755)
    (decks / "hosts").write_text("".join(f"1/{stub} {name}\n" for name in names.split()))
    return decks / "hosts"


@pytest.mark.parametrize("wrong", BAD_HOSTS)
def test_a_host_that_fails_is_left_out_and_named(
    decks: Path, wrong: str, capsys: pytest.CaptureFixture[str]
) -> None:
    """It alone, by its own status; its decks go to the other host, and the page has all rows."""
    if shutil.which("parallel") is None:
        pytest.skip("no GNU parallel")
    logins = stub_hosts(decks, wrong, "bad good")
    assert rows_by_hosts(decks, logins, many(decks)) == WANTED
    said = capsys.readouterr().err.splitlines()
    left_out = [line for line in said if "left out" in line]
    assert left_out == [f"pert-portfolio: left out: {decks}/stub-ssh bad: {BAD_HOSTS[wrong]}"]


def test_without_a_host_that_works_each_deck_has_a_fault(
    decks: Path, capsys: pytest.CaptureFixture[str]
) -> None:
    """The page is written all the same."""
    if shutil.which("parallel") is None:
        pytest.skip("no GNU parallel")
    logins = stub_hosts(decks, "exit 3", "bad")
    words = (decks / "shed.csv", "--hosts", logins, "-o", decks / "page.html")
    assert run(*words) == 1
    assert "no host answered for this deck" in capsys.readouterr().err
    assert "no host answered for this deck" in (decks / "page.html").read_text()


def test_a_login_is_named_without_its_connections() -> None:
    """The log of parallel has it so."""
    assert host_of("4/planner@alpha") == "planner@alpha"
    assert host_of("1/ssh -p 1 one") == "ssh -p 1 one"
    assert host_of("/usr/bin/ssh one") == "/usr/bin/ssh one"


def test_a_crash_of_a_worker_is_a_fault_of_its_deck(
    decks: Path, monkeypatch: pytest.MonkeyPatch
) -> None:
    """One deck ends its process, another one raises an error: the others have their rows."""

    def row_or_crash(programs: Programs, job: Job) -> Row:
        if job.name == "shed.csv":
            os.kill(os.getpid(), signal.SIGKILL)
        if job.name == "roof.csv":
            raise MemoryError("no more")
        return row_of(programs, job)

    monkeypatch.setattr(work, "row_of", row_or_crash)
    names = many(decks)
    jobs = jobs_of(decks, *names[:10], "shed.csv", "roof.csv", "house.csv")
    rows = rows_of(PROGRAMS, jobs, Cache(None, PROGRAMS), None, Counter())
    assert [row.code for row in rows] == [*WANTED[:10], "", "", "H1"]
    assert rows[10].fault == "the process that read this deck crashed"
    assert rows[11].fault == "reading this deck failed: MemoryError: no more"


def test_a_host_answers_a_row_for_each_line(
    decks: Path, capsys: pytest.CaptureFixture[str]
) -> None:
    """Decks go over with their side files and the ones before, and rows are the same as here."""
    jobs = [
        Job(decks / "roof.csv", decks / "shed.csv", "roof.csv"),
        Job(decks / "bad.csv", None, "bad.csv"),
    ]
    serve(PROGRAMS, [packed(number, job).encode() for number, job in enumerate(jobs)])
    lines = capsys.readouterr().out.splitlines()
    rows = [row_of(PROGRAMS, job) for job in jobs]
    assert sorted(lines[1::2]) == [f"{number} {row_text(row)}" for number, row in enumerate(rows)]
    assert lines[0::2] == [""] * len(jobs)
    for text in (b"nonsense", b"[1]", b'{"number": "x", "name": "a", "files": {}}'):
        with pytest.raises(UsageError):
            serve(PROGRAMS, [text])


def test_without_parallel_there_are_no_hosts(
    decks: Path, monkeypatch: pytest.MonkeyPatch, capsys: pytest.CaptureFixture[str]
) -> None:
    """The line says how to get it."""
    monkeypatch.setenv("PATH", str(decks))
    (decks / "hosts").write_text("alpha\n")
    words = (decks / "shed.csv", "--hosts", decks / "hosts", "-o", decks / "page.html")
    assert run(*words, "--bin", BIN) == 2
    assert "apt install parallel" in capsys.readouterr().err


@pytest.mark.parametrize("whole_group", [True, False])
def test_an_interrupt_leaves_no_page(decks: Path, whole_group: bool) -> None:
    """Ctrl-C ends it and the programs that run at once, with one line, and nothing is written.

    A terminal interrupts the whole group; `kill` the one process. A stand-in for pert takes long.
    """
    (decks / "bin").mkdir()
    for name in ("pert", "pert_check"):
        program = decks / "bin" / name
        program.write_text(
            f"#!/bin/sh\necho $$ >{decks}/begun.new\nmv {decks}/begun.new {decks}/begun\n"
            "exec sleep 900\n"
        )
        program.chmod(0o755)
    words = [
        str(COMMAND),
        str(decks / "shed.csv"),
        "--no-cache",
        "--bin",
        str(decks / "bin"),
    ]
    words += ["-o", str(decks / "page.html")]
    words = [*WITH_INTERRUPTS, *words]
    with subprocess.Popen(words, stderr=subprocess.PIPE, start_new_session=True) as running:
        while not (decks / "begun").exists():
            assert running.poll() is None
            time.sleep(0.1)
        if whole_group:
            os.killpg(running.pid, signal.SIGINT)
        else:
            os.kill(running.pid, signal.SIGINT)
        _, said = running.communicate(timeout=600)
    assert (running.returncode, said) == (1, b"pert-portfolio: interrupted\n")
    assert not (decks / "page.html").exists()
    assert left_after(WITHIN, [int((decks / "begun").read_text())]) == []


def test_a_worker_refuses_what_is_no_deck() -> None:
    """Standard input of a host has lines of JSON."""
    words = [
        sys.executable,
        "-m",
        "pert_companion",
        "pert-portfolio",
        "--worker",
        "--bin",
        str(BIN),
    ]
    environment = {**os.environ, "PYTHONPATH": str(TOP / "companion" / "src")}
    for text in ('{"number": "x", "name": "a", "files": {}}\n', "nonsense\n", "[1]\n"):
        done = subprocess.run(
            words,
            input=text,
            capture_output=True,
            text=True,
            check=False,
            env=environment,
        )
        assert done.returncode == 2 and done.stderr.count("\n") == 1, done.stderr
        assert "no deck" in done.stderr and done.stdout == ""
