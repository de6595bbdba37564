"""The views of the report page: words, dates, charts, first screen, lengths, rows and changes."""

from dataclasses import replace
from datetime import date, timedelta
from fractions import Fraction
from pathlib import Path

import pytest
from hypothesis import given, settings
from hypothesis import strategies as st

from page.certificates import HOUSE, PROGRAMS, SHED, certificate_of, house_with_terms
from page.reports import gathered_of, plan_without_status
from running import MONTHS, opened
from pert_companion.analysis.compare import compare
from pert_companion.analysis.contract import Contract, contract_of, held_dates
from pert_companion.analysis.options import options
from pert_companion.analysis.sureness import percent_text
from pert_companion.model.calendar import Calendar, free_days
from pert_companion.model.clock import Clock
from pert_companion.model.errors import InputError
from pert_companion.model.registers import Rename, Renames
from pert_companion.model.sidefile import SideFile
from pert_companion.page import changed, charts, checks, chooser, decision, first, money, timeline
from pert_companion.page.bridges import account_moves
from pert_companion.page.doubts import doubts_table
from pert_companion.page.gathering import Gathered
from pert_companion.page.load import load_view
from pert_companion.page.report import page_of
from pert_companion.page.view import Line, signed
from pert_companion.page.words import Words, day_text, number_text, plural, shown, words_of
from pert_companion.programs.certificate import PointReader, parts
from pert_companion.state.implied import implied_side_file
from pert_companion.state.remaining import State

DAYS = Words("day", "EUR", 1)


def text_of(line: Line) -> str:
    return "".join(piece.text for piece in line).replace("\u00a0", " ")


def deck_at(folder: Path, text: bytes, name: str = "deck") -> Path:
    path = folder / f"{name}.csv"
    path.write_bytes(text)
    return path


@pytest.fixture(scope="module")
def house(tmp_path_factory: pytest.TempPathFactory) -> Gathered:
    return gathered_of(deck_at(tmp_path_factory.mktemp("house"), HOUSE.read_bytes()))


@pytest.fixture(scope="module")
def terms(tmp_path_factory: pytest.TempPathFactory) -> Gathered:
    plan = plan_without_status().replace(b"END\n", b"TERMS,90,30,40,70\nEND\n")
    return gathered_of(deck_at(tmp_path_factory.mktemp("terms"), plan))


def test_amounts_have_their_decimals_and_currency() -> None:
    cents = Words("day", "EUR", 100)
    assert cents.money(1319005) == "13,190.05\u00a0EUR"
    assert cents.digits(-5) == "\u22120.05"
    assert Words("day", "", 1).money(1234567) == "1,234,567"
    assert (plural(1, "day"), plural(0, "day"), plural(1000, "day")) == (
        "1 day",
        "0 days",
        "1,000 days",
    )
    assert number_text(-1000) == "\u22121,000"
    signs = [signed(text) for text in ("5", "\u22125", "0", "0.00", "0\u00a0EUR", "5\u00a0EUR")]
    assert signs == ["+5", "\u22125", "0", "0.00", "0\u00a0EUR", "+5\u00a0EUR"]


def test_dates_and_titles() -> None:
    assert day_text(date(2024, 4, 8)) == "8 Apr 2024"
    assert day_text(None) == "\u2013"
    assert shown("a\u202eb\u0085c\u2028d") == "a\\u202eb\\x85c\\u2028d"


def side_of(calendar: Calendar, start: date, minutes: int) -> SideFile:
    return SideFile("", "", start, calendar, minutes, ())


@pytest.mark.parametrize(
    ("minutes", "lengths", "less"),
    [
        (480, ["1 working day", "30 working days", "1,030 working days"], "One working day less"),
        (2400, ["5 working days", "150 working days", "5,150 working days"], "5 working days less"),
        (
            60,
            ["0.12 working days", "3.75 working days", "128.75 working days"],
            "One working day less",
        ),
    ],
)
def test_lengths_are_in_days(minutes: int, lengths: list[str], less: str) -> None:
    """Whatever a unit of the deck is; 0.125 days are 0.12, the even one of the two."""
    words = words_of(side_of(Calendar(), date(2024, 3, 4), minutes), None)
    assert [words.length(units) for units in (1, 30, 1030)] == lengths
    assert words.one_less == less


def test_days_of_a_deck_in_which_every_day_counts() -> None:
    plan = opened(SHED)
    assert words_of(plan.side, "kr").money(5) == "5\u00a0kr"
    days = words_of(implied_side_file(plan.deck), None)
    assert (days.length(2), days.days(-3)) == ("2 days", "\u22123")


def dates_by_runs(runs: list[list[int]], first: date, minute: int) -> date:
    """Returns the day with a minute of work, as the script of the page finds it."""
    passed = 0
    for offset, days, each in runs:
        if minute < passed + days * each:
            return first + timedelta(days=offset + (minute - passed) // each)
        passed += days * each
    raise AssertionError("a minute that no run has")


@settings(deadline=None)
@given(
    start=st.dates(date(2024, 1, 1), date(2026, 1, 1)),
    free=st.lists(st.dates(date(2024, 1, 1), date(2026, 6, 1)), max_size=30),
    minutes=st.sampled_from([60, 240, 480, 2400]),
    units=st.integers(0, 200),
)
def test_runs_have_the_days_of_the_calendar(
    start: date, free: list[date], minutes: int, units: int
) -> None:
    clock = Clock(side_of(Calendar(exceptions=free_days(free)), start, minutes))
    runs = clock.runs(units)
    for count in {0, units // 2, units}:
        assert dates_by_runs(runs, clock.first_day, count * minutes) == clock.begin(count)
        last = max(0, count * minutes - 1)
        assert dates_by_runs(runs, clock.first_day, last) == clock.end(count)


def test_units_until_a_day_are_those_that_end_on_it() -> None:
    clock = Clock(side_of(Calendar(), date(2024, 3, 4), 480))
    assert [clock.units_until(date(2024, 3, day)) for day in (1, 4, 8, 10, 11)] == [0, 1, 5, 5, 6]
    assert clock.end(5) == date(2024, 3, 8)
    assert clock.end(10**9) is None
    assert clock.begin(10**9) is None


@settings(deadline=None)
@given(least=st.integers(0, 10**13), span=st.integers(0, 10**13))
def test_a_round_scale_holds_what_it_has_to(least: int, span: int) -> None:
    scale, ticks = charts.round_scale(least, least + span)
    assert scale.least <= least <= least + span <= scale.most
    assert 2 <= len(ticks) <= 7
    assert len({b - a for a, b in zip(ticks, ticks[1:])}) == 1


def test_places_in_charts() -> None:
    assert charts.percent(1, 3) == "33.33%"
    assert charts.percent(-1, 4) == "-25%"
    assert charts.percent(1, 0) == "0%"
    assert charts.pixels(Fraction(1, 4), 100) == "75"
    assert [charts.anchor(Fraction(n, 100)) for n in (0, 50, 100)] == ["start", "middle", "end"]


@settings(deadline=None)
@given(first_day=st.dates(date(1990, 1, 1), date(2100, 1, 1)), days=st.integers(1, 40000))
def test_ticks_of_dates_are_in_order_and_inside(first_day: date, days: int) -> None:
    ticks = charts.date_ticks(first_day, days)
    offsets = [offset for offset, _, _ in ticks]
    assert offsets == sorted(set(offsets))
    assert all(0 <= offset <= days for offset in offsets)
    assert len(ticks) <= 16


@pytest.mark.parametrize("name", ["house", "shed"])
def test_the_schedule_of_a_length_is_that_of_point(name: str) -> None:
    path = HOUSE if name == "house" else SHED
    deck, certificate = opened(path).deck, certificate_of(path.read_bytes())
    text = certificate.encode()
    curve = PROGRAMS.curve(deck)
    lengths = range(curve[-1].length, curve[0].length + 1)
    for size in (len(text), 7):
        reader = PointReader(deck, [*lengths, 1])
        for part in parts(text[at : at + size] for at in range(0, len(text), size)):
            reader.take(part)
        assert reader.points == {length: PROGRAMS.point(deck, length) for length in lengths}


def sentences(gathered: Gathered) -> list[str]:
    """Returns the sentences of the first screen."""
    return [text_of(line) for line in first.first_screen(gathered, DAYS).sentences]


def test_the_first_screen_of_the_house(house: Gathered) -> None:
    screen = first.first_screen(house, DAYS)
    when, _, *others = sentences(house)
    assert when == (
        "What is left ends on 11 Apr 2024 by normal durations, 4 days late against the planned end"
        " 7 Apr 2024."
    )
    assert others == [
        "The latest estimate is 14,020 EUR against a budget of 13,600 EUR, 420 EUR over it.",
        "Ending on 7 Apr 2024 costs 470 EUR more for the work; the deck has no price of time.",
    ]
    assert [
        (tile.name, text_of(tile.value)) for tile in screen.tiles if "P50" not in tile.name
    ] == [
        ("End", "11 Apr 2024"),
        ("Planned end", "7 Apr 2024"),
        ("Latest estimate", "14,020 EUR"),
        ("Budget", "13,600 EUR"),
        ("One day less", "100 EUR"),
    ]
    assert checks.checks(house) == checks.Checks((), ())


def test_what_is_hard_to_believe_is_an_alert() -> None:
    """As pert-check-status finds it in the month of May; each leads to a section of the page."""
    found = gathered_of(MONTHS / "may.csv", previous=MONTHS / "april.csv")
    shown_checks = checks.checks(found)
    alerts = [(alert.key, text_of(alert.text)) for alert in shown_checks.alerts]
    assert alerts == [
        ("doubts", "To check, amount to go did not fall by what was spent: Windows"),
        ("doubts", "To check, out of sequence: Make the windows"),
    ]
    assert shown_checks.tables == ()
    assert {key for key, _ in alerts} <= {section.key for section in page_of(found).sections}
    table = doubts_table(found)
    assert table is not None and table.caption == "2 to check"
    rows = [[text_of(cell) for cell in (row.name, *row.cells)] for row in table.rows]
    assert rows[1] == [
        "out of sequence",
        "Make-windows Make the windows",
        "5",
        "began 2026-03-10; Clear-site, which it comes after, was finished later",
        "the plan had another order",
    ]
    assert doubts_table(gathered_of(MONTHS / "plan.csv")) is None


def test_the_headline_says_how_sure_it_is(house: Gathered) -> None:
    found = house.sureness
    assert found is not None and house.state.rest.end is not None
    assert sentences(house)[1] == (
        f"That day has a chance of {percent_text(found.chance_by(house.state.rest.end))};"
        f" even chance is {day_text(found.even_end)}, and four in five"
        f" {day_text(found.likely_end)} (simulated)."
    )
    held = sentences(with_contract(house, date(2024, 4, 13)))[1]
    assert (
        f", and the contract date one of {percent_text(found.chance_by(date(2024, 4, 13)))}" in held
    )
    assert house.chances[25] == found.chance_by(house.state.rest.end)


def with_contract(gathered: Gathered, day: date) -> Gathered:
    contract = Contract(day, "contract date", "of the deck's PROJECT card")
    return replace(
        gathered,
        contract=contract,
        options=options(gathered.state, held_dates(contract)),
    )


def test_a_date_that_no_schedule_keeps(house: Gathered) -> None:
    held = with_contract(house, date(2024, 4, 1))
    assert sentences(held)[-1] == (
        "1 Apr 2024 cannot be kept. Ending on 4 Apr 2024 costs 1,070 EUR more for the work; the"
        " deck has no price of time."
    )
    assert first.first_screen(held, DAYS).tiles[2].name == "Contract date"


def test_a_date_that_is_kept(house: Gathered) -> None:
    held = with_contract(house, date(2024, 4, 13))
    assert "2 days early against the contract date 13 Apr 2024" in sentences(held)[0]
    assert sentences(held)[-1] == "One day less would cost 100 EUR for the work."
    assert first.first_screen(held, DAYS).tiles[0].tone == ""
    on_time = sentences(with_contract(house, date(2024, 4, 11)))
    assert "on time against the contract date" in on_time[0]


def test_the_price_of_time(terms: Gathered) -> None:
    assert sentences(terms)[-1] == (
        "Ending on 2 Apr 2024 saves 210 EUR in all: 590 EUR more for the work, 800 EUR less for"
        " time."
    )
    choice = chooser.choice(terms, DAYS)
    amounts = [(key, text_of(line)) for key, _, line in choice.costs]
    assert amounts == [
        ("cost", "13,190 EUR"),
        ("overhead", "2,700 EUR"),
        ("bonus", "0 EUR"),
        ("penalty", "0 EUR"),
        ("total", "15,890 EUR"),
    ]
    assert (choice.late, text_of(choice.more)) == ("on the target date", "\u2212210 EUR")
    assert text_of(choice.next) == "+20 EUR"


def test_options_are_one_table_with_the_chosen_length_below(terms: Gathered) -> None:
    table = decision.options_table(terms, DAYS)
    rows = [[text_of(row.name), *map(text_of, row.cells[:-1])] for row in table.rows]
    assert table.heads[-1] == "Chance"
    assert rows == [
        ["35 days: today’s plan", "7 Apr 2024", "12,600", "3,500", "16,100", "0", "\u221260"],
        [
            "30 days: target, cheapest in all",
            "2 Apr 2024",
            *["13,190", "2,700", "15,890", "\u2212210", "+20"],
        ],
        ["27 days: shortest", "30 Mar 2024", "13,690", "2,310", "16,000", "\u2212100", "\u2013"],
        ["30 days: chosen", "2 Apr 2024", "13,190", "2,700", "15,890", "\u2212210", "+20"],
    ]
    assert [row.is_sum for row in table.rows] == [False, True, False, False]
    assert decision.terms_texts(terms, DAYS) == [
        "Each day costs 90\u00a0EUR of overhead.",
        "Each day before the target, 2 Apr 2024, earns 40\u00a0EUR.",
        "Each day after the target, 2 Apr 2024, costs 70\u00a0EUR more.",
    ]


def test_the_bridge_goes_from_the_work_to_all(terms: Gathered) -> None:
    table = decision.bridge_table(terms, DAYS)
    assert table is not None
    assert [[text_of(row.name), text_of(row.cells[0])] for row in table.rows] == [
        ["The tasks at their normal costs", "+12,600"],
        ["What was spent and re-estimated beyond that", "0"],
        ["Packages without tasks", "+1,000"],
        ["Latest estimate", "13,600"],
        ["The shorter work", "+590"],
        ["The price of time", "+2,700"],
        ["In all", "16,890"],
    ]


def test_breakpoints_have_dates_totals_and_prices(terms: Gathered) -> None:
    table = chooser.breakpoints(terms, DAYS)
    rows = [[text_of(row.name), *map(text_of, row.cells)] for row in table.rows]
    assert rows[0] == ["35 days", "7 Apr 2024", "12,600", "16,100", "100"]
    assert rows[-1] == ["27 days", "30 Mar 2024", "13,690", "16,000", "\u2013"]


def test_equal_stretches_are_named(tmp_path: Path) -> None:
    plan = plan_without_status()
    free = plan.replace(b"7,5,900,200", b"7,5,900,0").replace(b"END\n", b"TERMS,110,20,0,0\nEND\n")
    found = gathered_of(deck_at(tmp_path, free))
    texts = [stretch.text for stretch in chooser.stretches(found.state.rest, DAYS)]
    assert texts == [
        "33 to 35 days cost the same work: take 33.",
        "30 to 32 days cost the same in all: take 32, which shortens less.",
    ]


def test_prices_are_centred_or_left_out(terms: Gathered) -> None:
    labels = chooser.curve_chart(terms, DAYS).prices
    assert [tick.label for tick in labels] == ["+100", "+110", "+120", "+150", "+200"]
    middle = labels[3].at.split("|")[0]
    assert middle == charts.percent(Fraction(31 + 28, 2) - 27, 8)
    assert [tick.is_minor for tick in labels] == [True, False, True, False, True]


def test_rows_say_what_is_done_and_late(house: Gathered) -> None:
    drawn = timeline.timeline(house, DAYS)
    rows = {row.key: row for row in drawn.rows if row.key}
    assert [rows[key].state for key in ("t0", "t1", "t2")] == ["finished", "begun", "waiting"]
    assert (rows["t0"].start, rows["t0"].finish, rows["t0"].slack) == (
        "4 Mar 2024",
        "7 Mar 2024",
        "",
    )
    assert rows["t1"].flag == "should have finished 14 Mar 2024"
    assert rows["t2"].flag == "should have begun 15 Mar 2024"
    assert [bar.name for bar in rows["t1"].bars] == ["baseline", "done", "bar critical"]
    assert [bar.name for bar in rows["t0"].bars] == ["baseline", "done"]
    assert drawn.others == 0


def many_tasks() -> bytes:
    lines = ["PROJECT,MANY,BEGIN,FIN,2024-01-01,1,,Many", "WBS,M,,Many", "WBS,W,M,Work"]
    tasks = ["TASK,BEGIN,W,0,0,0,0,0,0,0,", "TASK,FIN,W,0,0,0,0,0,0,0,"]
    links = []
    for number in range(80):
        tasks.append(f"TASK,T{number},W,1,2,3,{2 + number % 5},1,10,1,Task {number}")
        links += [f"AFTER,T{number},BEGIN", f"AFTER,FIN,T{number}"]
    lines += [*tasks, *links, "ACCT,A,W,800,", "END", ""]
    return "\n".join(lines).encode()


def test_of_many_rows_the_critical_ones_are_shown(tmp_path: Path) -> None:
    found = gathered_of(deck_at(tmp_path, many_tasks()))
    drawn = timeline.timeline(found, DAYS)
    rows = [row for row in drawn.rows if row.key]
    assert len(rows) == 82
    assert all(row.is_other != row.is_critical for row in rows)
    assert drawn.others == len([row for row in rows if row.is_other]) > 40
    assert page_of(found).rows_name == "Critical tasks"


def test_money_tables_add_up(house: Gathered) -> None:
    table = money.summary_table(house, DAYS)
    assert table is not None
    assert [text_of(cell) for cell in table.rows[0].cells] == [
        "13,600",
        "2,220",
        "11,800",
        "14,020",
        "420",
    ]
    earned = money.earned_table(house, DAYS)
    assert earned is not None and house.earned is not None
    last = [text_of(cell) for cell in earned.rows[-1].cells]
    assert last[:3] == [f"{amount:,}" for amount in (4820, house.earned.total.ev, 2020)]
    chart = money.money_chart(house, DAYS)
    assert chart is not None
    assert [series.name for series in chart.series] == ["planned", "earned", "spent", "forecast"]
    load = load_view(house, DAYS)
    assert load is not None and load.left_out == 0 and len(load.charts) == 5
    assert load.above is None and load.lead.startswith("What is still to be spent")


def test_the_lines_of_money_are_of_the_packages_of_earned_value(house: Gathered) -> None:
    """At the data date the lines have PV, EV and AC: their ratios can be read off."""
    lines, earned = house.money, house.earned
    assert lines is not None and earned is not None
    evening = date(2024, 3, 17)
    planned = {point.day: point.amount for point in lines.planned}
    assert planned[evening] == earned.total.pv == 4820
    assert (lines.earned[-1].day, lines.earned[-1].amount) == (evening, earned.total.ev)
    assert lines.spent[-1].amount == lines.forecast[0].amount == earned.total.ac == 2020
    assert (lines.planned[-1].amount, lines.forecast[-1].amount) == (12600, 13020)
    apart = money.apart_table(house, DAYS)
    assert apart is not None
    assert [[text_of(row.name), *map(text_of, row.cells)] for row in apart.rows] == [
        ["1.4 Supervision", "1,000", "200", "1,000"]
    ]


def test_the_load_of_a_running_project_is_what_is_to_go(house: Gathered) -> None:
    """Nothing of the finished site is spent again: 10,800 are to go for tasks, 1.4 apart."""
    assert house.load is not None
    assert sum(house.load.costs) == 11800 - 800
    labour = house.load.resources[0]
    assert (labour.code, labour.capacity) == ("LABOUR", None)
    left = {card.activity: card.quantity for card in house.state.rest.deck.loads}
    assert "SITE" not in left and house.load.rest_of == date(2024, 3, 18)


def test_the_contract_date_is_that_of_the_project_card(tmp_path: Path) -> None:
    text = HOUSE.read_bytes().replace(b"2024-03-04,1,,", b"2024-03-04,1,33,")
    plan = opened(deck_at(tmp_path, text))
    contract = contract_of(plan, date(2024, 4, 7))
    assert contract == Contract(date(2024, 4, 5), "contract date", "of the deck's PROJECT card")
    target = contract_of(opened(deck_at(tmp_path, house_with_terms(), "t")), None)
    assert target == Contract(date(2024, 4, 2), "target date", "of the price of time (TERMS)")
    assert contract_of(opened(HOUSE), None) is None


def test_what_changed_since_the_report_before(tmp_path: Path) -> None:
    now = HOUSE.read_bytes()
    before = now.replace(b"ASOF,2024-03-18", b"ASOF,2024-03-11").replace(
        b"CHARGE,WIN,2024-03-06,1000", b"CHARGE,WIN,2024-03-06,900"
    )
    now = now.replace(b"8,10,12,10,7,2400", b"9,11,13,11,8,2400")
    now = now.replace(b"ACCT,ELE,1.3.1,700", b"ACCT,ELE,1.3.1,900")
    now = now.replace(b"3,4,5,4,3,700", b"3,4,5,4,3,900")
    old = deck_at(tmp_path, before, "old")
    found = gathered_of(deck_at(tmp_path, now, "new"), previous=old)
    assert found.changes is not None
    ends = [(step.cause, step.end) for step in found.changes.bridges.steps]
    assert ends == [
        ("forecast of the report before", date(2024, 4, 7)),
        ("restated past", date(2024, 4, 7)),
        ("progress since", date(2024, 4, 11)),
        ("re-estimates", date(2024, 4, 12)),
        ("scope and links", date(2024, 4, 12)),
    ]
    view = changed.changes_view(found.changes, DAYS)
    assert rows_of(view, "by task") == [
        ["Dig, pour, cure FOUND", "14 Mar 2024", "18 Mar 2024", "+4"],
        ["Walls WALLS", "24 Mar 2024", "29 Mar 2024", "+1"],
        ["All together", "7 Apr 2024", "12 Apr 2024", "+5"],
    ]
    assert rows_of(view, "by account") == [
        ["Last report", "", "", "", "13,720"],
        ["FND Foundation", "0", "0", "+200", "+200"],
        ["ELE Electric", "+200", "0", "0", "+200"],
        ["WIN Windows", "0", "+100", "0", "+100"],
        ["All accounts", "+200", "+100", "+200", "+500"],
        ["Now", "", "", "", "14,220"],
    ]
    assert rows_of(view, "each budget") == [
        ["Now", "13,800", "+420"],
        ["Last report", "13,600", "+620"],
    ]
    assert view.order == changed.ORDER
    assert view.notes == (
        "Since the last report, 1 figure of the time before it changed. The last report is shown"
        " as it was reported.",
    )
    assert sentences(found)[3] == (
        "Since the report of 11 Mar 2024 the end is 5 days later, from 7 Apr 2024, the largest move"
        " by Dig, pour, cure (+4), and the estimate is 500 EUR more."
    )


def rows_of(view: changed.Changes, end: str) -> list[list[str]]:
    """Returns the texts of the table whose caption ends so."""
    table = next(t for t in view.tables if t.caption.endswith(end))
    return [[text_of(row.name), *map(text_of, row.cells)] for row in table.rows]


def chain(days: int, numbers: range) -> bytes:
    """Returns a plan of tasks one after another, each with a package and an account of its own."""
    lines = ["PROJECT,P,S,E,2026-03-02,1,,Chain", "WBS,W,,Chain"]
    lines += [f"WBS,W{number},W,Package {number}" for number in numbers]
    for number in numbers:
        lines.append(f"TASK,T{number},W{number},1,2,3,{days},1,{100 * days},1,Task {number}")
    lines += [f"AFTER,T{number},T{number - 1}" for number in numbers[1:]]
    lines += [f"ACCT,A{number},W{number},{100 * days},Account {number}" for number in numbers]
    return "\n".join([*lines, "END", ""]).encode()


def test_ten_rows_of_a_bridge_and_the_others_together(tmp_path: Path) -> None:
    """A plan without any status, of fourteen tasks of which each lasts a day more."""
    old = deck_at(tmp_path, chain(2, range(14)), "old")
    found = gathered_of(deck_at(tmp_path, chain(3, range(14)), "new"), previous=old)
    assert found.changes is not None
    view = changed.changes_view(found.changes, DAYS)
    tasks, accounts = rows_of(view, "by task"), rows_of(view, "by account")
    assert [row[-1] for row in tasks] == ["+1"] * 10 + ["+4", "+14"]
    assert tasks[0] == ["Task 0 T0", "3 Mar 2026", "4 Mar 2026", "+1"]
    assert tasks[-2][0] == "Other tasks together: 4"
    assert [row[1] for row in accounts] == ["", *["+100"] * 10, "+400", "+1,400", ""]
    assert accounts[-3][0] == "Other accounts together: 4"
    assert (accounts[0][-1], accounts[-2][-1], accounts[-1][-1]) == ("2,800", "+1,400", "4,200")


def test_tasks_and_accounts_that_come_and_go_are_named(tmp_path: Path) -> None:
    old = deck_at(tmp_path, chain(2, range(3)), "old")
    found = gathered_of(deck_at(tmp_path, chain(2, range(1, 4)), "new"), previous=old)
    assert found.changes is not None
    view = changed.changes_view(found.changes, DAYS)
    assert rows_of(view, "by task") == [
        ["Task 0 T0 (dropped)", "3 Mar 2026", "\u2013", "\u22122"],
        ["Task 3 T3 (new)", "\u2013", "7 Mar 2026", "+2"],
        ["All together", "7 Mar 2026", "7 Mar 2026", "0"],
    ]
    assert [row[0] for row in rows_of(view, "by account")] == [
        "Last report",
        "A0 Account 0 (dropped)",
        "A3 Account 3 (new)",
        "All accounts",
        "Now",
    ]


def test_a_renamed_account_has_one_row(tmp_path: Path) -> None:
    """Account 1 was called `Old`: its row has both amounts, and the bridge adds up."""
    text = chain(2, range(2)).replace(b"ACCT,A1,", b"ACCT,Old,")
    old = opened(deck_at(tmp_path, text, "old"))
    new = opened(deck_at(tmp_path, chain(3, range(2)), "new"))
    renames = Renames((Rename("Old", "A1"),))
    new = replace(new, registers=replace(new.registers, renames=renames))
    comparison = compare([old, new], None).comparisons[0]
    moves = list(account_moves(comparison, 1))
    rows = [(move.code, move.note, move.scope) for move in moves]
    assert rows == [("A0", "", 100), ("A1", "", 100)]
    total = sum(move.amounts[-1] for move in moves)
    assert total == comparison.new.latest - comparison.old.latest


def test_accounts_that_became_one_add_up(tmp_path: Path) -> None:
    """A part of the budget of A0 had an account of its own: nothing has moved."""
    text = chain(2, range(2)).replace(
        b"ACCT,A0,W0,200,Account 0", b"ACCT,X,W0,50,Part\nACCT,A0,W0,150,Account 0"
    )
    old = opened(deck_at(tmp_path, text, "old"))
    new = opened(deck_at(tmp_path, chain(2, range(2)), "new"))
    renames = Renames((Rename("X", "A0"),))
    new = replace(new, registers=replace(new.registers, renames=renames))
    comparison = compare([old, new], None).comparisons[0]
    assert not list(account_moves(comparison, 1))


def test_a_report_like_the_last_one_has_no_rows_by_task(tmp_path: Path) -> None:
    deck = deck_at(tmp_path, chain(2, range(3)))
    found = gathered_of(deck, previous=deck)
    assert found.changes is not None
    view = changed.changes_view(found.changes, DAYS)
    assert (len(view.tables), view.order) == (4, "")
    assert rows_of(view, "by account")[1:-1] == [["All accounts", "0", "0", "0", "0"]]


def test_links_and_finished_tasks_in_the_bridge_by_task(tmp_path: Path) -> None:
    """T0 ended a day early, and T2 no longer waits for T1."""
    old = deck_at(tmp_path, chain(3, range(3)), "old")
    text = chain(3, range(3)).replace(b"AFTER,T2,T1", b"AFTER,T2,T0")
    text = text.replace(b"ACCT,A0", b"STATUS,T0,S,2026-03-02\nSTATUS,T0,F,2026-03-04\nACCT,A0")
    text = text.replace(b"WBS,W,,", b"ASOF,2026-03-04\nWBS,W,,")
    found = gathered_of(deck_at(tmp_path, text, "new"), previous=old)
    assert found.changes is not None
    assert rows_of(changed.changes_view(found.changes, DAYS), "by task") == [
        ["Task 0 T0", "4 Mar 2026", "3 Mar 2026, finished", "\u22121"],
        ["Links, waits and calendar", "", "", "\u22123"],
        ["All together", "10 Mar 2026", "6 Mar 2026", "\u22124"],
    ]


def test_a_length_outside_the_curve_is_refused(tmp_path: Path) -> None:
    with pytest.raises(InputError, match="length 26 is outside 27 to 35"):
        gathered_of(deck_at(tmp_path, plan_without_status()), length=26)


def test_finished_work_is_known(house: Gathered) -> None:
    assert house.progress["SITE"] is State.FINISHED
    assert house.progress["FOUND"] is State.BEGUN


def rigid() -> bytes:
    """Returns a plan without costs, accounts or anything that can be shortened."""
    lines = ["PROJECT,R,A,B,2024-01-01,1,,Rigid", "WBS,M,,Rigid", "WBS,W,M,Work"]
    lines += ["EVENT,A,", "EVENT,B,", "ACT,X,A,B,W,3,4,5,4,4,0,0,Only one", "END", ""]
    return "\n".join(lines).encode()


def test_a_plan_that_cannot_be_shortened(tmp_path: Path) -> None:
    found = gathered_of(deck_at(tmp_path, rigid()))
    screen = first.first_screen(found, DAYS)
    assert sentences(found)[:1] + sentences(found)[2:] == [
        "The work ends on 4 Jan 2024 by normal durations, on time against the planned end"
        " 4 Jan 2024.",
        "The work costs 0 EUR; the deck has no accounts.",
        "There is nothing to decide: no task of what is left can be shortened.",
    ]
    assert [tile.name for tile in screen.tiles[3:]] == ["Cost of the work", "Budget", "Decision"]
    assert text_of(screen.tiles[5].value) == "none"
    page = page_of(found)
    shown = page.money
    assert (shown.summary, shown.earned, page.changes, shown.chart) == (None, None, None, None)
    assert len(page.left_out) == 5
    assert [tick.label for tick in page.chooser.chart.x_ticks] == ["4|4 Jan 2024"]
