"""Lists of vouchers as accounting systems export them, and lists that are none."""

import io
import time
from datetime import date
from decimal import Decimal
from pathlib import Path

import openpyxl
import pytest

from pert_companion.model.bookings import BookingKind
from pert_companion.model.errors import InputError, UsageError
from pert_companion.model.ledger import Voucher
from pert_companion.model.source import Source
from pert_companion.readers.base import ReaderOptions
from pert_companion.readers.vouchers import VoucherList, read_vouchers

WANTED = [
    ("4711", date(2026, 3, 31), "Ground", Decimal("1250.50"), "Digger"),
    ("4712", date(2026, 4, 1), "Ground", Decimal("-250"), "Credit note"),
    ("4713", date(2026, 4, 13), "Walls", Decimal("12000"), "Bricks"),
]
SIGNED = """Voucher,Date,Account,Amount,Text
4711,2026-03-31,Ground,1250.50,Digger
4712,2026-04-01,Ground,-250.00,Credit note
4713,2026-04-13,Walls,"12,000.00",Bricks
"""
SIDES = """Text;Kostenstelle;Haben;Soll;Buchungsdatum;Belegnr.
Digger;Ground;;1.250,50;31.03.2026;4711
Credit note;Ground;250,00;;01.04.2026;4712
Bricks;Walls;;12.000,00;13.04.2026;4713
"""
LETTERS = """Posting Date\tCost Center\tDocument No\tS/H\tAmount\tDescription
03/31/2026\tGround\t4711\tS\t1250.50\tDigger
04/01/2026\tGround\t4712\tH\t250\tCredit note
04/13/2026\tWalls\t4713\tS\t12000\tBricks
"""
AFTER = """Stand: 30.04.2026
Beleg;Datum;Konto;Betrag;Text
4711;31.03.2026;Ground;1.250,50 €;Digger
4712;01.04.2026;Ground;250,00-;Credit note
4713;13.04.2026;Walls;12.000,00 €;Bricks
"""


def read(data: bytes | str, *named: tuple[str, str], **words: str) -> VoucherList:
    """Returns the vouchers of a list."""
    content = data.encode() if isinstance(data, str) else data
    options = ReaderOptions(columns=named, **words)  # type: ignore[arg-type]
    return read_vouchers(Source(Path("april.csv"), content), options)


def brief(vouchers: tuple[Voucher, ...]) -> list[tuple[str, date, str, Decimal, str]]:
    """Returns what each voucher says."""
    return [(v.number, v.day, v.account, v.amount, v.text) for v in vouchers]


@pytest.mark.parametrize("text", (SIGNED, SIDES, LETTERS, AFTER))
@pytest.mark.parametrize("encoding", ("utf-8", "utf-8-sig", "utf-16", "cp1252"))
def test_the_forms_of_amounts(text: str, encoding: str) -> None:
    """Signs, two columns, debit and credit letters, signs after the amount; any encoding."""
    found = read(text.encode(encoding))
    assert brief(found.vouchers) == WANTED
    assert found.total == Decimal("13000.50") and not found.findings
    assert found.vouchers[0].place.startswith("april.csv: row ")


def test_a_workbook_has_the_same_vouchers() -> None:
    """Dates and numbers of cells are values; the sheet with the headings is taken."""
    book = openpyxl.Workbook()
    book.active.append(["Notes"])
    sheet = book.create_sheet("Journal")
    sheet.append(["Voucher", "Date", "Account", "Debit", "Credit", "Text"])
    sheet.append([4711, date(2026, 3, 31), "Ground", 1250.5, None, "Digger"])
    sheet.append([4712, date(2026, 4, 1), "Ground", None, 250, "Credit note"])
    sheet.append([4713, date(2026, 4, 13), "Walls", 12000, None, "Bricks"])
    data = io.BytesIO()
    book.save(data)
    assert brief(read(data.getvalue()).vouchers) == WANTED


def test_columns_without_a_meaning_are_kept() -> None:
    """Nothing of a row is lost; two columns with one heading are two."""
    text = "Date,Account,Amount,Supplier,Supplier\n2026-03-31,Ground,5,Miller,7001\n"
    assert read(text).vouchers[0].others == (
        ("Supplier", "Miller"),
        ("Supplier (5)", "7001"),
    )


def test_headings_are_named_and_remembered() -> None:
    """A heading that the user names once is known in the next list, wherever it is."""
    text = "Wann,Wofür,Betrag\n2026-03-31,Ground,5\n"
    with pytest.raises(InputError, match="no column 'date'; name yours with --column date=HEADING"):
        read(text)
    named = (("date", "Wann"), ("account", "Wofür"))
    found = read(text, *named)
    assert found.vouchers[0].account == "Ground"
    source = Source(Path("may.csv"), "Betrag,Wofür,Text,Wann\n5,Walls,x,2026-05-31\n".encode())
    again = read_vouchers(source, ReaderOptions(), named)
    assert again.vouchers[0].account == "Walls" and again.vouchers[0].text == "x"
    with pytest.raises(UsageError, match="--column what"):
        read(text, ("what", "Wann"))
    with pytest.raises(InputError, match="no column has the heading 'When'"):
        read(text, ("date", "When"), ("account", "Wofür"))


def test_a_heading_that_is_remembered_comes_before_others() -> None:
    """A list with Konto and PSP-Element: the column that was named once is the account."""
    text = "Datum,Konto,PSP-Element,Betrag\n2026-03-31,4711,Ground,5\n"
    assert read(text).vouchers[0].account == "4711"
    source = Source(Path("may.csv"), text.encode())
    named = (("account", "PSP-Element"), ("to go", "Rest"))
    found = read_vouchers(source, ReaderOptions(), named).vouchers[0]
    assert found.account == "Ground" and found.others == (("Konto", "4711"),)
    other = "Datum,Konto,Betrag\n2026-03-31,Walls,5\n"
    again = read_vouchers(Source(Path("june.csv"), other.encode()), ReaderOptions(), named)
    assert again.vouchers[0].account == "Walls"


def test_rows_that_are_no_vouchers_are_named() -> None:
    """A sum below the list, a date that is none, an amount that is none, and a wrong letter."""
    text = """Date,Account,Amount,D/C
2026-03-31,Ground,5,D
2026-02-30,Ground,6,D
2026-03-31,Ground,much,D
,,11,
2026-03-31,Ground,7,X
2026-03-31,,8,D
,Ground,9,D
2026-03-31,Ground,,
"""
    found = read(text)
    assert len(found.vouchers) == 1
    assert [finding.place for finding in found.findings] == [
        f"april.csv: row {row}" for row in range(3, 10)
    ]
    assert {finding.kind for finding in found.findings} == {BookingKind.ROW}
    assert found.total == 5 + 6 + 11 + 8 + 9


@pytest.mark.parametrize(
    ("text", "why"),
    (
        (
            "Date,Account,Amount\n2026-03-31,A,=1+1\n",
            "row 2: '=1.1' is a formula; export values",
        ),
        ("Date,Account,Amount\n2026-03-31,A,=SUM(A1)\n", "is a formula"),
        ("Date,Account,Amount\n=TODAY(),A,1\n", "is a formula"),
        (
            'Date,Account,Amount\n2026-03-31,A,1.5\n2026-03-31,A,"1,5"\n',
            "two decimal marks",
        ),
        (
            "Date,Account,Amount\n2026-03-31,A,1 EUR\n2026-03-31,A,1 USD\n",
            "two currencies: EUR",
        ),
        (
            "Date,Account,Amount,Currency\n2026-03-31,A,1,€\n2026-03-31,A,1,CHF\n",
            "row 3",
        ),
        (
            "Date,Account,Amount\n31/03/2026,A,1\n03/31/2026,A,1\n",
            "in 31/03/2026 the day is first",
        ),
        ("Date,Account,Amount\n2026-03-31,A,5\0\n", r"row 2: the currency '.x00' has characters"),
        ("Date,Account,Amount\n", "there is no voucher"),
        ("Date,Account,Amount\nx,A,1\n", "there is no voucher; row 2: date 'x'"),
        ('Date,Account,Amount\n2026-03-31,"A,1\n', "a quote is missing"),
        ("", "no list of vouchers"),
        ("a;b;c\n1;2;3\n", "no list of vouchers: no column 'date'"),
    ),
)
def test_hostile_lists_end_in_one_line(text: str, why: str) -> None:
    """The line names the file and says what is wrong."""
    with pytest.raises(InputError, match=why) as caught:
        read(text)
    assert str(caught.value).startswith("april.csv: ") and "\n" not in str(caught.value)


def test_a_list_without_an_end_is_refused_in_seconds() -> None:
    """200,000 rows are more than a list may have; bytes of no encoding are no text."""
    rows = "Date,Account,Amount\n" + "2026-03-31,Ground,5\n" * 200_000
    began = time.process_time()
    with pytest.raises(InputError, match="more than 20000 rows"):
        read(rows)
    assert time.process_time() - began < 10
    with pytest.raises(InputError, match="is not ascii"):
        read("Date,Account,Amount\n2026-03-31,Gründung,5\n", encoding="ascii")


def test_a_formula_without_a_value_is_refused() -> None:
    """A workbook that no program computed has no amounts."""
    book = openpyxl.Workbook()
    book.active.append(["Date", "Account", "Amount"])
    book.active.append([date(2026, 3, 31), "Ground", "=1+1"])
    data = io.BytesIO()
    book.save(data)
    with pytest.raises(InputError, match="the formula has no value"):
        read(data.getvalue())
