"""Lists and workbooks made to break readers: one line or named losses, soon, in little memory."""

import io
import tracemalloc
import zipfile
from collections.abc import Callable
from datetime import date
from pathlib import Path

import pytest
from hypothesis import given, settings
from hypothesis import strategies as st
from openpyxl import Workbook

from pert_companion.carry import carry
from pert_companion.model.errors import InputError
from pert_companion.model.losses import LossKind
from pert_companion.model.source import Source
from pert_companion.readers import table, workbook, xlsx
from pert_companion.readers.base import ReaderOptions, Reading
from timing import within

HERE = Path(__file__).parent
HOSTILE = HERE / "cases" / "hostile" / "lists"
OPTIONS = ReaderOptions(start=date(2026, 1, 5))
MOST_SECONDS = 10
SHEET = "xl/worksheets/sheet1.xml"
NAMESPACE = 'xmlns="http://schemas.openxmlformats.org/spreadsheetml/2006/main"'


def check_lines(reading: Reading) -> None:
    """Each loss and note is one short line."""
    for line in [*(loss.line("list") for loss in reading.losses), *reading.plan.notes]:
        assert len(line) < 600
        assert "\n" not in line and "\0" not in line


def read(data: bytes, name: str = "list.csv") -> Reading | str:
    """Reads hostile bytes: returns the reading, or the one line of the refusal."""
    read_it = xlsx.read if name.endswith(".xlsx") else table.read
    with within(MOST_SECONDS):
        try:
            reading = read_it(Source(Path(name), data), OPTIONS)
        except InputError as reason:
            line = str(reason)
            assert len(line) < 600 and "\n" not in line and line.startswith(name)
            return line
    check_lines(reading)
    return reading


def refused(data: bytes, why: str, name: str = "list.csv") -> None:
    """Checks that bytes are refused with a line that has a text."""
    line = read(data, name)
    assert isinstance(line, str) and why in line, line


def taken(data: bytes, name: str = "list.csv") -> Reading:
    """Returns the reading of bytes that are not refused."""
    reading = read(data, name)
    if isinstance(reading, str):
        pytest.fail(reading)
    return reading


# Text


@pytest.mark.parametrize("path", sorted(HOSTILE.iterdir()), ids=str)
def test_files_that_hung_or_broke(path: Path) -> None:
    """Links, leads, durations, dates and headings that took minutes; numbers of 5000 digits."""
    read(path.read_bytes())


@pytest.mark.parametrize(
    ("name", "kind"),
    [
        ("date10000", LossKind.DATE),
        ("link2000", LossKind.LINK),
        ("digitscost", LossKind.COST),
        ("digitsdate", LossKind.DATE),
        ("digitslag", LossKind.LINK),
        ("lagelapsed", LossKind.LINK),
        ("wbsdeep", LossKind.GROUP),
        ("y9999", LossKind.PROGRESS),
    ],
)
def test_what_they_hold_is_named(name: str, kind: LossKind) -> None:
    """The cell that is too long, too deep or too late is a loss; the rest is read."""
    reading = taken((HOSTILE / f"{name}.csv").read_bytes())
    assert [loss.kind for loss in reading.losses] == [kind]


def test_leads_are_read_once() -> None:
    """A link that a cell repeats counts once."""
    reading = taken((HOSTILE / "lead28.csv").read_bytes())
    assert len(reading.plan.links) == 27


def test_a_deck_is_no_list() -> None:
    """A deck with titles that are formulas is no list of tasks."""
    refused((HOSTILE / "formula.csv").read_bytes(), "no row of headings")


def test_a_long_cell() -> None:
    """A cell of a million characters, quoted or not."""
    refused(
        b"Name,Duration\n" + b"x" * 10**6 + b",5\n",
        "row 2: a cell of more than 32767",
    )
    refused(
        b'Name,Duration\n"' + b"x" * 10**6 + b'",5\n',
        "row 2: a cell of more than 32767",
    )
    refused(b"Name,Duration\n" + b"x" * 40_000 + b",5\n", "row 2: a cell of more than 32767")


def test_many_rows_and_cells() -> None:
    """100,000 rows, a row of too many columns, a million cells: refused by one line."""
    head = b"ID,Name,Duration,Predecessors\n"
    rows = [f"{n},Task {n},5,{n - 1}\n".encode() for n in range(1, 100_001)]
    refused(head + b"".join(rows), "more than 20000 rows")
    refused(head + b"1,A,5," + b"x," * 2000 + b"\n", "row 2: more than 1024 columns")
    row = b"1,A,5" + b",x" * 1000 + b"\n"
    refused(head + row * 1100, "more than 1000000 cells")
    refused(b"\n" * 100_000, "more than 20000 rows")


def test_many_rows_that_are_read() -> None:
    """Six thousand tasks in a chain of links are read in seconds."""
    head = b"ID,Name,Duration,Predecessors,Cost,Start\n"
    rows = [f"{n},Task {n},5 days,{n - 1},10.50,2026-03-02\n".encode() for n in range(1, 6_001)]
    reading = taken(head + b"".join(rows))
    assert len(reading.plan.links) == 5_999


def test_memory_of_commas() -> None:
    """A row of commas costs few bytes each, not 570."""
    data = b"ID,Name,Duration\n" + b"1,A,5" + b"," * 300_000 + b"\n"
    tracemalloc.start()
    try:
        reading = table.read(Source(Path("list.csv"), data), OPTIONS)
        _, peak = tracemalloc.get_traced_memory()
    finally:
        tracemalloc.stop()
    assert len(list(reading.plan.tasks())) == 1
    assert peak < 40 * len(data)


def test_too_many_bytes(monkeypatch: pytest.MonkeyPatch) -> None:
    """Files above the bound are refused before they are decoded."""
    monkeypatch.setattr(table, "MOST_BYTES", 1000)
    refused(b"Name,Duration\n" * 100, "more than 1000 bytes")
    monkeypatch.setattr(workbook, "MOST_BYTES", 1000)
    refused(saved([["Name", "Duration"]]), "more than 1000 bytes", "plan.xlsx")


@pytest.mark.parametrize(
    "mark", ["\u2028", "\u2029", "\u0085", "\x0b", "\x0c", "\x1c", "\0", "\u202e"]
)
def test_marks_inside_cells(mark: str) -> None:
    """Rows end at line feeds and carriage returns alone; names are in one line."""
    for end in ("\n", "\r\n", "\r"):
        text = f"Name,Duration,Predecessors{end}Dig{mark}deep,5,{end}Mow,2,Dig{mark}deep{end}"
        reading = taken(text.encode())
        assert [task.name for task in reading.plan.tasks()] == ["Dig deep", "Mow"]
        assert len(reading.plan.links) == 1


def test_line_breaks_inside_cells() -> None:
    """A quoted cell may have line breaks; predecessors may be on lines of their own."""
    reading = taken(
        b'Name,Duration,Predecessors\n"Dig\r\ndeep",5,\nMow,2,\nSeed,1,"Mow\nDig\r\ndeep"\n'
    )
    assert [task.name for task in reading.plan.tasks()] == ["Dig deep", "Mow", "Seed"]
    assert [task.where for task in reading.plan.tasks()] == ["row 2", "row 3", "row 4"]


def test_names_with_markup_and_formulas() -> None:
    """They are names like others."""
    names = [
        "<b>&amp;</b>",
        "=HYPERLINK(1)",
        "@SUM(A1)",
        "+5",
        "-5",
        "]]>",
        "\u202eevil\u202c",
    ]
    text = "Name,Duration\n" + "".join(f"{name},5\n" for name in names)
    found = [task.name for task in taken(text.encode()).plan.tasks()]
    assert found == [*names[:-1], "evil"]


@pytest.mark.parametrize("encoding", ["utf-16", "utf-32", "utf-8", "cp1252", "cp037", "utf-7"])
def test_wrong_character_sets(encoding: str) -> None:
    """Bytes of one character set, cut at each place and read as another."""
    data = "Name;Dauer\nÜbergabe;5\n".encode(encoding)
    for length in range(len(data)):
        read(data[:length])


def test_deep_levels() -> None:
    """Levels, indentation and codes deeper than fifty."""
    levels = "".join(f"{n},T{n},5\n" for n in range(1, 99))
    assert taken(("Level,Name,Duration\n" + levels).encode()).losses
    indents = "".join(f"{' ' * n}T{n},5\n" for n in range(200))
    plan = taken(("Name,Duration\n" + indents).encode()).plan
    assert len(list(plan.groups())) == 50
    codes = "".join(f"{'.'.join('1' * n)},T{n},5\n" for n in range(1, 99))
    assert taken(("WBS,Name,Duration\n" + codes).encode()).losses


def test_many_links_in_a_cell() -> None:
    """Thousands of links or resources in a cell are refused together."""
    links = ";".join(["1"] * 3000)
    people = ";".join(f"P{n}" for n in range(3000))
    text = f"ID,Name,Duration,Predecessors,Resources\n1,A,5,,\n2,B,5,{links},{people}\n"
    kinds = [loss.kind for loss in taken(text.encode()).losses]
    assert kinds == [LossKind.LINK, LossKind.RESOURCE]


@settings(max_examples=60, deadline=None)
@given(st.binary(max_size=300))
def test_any_bytes(data: bytes) -> None:
    """Any bytes behind a row of headings are read or refused."""
    read(b"ID,Name,Duration,Predecessors,Cost,Start,Crash,Slope,Resources\n1,A,5," + data)
    read(data)
    table.matches(data)
    xlsx.matches(data)


CELLS = st.text(alphabet="0123456789.,-+%;: FSdh€[]eAE/\n", max_size=30)


@settings(max_examples=60, deadline=None)
@given(
    st.lists(st.lists(CELLS, min_size=9, max_size=9), min_size=1, max_size=6),
    st.sampled_from(",;"),
)
def test_any_cells(rows: list[list[str]], mark: str) -> None:
    """Cells of digits, signs and letters of links, in every column."""
    head = "ID,WBS,Name,Duration,Predecessors,Cost,Start,Crash,Resources".replace(",", mark)
    body = []
    for row in rows:
        body.append(mark.join(f'"{cell}"' for cell in row))
    read("\n".join([head, *body]).encode())


# Workbooks


def saved(rows: list[list[object]]) -> bytes:
    """Returns a workbook of rows."""
    book = Workbook()
    for row in rows:
        book.active.append(row)
    data = io.BytesIO()
    book.save(data)
    return data.getvalue()


def with_part(name: str, part: bytes, data: bytes | None = None) -> bytes:
    """Returns a small plan as a workbook in which one part is another."""
    data = data or saved([["Name", "Duration"], ["A", 5]])
    result = io.BytesIO()
    with zipfile.ZipFile(io.BytesIO(data)) as source:
        with zipfile.ZipFile(result, "w", zipfile.ZIP_DEFLATED) as target:
            for info in source.infolist():
                target.writestr(info.filename, part if info.filename == name else source.read(info))
    return result.getvalue()


def sheet_of(rows: str, after: str = "") -> bytes:
    """Returns the XML of a sheet with a row of headings and more rows."""
    head = '<row r="1">' + text_cell("A1", "Name") + text_cell("B1", "Duration") + "</row>"
    return f"<worksheet {NAMESPACE}><sheetData>{head}{rows}</sheetData>{after}</worksheet>".encode()


def text_cell(place: str, text: str) -> str:
    """Returns the XML of a cell with a text."""
    return f'<c r="{place}" t="inlineStr"><is><t>{text}</t></is></c>'


TASK = '<row r="2">' + text_cell("A2", "Dig") + '<c r="B2"><v>5</v></c></row>'


def test_the_test_makes_workbooks() -> None:
    """Without harm in them, the workbooks of these tests are read."""
    reading = taken(with_part(SHEET, sheet_of(TASK)), "plan.xlsx")
    assert [task.name for task in reading.plan.tasks()] == ["Dig"]


def test_zip_bombs() -> None:
    """Parts that unpack to more than 64 MiB, and archives of thousands of files."""
    bomb = b" " * (65 * 1024 * 1024)
    for part in (SHEET, "xl/styles.xml", "xl/workbook.xml"):
        refused(with_part(part, bomb), "unpacks to more than", "plan.xlsx")
    data = io.BytesIO()
    with zipfile.ZipFile(data, "w") as archive:
        for number in range(5001):
            archive.writestr(f"xl/{number}", "")
    refused(data.getvalue(), "more than 5000 files", "plan.xlsx")


@pytest.mark.parametrize("part", [SHEET, "xl/workbook.xml", "xl/styles.xml"])
def test_xml_bombs(part: str) -> None:
    """Entities and document types are refused, before any of them is expanded."""
    levels = "".join(f'<!ENTITY a{n} "{f"&a{n - 1};" * 10}">' for n in range(1, 12))
    bomb = f'<?xml version="1.0"?><!DOCTYPE x [<!ENTITY a0 "lol">{levels}]><x>&a11;</x>'
    refused(with_part(part, bomb.encode()), "has a document type", "plan.xlsx")
    outside = (
        '<?xml version="1.0"?><!DOCTYPE x [<!ENTITY a SYSTEM "file:///etc/passwd">]><x>&a;</x>'
    )
    refused(with_part(part, outside.encode()), "has a document type", "plan.xlsx")
    wide = bomb.replace('version="1.0"', 'version="1.0" encoding="UTF-16"').encode("utf-16")
    refused(with_part(part, wide), "cannot be read", "plan.xlsx")


def test_too_many_elements(monkeypatch: pytest.MonkeyPatch) -> None:
    """A sheet of too many elements; next to others it is passed over."""
    monkeypatch.setattr(workbook, "MOST_ELEMENTS", 200)
    rows: list[list[object]] = [["Name", "Duration"], *([["A", 5]] * 60)]
    refused(saved(rows), "has more than 200 elements", "plan.xlsx")


def test_sheets_without_a_size(monkeypatch: pytest.MonkeyPatch) -> None:
    """A sheet that does not begin with its size is checked before openpyxl looks for it."""
    monkeypatch.setattr(workbook, "MOST_ELEMENTS", 50)
    rows = "".join(f'<row r="{n}"/>' for n in range(2, 200))
    refused(with_part(SHEET, sheet_of(rows)), "has more than 50 elements", "plan.xlsx")


def test_too_large_next_to_a_list(monkeypatch: pytest.MonkeyPatch) -> None:
    """A large sheet of other data is noted and not read."""
    book = Workbook()
    book.active.append(["Name", "Duration"])
    book.active.append(["A", 5])
    data = book.create_sheet("Data")
    for number in range(2000):
        data.append([number] * 5)
    saved_book = io.BytesIO()
    book.save(saved_book)
    monkeypatch.setattr(workbook, "MOST_ELEMENTS", 5000)
    reading = taken(saved_book.getvalue(), "plan.xlsx")
    assert "sheet 'Data' is not read" in reading.plan.notes


def test_rows_far_away() -> None:
    """Formatted cells without values in the last row are nothing; a value there is too far."""
    far = '<row r="1048576"><c r="XFD1048576" s="0"/></row>'
    assert taken(with_part(SHEET, sheet_of(TASK + far)), "plan.xlsx").losses == ()
    full = '<row r="20001"><c r="A20001"><v>1</v></c></row>'
    refused(with_part(SHEET, sheet_of(TASK + full)), "has more than 20000 rows", "plan.xlsx")
    huge = '<row r="99999999999999"><c r="A1"><v>1</v></c></row>'
    read(with_part(SHEET, sheet_of(TASK + huge)), "plan.xlsx")


def test_merged_cells_over_everything() -> None:
    """Merged ranges of the whole sheet, thousands of them, and ranges that are none."""
    everything = '<mergeCells><mergeCell ref="A2:XFD1048576"/></mergeCells>'
    taken(with_part(SHEET, sheet_of(TASK, everything)), "plan.xlsx")
    many = "".join(f'<mergeCell ref="A{n}:A1048576"/>' for n in range(2, 5000))
    taken(
        with_part(SHEET, sheet_of(TASK, f"<mergeCells>{many}</mergeCells>")),
        "plan.xlsx",
    )
    wrong = '<mergeCells><mergeCell ref="rubbish"/></mergeCells>'
    refused(with_part(SHEET, sheet_of(TASK, wrong)), "cannot be read", "plan.xlsx")
    column = '<mergeCells><mergeCell ref="A:A"/><mergeCell ref="A9:A12"/></mergeCells>'
    read(with_part(SHEET, sheet_of(TASK, column)), "plan.xlsx")


def test_hyperlinks_over_everything() -> None:
    """What openpyxl would build a cell for each of is not built."""
    links = '<hyperlinks><hyperlink ref="A1:XFD1048576" location="A1"/></hyperlinks>'
    taken(with_part(SHEET, sheet_of(TASK, links)), "plan.xlsx")


@pytest.mark.parametrize(
    "cell",
    [
        '<c r="B2"><v>1e308</v></c>',
        '<c r="B2"><v>1e999999999</v></c>',
        '<c r="B2"><v>NaN</v></c>',
        '<c r="B2"><v>' + "9" * 4000 + "</v></c>",
        '<c r="B2"><v>' + "9" * 5000 + "</v></c>",
        '<c r="B2" t="s"><v>999999</v></c>',
        '<c r="B2" t="d"><v>rubbish</v></c>',
        '<c r="B2" t="b"><v>2</v></c>',
        '<c r="B2" s="9999"><v>5</v></c>',
        '<c r="???"><v>5</v></c>',
        text_cell("B2", "5" * 10**6),
        '<c r="B2"><v></v></c>',
    ],
)
def test_cells_that_are_none(cell: str) -> None:
    """Numbers beyond all bounds, strings and styles that are not there, broken places."""
    row = '<row r="2">' + text_cell("A2", "Dig") + cell + "</row>"
    row += '<row r="3">' + text_cell("A3", "Mow") + '<c r="B3"><v>5</v></c></row>'
    read(with_part(SHEET, sheet_of(row)), "plan.xlsx")


def test_a_long_cell_of_a_workbook() -> None:
    """A cell of a million characters is a loss, and read as empty."""
    row = '<row r="3">' + text_cell("A3", "x" * 10**6) + '<c r="B3"><v>5</v></c></row>'
    reading = taken(with_part(SHEET, sheet_of(TASK + row)), "plan.xlsx")
    assert [(loss.where, loss.kind.value) for loss in reading.losses] == [
        ("cell A3", "field"),
        ("row 3", "task"),
    ]


def test_truncated_workbooks() -> None:
    """A workbook that is cut off, with a part cut off, or with changed bytes."""
    data = saved([["Name", "Duration"], ["A", 5]])
    for length in range(0, len(data), 97):
        refused(data[:length], "plan.xlsx: ", "plan.xlsx")
    sheet = sheet_of(TASK)
    for length in range(0, len(sheet), 29):
        read(with_part(SHEET, sheet[:length]), "plan.xlsx")


@settings(max_examples=40, deadline=None)
@given(st.integers(0, 5000), st.binary(min_size=1, max_size=8))
def test_changed_workbooks(place: int, other: bytes) -> None:
    """Bytes changed anywhere: a sum that does not fit, a header that lies."""
    data = saved([["Name", "Duration"], ["A", 5]])
    place %= len(data)
    read(data[:place] + other + data[place + len(other) :], "plan.xlsx")


def _rows_of_texts(count: int) -> str:
    rows = []
    for number in range(2, count):
        rows.append(f'<row r="{number}">' + text_cell(f"A{number}", f"T{number}"))
        rows.append(f'<c r="B{number}"><v>5</v></c></row>')
    return "".join(rows)


def test_a_large_workbook() -> None:
    """A workbook of five thousand rows is read in seconds."""
    reading = taken(with_part(SHEET, sheet_of(_rows_of_texts(5_000))), "plan.xlsx")
    assert len(list(reading.plan.tasks())) == 4_998


REPLACED: tuple[Callable[[bytes], bytes], ...] = (
    lambda part: part.replace(b"worksheet", b"workshop"),
    lambda part: part.replace(b'r="2"', b'r="-2"'),
    lambda part: part.replace(b'r="2"', b""),
    lambda part: part.replace(b"<v>5</v>", b"<v>&undefined;</v>"),
    lambda part: part.replace(b"<v>5</v>", b"<v>\x00</v>"),
    lambda part: part.replace(b"<row", b"<row outlineLevel='99999999999999999999'"),
    lambda part: part.replace(b"<row", b"<row hidden='1' outlineLevel='7'"),
)


@pytest.mark.parametrize("change", REPLACED)
def test_odd_sheets(change: Callable[[bytes], bytes]) -> None:
    """Elements with other names, numbers of rows that are none, characters that XML has not."""
    read(with_part(SHEET, change(sheet_of(TASK))), "plan.xlsx")


# Lists within the documented limits, at their edges


def test_long_names() -> None:
    """Names of a thousand characters become codes in little time."""
    words = " ".join(["abcdefghijklmnopqrst"] * 48)
    rows = "".join(f"{number},{words} {number},1\n" for number in range(1, 3_900))
    reading = taken(f"ID,Name,Duration\n{rows}".encode())
    with within(MOST_SECONDS):
        assert len(carry(reading.plan).deck.tasks) == 3_899


def test_very_many_links() -> None:
    """Cells of six thousand links are named, and so is a list of eight million."""
    head = "ID,Name,Duration,Predecessors\n1,Dig,1,\n"
    wide = "".join(f'{number},T,1,"{";".join(["1"] * 6_000)}"\n' for number in range(2, 4_000))
    reading = taken(f"{head}{wide}".encode())
    assert len(reading.losses) == 3_998
    assert {loss.why for loss in reading.losses} == {"more than 2000 links in one cell"}
    long = "".join(f'{number},T,1,"{";".join(["1"] * 2_000)}"\n' for number in range(2, 4_000))
    refused(f"{head}{long}".encode(), "row 103: the list has more than 200000 links")


@pytest.mark.parametrize("name", ("f-h80000.xlsx", "f-h400000.xlsx", "fmt2.xlsx"))
def test_very_long_number_formats(name: str) -> None:
    """Excel has number formats of at most 255 characters; longer ones take a library minutes."""
    data = (HERE / "cases" / "workbooks" / name).read_bytes()
    refused(data, "styles.xml has a number format of more than 255 characters", "plan.xlsx")


def test_the_longest_number_format() -> None:
    """A format of 255 characters is read, also if all of them are entities."""
    book = Workbook()
    sheet = book.active
    for row in (("Name", "Duration"), ("Dig", 5)):
        sheet.append(row)
    sheet["B2"].number_format = '0"' + "&" * 252 + '"'
    data = io.BytesIO()
    book.save(data)
    assert len(list(taken(data.getvalue(), "plan.xlsx").plan.tasks())) == 1


def test_very_many_merged_ranges() -> None:
    """A sheet of 790,000 merged ranges is refused; one of a few thousand is read."""
    for count, is_read in ((2_000, True), (790_000, False)):
        ranges = "".join(f'<mergeCell ref="A{at}:B{at + 1}"/>' for at in range(4, 4 + count))
        merged = f"<mergeCells>{ranges}</mergeCells></worksheet>"
        data = with_part(SHEET, sheet_of(TASK).replace(b"</worksheet>", merged.encode()))
        if is_read:
            taken(data, "plan.xlsx")
        else:
            refused(data, "more than 50000 merged ranges", "plan.xlsx")
