"""Files that are cut off, forged, huge or of another character set end in one line, in seconds."""

import io
import time
import zipfile
from collections.abc import Callable
from pathlib import Path

import pytest

from pert_companion import readers
from pert_companion.carry import carry
from pert_companion.model import xmltree
from pert_companion.model.errors import InputError
from pert_companion.model.plan import Plan
from pert_companion.model.source import Source
from pert_companion.readers.base import ReaderOptions, Reading
from planner_files import gan_bytes, mspdi_bytes, planner_bytes, pmxml_bytes, xer_bytes
from sample_plan import sample_plan
from timing import within

CASES = Path(__file__).parent.parent / "cases"
WRITERS: dict[str, Callable[..., bytes]] = {
    "mspdi": mspdi_bytes,
    "xer": xer_bytes,
    "pmxml": pmxml_bytes,
    "gan": gan_bytes,
    "gnome_planner": planner_bytes,
}
XML = [name for name in WRITERS if name != "xer"]
SECONDS = 60
"""How long a huge file may take, in seconds of the processor: other programs have no say in it."""


def read(data: bytes) -> Reading:
    """Reads a file by its content."""
    return readers.read(Source(Path("plan.file"), data), ReaderOptions())


def fault(data: bytes) -> str:
    """Returns the line with which a file is refused."""
    with pytest.raises(InputError) as caught:
        read(data)
    line = str(caught.value)
    assert "\n" not in line and len(line) < 1000 and line.startswith("plan.file: ")
    return line


@pytest.mark.parametrize("name", WRITERS)
def test_cut_off_files(name: str) -> None:
    """A file that is cut off anywhere is refused, never read as a smaller plan."""
    data = WRITERS[name](sample_plan())
    end = len(data.rstrip()) - 1
    for number in range(1, 60):
        fault(data[: max(1, end * number // 60)])
    fault(data[:end])


CUT_OFF = {
    "cut": "cut off",
    "cuttask": "cut off",
    "dup": "two items",
    "loop": "loop",
    "selfloop": "loop",
    "lower": "line 17: the line begins with '%r'",
    "nl": "line 14: the line begins with 'concrete'",
}


@pytest.mark.parametrize("name", CUT_OFF)
def test_xer_that_is_refused(name: str) -> None:
    """Tables cut off, items in a loop, lines that are no records: one line that says where."""
    assert CUT_OFF[name] in fault((CASES / f"xer/{name}.xer").read_bytes())


NAMED = {
    "expbomb": ["calendar"],
    "expdur": ["task", "link"],
    "ghostpred": ["link"],
    "ghostrsrc": ["cost", "resource", "resource"],
    "lagfrac": ["link"],
    "short": ["field", "task", "link"],
    "good": [],
    "ls": [],
    "vt": [],
}


@pytest.mark.parametrize("name", NAMED)
def test_xer_with_losses(name: str) -> None:
    """What a file says without sense is a loss with its place; the rest is read."""
    reading = read((CASES / f"xer/{name}.xer").read_bytes())
    assert [loss.kind.value for loss in reading.losses] == NAMED[name]
    for loss in reading.losses:
        assert loss.where.startswith("table ")
        assert "\n" not in loss.line("plan.xer")


def test_every_hostile_xer_has_a_test() -> None:
    """No file of the folder is left out."""
    assert {path.stem for path in (CASES / "xer").iterdir()} == {*CUT_OFF, *NAMED}


@pytest.mark.parametrize("name", ("ls", "vt"))
def test_line_separators_in_names(name: str) -> None:
    """U+2028 and a vertical tab are characters of a name, not ends of lines."""
    plan = read((CASES / f"xer/{name}.xer").read_bytes()).plan
    assert [task.name for task in plan.tasks()] == ["Pour concrete", "Task 2"]


def test_hostile_planner_files() -> None:
    """Encodings that do not exist, forged lines in constraints, work below nothing."""
    for name in ("enc", "encno", "encsj"):
        assert "no readable XML" in fault((CASES / f"planner/{name}.planner").read_bytes())
    assert "no duration" in fault((CASES / "planner/negwork.planner").read_bytes())
    reading = read((CASES / "planner/inject.planner").read_bytes())
    (loss,) = reading.losses
    assert loss.kind.value == "constraint" and "\n" not in loss.line("plan.planner")
    plan = read((CASES / "planner/c1.planner").read_bytes()).plan
    assert carry(plan).deck.tasks[0].title == "A B C D"
    assert len(list((CASES / "planner").iterdir())) == 6


@pytest.mark.parametrize("name", XML)
def test_entities(name: str) -> None:
    """Entities that grow, and those of other files, are refused before they are read."""
    text = WRITERS[name](sample_plan()).decode()
    head, _, body = text.partition("?>")
    bomb = "".join(f'<!ENTITY a{n} "{f"&a{n - 1};" * 10}">' for n in range(1, 12))
    for inside in (
        f'<!ENTITY a0 "aaaaaaaaaa">{bomb}',
        '<!ENTITY a11 SYSTEM "file:///etc/passwd">',
    ):
        forged = f"{head}?><!DOCTYPE x [{inside}]>{body.replace('Dig', '&a11;', 1)}"
        with within(SECONDS):
            assert "document types and entities are not read" in fault(forged.encode())


@pytest.mark.parametrize("name", XML)
def test_wrong_character_sets(name: str) -> None:
    """Bytes that are not of the declared character set are refused."""
    data = WRITERS[name](sample_plan()).replace("Übergabe".encode(), "Übergabe".encode("latin-1"))
    assert "no well-formed XML" in fault(data)


def test_xer_of_unknown_character_set() -> None:
    """A character set that does not exist, and bytes that are not of the one that is named."""
    data = xer_bytes(sample_plan(), encoding="cp1252")
    source = Source(Path("plan.file"), data)
    for name in ("utf-8", "nope"):
        with pytest.raises(InputError):
            readers.read(source, ReaderOptions(encoding=name))


@pytest.mark.parametrize("name", XML)
def test_other_xml(name: str) -> None:
    """A root of another name is refused by the reader, even if the head looks right."""
    data = WRITERS[name](sample_plan())
    wrong = b"<!-- " + data[:400].replace(b"--", b"") + b" --><other/>"
    with pytest.raises(InputError) as caught:
        readers.reader(name).read(Source(Path("plan.file"), wrong), ReaderOptions())
    assert "not a file of" in str(caught.value)


def many(name: str) -> bytes:
    """Returns a file of 100,000 tasks."""
    data = WRITERS[name](sample_plan()).decode()
    row, ids = ROWS[name]
    first, found, rest = data.partition(row)
    assert found
    lines = "".join(ids.format(n=1000 + n) for n in range(100_000))
    return f"{first}{lines}{found}{rest}".encode()


ROWS = {
    "mspdi": (
        "<Task><UID>1</UID>",
        "<Task><UID>{n}</UID><Name>Dig</Name><OutlineLevel>1</OutlineLevel>"
        "<Duration>PT8H0M0S</Duration></Task>",
    ),
    "xer": (
        "%R\t2\t1\t1\t7\t",
        "%R\t{n}\t1\ttop\t7\tA{n}\tDig\tTT_Task\tTK_NotStart\t\t8\t8\r\n",
    ),
    "pmxml": (
        "<Activity>",
        "<Activity><ObjectId>{n}</ObjectId><Name>Dig</Name><PlannedDuration>8</PlannedDuration>"
        "</Activity>",
    ),
    "gan": (
        '<task id="1"',
        '<task id="{n}" name="Dig" start="2026-03-02" duration="1"/>',
    ),
    "gnome_planner": ('<task id="1"', '<task id="{n}" name="Dig" work="28800"/>'),
}


@pytest.mark.parametrize("name", WRITERS)
def test_100_000_rows(name: str) -> None:
    """A file of 100,000 tasks is refused in one line, within seconds."""
    data = many(name)
    begun = time.process_time()
    assert "more than 20000" in fault(data)
    assert time.process_time() - begun < SECONDS


def test_a_spreadsheet_of_libreoffice() -> None:
    """An .ods is refused with what to do; any other package is not taken for one."""
    for kind, line in (
        ("application/vnd.oasis.opendocument.spreadsheet", "(.ods); save it as .xlsx"),
        ("application/epub+zip", "another program that is packed as zip"),
    ):
        packed = io.BytesIO()
        with zipfile.ZipFile(packed, "w") as book:
            book.writestr("mimetype", kind)
            book.writestr("content.xml", "<office:document-content/>", zipfile.ZIP_DEFLATED)
        assert line in fault(packed.getvalue())


@pytest.mark.parametrize("name", XML)
def test_many_elements(name: str, monkeypatch: pytest.MonkeyPatch) -> None:
    """Elements that would be kept are counted, also those of no meaning; they have a bound."""
    data = WRITERS[name](sample_plan())
    root = data.rindex(b"</")
    with_more = data[:root] + b"<a/>" * 5_000 + data[root:]
    read(with_more)
    monkeypatch.setattr(xmltree, "MOST_ELEMENTS", 5_000)
    assert "more than 5000 elements" in fault(with_more)
    read(data)


@pytest.mark.parametrize("name", XML)
def test_a_tag_with_many_attributes(name: str) -> None:
    """A tag that is as long as the file is refused before it is parsed."""
    data = WRITERS[name](sample_plan())
    root = data.rindex(b"</")
    attributes = b" ".join(b'a%d=""' % number for number in range(150_000))
    assert "a tag of more than a million bytes" in fault(
        data[:root] + b"<a " + attributes + b"/>" + data[root:]
    )


@pytest.mark.parametrize("name", ("gan", "gnome_planner"))
def test_deep_nesting(name: str) -> None:
    """Groups in 5,000 levels are read without recursion; a deck has 16 of them."""
    data = WRITERS[name](sample_plan()).decode()
    opening = "".join(
        f'<task id="{9000 + n}" name="Level {n}" start="2026-03-02" duration="1" work="60">'
        for n in range(5_000)
    )
    deep = data.replace('<task id="1"', f'{opening}{"</task>" * 5_000}<task id="1"', 1)
    plan = read(deep.encode()).plan
    kinds = {loss.kind.value for loss in carry(plan).losses}
    assert "group" in kinds


def test_a_line_of_tabs() -> None:
    """A line of a million tabs is refused without a list of them."""
    data = xer_bytes(sample_plan()).replace(b"%R\t1\t1\t", b"%R" + b"\t" * 1_000_000, 1)
    assert "more than 1000 fields" in fault(data)


def test_huge_numbers(sample: Plan = sample_plan()) -> None:
    """Numbers of thousands of digits and huge exponents are no numbers; each is named."""
    digits = "9" * 5_000
    for text in (digits, "1e999999999", "-1e99999", "nan", "inf", "0x10"):
        data = mspdi_bytes(sample).decode().replace("PT24H0M0S", f"PT{text}H0M0S", 1)
        assert "task" in {loss.kind.value for loss in read(data.encode()).losses}
        data = xer_bytes(sample).decode().replace("\t24\t24\r", f"\t{text}\t24\r", 1)
        assert "task" in {loss.kind.value for loss in read(data.encode()).losses}
        data = gan_bytes(sample).decode().replace('duration="3"', f'duration="{text}"', 1)
        assert "task" in {loss.kind.value for loss in read(data.encode()).losses}
