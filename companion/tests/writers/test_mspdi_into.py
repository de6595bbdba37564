"""What a chosen length changes in MS Project's file: work under way, assignments, prices, lags."""

from decimal import Decimal
from pathlib import Path
from xml.etree import ElementTree
from xml.etree.ElementTree import Element

import pytest

from pert_companion.analysis.lengths import LengthChoice
from pert_companion.analysis.scheduling import rest_schedule
from pert_companion.carry import carry
from pert_companion.model.source import Source
from pert_companion.programs.client import Programs
from pert_companion.readers import mspdi
from pert_companion.readers.base import ReaderOptions
from pert_companion.state.project import ProjectState
from pert_companion.writers.mspdi_elements import NAMESPACE, minutes_of
from pert_companion.writers.mspdi_into import into_mspdi

LINK = "<PredecessorLink><PredecessorUID>1</PredecessorUID><Type>3</Type>{lag}</PredecessorLink>"


def file(task_type: int = 0, crash: str = "Slope", lag: str = "") -> bytes:
    """Returns a plan at the evening of Friday, 13 March: 4 of 10 days are left of its first task.

    It costs 1,000, of which 640 are for two people, and can last 5 days, for 150 or 60 a day each.
    """
    value = "15000" if crash == "Slope" else "130000"
    field = "188743786" if crash == "Slope" else "188743787"
    link = LINK.format(lag=lag) if lag else ""
    return f"""<Project xmlns="{NAMESPACE}"><StartDate>2026-03-02T08:00:00</StartDate>
<StatusDate>2026-03-13T17:00:00</StatusDate><ExtendedAttributes>
<ExtendedAttribute><FieldID>188743783</FieldID><Alias>Crash</Alias></ExtendedAttribute>
<ExtendedAttribute><FieldID>{field}</FieldID><FieldName>Cost1</FieldName><Alias>{crash}</Alias>
</ExtendedAttribute></ExtendedAttributes><Tasks>
<Task><UID>1</UID><Name>Dig</Name><Type>{task_type}</Type><OutlineLevel>1</OutlineLevel>
<Start>2026-03-02T08:00:00</Start><Finish>2026-03-13T17:00:00</Finish>
<Duration>PT80H0M0S</Duration><DurationFormat>7</DurationFormat><Work>PT160H0M0S</Work>
<FixedCost>36000</FixedCost><PercentComplete>60</PercentComplete><Cost>100000</Cost>
<ActualStart>2026-03-02T08:00:00</ActualStart><ActualDuration>PT48H0M0S</ActualDuration>
<ActualWork>PT96H0M0S</ActualWork><RemainingDuration>PT32H0M0S</RemainingDuration>
<RemainingWork>PT64H0M0S</RemainingWork>
<ExtendedAttribute><FieldID>188743783</FieldID><Value>PT40H0M0S</Value></ExtendedAttribute>
<ExtendedAttribute><FieldID>{field}</FieldID><Value>{value}</Value></ExtendedAttribute></Task>
<Task><UID>2</UID><Name>Build</Name><OutlineLevel>1</OutlineLevel><Duration>PT24H0M0S</Duration>
<Start>2026-03-16T08:00:00</Start><Finish>2026-03-18T17:00:00</Finish>
<PredecessorLink><PredecessorUID>1</PredecessorUID><Type>1</Type></PredecessorLink></Task>
<Task><UID>3</UID><Name>Watch</Name><OutlineLevel>1</OutlineLevel><Duration>PT8H0M0S</Duration>
<Start>2026-03-16T08:00:00</Start><Finish>2026-03-16T17:00:00</Finish>{link}</Task></Tasks>
<Resources><Resource><UID>1</UID><Name>Crew</Name><Type>1</Type></Resource></Resources>
<Assignments><Assignment><UID>1</UID><TaskUID>1</TaskUID><ResourceUID>1</ResourceUID>
<ActualWork>PT96H0M0S</ActualWork><Cost>64000</Cost><Finish>2026-03-13T17:00:00</Finish>
<RemainingCost>25600</RemainingCost><RemainingWork>PT64H0M0S</RemainingWork>
<Start>2026-03-02T08:00:00</Start><Units>2</Units><Work>PT160H0M0S</Work>
<TimephasedData><Type>1</Type><Value>PT16H0M0S</Value></TimephasedData>
<TimephasedData><Type>2</Type><Value>PT16H0M0S</Value></TimephasedData></Assignment></Assignments>
</Project>""".encode()


def read_state(data: bytes) -> ProjectState:
    """Returns the state of a file."""
    plan = mspdi.read(Source(Path("plan.xml"), data), ReaderOptions()).plan
    carried = carry(plan)
    return ProjectState(Programs(), carried.deck, carried.side)


def into(data: bytes, less: int) -> Element:
    """Returns the root of a file that ends so many days earlier."""
    state = read_state(data)
    days = Decimal(state.rest.longest - less)
    schedule = rest_schedule(state, LengthChoice(days=days))
    changed, missing = into_mspdi(data, "plan.xml", schedule, state.side)
    assert missing == []
    return ElementTree.fromstring(changed)


def texts(root: Element, kind: str, number: int = 0) -> dict[str, str]:
    """Returns the texts of a task or an assignment."""
    element = list(root.iter(f"{{{NAMESPACE}}}{kind}"))[number]
    return {child.tag.partition("}")[2]: (child.text or "").strip() for child in element}


@pytest.mark.parametrize(("less", "percent"), ((1, "67"), (2, "75")))
def test_work_under_way(less: int, percent: str) -> None:
    """Its duration is its actual duration and what is left, from the data date on."""
    task = texts(into(file(), less), "Task")
    assert task["ActualDuration"] == "PT48H0M0S"
    assert minutes_of(task["RemainingDuration"]) == (4 - less) * 480
    assert minutes_of(task["Duration"]) == (6 + 4 - less) * 480
    assert task["PercentComplete"] == percent
    assert task["Start"] == "2026-03-02T08:00:00"
    assert task["Finish"] == f"2026-03-{19 - less}T17:00:00"
    assert task["Cost"] == str(100_000 + less * 15_000)


@pytest.mark.parametrize("task_type", (0, 1, 2))
def test_assignments(task_type: int) -> None:
    """With fixed work more people do the same; else the work goes down with the duration."""
    root = into(file(task_type), 2)
    work = texts(root, "Assignment")
    kinds = [element.text for element in root.iter(f"{{{NAMESPACE}}}TimephasedData")]
    assert len(kinds) == 1  # what was done each day
    assert work["Finish"] == "2026-03-17T17:00:00" and work["Start"] == "2026-03-02T08:00:00"
    assert work["ActualWork"] == "PT96H0M0S"
    task = texts(root, "Task")
    if task_type == 2:
        assert (work["Units"], work["Work"]) == ("4", "PT160H0M0S")
        assert (work["Cost"], task["FixedCost"]) == ("64000", "66000")
        return
    assert (work["Units"], work["Work"], task["Work"]) == ("2", "PT128H0M0S", "PT128H0M0S")
    assert (work["RemainingWork"], work["RemainingCost"]) == ("PT32H0M0S", "12800")
    assert int(work["Cost"]) + int(task["FixedCost"]) == int(task["Cost"]) == 130_000


def test_fields_that_are_not_listed_stay() -> None:
    """A date that docs/exporting.md does not list for assignments is not touched."""
    early = b"<EarlyFinish>2026-03-13T17:00:00</EarlyFinish>"
    data = file().replace(b"<Units>2</Units>", early + b"<Units>2</Units>")
    work = texts(into(data, 2), "Assignment")
    assert work["Finish"] == "2026-03-17T17:00:00"
    assert work["EarlyFinish"] == "2026-03-13T17:00:00"


@pytest.mark.parametrize("crash", ("Slope", "Crash cost"))
@pytest.mark.parametrize("less", (0, 1, 2))
def test_prices_stay(crash: str, less: int) -> None:
    """Imported again, each further day costs what it cost."""
    data = file(crash=crash)
    before = read_state(data).rest.curve
    after = read_state(ElementTree.tostring(into(data, less))).rest.curve
    assert after[-1].length == before[-1].length
    assert [point.cost for point in after][-1] == [point.cost for point in before][-1]
    assert after[0].length == before[0].length - less


def test_a_lag_in_percent() -> None:
    """It becomes the time that it was: half of 80 hours."""
    lag = "<LinkLag>50</LinkLag><LagFormat>19</LagFormat>"
    root = into(file(lag=lag), 1)
    links = list(root.iter(f"{{{NAMESPACE}}}PredecessorLink"))
    found = {child.tag.partition("}")[2]: child.text for child in links[1]}
    assert (found["LinkLag"], found["LagFormat"]) == (str(40 * 600), "7")
    kept = list(into(file(lag=lag), 0).iter(f"{{{NAMESPACE}}}PredecessorLink"))[1]
    assert [child.text for child in kept] == ["1", "3", "50", "19"]
