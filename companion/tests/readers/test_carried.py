"""The tables of what is carried over name the fields that the readers read, and no others."""

from collections.abc import Iterator
from contextlib import contextmanager
from pathlib import Path
from unittest import mock

from p6_files import xer_of
from pert_companion import readers
from pert_companion.model.source import Source
from pert_companion.model.xmltree import Node, local_name
from pert_companion.readers import pmxml
from pert_companion.readers.base import ReaderOptions
from pert_companion.readers.carried import full_names
from pert_companion.readers.columns import HEADINGS
from pert_companion.readers.gan_carried import GAN
from pert_companion.readers.gnome_carried import GNOME
from pert_companion.readers.list_carried import COLUMNS
from pert_companion.readers.mspdi_carried import MSPDI
from pert_companion.readers.p6 import Record
from pert_companion.readers.p6_carried import P6
from pert_companion.readers.taskjuggler_carried import TASKJUGGLER as OF_TASKJUGGLER

TOP = Path(__file__).resolve().parents[3]
EXAMPLES = TOP / "examples"
TASKJUGGLER = TOP / "companion" / "tests" / "files" / "hall-taskjuggler.xml"
FULL_MSPDI = b"""<Project xmlns="http://schemas.microsoft.com/project">
<StartDate>2026-03-02T08:00:00</StartDate><CalendarUID>1</CalendarUID>
<ExtendedAttributes><ExtendedAttribute><FieldID>1</FieldID><FieldName>Duration1</FieldName>
<Alias>Crash</Alias></ExtendedAttribute></ExtendedAttributes>
<Calendars><Calendar><UID>1</UID><Name>Site</Name><WeekDays><WeekDay><DayType>2</DayType>
<DayWorking>1</DayWorking><WorkingTimes><WorkingTime><FromTime>08:00:00</FromTime>
<ToTime>16:00:00</ToTime></WorkingTime></WorkingTimes></WeekDay></WeekDays><Exceptions>
<Exception><Type>2</Type><Month>4</Month><MonthDay>1</MonthDay><TimePeriod>
<FromDate>2026-03-02T00:00:00</FromDate><ToDate>2028-03-02T00:00:00</ToDate></TimePeriod>
</Exception><Exception><Type>6</Type><DaysOfWeek>2</DaysOfWeek><Period>1</Period><TimePeriod>
<FromDate>2026-05-04T00:00:00</FromDate><ToDate>2026-06-01T00:00:00</ToDate></TimePeriod>
</Exception></Exceptions></Calendar></Calendars>
<Tasks><Task><UID>1</UID><Name>Dig</Name><Duration>PT8H0M0S</Duration><CalendarUID>1</CalendarUID>
<ConstraintType>4</ConstraintType><ConstraintDate>2026-03-02T08:00:00</ConstraintDate>
<Baseline><Number>0</Number></Baseline><ExtendedAttribute><FieldID>1</FieldID><Value>1</Value>
</ExtendedAttribute></Task><Task><UID>2</UID><Name>Done</Name><Milestone>1</Milestone></Task>
<Task><UID>3</UID><Name>Pour</Name><Duration>PT8H0M0S</Duration><PercentComplete>100
</PercentComplete></Task></Tasks>
<Resources><Resource><UID>1</UID><Name>Sand</Name><Type>0</Type></Resource></Resources>
<Assignments><Assignment><TaskUID>1</TaskUID><ResourceUID>1</ResourceUID></Assignment>
</Assignments></Project>"""
FULL_XER = {
    "PROJECT": [{"proj_id": "1", "proj_short_name": "P1", "plan_start_date": "2026-03-02 08:00"}],
    "SCHEDOPTIONS": [
        {"proj_id": "1", "sched_calendar_on_relationship_lag": "rcal_Successor"},
    ],
    "CALENDAR": [{"clndr_id": "7", "clndr_name": "Days"}],
    "ROLES": [{"role_id": "3", "role_name": "Mason"}],
    "ROLELIMIT": [{"role_id": "3", "max_qty_per_hr": "2", "start_date": "2026-03-02 08:00"}],
    "RSRC": [{"rsrc_id": "5", "rsrc_short_name": "Crane", "rsrc_type": "RT_Mat", "clndr_id": "7"}],
    "RSRCRATE": [{"rsrc_id": "5", "cost_per_qty": "40", "start_date": "2026-03-02 08:00"}],
    "UMEASURE": [{"unit_id": "1", "unit_abbrev": "m3"}],
    "CURRTYPE": [{"curr_id": "1", "curr_short_name": "EUR"}],
    "PROJCOST": [{"task_id": "1", "target_cost": "100"}],
    "TASK": [
        {
            **{"task_id": "1", "proj_id": "1", "task_code": "A1", "task_type": "TT_Rsrc"},
            **{"target_drtn_hr_cnt": "40", "remain_drtn_hr_cnt": "20", "status_code": "TK_Active"},
            **{"complete_pct_type": "CP_Units", "target_start_date": "2026-03-02 08:00"},
            **{"cstr_type": "CS_MSOA", "cstr_date": "2026-03-02 08:00"},
            **{"cstr_type2": "CS_MEOB", "cstr_date2": "2026-06-01 17:00"},
        },
        {
            **{"task_id": "2", "proj_id": "1", "target_drtn_hr_cnt": "8", "cstr_type2": ""},
            **{"status_code": "TK_Active", "complete_pct_type": "CP_Phys"},
        },
    ],
    "TASKPRED": [{"task_id": "9", "pred_task_id": "1", "proj_id": "1"}],
    "TASKRSRC": [
        {"task_id": "1", "rsrc_id": "5", "role_id": "", "target_qty": "8"},
        {"task_id": "1", "rsrc_id": "", "role_id": "3", "target_qty": "8"},
    ],
}
FULL_PMXML = b"""<APIBusinessObjects><Currency><Id>EUR</Id></Currency><UnitOfMeasure/>
<Resource><ObjectId>5</ObjectId><Name>Crane</Name></Resource><ResourceRate/>
<Role><ObjectId>3</ObjectId><Name>Mason</Name></Role><RoleLimit/>
<Project><ObjectId>1</ObjectId><PlannedStartDate>2026-03-02T08:00:00</PlannedStartDate><WBS>
<ObjectId>4</ObjectId></WBS><ScheduleOptions/><Activity><ObjectId>1</ObjectId><Id>A1</Id>
<PlannedDuration>8</PlannedDuration></Activity><ResourceAssignment>
<ActivityObjectId>1</ActivityObjectId></ResourceAssignment></Project>
<BaselineProject><Activity><Id>A1</Id></Activity></BaselineProject></APIBusinessObjects>"""
FULL_GAN = b"""<project name="Shed" view-date="2026-03-02"><calendars>
<day-types><default-week mon="0"/></day-types>
<date year="2026" month="3" date="6" type="HOLIDAY"/></calendars>
<tasks><taskproperties><taskproperty id="tpc0" name="Crash" type="custom"/></taskproperties>
<task id="1" name="Dig" start="2026-03-02" duration="4" complete="50" thirdDate="2026-03-02"
thirdDate-constraint="1" cost-calculated="false" cost-manual-value="100"><depend id="2" type="2"
difference="1"/><customproperty taskproperty-id="tpc0" value="2"/></task>
<task id="2" name="Pour" start="2026-03-09" duration="2"/></tasks>
<resources><resource id="5" name="Crew"><rate name="standard" value="400"/></resource></resources>
<allocations><allocation task-id="1" resource-id="5" load="50"/></allocations>
<previous><previous-tasks name="First"><previous-task id="1" start="2026-03-02" duration="3"/>
</previous-tasks></previous></project>"""
FULL_PLANNER = b"""<project name="Shed" mrproject-version="2"
project-start="20260302T080000Z" calendar="1">
<calendars><calendar id="1" name="Site"><default-week mon="0"/><overridden-day-types>
<overridden-day-type id="0"><interval start="0800" end="1600"/></overridden-day-type>
</overridden-day-types><days><day date="20260306" type="day-type" id="1"/></days></calendar>
</calendars><tasks><task id="1" name="Dig" work="28800" start="20260302T080000Z"
end="20260302T160000Z" type="normal" scheduling="fixed-work"/></tasks></project>"""
PLACES = {"Id", "ObjectId"}
"""What names each element of P6's XML in messages."""


@contextmanager
def recorded(is_given: bool = False) -> Iterator[set[str]]:
    """Collects what is read: texts of elements and attributes, and fields of P6's tables.

    With `is_given` only what the file has is collected.
    """
    found: set[str] = set()
    text_of, attribute_of, field_of = Node.text, Node.attribute, Record.text

    def text(node: Node, name: str) -> str:
        read = text_of(node, name)
        if read or not is_given:
            found.add(f"{local_name(node.element)}.{name}")
        return read

    def attribute(node: Node, name: str) -> str:
        found.add(f"{local_name(node.element)}.{name}")
        return attribute_of(node, name)

    def field(record: Record, name: str) -> str:
        found.add(f"{record.where.partition(',')[0].removeprefix('table ')}.{name}")
        return field_of(record, name)

    with (
        mock.patch.object(Node, "text", text),
        mock.patch.object(Node, "attribute", attribute),
        mock.patch.object(Record, "text", field),
    ):
        yield found


def fields_of(*files: bytes) -> set[str]:
    """Returns the fields that the readers look at in files."""
    with recorded() as found:
        for data in files:
            readers.read(Source(Path("plan"), data), ReaderOptions())
    return found


def test_fields_of_mspdi() -> None:
    """Each field that is read is in the table, and each of the table is read."""
    garden, taskjuggler = (EXAMPLES / "garden.xml").read_bytes(), TASKJUGGLER.read_bytes()
    assert fields_of(garden, taskjuggler, FULL_MSPDI) == full_names(row.fields for row in MSPDI)


def test_fields_of_taskjuggler() -> None:
    """The table has what the file of TaskJuggler has, of what is read of MS Project's files."""
    with recorded(is_given=True) as found:
        readers.read(Source(Path("plan"), TASKJUGGLER.read_bytes()), ReaderOptions())
    assert found == full_names(row.fields for row in OF_TASKJUGGLER)
    assert found <= full_names(row.fields for row in MSPDI)


def test_fields_of_ganttproject() -> None:
    """Each field that is read is in the table, and each of the table is read."""
    found = fields_of((EXAMPLES / "garden.gan").read_bytes(), FULL_GAN)
    assert found == full_names(row.fields for row in GAN)


def test_fields_of_gnome_planner() -> None:
    """Each field that is read is in the table, and each of the table is read."""
    found = fields_of((EXAMPLES / "planner.planner").read_bytes(), FULL_PLANNER)
    assert found == full_names(row.fields for row in GNOME)


def test_fields_of_xer() -> None:
    """Each field that is read is in the table, and each of the table is read."""
    found = fields_of((EXAMPLES / "garden.xer").read_bytes(), xer_of(FULL_XER))
    assert found == full_names(row.fields for row in P6)


def test_columns_of_lists() -> None:
    """Each field of lists is in the table once."""
    shown = [name for row in COLUMNS for name in row.fields.split()]
    assert sorted(shown) == sorted(HEADINGS)


def test_fields_of_the_xml_of_p6() -> None:
    """Each element that is read is in the table, or a field of it under another name."""
    listed = full_names(row.fields for row in P6)
    names = full_names(row.in_xml for row in P6)
    for table, element, fields in pmxml.TRANSLATED:
        assert {f"{table}.{field}" for field in fields} <= listed
        names |= {f"{element}.{name}" for name in (*fields.values(), *PLACES)}
    found = fields_of((EXAMPLES / "garden-p6.xml").read_bytes(), FULL_PMXML)
    assert {name for name in found if name.partition(".")[2][0].isupper()} == names
