"""Random plans written as lists, CSV and xlsx, and read back, are the same plans."""

from pathlib import Path

from hypothesis import HealthCheck, given, settings
from hypothesis import strategies as st

from examples import example_count
from lists import (
    GERMAN,
    US,
    Form,
    as_listed,
    comparable,
    csv_bytes,
    same_resources,
    xlsx_bytes,
)
from pert_companion.model.plan import Plan
from pert_companion.model.source import Source
from pert_companion.readers import table, xlsx
from pert_companion.readers.base import ReaderOptions
from plans import ALL_FEATURES, FIRST_DAY, Feature, plans

FEW = settings(
    max_examples=example_count(25),
    deadline=None,
    suppress_health_check=[HealthCheck.too_slow],
)

# A list has no column for the week, and CSV none for holidays.
IN_A_LIST = ALL_FEATURES - {Feature.WEEKS}
IN_CSV = IN_A_LIST - {Feature.HOLIDAYS}
OUTLINES = st.sampled_from(("level", "wbs", "indent"))


def options_for(plan: Plan, form: Form) -> ReaderOptions:
    """Returns what a list does not say: the name, the first day, the data date, decimal mark."""
    return ReaderOptions(
        name=plan.name,
        start=FIRST_DAY,
        data_date=plan.data_date,
        decimal=form.decimal,
        day_first=form.german,
    )


def check_same(read: Plan, written: Plan, form: Form, first_row: int, holidays: bool) -> None:
    """Compares a plan that was read with the one that was written."""
    wanted = comparable(as_listed(written, form, first_row, holidays))
    found = comparable(read)
    assert found.outline == wanted.outline
    assert set(found.links) == set(wanted.links)
    assert len(found.links) == len(wanted.links)
    assert same_resources(found, wanted)
    assert found.calendar == wanted.calendar
    assert (found.name, found.start, found.data_date) == (
        wanted.name,
        wanted.start,
        wanted.data_date,
    )


@FEW
@given(plans(features=IN_CSV), st.sampled_from((US, GERMAN)), OUTLINES)
def test_csv(plan: Plan, base: Form, outline: str) -> None:
    """CSV in English and German, with each kind of outline."""
    form = Form(base.separator, base.decimal, base.german, outline)
    data = csv_bytes(plan, form)
    assert table.matches(data) and not xlsx.matches(data)
    reading = table.read(Source(Path("plan.csv"), data), options_for(plan, form))
    assert reading.losses == ()
    check_same(reading.plan, plan, form, 2, holidays=False)


@FEW
@given(plans(features=IN_CSV), st.sampled_from(("utf-16", "utf-8-sig", "cp1252")))
def test_text_in_other_character_sets(plan: Plan, encoding: str) -> None:
    """Tab-separated text as Excel's Unicode Text, and semicolons in cp1252."""
    form = Form("\t", ".") if encoding == "utf-16" else GERMAN
    data = csv_bytes(plan, form, encoding)
    reading = table.read(Source(Path("plan.txt"), data), options_for(plan, form))
    assert reading.losses == ()
    check_same(reading.plan, plan, form, 2, holidays=False)


@FEW
@given(
    plans(features=IN_A_LIST),
    st.booleans(),
    st.sampled_from(("level", "wbs", "indent")),
)
def test_xlsx(plan: Plan, german: bool, outline: str) -> None:
    """Workbooks with a title, real dates and numbers, and free days on a sheet of their own."""
    form = Form(german=german, decimal="," if german else ".", outline=outline)
    data = xlsx_bytes(plan, form, outline)
    assert xlsx.matches(data) and not table.matches(data)
    reading = xlsx.read(Source(Path("plan.xlsx"), data), options_for(plan, form))
    assert reading.losses == ()
    check_same(reading.plan, plan, form, 4, holidays=True)


@FEW
@given(plans(features=frozenset((Feature.LINK_KINDS, Feature.LAGS))))
def test_xlsx_with_grouped_rows(plan: Plan) -> None:
    """The outline of the workbook itself makes the groups."""
    form = Form(outline="none")
    data = xlsx_bytes(plan, form, "outline")
    reading = xlsx.read(Source(Path("plan.xlsx"), data), options_for(plan, form))
    assert reading.losses == ()
    check_same(reading.plan, plan, form, 4, holidays=True)
