"""The table of columns in docs/importing.md has all fields of lists, by headings that are found."""

import re
from pathlib import Path

from pert_companion.readers.columns import HEADINGS, heading_of

PAGE = Path(__file__).resolve().parents[2] / "docs" / "importing.md"
FIELDS = list(HEADINGS)


def rows() -> list[tuple[list[str], list[str]]]:
    """Returns the fields and the headings of each row of the table."""
    table = PAGE.read_text().partition("### Columns")[2].partition("\n### ")[0]
    found = []
    for line in table.splitlines():
        if line.startswith("| `"):
            fields, headings, _ = (cell.strip() for cell in line.strip("|").split("|"))
            names = [heading.strip() for heading in re.split("[,;]", headings)]
            found.append((named(fields), names))
    return found


def named(cell: str) -> list[str]:
    """Returns the fields of a cell; `basestart` .. `basecost` are all from one to the other."""
    names = re.findall("`([a-z]+)`", cell)
    if ".." not in cell:
        return names
    return FIELDS[FIELDS.index(names[0]) : FIELDS.index(names[1]) + 1]


def test_each_field_is_in_the_table_once() -> None:
    """No field is missing, and none is there twice."""
    shown = [field for fields, _ in rows() for field in fields]
    assert sorted(shown) == sorted(FIELDS)


def test_headings_are_those_of_their_fields() -> None:
    """A list with one of the headings that are shown has that field."""
    for fields, headings in rows():
        known = {word for field in fields for word in HEADINGS[field]}
        for heading in headings:
            if heading != ".." and " next to " not in heading:
                assert heading_of(heading).text in known, (fields, heading)
