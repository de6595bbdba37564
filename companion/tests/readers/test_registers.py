"""The tables next to a deck: packages, changes, renames, explanations."""

from collections.abc import Callable
from datetime import date
from decimal import Decimal
from pathlib import Path

import pytest

from pert_companion.importing.registers import registers_of
from pert_companion.model.errors import InputError
from pert_companion.model.registers import (
    BudgetChange,
    Explanation,
    PackageRule,
    Rename,
    Renames,
    Technique,
)
from pert_companion.model.source import Source
from pert_companion.readers.registers import (
    read_changes,
    read_explanations,
    read_packages,
    read_renames,
)


def source(text: str) -> Source:
    """Returns a table."""
    return Source(Path("t.csv"), text.encode())


def test_packages() -> None:
    """Each technique with what it needs; a package may have a manager alone."""
    text = """item,technique,manager,weights,base,budget,start,finish
1.1,,Miller,,,,,
1.2,0/100,Miller,,,,,
1.3,50/50,,,,,,
1.4,milestones,,PLAN:40 DONE:60%,,,,
1.5,level of effort,Smith,,,"1,500.50",2026-03-02,2026-06-30
1.6,apportioned,,,1.2,,,
UB,undistributed,,,,5000,,
MR,reserve,,,,8000,,
"""
    rules = read_packages(source(text))
    assert [rule.technique for rule in rules] == [
        Technique.PERCENT,
        Technique.AT_FINISH,
        Technique.HALVES,
        Technique.MILESTONES,
        Technique.EFFORT,
        Technique.APPORTIONED,
        Technique.UNDISTRIBUTED,
        Technique.RESERVE,
    ]
    assert rules[3].weights == (("PLAN", 40), ("DONE", 60))
    assert rules[4] == PackageRule(
        "1.5",
        Technique.EFFORT,
        "Smith",
        budget=Decimal("1500.50"),
        start=date(2026, 3, 2),
        finish=date(2026, 6, 30),
        place="t.csv: row 6",
    )
    assert rules[5].base == "1.2"


def test_changes_renames_and_explanations() -> None:
    """Rows as they stand; new money comes from nowhere."""
    changes = read_changes(
        source("date,from,to,amount,reason,approved by\n2026-04-10,reserve,1.2,500,Rock,Miller\n")
    )
    assert changes == (
        BudgetChange(
            date(2026, 4, 10),
            "reserve",
            "1.2",
            Decimal(500),
            "Rock",
            "Miller",
            "t.csv: row 2",
        ),
    )
    renames = read_renames(source("old,new\nDIG,EXCAVATE\nEXCAVATE,GROUND\n"))
    assert renames == Renames((Rename("DIG", "EXCAVATE"), Rename("EXCAVATE", "GROUND")))
    said = read_explanations(
        source("date,item,figure,cause,action\n2026-04-30,1.2,cv,Rock,More drills\n")
    )
    assert said[0] == Explanation(
        date(2026, 4, 30), "1.2", "CV", "Rock", "More drills", "t.csv: row 2"
    )


def test_renames_follow_one_another() -> None:
    """What was DIG and then EXCAVATE is GROUND; a circle ends; a code in use keeps its name."""
    renames = Renames((Rename("DIG", "EXCAVATE"), Rename("EXCAVATE", "GROUND")))
    assert renames.former("GROUND") == ("EXCAVATE", "DIG")
    assert renames.names_of(["GROUND", "WALLS"]) == {
        "DIG": "GROUND",
        "EXCAVATE": "GROUND",
        "GROUND": "GROUND",
        "WALLS": "WALLS",
    }
    assert renames.names_of(["GROUND", "DIG"])["DIG"] == "DIG"
    swap = Renames((Rename("A", "B"), Rename("B", "A")))
    assert swap.former("A") == ("B",) and swap.former("B") == ("A",)


@pytest.mark.parametrize(
    ("read", "text", "why"),
    (
        (
            read_packages,
            "item,technique\n1.1,guess\n",
            "technique 'guess' is none of percent",
        ),
        (read_packages, "item,technique\n,loe\n", "a row without item"),
        (
            read_packages,
            "item,technique\n1,loe\n1,loe\n",
            "package '1' is in t.csv: row 2 too",
        ),
        (
            read_packages,
            "item,technique,weights\n1,milestones,A:40\n",
            "add up to 40, not 100",
        ),
        (
            read_packages,
            "item,technique,weights\n1,milestones,A\n",
            "no milestone with its weight",
        ),
        (read_packages, "item,technique,base\n1,apportioned,\n", "names its base"),
        (read_packages, "item,technique,base\n1,percent,2\n", "names its base"),
        (read_packages, "item,technique\nMR,reserve\n", "reserve without a budget"),
        (
            read_packages,
            "item,technique,budget\nMR,reserve,-5\n",
            "budget -5 is below zero",
        ),
        (
            read_packages,
            "item,technique,start,finish\n1,loe,2026-03-02,2026-03-01\n",
            "before it starts",
        ),
        (read_changes, "date,from,to,amount\n2026-04-10,1,2,0\n", "an amount above 0"),
        (
            read_changes,
            "date,from,to,amount\n2026-04-10,1,1,5\n",
            "from one place to another",
        ),
        (read_changes, "date,from,to,amount\n,1,2,5\n", "a change without a date"),
        (read_renames, "old,new\nA,A\n", "renamed to itself"),
        (read_renames, "old,new\nA,B\nA,C\n", "code 'A' is in t.csv: row 2 too"),
        (read_explanations, "date,item,cause\n,1,x\n", "without the data date"),
        (
            read_explanations,
            "date,item,figure,cause\n2026-04-30,1,XY,x\n",
            "none of SV, CV, VAC",
        ),
        (read_packages, "a,b\n1,2\n", "no list of packages"),
    ),
)
def test_rows_that_make_no_sense_are_named(
    read: Callable[[Source], object], text: str, why: str
) -> None:
    """One line with the file and the row."""
    with pytest.raises(InputError, match=why) as caught:
        read(source(text))
    assert str(caught.value).startswith("t.csv: ")


def test_tables_are_found_next_to_the_deck(tmp_path: Path) -> None:
    """The deck's own table before the one that all decks of the folder share."""
    deck = tmp_path / "wing.csv"
    assert not registers_of(deck).packages
    (tmp_path / "packages.csv").write_text("item,technique\n1,loe\n")
    (tmp_path / "wing.renames.csv").write_text("old,new\nA,B\n")
    found = registers_of(deck)
    assert list(found.rules) == ["1"]
    assert found.renames.former("B") == ("A",)
    (tmp_path / "wing.packages.csv").write_text("item,technique\n2,loe\n")
    assert list(registers_of(deck).rules) == ["2"]
    assert list(registers_of(tmp_path / "other.csv").rules) == ["1"]
    assert not registers_of(tmp_path / "packages.csv").packages
