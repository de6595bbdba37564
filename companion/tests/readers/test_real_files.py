"""Files that TaskJuggler 3.7.1 and GNOME Planner 0.14.91 wrote, of Debian 12.

`hall-taskjuggler.xml` is the `mspxml` export of `hall.tjp`. `garden.planner` was loaded, scheduled
and saved by Planner's own library, libplanner.
"""

from datetime import date
from pathlib import Path

from pert_companion import readers
from pert_companion.model.plan import Constraint, ConstraintKind, LinkKind, Plan, Task
from pert_companion.model.source import Source
from pert_companion.readers.base import ReaderOptions, Reading

FILES = Path(__file__).parent.parent / "files"


def read(name: str) -> Reading:
    """Reads one of the files."""
    path = FILES / name
    return readers.read(Source(path, path.read_bytes()), ReaderOptions())


def by_name(plan: Plan) -> dict[str, Task]:
    """Returns the tasks by their names."""
    return {task.name: task for task in plan.tasks()}


def test_taskjuggler() -> None:
    """Its tasks are fixed on their days, with dates and no duration; links are what counts."""
    reading = read("hall-taskjuggler.xml")
    plan, tasks = reading.plan, by_name(reading.plan)
    assert reading.losses == () and plan.source == "mspdi"
    assert any("TaskJuggler" in note for note in plan.notes)
    assert (plan.start, plan.data_date) == (date(2026, 9, 1), date(2026, 9, 11))
    durations = {name: task.minutes // 480 for name, task in tasks.items()}
    assert durations == {
        "Dig & drain": 5,
        "Pour the slab": 3,
        "Cure": 5,
        "Walls": 8,
        "Roof": 6,
        "Gutters": 2,
        "Ready": 0,
    }
    assert not any(task.manual or task.constraint for task in tasks.values())
    assert tasks["Dig & drain"].progress.actual_finish == date(2026, 9, 7)
    assert tasks["Walls"].progress.actual_start is None
    assert (tasks["Cure"].listed_start, tasks["Cure"].listed_finish) == (
        date(2026, 9, 11),
        date(2026, 9, 17),
    )
    kinds = {(link.predecessor, link.successor): link.kind for link in plan.links}
    assert kinds[("8", "9")] is LinkKind.START_START
    assert sorted(kinds) == [
        ("3", "4"),
        ("4", "5"),
        ("5", "7"),
        ("7", "8"),
        ("8", "10"),
        ("8", "9"),
        ("9", "10"),
    ]
    assert [group.name for group in plan.groups()] == ["Ground", "Frame"]
    names = {resource.uid: resource.name for resource in plan.resources}
    work = {
        (each.task, names[each.resource]): int(each.quantity / 480) for each in plan.assignments
    }
    assert work == {("3", "Crew"): 5, ("4", "Mason"): 3, ("7", "Crew"): 8} | {
        ("8", "Crew"): 6,
        ("9", "Mason"): 2,
    }


def test_gnome_planner() -> None:
    """Work is shared by its crew, lags are of the clock, and starts are mornings."""
    reading = read("garden.planner")
    plan, tasks = reading.plan, by_name(reading.plan)
    assert reading.losses == () and plan.name == "Garden house"
    assert tasks["Dig, and carry the soil away"].minutes == 720
    assert tasks["Walls"].minutes == 4800
    assert tasks["Permit"].minutes == 15 * 480
    assert (tasks["Permit"].listed_start, tasks["Permit"].listed_finish) == (
        date(2024, 3, 6),
        date(2024, 3, 26),
    )
    assert tasks["Ready"].is_milestone
    assert tasks["Ready"].constraint == Constraint(
        ConstraintKind.START_NO_EARLIER, date(2024, 4, 1)
    )
    assert str(tasks["Draw the plan"].cost) == "640.00"
    lags = {link.successor: link.lag for link in plan.links if link.lag.minutes}
    assert {uid: (lag.minutes, lag.elapsed) for uid, lag in lags.items()} == {
        "7": (1440, True),
        "9": (960, True),
    }
    ends = {link.predecessor for link in plan.links} | {link.successor for link in plan.links}
    assert {"3", "6"} <= ends
