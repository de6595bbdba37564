"""The techniques of earned value, against sums worked out at each moment."""

from fractions import Fraction

from hypothesis import given
from hypothesis import strategies as st

from pert_companion.analysis.measuring import (
    Done,
    Piece,
    Planned,
    all_pieces,
    measured_as_planned,
    measured_by_milestones,
    measured_by_tasks,
    measured_like,
    time_of_value,
)
from pert_companion.model.registers import PackageRule, Technique

Task = tuple[Planned, Done]
TIMES = st.integers(0, 40).map(lambda quarters: Fraction(quarters, 4))


@st.composite
def tasks(draw: st.DrawFn) -> Task:
    """Draws a task of 0 to 5 units, and how far it is in quarters."""
    begin, length = draw(st.integers(0, 9)), draw(st.integers(0, 5))
    cost = Fraction(draw(st.integers(0, 900)))
    share = Fraction(draw(st.integers(0, 4)), 4)
    has_begun = share > 0 or draw(st.booleans())
    return Planned("A", cost, begin, begin + length), Done(share, has_begun)


def planned_by(technique: Technique, planned: Planned, time: Fraction) -> Fraction:
    """Returns what is planned of a task by a time, in the plainest form."""
    is_over = time >= planned.end
    if planned.begin == planned.end or technique is Technique.AT_FINISH:
        return planned.cost if is_over else Fraction(0)
    if technique is Technique.HALVES:
        return planned.cost / 2 * ((time > planned.begin) + is_over)
    passed = min(max(time - planned.begin, Fraction(0)), Fraction(planned.end - planned.begin))
    return planned.cost * passed / (planned.end - planned.begin)


def earned_by(technique: Technique, task: Task) -> Fraction:
    """Returns what a task has earned, in the plainest form."""
    planned, done = task
    if technique is Technique.PERCENT:
        return planned.cost * done.share
    if done.share == 1:
        return planned.cost
    if technique is Technique.HALVES and done.has_begun:
        return planned.cost / 2
    return Fraction(0)


@given(
    st.sampled_from((Technique.PERCENT, Technique.AT_FINISH, Technique.HALVES)),
    st.lists(tasks(), max_size=5),
    TIMES,
)
def test_techniques_of_tasks(technique: Technique, listed: list[Task], time: Fraction) -> None:
    """A package is the sum of its tasks, at each moment."""
    measured = measured_by_tasks(PackageRule("A", technique), listed)
    assert measured.budget == sum(planned.cost for planned, _ in listed)
    assert measured.planned_at(time) == sum(planned_by(technique, p, time) for p, _ in listed)
    assert measured.earned == sum(earned_by(technique, task) for task in listed)
    assert measured.planned_at(Fraction(99)) == measured.budget


def test_half_is_earned_at_the_start() -> None:
    """In the morning of its start nothing is planned of a task; at the end of that day half is."""
    pieces = Planned("A", Fraction(100), 3, 5).pieces(Technique.HALVES)
    for time, value in ((3, 0), (4, 50), (5, 100)):
        assert sum(piece.value_at(Fraction(time)) for piece in pieces) == value


def test_milestones_have_weights() -> None:
    """PLAN is worth 40 and is reached; DONE is worth 60 and planned for unit 9."""
    rule = PackageRule("A", Technique.MILESTONES, weights=(("PLAN", 40), ("DONE", 60)))
    milestones = {
        "PLAN": (Planned("A", Fraction(0), 2, 2), Done(Fraction(1), True)),
        "DONE": (Planned("A", Fraction(0), 4, 9), Done(Fraction(3, 4), True)),
    }
    measured = measured_by_milestones(rule, Fraction(500), milestones)
    assert measured.earned == 200
    assert [measured.planned_at(Fraction(time)) for time in (1, 2, 8, 9)] == [
        0,
        200,
        200,
        500,
    ]


@given(st.integers(0, 900), st.integers(0, 9), st.integers(0, 9), TIMES)
def test_effort_earns_what_was_planned(cost: int, begin: int, length: int, time: Fraction) -> None:
    """Level of effort has no schedule variance, whatever was done."""
    span = Fraction(begin), Fraction(begin + length)
    measured = measured_as_planned(PackageRule("A", Technique.EFFORT), Fraction(cost), span, time)
    assert measured.earned == measured.planned_at(time)
    if length:
        passed = min(max(time - begin, Fraction(0)), Fraction(length))
        assert measured.earned == Fraction(cost) * passed / length


@given(st.lists(tasks(), min_size=1, max_size=4), st.integers(0, 500), TIMES)
def test_an_apportioned_package_follows_its_base(
    listed: list[Task], budget: int, time: Fraction
) -> None:
    """It has the base's share of its own budget, planned and earned."""
    base = measured_by_tasks(PackageRule("A"), listed)
    own = measured_like(PackageRule("B", Technique.APPORTIONED, base="A"), Fraction(budget), base)
    assert own.planned_at(time) * base.budget == base.planned_at(time) * own.budget
    assert own.earned * base.budget == base.earned * own.budget
    assert own.budget == (budget if base.budget else 0)


@given(
    st.lists(tasks(), max_size=5),
    st.sampled_from(tuple(Technique)[:3]),
    st.integers(1, 900),
)
def test_earned_schedule_is_the_first_time_of_a_value(
    listed: list[Task], technique: Technique, value: int
) -> None:
    """At that time the plan has reached the value, and a little before it has not."""
    measured = measured_by_tasks(PackageRule("A", technique), listed)
    time = time_of_value(all_pieces([measured]), Fraction(value))
    if measured.budget < value:
        assert time == max((piece.end for piece in measured.pieces), default=0)
        return
    opened = sum(p.amount for p in measured.pieces if p.opens and p.begin == time)
    assert measured.planned_at(time) + opened >= value
    if time:
        assert measured.planned_at(time - Fraction(1, 10**6)) < value


def test_nothing_is_earned_at_the_start() -> None:
    """The schedule of no value is 0, and a piece at a moment is reached at it."""
    assert time_of_value([Piece(Fraction(5), Fraction(3), Fraction(3))], Fraction(0)) == 0
    assert time_of_value([Piece(Fraction(5), Fraction(3), Fraction(3))], Fraction(5)) == 3
