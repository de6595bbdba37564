"""Which tasks of two states are the same: by source id, then by code, each at most once."""

from collections.abc import Sequence

from hypothesis import given
from hypothesis import strategies as st

from pert_companion.model.registers import Rename, Renames
from pert_companion.model.sidefile import SideTask
from pert_companion.state.matching import Matching, match_tasks


def task(uid: str, code: str) -> SideTask:
    """Returns a task with one part."""
    return SideTask(code, uid, None, code, (), (code,))


def tasks(words: str) -> tuple[SideTask, ...]:
    """Returns the tasks of words such as `1A 2B`: id 1 with code A, id 2 with code B."""
    return tuple(task(word[0], word[1]) for word in words.split())


def pairs(found: Matching) -> str:
    """Returns the matched tasks as words such as `1A-2B`, the old one first."""
    return " ".join(f"{old.uid}{old.code}-{new.uid}{new.code}" for old, new in found.pairs)


def test_an_id_comes_before_a_code() -> None:
    """Two tasks that swapped their codes are still themselves."""
    found = match_tasks(tasks("1A 2B"), tasks("1B 2A"))
    assert pairs(found) == "1A-1B 2B-2A"
    assert (found.gone, found.new) == ((), ())


def test_a_code_does_not_take_a_task_that_an_id_has() -> None:
    """The code A is now that of task 2, and task 1 is gone; task 3 is new."""
    found = match_tasks(tasks("1A 2B"), tasks("3B 2A"))
    assert pairs(found) == "2B-2A"
    assert [each.code for each in found.gone] == ["A"]
    assert [each.uid for each in found.new] == ["3"]


def test_a_code_matches_tasks_whose_ids_are_gone() -> None:
    """A file that was saved with other ids is matched by its codes."""
    assert pairs(match_tasks(tasks("1A 2B 3C"), tasks("7C 8A"))) == "3C-7C 1A-8A"


def test_a_rename_holds_where_codes_are_the_only_ids() -> None:
    """A is called B now, and another task has got the code A; an id of a source comes first."""
    renames = Renames((Rename("A", "B"),))
    found = match_tasks(tasks("AA"), tasks("AA BB"), renames)
    assert pairs(found) == "AA-BB"
    assert [each.code for each in found.new] == ["A"]
    assert pairs(match_tasks(tasks("1A"), tasks("1A 2B"), renames)) == "1A-1A"


@st.composite
def states(draw: st.DrawFn) -> tuple[SideTask, ...]:
    """Returns tasks with ids and codes of their own, few enough that two states share some."""
    count = draw(st.integers(0, 6))
    uids = draw(st.permutations("12345678"))[:count]
    codes = draw(st.permutations("ABCDEFGH"))[:count]
    return tuple(task(uid, code) for uid, code in zip(uids, codes))


@given(states(), states())
def test_matching_is_one_to_one_and_leaves_no_id_or_code(
    old: Sequence[SideTask], new: Sequence[SideTask]
) -> None:
    """Equal ids are matched; what is left on both sides has no id or code in common."""
    found = match_tasks(old, new)
    assert [each for each in new if each not in found.new] == [pair[1] for pair in found.pairs]
    kept = [pair[0] for pair in found.pairs]
    codes = sorted(each.code for each in (*found.gone, *kept))
    assert codes == sorted(each.code for each in old)
    matched = {(one.uid, other.uid) for one, other in found.pairs}
    shared = {one.uid for one in old} & {other.uid for other in new}
    assert {(uid, uid) for uid in shared} <= matched
    assert not {one.uid for one in found.gone} & {other.uid for other in found.new}
    assert not {one.code for one in found.gone} & {other.code for other in found.new}
