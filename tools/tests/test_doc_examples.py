"""Tests of tests/docs/examples.py, on a small repository that is made for each."""

from pathlib import Path

import pytest

from doc_examples.main import check, run

CALLS = (("pc_low/src/sums.rt", "pub fn doubled("),)
SUMS = """//! Sums.

impl Sums {
    /// Returns the double.
    ///
    /// # Examples
    ///
    /// ```
    /// let text = b"1\\n\\
    /// 2\\n";
    /// if text.len() > 1 {
    ///     return None;
    /// }
    ///
    /// Some(doubled(2) == 4)
    /// ```
    ///
    /// These are the lines of `pc_low_tests::examples::double_two`.
    pub fn doubled(n: u64) -> u64 {
        n + n
    }
}
"""
TESTS = """//! Examples.

fn double_two(n: u64) -> Option<bool>
    requires { n < 2 }
{
    let text = b"1\\n\\
2\\n";
    if text.len() > 1 {
        return None;
    }

    Some(doubled(2) == 4)
}

#[test]
fn doubles_two(rt: HostRuntime) {
    assert!(rt; double_two(1) == Some(true));
}
"""


@pytest.fixture(name="crates")
def crates_folder(tmp_path: Path) -> Path:
    """The crates of a repository with one example."""
    for name, text in (("pc_low/src/sums.rt", SUMS), ("pc_low_tests/src/examples.rt", TESTS)):
        path = tmp_path / "crates" / name
        path.parent.mkdir(parents=True)
        path.write_text(text)
    return tmp_path / "crates"


def change(crates: Path, name: str, old: str, new: str) -> None:
    """Puts one text in place of another that the file has once."""
    text = (crates / name).read_text()
    assert text.count(old) == 1
    (crates / name).write_text(text.replace(old, new))


def test_same_lines_pass(crates: Path) -> None:
    assert check(crates, CALLS) == (1, [])


@pytest.mark.parametrize(
    ("name", "old", "new", "fault"),
    [
        ("pc_low/src/sums.rt", "== 4)", "== 5)", "crates/pc_low/src/sums.rt:6: line 7 is"),
        (
            "pc_low/src/sums.rt",
            "    /// 2\\n",
            "    /// 3\\n",
            "crates/pc_low/src/sums.rt:6: line 2 is",
        ),
        ("pc_low_tests/src/examples.rt", "== 4)\n", "== 4)\n    // x\n", "has 7 lines, but"),
        ("pc_low/src/sums.rt", "::double_two", "::double_three", "has no function double_three"),
        ("pc_low/src/sums.rt", "pc_low_tests::", "pc_no_tests::", "has no function double_two"),
        ("pc_low_tests/src/examples.rt", "double_two(1)", "Some(true)", "no test sees"),
        ("pc_low_tests/src/examples.rt", "Some(true));", "Some(false));", "no test sees"),
        ("pc_low/src/sums.rt", "    /// ```\n    /// let", "    /// let", "two fences"),
        (
            "pc_low/src/sums.rt",
            "`pc_low_tests::examples::double_two`",
            "a test",
            "names no function",
        ),
        ("pc_low/src/sums.rt", "# Examples", "# Example", "'pub fn doubled(' has no example"),
        (
            "pc_low/src/sums.rt",
            "pub fn doubled",
            "pub fn twice",
            "'pub fn doubled(' has no example",
        ),
    ],
)
def test_other_lines_fail(crates: Path, name: str, old: str, new: str, fault: str) -> None:
    change(crates, name, old, new)
    _, faults = check(crates, CALLS)
    assert fault in faults[0]


def test_a_test_may_call_by_way_of_others(crates: Path) -> None:
    file = "pc_low_tests/src/examples.rt"
    change(crates, file, "assert!(rt; double_two(1)", "assert!(rt; last()")
    assert "no test sees" in check(crates, CALLS)[1][0]
    path = crates / file
    path.write_text(
        f"{path.read_text()}\nfn first() -> Option<bool> {{\n    double_two::<u8>(1)\n}}\n"
    )
    assert "no test sees" in check(crates, CALLS)[1][0]
    kept = "    let kept = first();\n    kept\n"
    path.write_text(f"{path.read_text()}\nfn last() -> Option<bool> {{\n{kept}}}\n")
    assert check(crates, CALLS) == (1, [])
    change(crates, file, "    kept\n", "    Some(true)\n")
    assert "no test sees" in check(crates, CALLS)[1][0]


def test_command(crates: Path, capsys: pytest.CaptureFixture[str]) -> None:
    # the calls that must have an example are not in this repository
    assert run(crates.parent, []) == 1
    assert "FAILED examples: crates/pc_deck/src/read.rt" in capsys.readouterr().out
    assert run(crates.parent, ["--help"]) == 0
    assert run(crates.parent, ["more"]) == 2
