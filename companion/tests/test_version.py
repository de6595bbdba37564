"""The companion has the version of the repository."""

from pathlib import Path

from pert_companion import VERSION


def test_version_is_that_of_the_repository() -> None:
    """One release has one version."""
    top = Path(__file__).resolve().parents[2]
    assert VERSION == (top / "VERSION").read_text().strip()
