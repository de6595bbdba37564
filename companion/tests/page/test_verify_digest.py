"""README publishes the digest of the page that checks report pages."""

from hashlib import sha256
from pathlib import Path

from pert_companion.page.verify import verify_page


def test_readme_has_the_digest_of_the_page() -> None:
    """Whoever gets `pert-verify.html` can compare it with the release."""
    readme = Path(__file__).resolve().parents[3] / "README.md"
    digest = sha256(verify_page()).hexdigest()
    assert digest in readme.read_text(encoding="utf-8")
