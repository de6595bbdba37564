"""Makes the file of a report page."""

from pert_companion.page.html import html_file
from pert_companion.page.report import PageView

SCRIPTS = ("certificate.js", "report.js")
"""In the order in which they run."""


def render(page: PageView) -> bytes:
    """Returns the page as UTF-8."""
    return html_file("page.html", ["report.css"], SCRIPTS, page=page)
