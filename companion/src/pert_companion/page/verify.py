"""The page `pert-verify.html`: one file that checks the data of a report page, or a deck and a
certificate, and shows its own figures of them."""

from pert_companion.page.html import html_file

SCRIPTS = ("check.js", "certificate.js", "compactor.js", "side.js", "schedule.js", "verify.js")
"""In the order in which they run. The first shares nothing with what draws a page."""


def verify_page() -> bytes:
    """Returns `pert-verify.html`, the same bytes each time.

    Script and style are in the page, and its policy allows these by their digests and nothing
    else: no request, no other script, no frame, no form.
    """
    return html_file("verify.html", ["verify.css"], SCRIPTS)
