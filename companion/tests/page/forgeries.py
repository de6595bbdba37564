"""Ways to forge a report page, each with what `pert-verify.html` has to say of it."""

import json
import re
from collections.abc import Callable
from hashlib import sha256

from pert_companion.page import data

Forge = Callable[[str], str]
BLOCK = '<script type="application/json" id="{name}">{text}</script>'


def block(page: str, name: str) -> str:
    """Returns the text of a data block."""
    found = re.search(f'<script type="application/json" id="{name}">([^<]*)</script>', page)
    assert found is not None, name
    return found[1]


def with_block(page: str, name: str, content: object) -> str:
    """Returns the page with other data in a block."""
    return page.replace(f">{block(page, name)}<", f">{data.embedded(content)}<")


def other_deck(page: str) -> str:
    """Returns the data of the deck with a cost that is 1,000 less."""
    held = json.loads(block(page, "pert-deck"))
    changed = re.sub(r"(?<=,)([0-9])000(?=,[0-9]+,[^,\n]+\n)", r"\g<1>00", held["text"], count=1)
    assert changed != held["text"]
    return data.embedded({**held, "text": changed})


def deck_text(change: Forge, and_digest: bool = False) -> Forge:
    """Returns a forgery of the deck's text, of the digest in its side data too if asked for."""

    def forged(page: str) -> str:
        held = json.loads(block(page, "pert-deck"))
        text = change(held["text"])
        assert text != held["text"]
        changed = with_block(page, "pert-deck", {**held, "text": text})
        if not and_digest:
            return changed
        side = json.loads(block(page, "pert-side"))
        digest = sha256(text.encode()).hexdigest()
        return with_block(changed, "pert-side", {**side, "sha256": digest})

    return forged


def side_value(name: str, value: object) -> Forge:
    """Returns a forgery of one value of the side data."""

    def forged(page: str) -> str:
        held = json.loads(block(page, "pert-side"))
        side = json.loads(held["text"])
        assert side[name] != value
        return with_block(page, "pert-side", {**held, "text": json.dumps({**side, name: value})})

    return forged


def shown(pattern: str, text: str) -> Forge:
    """Returns a forgery of what the page shows before its data, at every place of a pattern."""

    def forged(page: str) -> str:
        look, mark, rest = page.partition('<script type="application/json"')
        changed, count = re.subn(pattern, text, look)
        assert count > 0, pattern
        return f"{changed}{mark}{rest}"

    return forged


def digits_from(zero: str) -> Forge:
    """Returns a forgery with digits of another script, of which `zero` is the first."""
    table = {ord("0") + digit: ord(zero) + digit for digit in range(10)}

    def forged(page: str) -> str:
        amount = re.search(r">([1-9][0-9]?,[0-9]{3})<", page)
        assert amount is not None
        return page.replace(amount[0], f">{amount[1].replace(',', '').translate(table)}<")

    return forged


def before_data(text: str) -> Forge:
    """Returns a forgery with something in front of the first data block."""
    return lambda page: page.replace("<script type", f"{text}<script type", 1)


def copy_before(form: str) -> Forge:
    """Returns a forgery with another deck in front of the right one, in this form."""

    def forged(page: str) -> str:
        text = form.format(block=BLOCK.format(name="pert-deck", text=other_deck(page)))
        return page.replace("<script type", f"{text}<script type", 1)

    return forged


def copy_after(page: str) -> str:
    """Forges a page with another deck after the right one."""
    return page + BLOCK.format(name="pert-deck", text=other_deck(page))


def certificate_digit(page: str) -> str:
    """Forges a page with a cost in its certificate that is another one."""
    form = json.loads(block(page, "pert-certificate"))
    form["segments"][0] = re.sub("^([0-9]+ [0-9]+ [0-9]+)", r"\g<1>1", form["segments"][0])
    return with_block(page, "pert-certificate", form)


def certificate_place(page: str) -> str:
    """Forges a page with a change in its certificate at a place that there is not."""
    form = json.loads(block(page, "pert-certificate"))
    form["segments"] = ["35 34 12600 100|99|"]
    return with_block(page, "pert-certificate", form)


def swapped_rows(page: str) -> str:
    """Forges a page in which two rows of a table have changed places."""
    rows = re.findall("<tr[^>]*>(?:(?!</?tr).)*</tr>", page, re.S)
    one, two = next(pair for pair in zip(rows[1:], rows[2:]) if pair[0] != pair[1])
    return page.replace(one, "\0").replace(two, one).replace("\0", two)


def view_value(name: str, value: object) -> Forge:
    """Returns a forgery of what the page's own script draws with."""

    def forged(page: str) -> str:
        view = json.loads(block(page, "pert-view"))
        return with_block(page, "pert-view", {**view, name: value})

    return forged


FIGURE = r"(?<=>)([1-9][0-9]?,[0-9]{3})(?=<)"
HIDDEN = "<style>td { display: none } td::after { content: '9,999' }</style>"
LOOKS: dict[str, Forge] = {
    "Arabic digits": digits_from("\u0660"),
    "Devanagari digits": digits_from("\u0966"),
    "fullwidth digits": digits_from("\uff10"),
    "mathematical digits": digits_from("\U0001d7ce"),
    "digits in circles": shown(FIGURE, "\u2460\u2462,\u2460\u2468\u24ea"),
    "other digits": shown(FIGURE, "9,999"),
    "a word before a figure": shown(FIGURE, r"minus \1"),
    "a word after a figure": shown(FIGURE, r"\1 thousand"),
    "a sign before a figure": shown(FIGURE, "\u2212\\1"),
    "a sign of another script": shown(FIGURE, "\u06d4\\1"),
    "a unit after a figure": shown(FIGURE, r"\1k"),
    "decimals": shown(FIGURE, r"\1.00"),
    "a currency": shown(FIGURE, "\\1 USD"),
    "turned text": shown(FIGURE, "\u202e\\1\u202c"),
    "an isolate": shown(FIGURE, "\u2067\\1\u2069"),
    "characters of no width": shown(FIGURE, "\u200b\\1\u2060"),
    "combining marks": shown(FIGURE, "\\1\u0336"),
    "a value": shown(FIGURE, r'<data value="1">9,999</data>'),
    "an input": shown(FIGURE, r'<input value="9,999">'),
    "a style sheet": before_data(HIDDEN),
    "a style of an element": shown("<td", '<td style="font-size: 0"'),
    "an image": before_data('<img src="data:image/png;base64,AA==" alt="9,999">'),
    "a figure that is not marked": before_data("<p>The project costs 9,999.</p>"),
    "a frame": before_data('<iframe srcdoc="<h1>9,999</h1>"></iframe>'),
    "a script": before_data("<script>document.title = '9,999'</script>"),
    "swapped rows": swapped_rows,
    "data in a comment": copy_before("<!-- {block} -->"),
    "data in a text field": copy_before("<textarea>{block}</textarea>"),
    "data in a title": copy_before("<title>{block}</title>"),
    "data as an example": copy_before("<xmp>{block}</xmp>"),
    "a view in cents": view_value("decimals", 2),
    "a view in dollars": view_value("currency", "USD"),
    "a view of another calendar": view_value("calendar", {"first": "2023-01-01", "runs": []}),
}
"""Forgeries of what a page shows or draws: the figures of the verifier are the right ones."""

REFUSED: dict[str, tuple[Forge, str]] = {
    "data twice, the other first": (copy_before("{block}"), "2 copies of pert-deck"),
    "data twice, the other last": (copy_after, "2 copies of pert-deck"),
    "data in a template": (copy_before("<template>{block}</template>"), "2 copies of pert-deck"),
    "data in a shadow root": (
        copy_before('<div><template shadowrootmode="open">{block}</template></div>'),
        "2 copies of pert-deck",
    ),
    "data in templates": (
        copy_before("<template><template>{block}</template></template>"),
        "2 copies of pert-deck",
    ),
    "data without scripts": (copy_before("<noscript>{block}</noscript>"), "2 copies of pert-deck"),
    "data in a drawing": (copy_before("<svg>{block}</svg>"), "2 copies of pert-deck"),
    "data with an id in capitals": (
        lambda page: copy_before("{block}")(page).replace('"pert-deck"', '"PERT-DECK"', 1),
        "2 copies of pert-deck",
    ),
    "an element with the id of data": (before_data('<p id="pert-side">'), "2 copies of pert-side"),
    "data of another type": (
        lambda page: page.replace('json" id="pert-deck', 'ld+json" id="pert-deck'),
        "pert-deck of the page is no data",
    ),
    "data in a drawing alone": (
        lambda page: re.sub('(<script[^>]*"pert-deck">[^<]*</script>)', r"<svg>\1</svg>", page),
        "pert-deck of the page is no data",
    ),
    "no data": (lambda page: page.replace('"pert-side"', '"side"'), "the page has no pert-side"),
    "a comment without end": (before_data("<!--"), "the page has no pert-"),
    "text without end": (before_data("<plaintext>"), "the page has no pert-"),
    "data that is not JSON": (
        lambda page: re.sub('("pert-side">)', r"\1//", page),
        "pert-side of the page is not JSON",
    ),
    "another cost": (
        lambda page: page.replace(f">{block(page, 'pert-deck')}<", f">{other_deck(page)}<"),
        "not certified line",
    ),
    "another name": (
        deck_text(lambda text: text.replace("House", "Horse")),
        "the side data belong to another deck",
    ),
    "another first day": (
        deck_text(lambda text: text.replace("2024-03-04", "2023-03-04", 1), and_digest=True),
        "the side data begins on another day than the deck",
    ),
    "a calendar from another day": (
        side_value("start", "2023-03-04"),
        "the side data begins on another day than the deck",
    ),
    "another project's code": (
        deck_text(lambda text: text.replace("PROJECT,H1,", "PROJECT,H2,")),
        "not certified line 1 reason 1",
    ),
    "a digit of the certificate": (certificate_digit, "not certified line"),
    "a place of the certificate": (certificate_place, "at a place that there is not"),
    "a scale of money that is none": (side_value("money_scale", 3), "has no scale of money"),
}
"""Forgeries of the data: the verifier shows no figures, and says why."""


def other_start(page: str) -> str:
    """Forges a page of a plan that begins a year earlier, in its deck and in its side data."""
    changed = deck_text(lambda text: text.replace("2024-03-04", "2023-03-04", 1), True)(page)
    return side_value("start", "2023-03-04")(changed)


CHANGED: dict[str, Forge] = {
    "a currency in the data": side_value("currency", "kEUR"),
    "decimals in the data": side_value("money_scale", 100),
    "another first day in all data": other_start,
    "a title in the data": deck_text(lambda text: text.replace("House", "Horse"), and_digest=True),
}
"""Data of another project, which is as consistent: it has another checksum."""
