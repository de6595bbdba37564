"""The forms of pert, as the table of its sources has them, and their section of the manual page."""

import re
from dataclasses import dataclass
from pathlib import Path

from command_files.manual import filled

# The usage line, which names the forms, and a variant of `Form` after its comment
USAGE = re.compile(r'b"usage: pert (?P<names>[^"]*)\\n"')
VARIANT = re.compile(r"(?P<comment>(?:    ///.*\n)+)    (?P<name>[A-Z]\w*)(?:\(\w+\))?,\n")
BEGINS, ENDS = ".SH FORMS\n", ".SH THE DECK\n"


@dataclass(frozen=True)
class Form:
    """The word of a form, the name of its number or an empty text, what it prints in a few words,
    and its entry in the manual page, in which code is between backticks.
    """

    word: str
    number: str
    brief: str
    entry: str


def read_forms(top: Path) -> list[Form]:
    """Returns the forms in the order of the usage line. A variant has the name of its word; the
    first line of its comment says in a few words what the form prints, and the rest is its entry.
    """
    source = (top / "crates/pert_cli/src/forms.rt").read_text(encoding="utf-8")
    usage = USAGE.search(source)
    if usage is None:
        raise ValueError("crates/pert_cli/src/forms.rt has no usage line")
    _, _, after = source.partition("pub(crate) enum Form {\n")
    comments = {it["name"].lower(): it["comment"] for it in VARIANT.finditer(after)}
    names = re.sub(r"\\\n *", "", usage["names"]).split(" | ")
    return [_form(name, comments) for name in names]


def _form(name: str, comments: dict[str, str]) -> Form:
    """Returns the form with this name in the usage line."""
    word, _, number = name.partition(" ")
    if word not in comments:
        raise ValueError(f"crates/pert_cli/src/forms.rt has no variant for {word}")
    lines = [line.strip().removeprefix("///").strip() for line in comments[word].splitlines()]
    brief = lines[0][:1].lower() + lines[0][1:].removesuffix(".")
    return Form(word, number, brief, " ".join(lines[1:]).strip())


def manual_page(page: str, forms: list[Form]) -> str:
    """Returns the manual page of pert with the section of these forms in the place of its own."""
    before, found, rest = page.partition(BEGINS)
    _, ends, after = rest.partition(ENDS)
    if not found or not ends:
        raise ValueError("docs/man/pert.1 has no section FORMS before THE DECK")
    lines: list[str] = []
    for form in forms:
        heading = rf".BI {form.word}\  {form.number}" if form.number else f".B {form.word}"
        lines += [".TP", heading, *filled(form.entry)]
    return before + found + "\n".join(lines) + "\n" + ends + after
