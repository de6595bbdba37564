"""Makes a page again from what is embedded in it, and compares every byte."""

import json
from collections.abc import Mapping
from dataclasses import dataclass

from pert_companion import VERSION
from pert_companion.model.errors import InputError
from pert_companion.page import data
from pert_companion.page.gathering import Progress, gather
from pert_companion.page.render import render
from pert_companion.page.report import page_of
from pert_companion.page.source import source_from, version_of
from pert_companion.programs.client import Programs

AROUND = 30
"""Characters that are shown on both sides of a difference."""


@dataclass(frozen=True)
class Verdict:
    """Whether a page is what this version makes of its data, and what to say of it."""

    is_right: bool
    text: str


def check_page(page: bytes, name: str, programs: Programs, progress: Progress) -> Verdict:
    """Returns whether a page is certified and, byte for byte, what this version makes of its data.

    Raises `InputError` if it holds no data of a page, or each of them more than once.
    """
    try:
        text = page.decode()
    except UnicodeDecodeError as error:
        raise InputError(f"{name}: not UTF-8, and so no page of pert-report") from error
    try:
        blocks = {block: data.block_of(text, block) for block in data.BLOCKS}
    except data.DataError as error:
        raise InputError(f"{name}: it has {error}, and so is no page of pert-report") from error
    answer = certificate_answer(blocks, programs)
    if answer and not answer.startswith("certified "):
        return Verdict(False, answer)
    version = version_of(blocks["pert-source"])
    if version != VERSION:
        told = f"{answer}; the page is of version {version}, and this is {VERSION}: not compared"
        return Verdict(False, told)
    gathered = gather(source_from(blocks["pert-source"], programs), progress)
    made = render(page_of(gathered))
    if made == page:
        return Verdict(True, f"{gathered.answer}; the page is what version {VERSION} makes of it")
    return Verdict(False, f"{gathered.answer}, but {difference(page, made)}")


def certificate_answer(blocks: Mapping[str, str], programs: Programs) -> str:
    """Returns what `pert_check` says of the certificate in a page; nothing if there is none."""
    try:
        deck = json.loads(blocks["pert-deck"])["text"].encode()
        form = json.loads(blocks["pert-certificate"])
    except (json.JSONDecodeError, TypeError, KeyError, AttributeError, RecursionError) as error:
        raise InputError("the page holds no deck or no certificate") from error
    if form is None:
        return ""
    return programs.check(deck, (part.encode() for part in data.expanded(form)))


def difference(page: bytes, made: bytes) -> str:
    """Returns where two pages begin to differ, and how."""
    pairs = zip(page, made)
    at = next((at for at, (a, b) in enumerate(pairs) if a != b), min(len(page), len(made)))
    line = page.count(b"\n", 0, at) + 1
    return (
        f"line {line} of the page has {_excerpt(page, at)}"
        f" where version {VERSION} makes {_excerpt(made, at)}"
    )


def _excerpt(page: bytes, at: int) -> str:
    """Returns what is around a place of a page, in quotes."""
    begin = max(0, at - AROUND, page.rfind(b"\n", 0, at) + 1)
    ends = [end for end in (page.find(b"\n", at), at + AROUND, len(page)) if end >= 0]
    return ascii(page[begin : min(ends)].decode("utf-8", "replace"))
