"""Reads XML files that may be hostile, for the readers of planners' formats."""

import re
from collections.abc import Callable, Iterator, Mapping
from decimal import Decimal, InvalidOperation
from functools import cached_property
from io import BytesIO
from xml.etree.ElementTree import Element, ParseError

from defusedxml import DefusedXmlException
from defusedxml.ElementTree import iterparse

from pert_companion.model.errors import InputError
from pert_companion.model.source import Source

MOST_BYTES = 256_000_000
MOST_ELEMENTS = 4_000_000
"""The elements of a file that are kept: 200 for each of the most tasks that a reader takes."""
MOST_TEXT = 100_000
"""The longest text of an element that is read."""
MOST_DIGITS = 15
DECIMALS = 6
"""The decimals of a number that count; those after them are the noise of binary fractions."""

_CHUNK = 4 * 1024 * 1024
"""The bytes that are parsed at once. After each, a tag that has not ended is parsed again."""
_LONG_TAG = re.compile(rb"<[^<>]{1000000}")
"""A tag of more than a million bytes: it would have as many attributes."""

Unread = Mapping[str, frozenset[str]]
"""For names of elements the names of the children that a reader never looks at."""
NOTHING_UNREAD: Unread = {}


def parse(source: Source, unread: Unread = NOTHING_UNREAD) -> Element:
    """Returns the root element, or raises `InputError` if the file is no harmless XML.

    Document types and entities are refused: they are how a small file becomes a large one. So are
    files of which more than `MOST_ELEMENTS` would be kept. What `unread` names is let go while the
    file is read, and so is the white space between elements: it is most of a large file.
    """
    return _parsed(source, lambda element: _shrink(element, unread))


def parse_complete(source: Source) -> Element:
    """Returns the root element with all that the file has, as `parse` does, for writing it back."""
    return _parsed(source, lambda element: 0)


def _parsed(source: Source, shrink: Callable[[Element], int]) -> Element:
    """Returns the root element. `shrink` gets each element at its end, and returns how many of
    those right in it are let go.
    """
    if len(source.data) > MOST_BYTES:
        raise InputError(f"{source.name}: more than {MOST_BYTES} bytes")
    if _LONG_TAG.search(source.data):
        raise InputError(f"{source.name}: a tag of more than a million bytes")
    try:
        return _root_of(source, shrink)
    except DefusedXmlException as error:
        raise InputError(f"{source.name}: document types and entities are not read") from error
    except ParseError as error:
        line, column = error.position
        raise InputError(f"{source.name}: no well-formed XML at line {line}, {column}") from error
    except (LookupError, ValueError) as error:
        raise InputError(f"{source.name}: no readable XML: {error}") from error


def _root_of(source: Source, shrink: Callable[[Element], int]) -> Element:
    events = iterparse(_Chunks(source.data), forbid_dtd=True)
    count = 0
    for _, element in events:
        count += 1 - shrink(element)
        if count > MOST_ELEMENTS:
            raise InputError(f"{source.name}: more than {MOST_ELEMENTS} elements")
    root = events.root
    assert isinstance(root, Element)
    return root


def _shrink(element: Element, unread: Unread) -> int:
    """Takes white space off an element, and children that are not read; returns how many."""
    names = unread.get(local_name(element), frozenset())
    kept = [child for child in element if local_name(child) not in names]
    removed = len(element) - len(kept)
    if removed:
        element[:] = kept
    for child in kept:
        child.tail = None
    if kept and element.text is not None and not element.text.strip():
        element.text = None
    return removed


class _Chunks(BytesIO):
    """A file that gives large parts, however small the parts that are asked for."""

    def read(self, size: int | None = -1, /) -> bytes:
        """Returns the next part."""
        return super().read(max(size or 0, _CHUNK))


class Node:
    """An element whose children are looked up by their names without namespace."""

    def __init__(self, element: Element) -> None:
        self.element = element

    @cached_property
    def _children(self) -> dict[str, list[Element]]:
        """Returns the children by name."""
        found: dict[str, list[Element]] = {}
        for child in self.element:
            found.setdefault(local_name(child), []).append(child)
        return found

    def text(self, name: str) -> str:
        """Returns the text of the first child of a name, or an empty text."""
        found = self._children.get(name)
        if not found:
            return ""
        return (found[0].text or "")[:MOST_TEXT].strip()

    def child(self, name: str) -> "Node | None":
        """Returns the first child of a name, or None."""
        found = self._children.get(name)
        return Node(found[0]) if found else None

    def children(self, name: str) -> Iterator["Node"]:
        """Yields the children of a name, in order."""
        for element in self._children.get(name, []):
            yield Node(element)

    def within(self, holder: str, name: str) -> Iterator["Node"]:
        """Yields the children of a name within the first child named `holder`."""
        held = self.child(holder)
        if held is not None:
            yield from held.children(name)

    def flag(self, name: str) -> bool:
        """Says whether a child has the text `1` or `true`."""
        return self.text(name).lower() in ("1", "true")

    def attribute(self, name: str) -> str:
        """Returns the text of an attribute, or an empty text."""
        return self.element.get(name, "")[:MOST_TEXT].strip()

    def has(self, name: str) -> bool:
        """Says whether there is a child of a name."""
        return name in self._children

    @property
    def content(self) -> str:
        """Returns the text of the element itself."""
        return (self.element.text or "")[:MOST_TEXT].strip()


def nested(holder: Node | None, name: str) -> Iterator[tuple[Node, Node | None]]:
    """Yields the elements of a name inside each other, in order, each with the one that holds it.

    Those right in `holder` have None. It does without recursion, for elements nested deeply.
    """
    levels: list[tuple[Iterator[Node], Node | None]] = []
    if holder is not None:
        levels = [(holder.children(name), None)]
    while levels:
        nodes, above = levels[-1]
        node = next(nodes, None)
        if node is None:
            levels.pop()
            continue
        yield node, above
        levels.append((node.children(name), node))


def head_text(data: bytes) -> str:
    """Returns the first characters of a file, in whichever encoding, for finding its format."""
    return data[:8192].replace(b"\0", b"").decode("ascii", "replace")


def local_name(element: Element) -> str:
    """Returns the name of an element without its namespace."""
    tag = element.tag
    return tag.rpartition("}")[2] if isinstance(tag, str) else ""


def whole(text: str) -> int | None:
    """Returns a whole number of at most 15 digits, or None."""
    digits = text.removeprefix("-")
    if digits.isascii() and digits.isdigit() and len(digits) <= MOST_DIGITS:
        return int(text)
    return None


def decimal(text: str) -> Decimal | None:
    """Returns a finite number of moderate size without noise after its decimals, or None."""
    if not text or len(text) > 40:
        return None
    try:
        number = Decimal(text)
    except InvalidOperation:
        return None
    if not number.is_finite() or (number and abs(number.adjusted()) > MOST_DIGITS):
        return None
    return without_noise(number)


def without_noise(number: Decimal) -> Decimal:
    """Returns a number rounded to the decimals that count: 4480.000000000001 is 4480."""
    exponent = number.as_tuple().exponent
    if not isinstance(exponent, int) or exponent >= -DECIMALS:
        return number
    return number.quantize(Decimal(1).scaleb(-DECIMALS)).normalize() + 0
