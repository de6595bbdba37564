"""Changes an XML file in place: what is not changed keeps its bytes.

The elements are those of the usual tree, for reading. Changes are kept with their places in the
bytes, and made together at the end.
"""

import re
from dataclasses import dataclass
from pathlib import Path
from xml.etree.ElementTree import Element
from xml.parsers import expat
from xml.sax.saxutils import escape, quoteattr

from pert_companion.model.encodings import wide_encoding
from pert_companion.model.source import Source
from pert_companion.model.xmltree import local_name, parse_complete

_BYTE_BY_BYTE = "latin-1"
"""Names of elements and what is put in are ASCII: they have these bytes in most character sets."""
_ATTRIBUTE = re.compile(r"([^\s=<>/]+)\s*=\s*(\"[^\"]*\"|'[^']*')")


@dataclass
class _Span:
    """Where an element is in the bytes: its start tag, its content, and the end of its end tag."""

    begin: int
    content: int = 0
    content_end: int = 0
    end: int = 0


@dataclass
class _New:
    """An element that is added at a place in the bytes, or any other text there."""

    place: int
    element: Element | None
    name: str = ""
    """The name of the element as it is written, with its prefix; or the text."""
    before: str = ""
    after: str = ""

    @property
    def text(self) -> str:
        """Returns what is added."""
        if self.element is None:
            return self.name
        content = _content(self.element.text or "")
        return f"{self.before}<{self.name}>{content}</{self.name}>{self.after}"


class XmlFile:
    """A file with its tree and the changes to make."""

    def __init__(self, data: bytes, name: str) -> None:
        """Reads a file. Raises `InputError` if it is no harmless XML."""
        self.data = data
        self.root = parse_complete(Source(Path(name), data))
        self._encoding = wide_encoding(data) or _BYTE_BY_BYTE
        self._spans = dict(zip(self.root.iter(), _Spans(data).found, strict=True))
        self._changes: dict[tuple[int, int], str] = {}
        self._added: dict[int, list[_New]] = {}
        """What is added at each place, in order."""
        self._new: dict[Element, _New] = {}

    def set_text(self, element: Element, text: str) -> None:
        """Sets the text of an element that has no elements inside it."""
        element.text = text
        if element in self._new:
            return
        span = self._spans[element]
        if span.content < span.end:
            self._changes[span.content, span.content_end] = _content(text)
        else:
            tag = self._tag(span).removesuffix("/>").rstrip()
            name = tag[1:].split()[0]
            self._changes[span.begin, span.end] = f"{tag}>{_content(text)}</{name}>"

    def add_text(self, element: Element, place: int, tag: str, text: str) -> None:
        """Puts a new element with a text at a place among the elements inside an element.

        `tag` has the namespace; the prefix is that of the element. It is indented as the others.
        """
        name = self.prefix_of(element) + tag.rpartition("}")[2]
        child = Element(tag)
        child.text = text
        indent = (element.text or "") if len(element) else ""
        if place < len(element):
            self._add(_New(0, child, name, after=indent), element[place], True)
        else:
            self._add(_New(0, child, name, before=indent), element[-1], False)
        element.insert(place, child)

    def _add(self, new: _New, sibling: Element, is_before: bool) -> None:
        """Adds an element before or after another one, which may be new too."""
        assert new.element is not None
        self._new[new.element] = new
        known = self._new.get(sibling)
        if known is None:
            span = self._spans[sibling]
            new.place = span.begin if is_before else span.end
            self._added.setdefault(new.place, []).append(new)
        else:
            new.place = known.place
            added = self._added[known.place]
            added.insert(added.index(known) + (0 if is_before else 1), new)

    def remove(self, holder: Element, element: Element) -> None:
        """Removes an element, and the white space after it, from the element that holds it."""
        span = self._spans[element]
        following = self.data.find(b"<", span.end)
        end = following if not self.data[span.end : following].strip() else span.end
        self._changes[span.begin, end] = ""
        holder.remove(element)

    def set_attribute(self, element: Element, name: str, value: str) -> None:
        """Sets the value of an attribute that an element has."""
        element.set(name, value)
        span = self._spans[element]
        tag = self._tag(span)
        for found in _ATTRIBUTE.finditer(tag):
            if found[1] == name:
                begin = span.begin + self._width(tag[: found.start(2)])
                end = span.begin + self._width(tag[: found.end(2)])
                self._changes[begin, end] = _value(value)

    def add_attribute(self, element: Element, name: str, value: str) -> None:
        """Gives an element an attribute that it lacks."""
        element.set(name, value)
        span = self._spans[element]
        tag = self._tag(span)
        end = tag.rindex("/>") if tag.endswith("/>") else len(tag) - 1
        begin = len(tag[:end].rstrip())
        self._insert(span.begin + self._width(tag[:begin]), f" {name}={_value(value)}")

    def insert_after(self, element: Element, text: str) -> None:
        """Puts text, such as an element, after an element."""
        self._insert(self._spans[element].end, text)

    def prefix_of(self, element: Element) -> str:
        """Returns the prefix of the name of an element, as `p6:`, or an empty text."""
        written = self._tag(self._spans[element])[1:]
        return written[: written.index(local_name(element))]

    def changed(self) -> bytes:
        """Returns the bytes with all changes."""
        parts = []
        done = 0
        changes = dict(self._changes)
        for place, added in self._added.items():
            changes[place, place] = "".join(new.text for new in added)
        for (begin, end), text in sorted(changes.items()):
            parts.append(self.data[done:begin])
            parts.append(text.encode(self._encoding))
            done = end
        parts.append(self.data[done:])
        return b"".join(parts)

    def _insert(self, place: int, text: str) -> None:
        self._added.setdefault(place, []).append(_New(place, None, text))

    def _tag(self, span: _Span) -> str:
        """Returns the start tag of an element as the file has it."""
        return self.data[span.begin : span.content].decode(self._encoding)

    def _width(self, text: str) -> int:
        return len(text.encode(self._encoding))


def _content(text: str) -> str:
    """Returns a text as the content of an element, which any character set has."""
    return _ascii(escape(text))


def _value(text: str) -> str:
    """Returns a text as the value of an attribute, with its quotes."""
    return _ascii(quoteattr(text))


def _ascii(text: str) -> str:
    return text.encode("ascii", "xmlcharrefreplace").decode("ascii")


class _Spans:
    """Finds where the elements of a file are, in the order of their start tags.

    A tag ends where the next part of the file begins.
    """

    def __init__(self, data: bytes) -> None:
        self.found: list[_Span] = []
        self._opened: list[_Span] = []
        self._begun: _Span | None = None
        self._ended: _Span | None = None
        self._parser = expat.ParserCreate()
        self._parser.StartElementHandler = self._start
        self._parser.EndElementHandler = self._end
        self._parser.DefaultHandler = self._other
        self._parser.Parse(data, True)
        self._close(len(data))

    def _close(self, place: int) -> None:
        """Ends the tag before a place."""
        if self._begun is not None:
            self._begun.content = place
            self._begun = None
        if self._ended is not None:
            self._ended.end = place
            self._ended = None

    def _start(self, _name: str, _attributes: object) -> None:
        place = self._parser.CurrentByteIndex
        self._close(place)
        self._begun = _Span(place)
        self.found.append(self._begun)
        self._opened.append(self._begun)

    def _end(self, _name: str) -> None:
        place = self._parser.CurrentByteIndex
        self._close(place)
        self._ended = self._opened.pop()
        self._ended.content_end = place

    def _other(self, _text: str) -> None:
        self._close(self._parser.CurrentByteIndex)
