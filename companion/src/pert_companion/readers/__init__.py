"""The readers: each turns one file format into a `Plan` and what it could not take over.

A format is found by the content of a file, never by its name. Readers are imported when they are
needed, so that a list as text needs no library.
"""

from importlib import import_module
from typing import Protocol, cast

from pert_companion.model.errors import InputError
from pert_companion.model.source import Source
from pert_companion.readers.base import ReaderOptions, Reading

_XML = ("mspdi", "pmxml", "gan", "gnome_planner")
_PACKED = b"PK\x03\x04"

_OPEN_DOCUMENT = b"mimetypeapplication/vnd.oasis.opendocument."
"""The name and content of the first file in a package of OpenDocument, which is not compressed."""

_BINARY = b"\xd0\xcf\x11\xe0"
"""How files of old Office programs begin, .mpp and .xls."""


class Reader(Protocol):
    """What each module of this package offers."""

    def matches(self, data: bytes) -> bool:
        """Says whether the bytes look like the reader's format."""

    def read(self, source: Source, options: ReaderOptions) -> Reading:
        """Returns the plan of a file and what is not in it, or raises `InputError`."""


def detect(source: Source) -> str:
    """Returns the name of the reader for a file: `table`, `xlsx`, `mspdi`, `xer`, `pmxml`, ..

    Raises `InputError` if no reader knows the format.
    """
    data = source.data
    if not data.strip(b"\0 \t\r\n"):
        raise InputError(f"{source.name}: the file is empty")
    if data.startswith(_BINARY):
        raise InputError(
            f"{source.name}: a binary file of MS Project (.mpp) or Excel (.xls); save it as XML or"
            " as .xlsx"
        )
    if data.startswith(b"%PDF"):
        raise InputError(f"{source.name}: a PDF; export the plan from the program that made it")
    for name in _candidates(data):
        if reader(name).matches(data):
            return name
    raise InputError(f"{source.name}: {_unknown(data)}")


def read(source: Source, options: ReaderOptions) -> Reading:
    """Returns what the reader of a file's format makes of it."""
    return reader(detect(source)).read(source, options)


def reader(name: str) -> Reader:
    """Returns the reader of a format."""
    return cast(Reader, import_module(f"pert_companion.readers.{name}"))


def _candidates(data: bytes) -> tuple[str, ...]:
    if data.startswith(_PACKED):
        return ("xlsx",)
    if _is_xml(data):
        return _XML
    return ("xer",) if _head(data).startswith(b"ERMHDR") else ("table",)


def _head(data: bytes) -> bytes:
    """Returns the first characters without marks of encodings and white space."""
    return data[:64].replace(b"\0", b"").lstrip(b"\xef\xbb\xbf\xff\xfe \t\r\n")


def _is_xml(data: bytes) -> bool:
    """Says whether the first character is the mark of XML, in any of the usual encodings."""
    return _head(data).startswith(b"<")


def _unknown(data: bytes) -> str:
    if data.startswith(_PACKED) and _OPEN_DOCUMENT in data[:200]:
        return "a file of LibreOffice (.ods); save it as .xlsx"
    if data.startswith(_PACKED):
        return "no workbook (.xlsx); a file of another program that is packed as zip"
    if _is_xml(data):
        return (
            "XML, but none of MS Project, Primavera P6, GanttProject or GNOME Planner; export it as"
            " MS Project XML"
        )
    if _head(data).startswith(b"PROJECT,"):
        return "a deck already, which pert-schedule, pert-report and the other commands read"
    return (
        "no plan: no file of a planner, and no list with a row of headings such as Name, Duration,"
        " Predecessors"
    )
