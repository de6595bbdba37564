"""Makes any text safe to print on one line or to write into XML, and rows into CSV."""

import csv
import io
import re
from collections.abc import Iterable, Sequence

_NOT_IN_XML = re.compile("[^\t\n\r\x20-\ud7ff\ue000-\ufffd\U00010000-\U0010ffff]")


def one_line(text: str) -> str:
    """Returns a text with each control character, line end and direction mark escaped."""
    if text.isprintable():
        return text
    return "".join(_shown(character) for character in text)


def _shown(character: str) -> str:
    if character.isprintable() or character == "\u00a0":
        return character
    return character.encode("unicode_escape").decode("ascii")


def readable(name: str) -> str:
    """Returns the name of a file as text: each byte that is not UTF-8 is U+FFFD."""
    return name.encode("utf-8", "surrogateescape").decode("utf-8", "replace")


def xml_text(text: str) -> str:
    """Returns a text with U+FFFD for each character that XML 1.0 cannot hold."""
    return _NOT_IN_XML.sub("\ufffd", text)


def not_in_xml(text: str) -> list[str]:
    """Returns the characters of a text that XML 1.0 cannot hold, such as `U+FFFF`, each once."""
    return [f"U+{ord(char):04X}" for char in dict.fromkeys(_NOT_IN_XML.findall(text))]


def csv_bytes(rows: Iterable[Sequence[object]]) -> bytes:
    """Returns rows as CSV in UTF-8; each ends with a line feed."""
    text = io.StringIO(newline="")
    csv.writer(text, lineterminator="\n").writerows(rows)
    return text.getvalue().encode()
