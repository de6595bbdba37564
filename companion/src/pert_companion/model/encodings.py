"""Finds the character set of a text by its first bytes."""

import codecs

MARKS = (
    (codecs.BOM_UTF8, "utf-8"),
    (codecs.BOM_UTF32_LE, "utf-32-le"),
    (codecs.BOM_UTF32_BE, "utf-32-be"),
    (codecs.BOM_UTF16_LE, "utf-16-le"),
    (codecs.BOM_UTF16_BE, "utf-16-be"),
)
"""What a text may begin with, and the character set that it says; those that hold others first."""
FALLBACK = "cp1252"
"""The character set of a text that is not UTF-8."""
_SAMPLE = 200
_ANY_BYTES = "latin-1"


def wide_encoding(data: bytes) -> str:
    """Returns the kind of UTF-16 if every other byte is mostly 0, or an empty text."""
    sample = data[:_SAMPLE]
    for first, name in ((1, "utf-16-le"), (0, "utf-16-be")):
        part = sample[first::2]
        if 2 * part.count(0) > len(part):
            return name
    return ""


def decode_exactly(data: bytes) -> tuple[str, str]:
    """Returns a text and its character set, so that encoding it gives the same bytes again.

    A mark at the beginning is the first character of the text.
    """
    named = next((name for mark, name in MARKS if data.startswith(mark)), wide_encoding(data))
    for name in (named, "utf-8", FALLBACK):
        try:
            if name:
                return data.decode(name), name
        except UnicodeDecodeError:
            continue
    return data.decode(_ANY_BYTES), _ANY_BYTES
