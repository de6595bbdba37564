"""Keeps text from being taken for a formula by a spreadsheet."""

_STARTERS = ("=", "+", "-", "@", "\t", "\r")


def plain_text(text: str) -> str:
    """Returns a text that a spreadsheet shows as it is.

    A text that begins like a formula gets an apostrophe in front, which is what spreadsheets
    themselves write for such a cell.
    """
    if text.startswith(_STARTERS):
        return f"'{text}"
    return text
