"""The manual page of a command: its parser's help, with the texts of `texts.py`."""

import re

from command_files.commands import Command, Word
from command_files.texts import TEXTS

WIDTH = 80


def page(command: Command, day: str) -> str:
    """Returns the manual page of a command, in man(7), as of `day` (YYYY-MM-DD)."""
    text = TEXTS[command.name]
    title = _escaped(command.name.upper())
    lines = [f'.TH {title} 1 "{day}" "pert @VERSION@" "User Commands"', ".SH NAME"]
    lines.append(f"{_escaped(command.name)} \\- {_escaped(text.purpose)}")
    lines += [".SH SYNOPSIS", ".nf", *_folded(command.usage), ".fi"]
    lines += [".SH DESCRIPTION", *filled(command.description)]
    for paragraph in text.paragraphs:
        lines += [".PP", *filled(paragraph)]
    if command.arguments():
        lines.append(".SH ARGUMENTS")
    for word in command.arguments():
        lines += [".TP", f".I {_escaped(word.value)}", *filled(_sentence(word.help))]
    lines.append(".SH OPTIONS")
    for word in command.options():
        lines += [".TP", _heading(word), *filled(_sentence(word.help))]
    lines += [".SH EXIT STATUS", ".TP", ".B 0", "All was done."]
    lines += [".TP", ".B 1", *filled(text.refused)]
    lines += [".TP", ".B 2", "The words are wrong, or a program or a library is missing."]
    lines += [".PP", "Each message is one line on standard error."]
    lines += [".SH EXAMPLES", ".nf", *_examples(command.epilog), ".fi"]
    lines += [".SH SEE ALSO", *filled(", ".join((*text.see, "pert(1)", "pert-deck(5)")))]
    return "\n".join(lines) + "\n"


def _heading(word: Word) -> str:
    """Returns the line of an option: its names in bold, its value in italics."""
    names = ", ".join(f"\\fB{_escaped(name)}\\fR" for name in word.names)
    return f"{names} \\fI{_escaped(word.value)}\\fR" if word.value else names


def _sentence(text: str) -> str:
    """Returns a help text with a capital at its beginning and a full stop at its end."""
    text = text[:1].upper() + text[1:]
    return text if text.endswith(".") else text + "."


def _escaped(text: str) -> str:
    return text.replace("\\", "\\e").replace("-", "\\-")


def filled(text: str) -> list[str]:
    """Returns a text in lines of at most 80 bytes, none of which begins like a macro.

    Each sentence begins on a line of its own, and what is between backticks is bold.
    """
    lines: list[str] = []
    line = ""
    bold = re.sub(r"`([^`]*)`", r"\\fB\1\\fR", _escaped(" ".join(text.split())))
    for word in bold.split(" "):
        ends = line.endswith(".") and word[:1].isupper()
        if line and (ends or len(f"{line} {word}".encode()) > WIDTH) and word[:1] not in ".'":
            lines.append(line)
            line = word
        else:
            line = f"{line} {word}" if line else word
    lines.append("\\&" + line if line[:1] in (".", "'") else line)
    return lines


def _folded(usage: str) -> list[str]:
    """Returns the usage line in lines of at most 72 columns, parts in brackets unbroken."""
    lines: list[str] = []
    line = ""
    for part in _parts(usage):
        if line and len(f"{line} {part}") > 72:
            lines.append(_escaped(line))
            line = "    " + part
        else:
            line = f"{line} {part}" if line else part
    return lines + [_escaped(line)]


def _parts(usage: str) -> list[str]:
    """Returns the words of a usage line, where what is in brackets is one word."""
    parts: list[str] = []
    depth = 0
    for word in usage.split(" "):
        if depth > 0:
            parts[-1] += " " + word
        else:
            parts.append(word)
        depth += word.count("[") - word.count("]")
    return parts


def _examples(epilog: str) -> list[str]:
    """Returns the end of a help text as it is, without its heading."""
    lines = []
    for line in epilog.removeprefix("Examples:\n").rstrip("\n").split("\n"):
        shown = _escaped(line.removeprefix("  "))
        lines.append("\\&" + shown if shown[:1] in (".", "'") else shown)
    return lines
