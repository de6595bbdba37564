"""The companion's commands, as their parsers describe them."""

import argparse
import importlib
import sys
from dataclasses import dataclass
from pathlib import Path


@dataclass(frozen=True)
class Word:
    """An option or an argument of a command.

    `names` are the option's words, and none for an argument; `value` is what follows in a help
    text, or empty; `choices` are all values that it may have, if they are listed; `is_file` says
    that the value is the name of a file; `help` is its text.
    """

    names: tuple[str, ...]
    value: str
    choices: tuple[str, ...]
    is_file: bool
    help: str


@dataclass(frozen=True)
class Command:
    """A command: its name, what it does, the end of its help text, and its words in order."""

    name: str
    description: str
    epilog: str
    usage: str
    words: tuple[Word, ...]

    def options(self) -> tuple[Word, ...]:
        """Returns the words that are options."""
        return tuple(word for word in self.words if word.names)

    def arguments(self) -> tuple[Word, ...]:
        """Returns the words that are no options."""
        return tuple(word for word in self.words if not word.names)


def commands_of(top: Path) -> list[Command]:
    """Returns the commands of companion/bin, by name.

    # Errors

    `KeyError` if the package has no such command, `ImportError` if its module cannot be imported.
    """
    sys.path.insert(0, str(top / "companion/src"))
    modules = importlib.import_module("pert_companion.__main__").COMMANDS
    names = sorted(path.name for path in (top / "companion/bin").iterdir())
    return [_command(name, modules[name]) for name in names]


def _command(name: str, module: str) -> Command:
    parser = importlib.import_module(f"pert_companion.cli.{module}").parser()
    parser.formatter_class = _wide
    words = tuple(_word(action) for action in parser._actions)
    usage = " ".join(parser.format_usage().removeprefix("usage:").split())
    return Command(name, parser.description or "", parser.epilog or "", usage, words)


def _wide(prog: str) -> argparse.HelpFormatter:
    return argparse.HelpFormatter(prog, width=10000)


def _word(action: argparse.Action) -> Word:
    choices = tuple(str(choice) for choice in action.choices or ())
    takes = action.nargs != 0
    value = action.metavar or ("{" + ",".join(choices) + "}" if choices else action.dest.upper())
    if not action.option_strings:
        value = str(action.metavar or action.dest)
    is_file = takes and (action.type is Path or value in ("file", "FILE", "DECK", "deck"))
    text = " ".join(
        (action.help or "").replace("%(prog)s", "the command").replace("%%", "%").split()
    )
    return Word(tuple(action.option_strings), str(value) if takes else "", choices, is_file, text)
