"""What all commands share: `--help` and `--version`, statuses, and errors as one line each."""

import argparse
import errno
import os
import sys
from collections.abc import Callable, Sequence
from signal import Signals
from typing import IO, NoReturn

from pert_companion import VERSION
from pert_companion.model.errors import CompanionError, EndedError, UsageError
from pert_companion.model.lines import one_line
from pert_companion.model.text_form import TextForm

PACKAGES = {
    "openpyxl": "python3-openpyxl",
    "defusedxml": "python3-defusedxml",
    "icalendar": "python3-icalendar",
    "jinja2": "python3-jinja2",
    "markupsafe": "python3-markupsafe",
    "numpy": "python3-numpy",
    "starlette": "python3-starlette",
    "uvicorn": "python3-uvicorn",
    "multipart": "python3-multipart",
}
"""The Debian package of each library that the package imports."""


class CommandParser(argparse.ArgumentParser):
    """Parses the words of a command; a mistake is `UsageError` with one line."""

    def __init__(self, prog: str, description: str, examples: str) -> None:
        """Takes the name of the command, what it does, and examples for the end of `--help`."""
        super().__init__(
            prog=prog,
            description=description,
            epilog=f"Examples:\n{examples}",
            formatter_class=argparse.RawDescriptionHelpFormatter,
            allow_abbrev=False,
        )
        self.add_argument("--version", action="version", version=f"{prog} {VERSION}")

    def error(self, message: str) -> NoReturn:
        """Raises `UsageError` with what is wrong and where help is."""
        raise UsageError(f"{message} (see {self.prog} --help)")


def run_command(
    name: str,
    parser: argparse.ArgumentParser,
    function: Callable[[argparse.Namespace], int],
    words: Sequence[str] | None = None,
) -> int:
    """Returns the status of a command that parses `words` and calls `function` with the result.

    `words` are those of the process if they are None. Errors are those of `run_safely`.
    """
    return run_safely(name, lambda: function(parser.parse_args(words)))


def run_safely(name: str, function: Callable[[], int]) -> int:
    """Returns the status of a function, or 1 or 2 with one line on standard error if it raised.

    Errors are those of the package, of the system, of a missing library, or a signal. The output is
    flushed, so that a full disk is an error too.
    """
    _use_utf8(sys.stdout)
    _use_utf8(sys.stderr)
    try:
        try:
            status = function()
            sys.stdout.flush()
            return status
        except SystemExit as stop:  # from --help and --version
            sys.stdout.flush()
            return stop.code if isinstance(stop.code, int) else 0
    except CompanionError as error:
        say(name, str(error))
        return error.status
    except BrokenPipeError:
        _drop_output()
        say(name, "standard output was closed before all was written")
        return 1
    except _ONE_LINE as error:
        _drop_output()
        status, line = _line_of(error)
        say(name, line)
        return status


def say(name: str, text: str) -> None:
    """Writes one line to standard error that begins with the name of the command."""
    try:
        print(f"{name}: {one_line(text)}", file=sys.stderr, flush=True)
    except OSError:
        pass  # there is nobody left to tell


def output_form(money_scale: int = 1) -> TextForm:
    """Returns how texts on standard output look: plain unless it is a terminal."""
    return TextForm(sys.stdout.isatty(), money_scale)


def message_form(money_scale: int = 1) -> TextForm:
    """Returns how texts on standard error look: plain unless it is a terminal."""
    return TextForm(sys.stderr.isatty(), money_scale)


def _line_of(error: BaseException) -> tuple[int, str]:
    """Returns the status and the line for an error that is not one of the package."""
    if isinstance(error, ModuleNotFoundError):
        module = (error.name or "").partition(".")[0]
        if module in PACKAGES:
            return 2, f"the library {module} is missing: apt install {PACKAGES[module]}"
        return 2, f"the Python module {module} is missing"
    if isinstance(error, OSError):
        return 1, _system_line(error)
    if isinstance(error, EndedError) and error.number != Signals.SIGINT:
        return 1, f"ended by {error.number.name}"
    for kind, line in _LINES.items():
        if isinstance(error, kind):
            return 1, line
    return 1, str(error)


_LINES: dict[type[BaseException], str] = {
    KeyboardInterrupt: "interrupted",
    EndedError: "interrupted",
    MemoryError: "out of memory",
    RecursionError: "the input is nested too deeply",
    UnicodeEncodeError: "a name or a text has bytes that are not UTF-8",
}
_ONE_LINE: tuple[type[BaseException], ...] = (OSError, ImportError, *_LINES)


def _system_line(error: OSError) -> str:
    """Returns what the system says, with the file if there is one."""
    if error.filename is not None:
        return f"{os.fsdecode(error.filename)}: {error.strerror}"
    if error.errno == errno.EBADF:
        return "standard input or standard output is closed"
    return error.strerror or str(error)


def _use_utf8(stream: IO[str]) -> None:
    """Makes a stream write UTF-8 and line feeds whatever the locale is."""
    reconfigure = getattr(stream, "reconfigure", None)
    if reconfigure is not None:
        reconfigure(encoding="utf-8", errors="backslashreplace", newline="\n")


def _drop_output() -> None:
    """Sends what is left of standard output nowhere, so that Python does not fail at its end."""
    try:
        sys.stdout.flush()
    except OSError:
        try:
            nowhere = os.open(os.devnull, os.O_WRONLY)
            os.dup2(nowhere, sys.stdout.fileno())
            os.close(nowhere)
        except OSError:
            pass  # standard output is no file, as in tests
