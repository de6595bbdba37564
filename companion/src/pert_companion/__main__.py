"""The one way in to all commands: by the name of the program, or by the first word.

    python3 -m pert_companion pert-import WORD..
"""

import os
import sys

if __name__ == "__main__" and not sys.flags.safe_path:
    del sys.path[0]  # the current folder, which `python3 -m` puts before all others

from importlib import import_module

from pert_companion import VERSION
from pert_companion.cli.common import run_safely
from pert_companion.cli.process import prepare
from pert_companion.model.errors import UsageError

COMMANDS = {
    "pert-check-status": "check_status",
    "pert-compare": "compare",
    "pert-days": "days",
    "pert-desk": "desk",
    "pert-edit": "edit",
    "pert-export": "exporting",
    "pert-import": "importing",
    "pert-ledger": "ledger",
    "pert-portfolio": "portfolio",
    "pert-remaining": "remaining",
    "pert-report": "report",
    "pert-schedule": "schedule",
}
"""The module in `cli` of each command."""


def main() -> None:
    """Runs the command, and ends the process with its status."""
    prepare()
    name = _name(sys.argv[0])
    words = sys.argv[1:]
    if not name and words:
        name = words.pop(0)
    sys.exit(run_safely(name or "pert_companion", lambda: _run(name, words)))


def _name(path: str) -> str:
    """Returns the command that a path names, if need be by way of links, or an empty text."""
    while os.path.basename(path) not in COMMANDS and os.path.islink(path):
        path = os.path.join(os.path.dirname(path), os.readlink(path))
    found = os.path.basename(path)
    return found if found in COMMANDS else ""


def _run(name: str, words: list[str]) -> int:
    """Imports a command, runs it with these words, and returns its status."""
    if name not in COMMANDS:
        raise UsageError(f"name a command: {', '.join(COMMANDS)}")
    if words == ["--version"]:  # without the time that the libraries of a command take
        print(f"{name} {VERSION}")
        return 0
    command = import_module(f"pert_companion.cli.{COMMANDS[name]}")
    status: int = command.run(command.parser().parse_args(words))
    return status


if __name__ == "__main__":
    main()
