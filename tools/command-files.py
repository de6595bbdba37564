#!/usr/bin/python3
"""Writes manual pages of commands, and completion of these and the programs: the command of the package tools/command_files."""
import sys
from pathlib import Path

sys.dont_write_bytecode = True
TOOLS = Path(__file__).resolve().parent
sys.path.insert(0, str(TOOLS))

from command_files.main import run  # noqa: E402

sys.exit(run(TOOLS.parent, sys.argv[1:]))
