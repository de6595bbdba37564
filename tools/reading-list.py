#!/usr/bin/env python3
"""Prints the definitions behind the promises: the command of the package tools/reading_list."""
import sys
from pathlib import Path

sys.dont_write_bytecode = True
TOOLS = Path(__file__).resolve().parent
sys.path.insert(0, str(TOOLS))

from reading_list.main import run  # noqa: E402

sys.exit(run(TOOLS.parent, sys.argv[1:]))
