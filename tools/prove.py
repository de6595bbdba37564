#!/usr/bin/env python3
"""Proves and builds programs: the command of the package tools/proving."""
import sys
from pathlib import Path

sys.dont_write_bytecode = True
TOOLS = Path(__file__).resolve().parent
sys.path.insert(0, str(TOOLS))

from proving.main import run  # noqa: E402

sys.exit(run(TOOLS.parent, sys.argv[1:]))
