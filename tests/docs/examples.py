#!/usr/bin/env python3
"""Compares the examples in doc comments with tests: the command of the package tools/doc_examples."""
import sys
from pathlib import Path

sys.dont_write_bytecode = True
TOP = Path(__file__).resolve().parent.parent.parent
sys.path.insert(0, str(TOP / "tools"))

from doc_examples.main import run  # noqa: E402

sys.exit(run(TOP, sys.argv[1:]))
