#!/usr/bin/python3
"""Plants one changed line at a time in a copy of the companion, and runs the tests for it.

    companion/tests/mutants.py [WORD..]     those of files whose name has one of the words

Each row of mutants.txt has a file of src/pert_companion, the text that stands there once, the text
that takes its place, and the tests. A row that no test notices is printed, and the status is 1.
"""

import shutil
import subprocess
import sys
import tempfile
from concurrent.futures import ThreadPoolExecutor
from pathlib import Path

COMPANION = Path(__file__).resolve().parents[1]
ROWS = COMPANION / "tests" / "mutants.txt"
SHARED = ("bin", "docs", "examples", "VERSION")
"""What tests read of the checkout besides the companion."""
AT_ONCE = 2


def survived(row: str) -> bool:
    """Says whether the tests pass with the change of a row."""
    name, old, new, tests = row.split(" | ")
    with tempfile.TemporaryDirectory() as scratch:
        top = Path(scratch)
        shutil.copytree(COMPANION, top / "companion")
        for shared in SHARED:
            (top / shared).symlink_to(COMPANION.parent / shared)
        path = top / "companion" / "src" / "pert_companion" / name
        text = path.read_text("utf-8")
        if text.count(old) != 1:
            sys.exit(f"mutants: {name} has {old!r} {text.count(old)} times, not once")
        path.write_text(text.replace(old, new), "utf-8")
        command = [sys.executable, "-m", "pytest", "-xq", "-p", "no:cacheprovider", *tests.split()]
        ended = subprocess.run(command, cwd=top / "companion", capture_output=True, text=True)
        if ended.returncode not in (0, 1):
            sys.exit(f"mutants: the tests of {row} did not run:\n{ended.stdout}{ended.stderr}")
        print("SURVIVED" if ended.returncode == 0 else "caught  ", row, flush=True)
        return ended.returncode == 0


def main() -> int:
    """Tries the rows, and returns the status."""
    lines = ROWS.read_text("utf-8").splitlines()
    rows = [line for line in lines if line and not line.startswith("#")]
    words = sys.argv[1:]
    if words:
        rows = [row for row in rows if any(word in row.split(" | ")[0] for word in words)]
    with ThreadPoolExecutor(AT_ONCE) as threads:
        count = sum(threads.map(survived, rows))
    print(f"mutants: {count} of {len(rows)} survived")
    return 1 if count else 0


if __name__ == "__main__":
    sys.exit(main())
