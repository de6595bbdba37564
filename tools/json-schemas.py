#!/usr/bin/python3
"""Writes docs/json/, the schemas of what the companion's commands write with --json.

    tools/json-schemas.py            writes the files
    tools/json-schemas.py --check    names each file that is not as it would be written
"""
import json
import sys
from pathlib import Path

sys.dont_write_bytecode = True
TOP = Path(__file__).resolve().parent.parent
FOLDER = TOP / "docs" / "json"
sys.path.insert(0, str(TOP / "companion" / "src"))


def main(words: list[str]) -> int:
    """Does what the words say, and returns the status."""
    if words not in ([], ["--check"]):
        print(__doc__, end="")
        return 0 if words in (["-h"], ["--help"]) else 2
    try:
        from pert_companion.cli.json_schemas import schemas  # type: ignore[import]
    except ModuleNotFoundError as error:
        print(f"json-schemas: skipped, since Python has no {error.name}")
        return 0
    status = 0
    for name, schema in schemas().items():
        path, text = (
            FOLDER / name,
            json.dumps(schema, indent=1, ensure_ascii=False) + "\n",
        )
        if words and (not path.exists() or path.read_text(encoding="utf-8") != text):
            print(f"FAILED json-schemas: docs/json/{name} is not up to date: tools/json-schemas.py")
            status = 1
        elif not words:
            path.write_text(text, encoding="utf-8")
    return status


sys.exit(main(sys.argv[1:]))
