#!/usr/bin/python3
"""Writes the tables of what is carried over into docs/importing.md and docs/exporting.md.

    tools/carried-tables.py            writes them, each between its two comments
    tools/carried-tables.py --check    names each table that is not as it would be written
"""
import sys
from collections.abc import Mapping
from pathlib import Path

sys.dont_write_bytecode = True
TOP = Path(__file__).resolve().parent.parent
sys.path.insert(0, str(TOP / "companion" / "src"))


def tables() -> Mapping[str, Mapping[str, str]]:
    """Returns the text of each table by its name, by the page that it is in."""
    from pert_companion.readers.carried import carried_table  # type: ignore[import]
    from pert_companion.readers.gan_carried import GAN  # type: ignore[import]
    from pert_companion.readers.gnome_carried import GNOME  # type: ignore[import]
    from pert_companion.readers.list_carried import columns_table  # type: ignore[import]
    from pert_companion.readers.mspdi_carried import MSPDI  # type: ignore[import]
    from pert_companion.readers.p6_carried import P6  # type: ignore[import]
    from pert_companion.readers.taskjuggler_carried import TASKJUGGLER  # type: ignore[import]
    from pert_companion.writers.changed_fields import CHANGED, listed  # type: ignore[import]

    return {
        "docs/importing.md": {
            "columns": columns_table(),
            "mspdi": carried_table(MSPDI),
            "taskjuggler": carried_table(TASKJUGGLER),
            "p6": carried_table(P6),
            "gan": carried_table(GAN),
            "gnome": carried_table(GNOME),
        },
        "docs/exporting.md": {name: listed(name) for name in CHANGED},
    }


def with_table(page: str, name: str, text: str) -> str:
    """Returns a page with a table between its comments. Raises `ValueError` if it lacks them."""
    begin, end = f"<!-- table {name} -->\n", f"<!-- end of {name} -->\n"
    if page.count(begin) != 1 or page.count(end) != 1:
        raise ValueError(f"no place for the table {name}")
    before, _, rest = page.partition(begin)
    return f"{before}{begin}{text}{end}{rest.partition(end)[2]}"


def main(words: list[str]) -> int:
    """Does what the words say, and returns the status."""
    if words not in ([], ["--check"]):
        print(__doc__, end="")
        return 0 if words in (["-h"], ["--help"]) else 2
    try:
        known = tables()
    except ModuleNotFoundError as error:
        print(f"carried-tables: skipped, since Python has no {error.name}")
        return 0
    status = 0
    for name, texts in known.items():
        path = TOP / name
        page = path.read_text(encoding="utf-8")
        for table, text in texts.items():
            changed = with_table(page, table, text)
            if words and changed != page:
                print(f"FAILED carried-tables: {name}: {table}: run tools/carried-tables.py")
                status = 1
            page = changed
        if not words:
            path.write_text(page, encoding="utf-8")
    return status


if __name__ == "__main__":
    sys.exit(main(sys.argv[1:]))
