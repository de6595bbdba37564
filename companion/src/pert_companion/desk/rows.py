"""The rows of the folder's page: those of the portfolio's, computed when they are asked for."""

import json
import re
from collections.abc import Sequence
from pathlib import Path
from threading import BoundedSemaphore

from pert_companion.desk.journal import Journal
from pert_companion.desk.views import Json
from pert_companion.model.sidefile import side_path
from pert_companion.portfolio.job import Job
from pert_companion.portfolio.page import HEADS, line_of
from pert_companion.portfolio.row import Row, row_of
from pert_companion.portfolio.stored import Cache
from pert_companion.portfolio.sums import sums_of
from pert_companion.portfolio.urgency import freshness, place_of
from pert_companion.programs.client import Programs

_SOURCE = re.compile(rb'^"source_name": ("(?:[^"\\\\]|\\\\.)*"),?$', re.MULTILINE)
STALE_DAYS = 31
"""Figures that are so many days older than the newest are flagged, as on the portfolio's page."""
AT_ONCE = 2
"""Rows that are computed at the same time."""


class FolderRows:
    """The rows of the decks of a folder, as far as they are known."""

    def __init__(self, programs: Programs, cache: Cache) -> None:
        """Takes the programs, and where rows of earlier runs are."""
        self._programs = programs
        self._cache = cache
        self._known: dict[Path, tuple[str, Row]] = {}
        self._places = BoundedSemaphore(AT_ONCE)

    def known(self, path: Path) -> Row | None:
        """Returns the row of a deck if it is known, also from an earlier desk."""
        key = self._cache.key(_job(path))
        held = self._known.get(path)
        if held is not None and held[0] == key:
            return held[1]
        row = self._cache.get(key, path.name)
        if row is not None:
            self._known[path] = key, row
        return row

    def row(self, path: Path) -> Row:
        """Returns the row of a deck; it is computed if it has to be."""
        row = self.known(path)
        if row is not None:
            return row
        key = self._cache.key(_job(path))
        with self._places:
            row = row_of(self._programs, _job(path))
        self._known[path] = key, row
        if not row.fault:
            self._cache.put(key, row)
        return row

    def json(self, path: Path, row: Row, all_paths: Sequence[Path]) -> Json:
        """Returns a row ready for show; what is old is told by the rows that are known."""
        fresh = freshness(
            [self._known[each][1] for each in all_paths if each in self._known], STALE_DAYS
        )
        line = line_of(row, path.with_suffix(".html"), fresh)
        is_fault, alarm, late = place_of(row, fresh)
        cells = [
            {
                "text": cell.text,
                "key": cell.key,
                "note": cell.note,
                "tone": cell.tone,
                "is_number": cell.is_number,
            }
            for cell in line.cells
        ]
        return {
            "heads": [{"name": head.name, "is_number": head.is_number} for head in HEADS],
            "cells": cells,
            "fault": line.fault,
            "alarms": line.alarms,
            "urgency": f"{int(is_fault)} {alarm} {10**12 + round(late * 100):014d}",
        }

    def sums(self, paths: Sequence[Path]) -> list[Json] | None:
        """Returns the sums of the portfolio's page; None until all rows are known."""
        if any(path not in self._known for path in paths):
            return None
        rows = [self._known[path][1] for path in paths]
        return [
            {"name": each.name, "overrun": each.overrun, "note": each.note, "is_bad": each.is_bad}
            for each in sums_of(rows)
        ]

    @staticmethod
    def source_of(path: Path) -> str:
        """Returns the planner's file that a deck came from, or an empty text."""
        try:
            with side_path(path).open("rb") as file:
                found = _SOURCE.search(file.read(1 << 16))
            return "" if found is None else str(json.loads(found[1]))
        except (OSError, ValueError):
            return ""

    @staticmethod
    def unsaved_of(path: Path) -> int:
        """Returns how many steps a killed desk has left in the journal of a deck."""
        kept = Journal(path).read()
        return 0 if kept is None else sum(1 for each in kept.records if "saving" not in each)


def _job(path: Path) -> Job:
    """Returns a deck of the folder as the portfolio reads it, compared with nothing."""
    return Job(path, None, path.name)
