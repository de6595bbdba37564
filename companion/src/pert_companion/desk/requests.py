"""What requests bring: JSON with checked fields, and files; each fault is a `DeskError`."""

import json
from collections.abc import Mapping
from pathlib import Path
from tempfile import SpooledTemporaryFile
from typing import Any

from starlette.datastructures import UploadFile
from starlette.requests import Request

from pert_companion.desk.errors import DeskError, KindError

UPLOAD_HEADER = "x-pert-desk"
"""A form of another site cannot send it."""
MOST_EDITS = 10_000
"""Edits of one request."""


class Body:
    """The JSON of a request."""

    def __init__(self, values: Mapping[str, Any]) -> None:
        """Takes the object."""
        self.values = values

    def number(self, name: str) -> int:
        """Returns a whole number; `DeskError` if there is none."""
        found = self.optional_number(name)
        if found is None:
            raise DeskError(f"the request has no number {name}")
        return found

    def optional_number(self, name: str) -> int | None:
        """Returns a whole number, or None if the request has none."""
        found = self.values.get(name)
        if found is not None and (not isinstance(found, int) or isinstance(found, bool)):
            raise DeskError(f"{name} is no whole number")
        return found

    def text(self, name: str) -> str:
        """Returns a text; an empty one if the request has none."""
        found = self.values.get(name, "")
        if not isinstance(found, str) or len(found) > 4000:
            raise DeskError(f"{name} is no short text")
        return found

    def flag(self, name: str) -> bool:
        """Returns whether something is asked for."""
        return self.values.get(name) is True

    def texts(self, name: str) -> list[str]:
        """Returns a list of texts; an empty one if the request has none."""
        found = self.values.get(name, [])
        if not isinstance(found, list) or not all(isinstance(each, str) for each in found):
            raise DeskError(f"{name} is no list of texts")
        return found

    def objects(self, name: str) -> list["Body"]:
        """Returns a list of objects; `DeskError` if there is none."""
        found = self.values.get(name)
        if not isinstance(found, list) or not found or len(found) > MOST_EDITS:
            raise DeskError(f"{name} is no list of 1 to {MOST_EDITS} entries")
        if not all(isinstance(each, dict) for each in found):
            raise DeskError(f"{name} is no list of objects")
        return [Body(each) for each in found]


async def json_body(request: Request) -> Body:
    """Returns the JSON of a request that is not GET."""
    if request.method in ("GET", "HEAD", "DELETE"):
        return Body({})
    kind = request.headers.get("content-type", "").partition(";")[0].strip()
    if kind != "application/json":
        raise KindError("the request is no JSON")
    return Body(parsed_object(await request.body()))


def parsed_object(text: bytes | str) -> dict[str, Any]:
    """Returns the object of a text of JSON."""
    try:
        found = json.loads(text)
    except (ValueError, RecursionError):
        raise DeskError("the request is no JSON") from None
    if not isinstance(found, dict):
        raise DeskError("the request is no JSON object")
    return found


class Dropped:
    """A file that was dropped, with its options."""

    def __init__(self, name: str, file: SpooledTemporaryFile[bytes] | None, options: str) -> None:
        """Takes the name that the browser says, the content if there is any, and JSON."""
        self.name = Path(name.replace("\\", "/")).name
        self._file = file
        self.options = parsed_object(options or "{}")

    @property
    def has_file(self) -> bool:
        """Says whether there is a file, and not only options."""
        return self._file is not None and bool(self.name)

    def data(self) -> bytes:
        """Returns the content of the file."""
        if self._file is None or not self.name:
            raise DeskError("the request has no file")
        self._file.seek(0)
        return self._file.read()


async def dropped_file(request: Request) -> Dropped:
    """Returns the file of a request."""
    if UPLOAD_HEADER not in request.headers:
        raise DeskError("the request lacks the header X-Pert-Desk")
    if not request.headers.get("content-type", "").startswith("multipart/form-data"):
        raise KindError("the request is no form with a file")
    form = await request.form(max_files=1, max_fields=4)
    file, options = form.get("file"), form.get("options") or "{}"
    if not isinstance(options, str):
        raise DeskError("the options are no JSON")
    if isinstance(file, UploadFile):
        held: Any = file.file
        return Dropped(file.filename or "", held, options)
    return Dropped("", None, options)
