"""Writes files: whole or not at all, and never over something else by accident.

A command makes one `Outputs` of the files that it reads and writes everything through it. A path
that is one of those files, or that holds a file of another kind, is refused unless the user asks
for it (`--overwrite`). `-` is standard output.
"""

import errno
import os
import re
import secrets
import stat
import sys
from collections.abc import Iterable, Sequence
from dataclasses import dataclass
from pathlib import Path

from pert_companion.model.errors import UsageError
from pert_companion.model.source import STANDARD_STREAM, shown_name

MOST_LINKS = 40
"""A path with more links, one after another, is a circle."""
STANDARD_INPUT = 0
SHARED = stat.S_IWGRP | stat.S_IWOTH
"""A folder with any of these bits is one to which others can write."""
OPEN_FILES = Path("/proc/self/fd")
"""Through it a file without a name gets one; some chroots and containers have no /proc."""
_BEGINNING = 4096
"""The bytes of a file that show of what kind it is."""


@dataclass(frozen=True)
class FileKind:
    """A kind of file that commands write."""

    name: str
    """What it is called in a message, with its article."""
    beginning: str
    """A regular expression for what such a file begins with, after spaces."""

    def includes(self, beginning: bytes) -> bool:
        """Says whether a file that begins like this is of this kind. An empty file is of any."""
        text = beginning.decode("utf-8", "replace").lstrip("\ufeff \t\r\n")
        return not text or re.match(self.beginning, text, re.IGNORECASE) is not None


DECK = FileKind("a deck", '"?PROJECT"?,')
SIDE_FILE = FileKind("a side file", r'\{\s*"version":\s*[0-9]+,\s*"deck":')
LEDGER = FileKind("a ledger", "kind,date,account,amount,")
PAGE = FileKind("a page", "<!doctype html>")
WORKBOOK = FileKind("a workbook", "PK\x03\x04")
PLAN_XML = FileKind("a plan in XML", r"<\?xml |<Project")
PLAN_GAN = FileKind("a plan of GanttProject", r"<\?xml |<project")
PLAN_XER = FileKind("a plan in XER", "ERMHDR")
CALENDAR_FILE = FileKind("a calendar file", "BEGIN:VCALENDAR")


@dataclass(frozen=True)
class Output:
    """A file to write."""

    path: Path
    kind: FileKind
    data: bytes


class Outputs:
    """What a command writes, checked against what it reads."""

    def __init__(self, inputs: Iterable[Path | None] = (), overwrite: bool = False) -> None:
        """Takes the files that the command reads, and whether the user wants any file replaced."""
        named = (path for path in inputs if path is not None)
        self._inputs = {path: found for path in named if (found := _identity(path)) is not None}
        self._overwrite = overwrite

    def check(self, path: Path, kind: FileKind) -> None:
        """Raises `UsageError` if a file of this kind must not be written to a path.

        Commands call it before they compute anything; `write` does so in any case.
        """
        if path == STANDARD_STREAM or self._overwrite:
            return
        place = _place(path)
        found = _identity(place)
        for read, identity in self._inputs.items():
            if found == identity:
                raise UsageError(f"{path}: this is {_as_input(read, path)}; see --overwrite")
        if place.is_file() and not kind.includes(_beginning(place)):
            raise UsageError(f"{path}: there is a file that is not {kind.name}; see --overwrite")

    def write(self, *outputs: Output) -> None:
        """Writes files, all of them or none, and those to `-` to standard output."""
        files = [output for output in outputs if output.path != STANDARD_STREAM]
        for output in files:
            self.check(output.path, output.kind)
        places = [_place(output.path) for output in files]
        for number, place in enumerate(places):
            if place in places[:number]:
                raise UsageError(f"{files[number].path}: two files would have this name")
        for output in outputs:
            if output.path == STANDARD_STREAM:
                sys.stdout.buffer.write(output.data)
        write_together([(output.path, output.data) for output in files])


def _as_input(read: Path, path: Path) -> str:
    """Returns what a path is that names a file which the command reads."""
    if read == path:
        return "read by the same command"
    return f"{shown_name(read)}, read by the same command"


def _identity(path: Path) -> tuple[int, int] | None:
    """Returns what identifies a regular file under all its names, or None if there is none.

    That of `-` is the file from which standard input comes.
    """
    try:
        found = os.fstat(STANDARD_INPUT) if path == STANDARD_STREAM else path.stat()
    except OSError:
        return None
    return (found.st_dev, found.st_ino) if stat.S_ISREG(found.st_mode) else None


def _beginning(path: Path) -> bytes:
    with path.open("rb") as file:
        return file.read(_BEGINNING)


def write_whole(path: Path, data: bytes) -> None:
    """Writes `data` to `path` by way of a new file next to it, so that no half file is ever seen.

    An existing file keeps its mode; a new one gets the mode that the umask allows. A path that is
    no regular file (a device, a pipe) is written directly.
    """
    write_together([(path, data)])


def write_together(files: Sequence[tuple[Path, bytes]]) -> None:
    """Writes several files, all of them or none.

    All new content is there before the first file is replaced. If one of them cannot be replaced,
    those before it get their old content back.
    """
    begun: list[_Begun] = []
    done: list[tuple[Path, bytes | None]] = []
    try:
        for path, data in files:
            place = _place(path)
            if place.exists() and not place.is_file():
                place.write_bytes(data)
            else:
                begun.append(_Begun(path, place, data))
        for new in begun:
            old = new.place.read_bytes() if len(begun) > 1 and new.place.exists() else None
            new.finish()
            done.append((new.place, old))
    except BaseException:
        for place, old in done:
            _restore(place, old)
        raise
    finally:
        for new in begun:
            new.drop()


class _Begun:
    """The new content of a file, which has no name until it is complete."""

    def __init__(self, path: Path, place: Path, data: bytes) -> None:
        """Writes the content. `path` is how the user calls the place."""
        self.place = place
        self._temporary = place.with_name(f".{place.name[:50]}.{secrets.token_hex(6)}")
        mode = stat.S_IMODE(place.stat().st_mode) if place.exists() else None
        try:
            self._handle = self._open(0o666 if mode is None else mode)
        except OSError as error:
            raise OSError(error.errno, error.strerror, str(path)) from error
        try:
            with os.fdopen(self._handle, "wb", closefd=False) as file:
                file.write(data)
            if mode is not None:
                os.fchmod(self._handle, mode)
        except BaseException:
            self.drop()
            raise

    def _open(self, mode: int) -> int:
        """Opens a file without a name, or a new one where the system has only named ones."""
        flags = os.O_WRONLY | os.O_CLOEXEC
        if OPEN_FILES.is_dir():
            try:
                return os.open(self.place.parent, flags | os.O_TMPFILE, mode)
            except OSError as error:
                if error.errno not in (errno.EOPNOTSUPP, errno.EISDIR, errno.EINVAL):
                    raise
        return os.open(self._temporary, flags | os.O_CREAT | os.O_EXCL, mode)

    def finish(self) -> None:
        """Puts the new content in the place of the old one."""
        if os.fstat(self._handle).st_nlink == 0:
            opened = OPEN_FILES / str(self._handle)
            # with a folder given, Python calls linkat, which follows this link to the open file
            os.link(opened, self._temporary, src_dir_fd=self._handle, follow_symlinks=True)
        os.replace(self._temporary, self.place)

    def drop(self) -> None:
        """Closes the file, and removes what is not in its place yet."""
        os.close(self._handle)
        self._temporary.unlink(missing_ok=True)


def _restore(path: Path, data: bytes | None) -> None:
    if data is None:
        path.unlink(missing_ok=True)
    else:
        write_whole(path, data)


def _place(path: Path) -> Path:
    """Returns where a path leads after links; what it leads to need not exist.

    A link in a folder to which others can write is an error, also one of a folder on the way: one
    of them may have planted it.
    """
    place = path.absolute()
    for _ in range(MOST_LINKS):
        link = _first_link(place)
        if link is None:
            return place.parent.resolve() / place.name
        if link.parent.stat().st_mode & SHARED:
            raise OSError(errno.ELOOP, "a link in a folder that others can write to", str(path))
        target = link.parent / os.readlink(link)
        if link.exists() and not target.exists():
            return place  # an open file of a process, such as /dev/stdout
        place = target / place.relative_to(link)
    raise OSError(errno.ELOOP, os.strerror(errno.ELOOP), str(path))


def _first_link(path: Path) -> Path | None:
    """Returns the first part of an absolute path that is a link."""
    for part in reversed((path, *path.parents)):
        if part.is_symlink():
            return part
    return None
