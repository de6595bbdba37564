"""What goes wrong at the desk, each with its status and its JSON."""

import errno
from collections.abc import Mapping

from pert_companion.model.errors import CompanionError, ProgramEndedError, UsageError
from pert_companion.model.lines import one_line


class DeskError(Exception):
    """A request that is not done. Its text is one line for people."""

    status = 400
    code = "bad-request"

    def __init__(self, message: str, details: Mapping[str, object] | None = None) -> None:
        """Takes the line, and what else the JSON has."""
        super().__init__(message)
        self.details = dict(details or {})

    def json(self) -> dict[str, object]:
        """Returns the one form of all errors."""
        error: dict[str, object] = {"code": self.code, "message": one_line(str(self))}
        return {"error": error | self.details}


class NoAccessError(DeskError):
    """A request without the cookie."""

    status, code = 401, "no-access"


class ForeignError(DeskError):
    """A request that another site may have sent: another Host, or another Origin."""

    status, code = 403, "no-access"


class MissingError(DeskError):
    """There is no such thing."""

    status, code = 404, "not-found"


class SlowError(DeskError):
    """A body that comes too slowly."""

    status, code = 408, "too-slow"


class ConflictError(DeskError):
    """Another tab has changed the project."""

    status, code = 409, "conflict"


class OutsideError(DeskError):
    """Somebody else has changed the file."""

    status, code = 409, "changed-outside"


class LargeError(DeskError):
    """A body that is too long."""

    status, code = 413, "too-large"


class KindError(DeskError):
    """A body that is not of the type that is wanted."""

    status, code = 415, "bad-request"


class RefusedError(DeskError):
    """What the programs or the rules of a deck refuse."""

    status, code = 422, "refused"


class BusyError(DeskError):
    """Too much is asked at once."""

    status, code = 429, "too-many"


class FailedError(DeskError):
    """Something that should not happen; the log has more."""

    status, code = 500, "failed"


class DiskError(DeskError):
    """The disk is full, or does not take what is written."""

    status, code = 503, "disk-full"


class EndedProgramError(DeskError):
    """A program ended without an answer."""

    status, code = 503, "program-ended"


NO_PLACE = (errno.ENOSPC, errno.EDQUOT, errno.EROFS, errno.EFBIG)


def desk_error(error: Exception) -> DeskError:
    """Returns what the browser is told of an error of the package or of the system."""
    if isinstance(error, DeskError):
        return error
    if isinstance(error, (ProgramEndedError, UsageError)):
        return EndedProgramError(str(error))
    if isinstance(error, CompanionError):
        return RefusedError(str(error))
    if isinstance(error, OSError):
        kind = DiskError if error.errno in NO_PLACE else FailedError
        return kind(f"{error.strerror or error}; nothing was changed")
    return FailedError("this failed; the window of pert-desk says more")
