"""The errors that a command reports to its user, each with the one line that it prints."""

from signal import Signals


class CompanionError(Exception):
    """A reason to stop. Its text is the line for standard error, without the command's name."""

    status = 1


class UsageError(CompanionError):
    """What was asked for makes no sense: wrong options, a missing program or a missing library."""

    status = 2


class InputError(CompanionError):
    """A file that cannot be used. The line names the file and the place in it."""


class EndedError(BaseException):
    """A signal asked the process to end. It is no `Exception`, so nothing passes over it."""

    def __init__(self, number: Signals) -> None:
        """Takes the signal."""
        super().__init__(number)
        self.number = number


class ProgramError(CompanionError):
    """A program of `pert` refused its input or failed. The line is the program's own fault line."""


class ProgramEndedError(ProgramError):
    """A program of `pert` ended without an answer and without a reason, as when it is killed."""
