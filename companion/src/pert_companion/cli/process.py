"""What the process of a command needs: standard streams, and an end by signals in good order."""

import os
import signal
import sys
from types import FrameType

from pert_companion.model.errors import EndedError
from pert_companion.programs.children import end_children

ENDING = (signal.SIGINT, signal.SIGTERM, signal.SIGHUP)
"""The signals that ask a process to end."""


def prepare() -> None:
    """Opens standard streams that are closed, and makes signals end the command by an exception.

    A signal that is ignored already, as `nohup` does, stays ignored.
    """
    _open_streams()
    for number in ENDING:
        if signal.getsignal(number) != signal.SIG_IGN:
            signal.signal(number, _end)


def _end(number: int, _frame: FrameType | None) -> None:
    """Ends what this process has started, and raises an error, so that new files are removed.

    Further signals do nothing: some senders, such as `timeout`, send two.
    """
    for other in ENDING:
        signal.signal(other, _pass_over)
    end_children()
    raise EndedError(signal.Signals(number))


def _pass_over(_number: int, _frame: FrameType | None) -> None:
    """Does nothing."""


def _open_streams() -> None:
    """Puts something in the place of each standard stream that is closed.

    Otherwise the next file that is opened would become one. Reading and writing fails there,
    except that messages go nowhere.
    """
    for number, flags in enumerate((os.O_WRONLY, os.O_RDONLY, os.O_WRONLY)):
        try:
            os.fstat(number)
        except OSError:
            os.open(os.devnull, flags)  # it gets the lowest number that is free
    if sys.stdin is None:
        sys.stdin = open(0, encoding="utf-8", closefd=False)
    if sys.stdout is None:
        sys.stdout = open(1, "w", encoding="utf-8", closefd=False)
    if sys.stderr is None:
        sys.stderr = open(2, "w", encoding="utf-8", closefd=False)
