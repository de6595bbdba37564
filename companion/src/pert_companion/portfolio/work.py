"""Makes the rows of many decks: from the cache, side by side here, or on other hosts."""

import base64
import json
import os
import signal
import sys
import tempfile
from collections.abc import Callable, Iterable, Iterator, Sequence
from concurrent.futures import Future, ProcessPoolExecutor, as_completed
from concurrent.futures.process import BrokenProcessPool
from multiprocessing import active_children
from pathlib import Path
from threading import Event, Lock, Thread
from types import FrameType

from pert_companion.model.errors import UsageError
from pert_companion.model.sidefile import side_path
from pert_companion.portfolio.hosts import Hosts
from pert_companion.portfolio.job import Job
from pert_companion.portfolio.row import Row, row_of
from pert_companion.portfolio.stored import Cache, row_text
from pert_companion.programs.children import end_children
from pert_companion.programs.client import Programs

AT_ONCE = 16
"""Decks that are read one by one when a process has crashed, to find the one that did it."""

PAUSE = 5.0
"""The seconds between two signs of life of a host, a part of `hosts.SILENCE`."""

ROLES = ("deck", "previous", "baseline")
"""What the decks of a job are to its row."""

Answers = Iterator[tuple[int, Row]]

Progress = Callable[[int, int, str], None]
"""Gets how many of how many decks are done, and the name of the last."""


def rows_of(
    programs: Programs,
    jobs: Sequence[Job],
    cache: Cache,
    hosts: Hosts | None,
    progress: Progress,
) -> list[Row]:
    """Returns the row of each deck, in order. Rows with faults are not kept in the cache."""
    keys = [cache.key(job) for job in jobs]
    rows = {number: cache.get(key, jobs[number].name) for number, key in enumerate(keys)}
    wanted = [number for number, row in rows.items() if row is None]
    done = len(jobs) - len(wanted)
    progress(done, len(jobs), "")
    chosen = [(number, jobs[number]) for number in wanted]
    made = _here(programs, chosen) if hosts is None else hosts.rows(chosen)
    for number, row in made:
        rows[number] = row
        if not row.fault:
            cache.put(keys[number], row)
        done += 1
        progress(done, len(jobs), jobs[number].name)
    return [_answered(job, rows[number]) for number, job in enumerate(jobs)]


def _answered(job: Job, row: Row | None) -> Row:
    """Returns the row of a deck, or one that says that nobody answered."""
    if row is None:
        return Row(job.name, fault="no host answered for this deck")
    return row


def _here(programs: Programs, jobs: Sequence[tuple[int, Job]]) -> Answers:
    """Yields rows as they are done, with as many processes as there are processors.

    When a process crashes, nobody knows which deck it was: the first ones that have no row are read
    again, each in a process of its own, and the one that crashes again has that as its fault.
    """
    waiting = dict(jobs)
    while waiting:
        try:
            yield from _taken(_side_by_side(programs, list(waiting.items())), waiting)
        except BrokenProcessPool:
            for number, job in list(waiting.items())[:AT_ONCE]:
                yield from _taken(_alone(programs, number, job), waiting)


def _taken(answers: Answers, waiting: dict[int, Job]) -> Answers:
    """Yields answers, and takes their decks off those that wait."""
    for number, row in answers:
        del waiting[number]
        yield number, row


def _alone(programs: Programs, number: int, job: Job) -> Answers:
    """Yields the row of one deck, also if its process crashes."""
    try:
        yield from _side_by_side(programs, [(number, job)])
    except BrokenProcessPool:
        yield number, Row(job.name, fault="the process that read this deck crashed")


def _side_by_side(programs: Programs, jobs: Sequence[tuple[int, Job]]) -> Answers:
    """Yields rows as they are done. The workers end when a pipe is closed here."""
    life = os.pipe()
    try:
        yield from _pooled(programs, jobs, life)
    finally:
        for end in life:
            os.close(end)


def _pooled(programs: Programs, jobs: Sequence[tuple[int, Job]], life: tuple[int, int]) -> Answers:
    """Yields rows as they are done by workers that watch the pipe `life`."""
    workers = min(len(jobs), len(os.sched_getaffinity(0)))
    with ProcessPoolExecutor(workers, initializer=_follow_parent, initargs=life) as pool:
        waiting = {pool.submit(_row, programs, job): (number, job) for number, job in jobs}
        try:
            for future in as_completed(waiting):
                number, job = waiting[future]
                yield number, _answer(future, job)
        except BaseException:
            pool.shutdown(wait=False, cancel_futures=True)
            for worker in active_children():
                worker.terminate()
            raise


def _answer(future: "Future[Row]", job: Job) -> Row:
    """Returns the row of a deck; what went wrong in its process is a fault of the deck alone."""
    error = future.exception()
    if error is None:
        return future.result()
    if isinstance(error, (BrokenProcessPool, ImportError)):
        raise error
    return Row(job.name, fault=f"reading this deck failed: {type(error).__name__}: {error}")


def _row(programs: Programs, job: Job) -> Row:
    """Returns the row of a deck; ends the process if it is to stop, which a pool passes over."""
    try:
        return row_of(programs, job)
    except SystemExit:
        os._exit(1)


def _follow_parent(ended: int, held: int) -> None:
    """Makes this process end when its parent terminates it, or when its parent is gone.

    The parent alone holds the pipe open for writing at `held`; its end is seen at `ended`.
    An interrupt has a handler and is not ignored, because programs would inherit that and run on.
    """
    os.close(held)
    signal.signal(signal.SIGINT, _pass_over)
    signal.signal(signal.SIGHUP, _pass_over)
    signal.signal(signal.SIGTERM, _stop)
    Thread(target=_wait_for_parent, args=(ended,), daemon=True).start()


def _wait_for_parent(ended: int) -> None:
    """Ends this process when the pipe of its parent is closed."""
    os.read(ended, 1)
    os.kill(os.getpid(), signal.SIGTERM)


def _pass_over(_signal: int, _frame: FrameType | None) -> None:
    """Does nothing."""


def _stop(_signal: int, _frame: FrameType | None) -> None:
    """Ends this process and the program that it waits for."""
    end_children()
    raise SystemExit


class Answering:
    """What a host writes: rows, and an empty line now and then for as long as it works.

    An empty line comes before each row too, which ends a line that another host began and broke
    off.
    """

    def __init__(self, pause: float = PAUSE) -> None:
        """Takes the seconds between two empty lines."""
        self._pause = pause
        self._ended = Event()
        self._lock = Lock()
        self._thread = Thread(target=self._repeat, daemon=True)

    def __enter__(self) -> "Answering":
        """Begins to write empty lines."""
        self._thread.start()
        return self

    def __exit__(self, *_: object) -> None:
        """Writes no more of them."""
        self._ended.set()
        self._thread.join()

    def write(self, text: str) -> None:
        """Writes a text as one."""
        with self._lock:
            sys.stdout.write(text)
            sys.stdout.flush()

    def _repeat(self) -> None:
        while not self._ended.wait(self._pause):
            try:
                self.write("\n")
            except OSError:  # nobody reads: the next row says so to the main thread
                return


def serve(programs: Programs, lines: Iterable[bytes]) -> None:
    """Reads decks as lines, and writes the row of each with its number: the work of a host."""
    with tempfile.TemporaryDirectory() as name, Answering() as answering:
        folder = Path(name)
        jobs = [_placed(line, folder) for line in lines if line.strip()]
        for number, row in _here(programs, jobs):
            answering.write(f"\n{number} {row_text(row)}\n")


def _placed(line: bytes, folder: Path) -> tuple[int, Job]:
    """Writes the files of a line into a folder, and returns the job."""
    try:
        packed = json.loads(line)
        number, name = packed["number"], packed["name"]
        files = {role: base64.b64decode(text) for role, text in packed["files"].items()}
    except (ValueError, TypeError, KeyError, AttributeError, RecursionError):
        raise UsageError("standard input has a line that is no deck") from None
    if not isinstance(number, int) or not isinstance(name, str):
        raise UsageError("standard input has a line that is no deck")
    paths = {role: folder / f"{role}-{number}.csv" for role in ROLES}
    for role, path in paths.items():
        for kind, target in (("", path), (".side", side_path(path))):
            if role + kind in files:
                target.write_bytes(files[role + kind])
    previous, baseline = (paths[role] if role in files else None for role in ROLES[1:])
    return number, Job(paths["deck"], previous, name, baseline)
