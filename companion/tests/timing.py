"""How long something may take in the tests: processor time, with an allowance for measuring."""

import sys
import time
from collections.abc import Iterator
from contextlib import contextmanager

MEASURING = 5
"""How many times as long Python takes while coverage is measured, at the most."""


@contextmanager
def within(seconds: float) -> Iterator[None]:
    """Fails if what it holds takes more processor time than so many seconds."""
    begun = time.process_time()
    yield
    taken = time.process_time() - begun
    assert taken < seconds * (MEASURING if sys.gettrace() else 1), taken
