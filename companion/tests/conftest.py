"""What all tests share: the gate draws the same random examples each time."""

import os

from hypothesis import HealthCheck, settings

# How long an example takes depends on what else the machine does, and is no reason to fail.
UNTIMED = settings(deadline=None, suppress_health_check=[HealthCheck.too_slow])
settings.register_profile("gate", parent=UNTIMED, derandomize=True, database=None)
settings.register_profile("random", parent=UNTIMED)
settings.load_profile("random" if os.environ.get("COMPANION_RANDOM") else "gate")
