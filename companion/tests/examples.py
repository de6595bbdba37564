"""How many random examples the properties draw: few in the gate, as many as asked in a long run."""

import os


def example_count(in_the_gate: int) -> int:
    """Returns how many random plans a property draws: what `CARRY_EXAMPLES` says, if it is set."""
    return int(os.environ.get("CARRY_EXAMPLES", in_the_gate))


def length_count(in_the_gate: int) -> int:
    """Returns how many random plans are exported at three lengths: `LENGTH_EXAMPLES`, if set."""
    return int(os.environ.get("LENGTH_EXAMPLES", in_the_gate))
