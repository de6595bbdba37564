"""The command `tests/docs/examples.py`."""

import re
from dataclasses import dataclass
from pathlib import Path

USAGE = """Compares each example in a doc comment with the function of a test crate that it names.

    tests/docs/examples.py

A `# Examples` section of a .rt file has lines between two fences and then names the function
that has the same lines as its body. That function is in src/examples.rt of a test crate, and a test
there sees that it returns `Some(true)`. Each of the calls that a caller tries first has such a
section.
"""

# The calls that a caller tries first: the file of each and how its definition begins.
CALLS = (
    ("pc_deck/src/read.rt", "pub fn read_cards("),
    ("pc_project/src/phases.rt", "pub fn project_of("),
    ("pc_net/src/network.rt", "pub fn build("),
    ("pc_crash/src/crash_net.rt", "pub fn build("),
    ("pc_flow/src/solver.rt", "pub fn begin("),
    ("pc_curve/src/breaks.rt", "pub fn next<"),
    ("pc_curve/src/points.rt", "pub fn point_at<"),
    ("pc_total/src/finding.rt", "pub fn best<"),
    ("pc_certify/src/certifying.rt", "pub fn certify<"),
    ("pc_check/src/audit.rt", "pub fn audit_source<"),
    ("pc_whatif/src/session.rt", "pub fn begin("),
    ("pert_cli/src/top.rt", "pub fn run<"),
)
SECTION = "/// # Examples"
FENCE = "/// ```"
NAMED = re.compile(r"`(\w+)::examples::(\w+)`")


@dataclass(frozen=True)
class Example:
    """The lines of an example, the function that it names, and the definition below it."""

    lines: list[str]
    crate: str
    function: str
    definition: str


def example_at(lines: list[str], begin: int) -> Example | str:
    """The example of the section that begins at this line, or what is wrong with it."""
    doc = []
    rest = iter(lines[begin:])
    definition = next(rest, "")
    for line in rest:
        definition = line.strip()
        if not definition.startswith("///"):
            break
        doc.append(definition)
    if doc.count(FENCE) != 2:
        return "a section has one example between two fences"
    first = doc.index(FENCE)
    last = doc.index(FENCE, first + 1)
    named = NAMED.search(" ".join(doc[last:]))
    if named is None:
        return "names no function of an examples module"
    shown = [line.removeprefix("///").removeprefix(" ") for line in doc[first + 1 : last]]
    return Example(shown, named[1], named[2], definition)


def body_of(source: str, function: str) -> list[str] | None:
    """The lines of the body of a function, or None if the source has no such function."""
    lines = source.splitlines()
    heads = (n for n, line in enumerate(lines) if re.match(rf"fn {function}[<(]", line))
    begin = next(heads, len(lines))
    opening = next((n for n in range(begin, len(lines)) if lines[n].endswith("{")), None)
    if opening is None:
        return None
    body: list[str] = []
    for line in lines[opening + 1 :]:
        if line == "}":
            return body
        body.append(line.removeprefix("    "))
    return None


def is_tested(source: str, function: str) -> bool:
    """Whether a test of the module asserts that a function gives true, or one that returns it."""
    if re.search(rf"assert!\(rt; {function}\([^;]*\) == Some\(true\)\);", source):
        return True
    callers = re.findall(r"^fn (\w+)", source, re.M)
    return any(returns(source, it, function) and is_tested(source, it) for it in callers)


def returns(source: str, caller: str, function: str) -> bool:
    """Whether a function of the module calls another and returns what it gives."""
    body = body_of(source, caller) or [""]
    made = re.search(rf"let (\w+) = {function}(?:::<\w+>)?\(", "\n".join(body))
    given = re.match(rf"{function}(?:::<\w+>)?\(", body[-1]) is not None
    return caller != function and (given or made is not None and made[1] == body[-1])


def fault_of(crates: Path, example: Example) -> str | None:
    """What is wrong with an example, or None."""
    file = crates / example.crate / "src" / "examples.rt"
    source = file.read_text() if file.is_file() else ""
    body = body_of(source, example.function)
    if body is None:
        return f"{example.crate}::examples has no function {example.function}"
    if not is_tested(source, example.function):
        return f"no test sees that {example.crate}::examples::{example.function} gives true"
    for number, (shown, tested) in enumerate(zip(example.lines, body), 1):
        if shown != tested:
            return f"line {number} is '{shown}', but '{tested}' in {example.function}"
    if len(example.lines) != len(body):
        return f"has {len(example.lines)} lines, but {example.function} has {len(body)}"
    return None


def check(crates: Path, calls: tuple[tuple[str, str], ...]) -> tuple[int, list[str]]:
    """The number of examples, and what is wrong with them."""
    faults = []
    shown = set()
    count = 0
    for path in sorted(crates.glob("*/src/**/*.rt")):
        name = path.relative_to(crates).as_posix()
        lines = path.read_text().splitlines()
        for begin, line in enumerate(lines):
            if line.strip() != SECTION:
                continue
            count += 1
            example = example_at(lines, begin)
            if isinstance(example, str):
                faults.append(f"crates/{name}:{begin + 1}: {example}")
                continue
            shown.add((name, example.definition))
            if fault := fault_of(crates, example):
                faults.append(f"crates/{name}:{begin + 1}: {fault}")
    for file, begins in calls:
        if not any(name == file and it.startswith(begins) for name, it in shown):
            faults.append(f"crates/{file}: '{begins}' has no example")
    return count, faults


def run(top: Path, words: list[str]) -> int:
    """Runs the command and returns its status."""
    if words:
        print(USAGE, end="")
        return 0 if words[0] in ("-h", "--help") else 2
    count, faults = check(top / "crates", CALLS)
    for fault in faults:
        print(f"FAILED examples: {fault}")
    if faults:
        print(f"examples: {len(faults)} failed")
        return 1
    print(f"examples: {count} are the lines of functions that tests run")
    return 0
