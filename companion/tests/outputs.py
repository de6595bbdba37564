#!/usr/bin/python3
"""Runs the commands on the examples and cases, and compares what two versions of them write.

    companion/tests/outputs.py [--only WORD..] [--bin DIR] BEFORE [AFTER]
    companion/tests/outputs.py [--only WORD..] [--bin DIR] --save FILE [CHECKOUT]

BEFORE and AFTER are checkouts, or files that --save wrote; AFTER is this checkout by default. For
each command line whose results differ, the first difference is printed, and the status is 1.

A result is the status, both outputs, and the files that were written: pages and tables as text, a
workbook as the texts of its parts. Both versions read the files of this checkout and call the same
programs (default: those of its bin/). --only takes the inputs whose path has one of the words.
`pert-desk` writes nothing without requests; tests/desk has its answers.
"""

import argparse
import io
import json
import os
import re
import shutil
import subprocess
import sys
import tempfile
import zipfile
from collections.abc import Iterator, Sequence
from concurrent.futures import ThreadPoolExecutor
from pathlib import Path

TOP = Path(__file__).resolve().parents[2]
INPUTS = ("examples", "companion/tests/cases", "companion/tests/files")
PLANS = (".xml", ".xer", ".gan", ".planner", ".xlsx", ".txt")
"""The endings of planners' files; a CSV file is one unless it begins as a deck does."""
NOT_INPUTS = ("ledger.csv", "changes.csv", "explanations.csv", "packages.csv", "renames.csv")
MADE_AT = re.compile(r"<dcterms:(created|modified)[^>]*>[^<]*")
"""When a workbook was made, which differs each time."""
SECONDS = 120
_RAW = argparse.RawDescriptionHelpFormatter

Result = dict[str, str]
"""What a command line gave: its status, its outputs, and the files that it wrote, by names."""
Results = dict[str, Result]
"""The results by command line."""


def words_of_deck(deck: str, is_example: bool) -> Iterator[str]:
    """Yields the command lines for a deck; all of them for those right in examples/."""
    yield f"pert-schedule {deck}"
    yield f"pert-schedule {deck} --json"
    yield f"pert-export {deck} -o out/plan.xml --overwrite"
    yield f"pert-report {deck} -o out/page.html --overwrite"
    if not is_example:
        return
    for words in ("--csv --plan", "--gantt --optimum", "--chance --json"):
        yield f"pert-schedule {deck} {words}"
    for words in ("", " --csv", " --json"):
        yield f"pert-schedule {deck} --forecast{words}"
        yield f"pert-check-status {deck}{words}"
        yield f"pert-compare {deck}{words}"
        yield f"pert-compare {deck} --money{words}"
    for ending in ("xlsx", "csv", "ics"):
        yield f"pert-export {deck} --optimum -o out/plan.{ending} --overwrite"
    yield f"pert-days {deck}"
    yield f"pert-days {deck} --count 2026-10-12 --json"
    yield f"pert-remaining {deck}"
    yield f"pert-remaining {deck} -o out/rest.csv --json --overwrite"
    yield f"pert-report {deck} --brief -o out/brief.html --overwrite"
    yield "pert-report --check out/brief.html --json"
    yield f"pert-portfolio {deck} --no-cache --csv --json -o out/all.html --overwrite"


def words_of_plan(plan: str, is_example: bool) -> Iterator[str]:
    """Yields the command lines for a planner's file, and for the deck that it becomes."""
    yield f"pert-import {plan} --json --accept all -o out/refused.csv --start 2026-09-01 --strict"
    yield f"pert-import {plan} --accept all --differences -o out/deck.csv --overwrite"
    yield f"pert-import {plan} --accept all --crash-sheet out/ask.xlsx --overwrite"
    yield from words_of_deck("out/deck.csv", is_example)
    yield f"pert-export out/deck.csv --into {plan} -o out/into{Path(plan).suffix}"


def words_of_states(folder: str) -> Iterator[str]:
    """Yields the command lines for the states of a project, and the next state's."""
    for words in ("", " --csv", " --json", " --by 2026-06-10"):
        yield f"pert-compare {folder}{words}"
    for lines in ("", "structure", "accounts", "managers", "totals", "months"):
        chosen = f" --lines {lines}" if lines else ""
        for words in ("", " --csv", " --json"):
            yield f"pert-compare {folder} --earned{chosen}{words}"
    yield f"pert-compare {folder} --earned --threshold 5%,1000"
    yield f"pert-compare {folder} --earned -o out/value.xlsx"
    yield f"pert-compare {folder} --earned --threshold 5%,1000 -o out/formats.xlsx"
    yield f"pert-check-status {folder} --json"
    words = f"--baseline {folder}/plan.csv --previous {folder}/march.csv"
    yield f"pert-report {folder}/may.csv {words} -o out/may.html"
    yield f"pert-export {folder}/may.csv -o out/may.xlsx"
    yield f"pert-schedule {folder}/may.csv --forecast --baseline {folder}/plan.csv"


def words_of_pump() -> Iterator[str]:
    """Yields the command lines that keep a ledger and change a deck."""
    pump = "examples/pump"
    yield f"pert-ledger {pump}/plan.csv {pump}/lists/january-vouchers.csv --json"
    lists = f"--progress {pump}/lists/may-progress.csv --to-go {pump}/lists/may-to-go.csv"
    vouchers = f"{pump}/lists/may-vouchers.csv"
    words = f"{lists} --as-of 2026-05-31 --accept later --json"
    yield f"pert-ledger {pump}/april.csv {vouchers} {words} -o out/may.csv"
    yield f"pert-edit examples/months/april.csv contract=2026-12-31 penalty=2500 -o out/april.csv"
    yield f"pert-edit examples/months/april.csv overhead=4000 data-date=2026-04-30"
    yield "pert-report --verify-page out/verify.html"


def jobs(only: Sequence[str]) -> dict[str, list[str]]:
    """Returns the command lines by input. Those of one input run in one folder, in order."""
    found = {
        "examples/pump/ledger": list(words_of_pump()),
        "examples/pump/": list(words_of_states("examples/pump")),
        "examples/months/": list(words_of_states("examples/months")),
    }
    for folder in INPUTS:
        for path in sorted((TOP / folder).rglob("*")):
            name = str(path.relative_to(TOP))
            is_example = path.parent == TOP / "examples"
            if path.name in NOT_INPUTS or path.name.endswith(".ledger.csv") or not path.is_file():
                continue
            if (
                path.suffix == ".csv"
                and path.read_bytes().lstrip(b'"\xef\xbb\xbf')[:7] == b"PROJECT"
            ):
                found[name] = list(words_of_deck(name, is_example))
            elif path.suffix in (*PLANS, ".csv"):
                found[name] = list(words_of_plan(name, is_example))
    wanted = {name: lines for name, lines in found.items() if any(word in name for word in only)}
    return wanted if only else found


def text_of(path: Path) -> str:
    """Returns a file as text; of a workbook the texts of its parts, without when it was made."""
    data = path.read_bytes()
    if not data.startswith(b"PK\x03\x04"):
        return data.decode("utf-8", "backslashreplace")
    parts = []
    with zipfile.ZipFile(io.BytesIO(data)) as book:
        for name in sorted(book.namelist()):
            part = book.read(name).decode("utf-8", "backslashreplace")
            parts.append(f"{name}\n{MADE_AT.sub('', part)}\n")
    return "".join(parts)


def written(folder: Path, known: dict[str, str]) -> Result:
    """Returns the files of a folder that are new or have other texts than the known ones."""
    found = {}
    for path in sorted(folder.rglob("*")):
        if path.is_file():
            found[str(path.relative_to(folder))] = text_of(path)
    new = {name: text for name, text in found.items() if known.get(name) != text}
    known.clear()
    known.update(found)
    return new


def run_job(checkout: Path, programs: Path, lines: Sequence[str]) -> Results:
    """Returns the results of command lines that run in one folder, one after another."""
    with tempfile.TemporaryDirectory() as scratch:
        here = Path(scratch)
        for folder in INPUTS:
            shutil.copytree(TOP / folder, here / folder)
        (here / "out").mkdir()
        environment = {
            "PATH": f"{programs}:/usr/bin:/bin",
            "HOME": scratch,
            "LC_ALL": "C.UTF-8",
            "COLUMNS": "100",
        }
        known: dict[str, str] = {}
        results = {}
        for line in lines:
            name, *words = line.split(" ")
            command = [str(checkout / "companion" / "bin" / name), *words]
            ended = subprocess.run(
                command, cwd=here, env=environment, capture_output=True, timeout=SECONDS
            )
            result = {
                "status": str(ended.returncode),
                "stdout": ended.stdout.decode("utf-8", "backslashreplace"),
                "stderr": ended.stderr.decode("utf-8", "backslashreplace"),
                **written(here / "out", known),
            }
            results[line] = {part: text.replace(scratch, ".") for part, text in result.items()}
        return results


def results_of(place: Path, options: argparse.Namespace) -> dict[str, Results]:
    """Returns the results by input: those of a file, or of the commands of a checkout."""
    if place.is_file():
        saved: dict[str, Results] = json.loads(place.read_text("utf-8"))
        return saved
    wanted = jobs(options.only)

    def run(name: str) -> Results:
        """Returns the results of one input."""
        return run_job(place.resolve(), options.bin.resolve(), wanted[name])

    with ThreadPoolExecutor(os.cpu_count()) as threads:
        return dict(zip(wanted, threads.map(run, wanted)))


def difference(old: Result, new: Result) -> str:
    """Returns the first difference of two results; an empty text if there is none."""
    for part in dict.fromkeys((*old, *new)):
        if part not in old or part not in new:
            return f"  {part}: written by one of them alone"
        before, after = old[part].split("\n"), new[part].split("\n")
        for number in range(max(len(before), len(after))):
            pair = before[number : number + 1], after[number : number + 1]
            if pair[0] != pair[1]:
                return f"  {part}, line {number + 1}:\n{_shown(*pair)}"
    return ""


def _shown(old: list[str], new: list[str]) -> str:
    """Returns two lines that differ, from shortly before the place where they do."""
    texts = "".join(old), "".join(new)
    begin = max(0, len(os.path.commonprefix(texts)) - 40)
    shown = [text[begin : begin + 160] for text in texts]
    return f"    before {shown[0]!r}\n    after  {shown[1]!r}"


def compare(before: dict[str, Results], after: dict[str, Results]) -> int:
    """Prints the first difference of each command line, and returns how many lines differ."""
    count = 0
    for name in [name for name in before if name in after]:
        for line, result in before[name].items():
            found = difference(result, after[name][line])
            if found:
                count += 1
                print(f"{name}: {line}\n{found}")
    return count


def main() -> int:
    """Saves or compares, and returns the status."""
    parser = argparse.ArgumentParser(description=__doc__, formatter_class=_RAW)
    parser.add_argument("places", nargs="+", type=Path)
    parser.add_argument("--save", action="store_true")
    parser.add_argument("--only", action="append", default=[])
    parser.add_argument("--bin", type=Path, default=TOP / "bin")
    options = parser.parse_args()
    if not (options.bin / "pert").exists():
        sys.exit(f"outputs: no programs in {options.bin}; build them, or name --bin")
    first, second = (*options.places, TOP)[:2]
    if options.save:
        found = results_of(second, options)
        first.write_text(json.dumps(found, indent=1), "utf-8")
        print(f"outputs: {sum(map(len, found.values()))} command lines are saved")
        return 0
    before, after = results_of(first, options), results_of(second, options)
    count = compare(before, after)
    print(f"outputs: {count} of {sum(map(len, after.values()))} command lines differ")
    return 1 if count else 0


if __name__ == "__main__":
    sys.exit(main())
