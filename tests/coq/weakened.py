#!/usr/bin/env python3
"""Weakens each test of the checker that is proved with Coq, and wants its proof to stop there.

    tests/coq/weakened.py [CONDITION..]     the conditions named (default: all)

Each row below makes one test say nothing, such as `x =? y` into `x =? x`, and keeps its form. Coq
must then leave a goal open: a proof that stops at a name or at the syntax shows nothing, and fails
too. `make recheck` must have been run: what comes before the changed file is taken from there.
"""

from __future__ import annotations

import os
import re
import shutil
import subprocess
import sys
import tempfile
from concurrent.futures import ThreadPoolExecutor
from dataclasses import dataclass
from pathlib import Path

TOP = Path(__file__).resolve().parent.parent.parent
BUILT = TOP / "out" / "recheck"
# What Coq says of a goal that does not close. Other errors are of names, types or syntax.
OPEN = re.compile(
    r"Cannot find witness|Unable to unify|Cannot solve this goal|No such assumption"
    r"|(congruence|tauto) failed|incomplete proof|Unable to apply lemma|cannot unify"
    r"|No primitive equality found|Found no subterm matching|bullet . is not finished"
)


@dataclass(frozen=True)
class Row:
    """A condition, or another name of what is weakened; the file; and the change."""

    condition: str
    file: str
    old: str
    new: str


def at(condition: str, old: str, new: str) -> Row:
    """Returns a row of the checker's file of tests."""
    return Row(condition, "Check", old, new)


ROWS = [
    at("1", "(v =? if pieced then 2 else 1)", "(v =? v)"),
    at("1", "(c =? code P)%string", "(c =? c)%string"),
    at("1", "(n =? Z.of_nat (length (events P)))", "(n =? n)"),
    at("1", "(m =? Z.of_nat (length (activities P)))", "(m =? m)"),
    at("2", "(2, has_walked normal_end u)", "(2, has_walked normal_end u || true)"),
    at("2", "(from a =? e)%string", "(from a =? from a)%string"),
    at("2", "(l =? length)", "(l =? l)"),
    at("3", "(3, has_walked crash_end lower)", "(3, has_walked crash_end lower || true)"),
    at("3", "(e =? last P)%string && (l", "(last P =? last P)%string && (l"),
    at("4", "(4, (c =? e)%string)", "(4, (c =? c)%string)"),
    at("4", "(c =? name a)%string", "(c =? c)%string"),
    at("4", "Nat.eqb (length flows) (S (length (knees a)))", "Nat.eqb (length fs) (length fs)"),
    at("5", "(t =? 0) && negb b", "(t =? t) && negb b"),
    at("5", "(t =? 0) && negb b", "(t =? 0) && (b || negb b)"),
    at("5", "(t =? f_upper f) && (b || level f)", "(t =? t) && (b || level f)"),
    at("5", "(t =? f_upper f) && (b || level f)", "(t =? f_upper f) && (b || negb b)"),
    at("6", "(crash a <=? at_upper v)", "(crash a <=? crash a)"),
    at("6", "(crash a <=? at_lower v)", "(crash a <=? crash a)"),
    at("7", "(d =? Z.min (normal a) (at_upper v))", "(d =? d)"),
    at("7", "implb (f_first f) (d =? normal a)", "implb (f_first f) (d =? d)"),
    at("8", "(snd p <=? rise (fst p))", "(snd p <=? snd p)"),
    at("8", "(0 <=? snd p)", "(snd p <=? snd p)"),
    at("8", "(0 <=? beside)", "(beside <=? beside)"),
    at("9", "(get 0 (balance s) e =? 0)", "(get 0 (balance s) e =? get 0 (balance s) e)"),
    at("10", "(10, leaving s =? f_slope f)", "(10, leaving s =? leaving s)"),
    at("11", "((x <=? point (fst p)) || (snd p =? 0))", "((x <=? x) || (snd p =? 0))"),
    at("11", "(snd p =? rise (fst p))))", "(snd p =? snd p)))"),
    at("11", "((x <=? crash a) || (beside =? 0))", "((x <=? x) || (beside =? 0))"),
    at("11", "fits a fs beside (at_upper v) &&", "fits a fs beside (at_lower v) &&"),
    at("11", "&& fits a fs beside (at_lower v)", "&& fits a fs beside (at_upper v)"),
    at("12", "(12, paid s =? f_cost f)", "(12, paid s =? paid s)"),
    at("13", "(gain s =? f_slope f)", "(gain s =? gain s)"),
    at(
        "14", "(f_lower f <? f_upper f) (stopped s)", "(f_lower f <? f_upper f) (stopped s || true)"
    ),
    at("15", "(l <? u) || ((l =? u) && (slope =? 0))", "(l <? u) || ((l =? u) && (u =? u))"),
    at("15", "(l <? u) || ((l =? u) && (slope =? 0))", "(l <? u) || ((l =? l) && (slope =? 0))"),
    at("15", "(u =? lower)", "(u =? u)"),
    at("15", "(lower <? upper) && (u", "(lower <=? lower) && (u"),
    at("15", "&& (l <? u))]", "&& (l <=? l))]"),
    at("15", "(15, implb (level f) (negb b))", "(15, implb (level f) (b || negb b))"),
    at("15", "(sum id fs + beside =? 0)", "(beside =? beside)"),
    # What an ACT line adds
    at("sums", "rises_above a (at_lower v)", "rises_above a (at_upper v)"),
    at("sums", "(get 0 left (to a) + x)", "(get 0 left (to a) - x)"),
    at("sums", "paid s + price a d", "paid s + price a (normal a)"),
    at("sums", "|| is_stop v a", "|| shrinks v"),
    # The texts
    Row("text", "Text", '(negb (Ascii.eqb c "0") ||', '(negb (Ascii.eqb c "0") || true ||'),
    Row("text", "Text", 'Ascii.eqb c "."', "Ascii.eqb c c"),
    Row("text", "Reader", "if n <? longest then", "if n <=? n then"),
    # The deck
    Row(
        "deck",
        "Program",
        "negb (get false seen n) &&",
        "negb (negb (get false seen n) && false) &&",
    ),
    Row(
        "deck",
        "Program",
        "negb (first P =? last P)%string",
        "negb (negb (first P =? first P)%string)",
    ),
    Row("deck", "Program", "negb (to a =? first P)%string", "negb (negb (to a =? to a)%string)"),
    Row("deck", "Program", "(crash a <=? normal a)", "(crash a <=? crash a)"),
    Row("deck", "Program", "point k <=? normal a", "point k <=? point k"),
]


def order() -> list[str]:
    """Returns the files in the order in which they are compiled."""
    found = re.search(r"^for file in (.*); do$", (TOP / "coq" / "build.sh").read_text(), re.M)
    assert found
    return found.group(1).split()


def outcome(row: Row) -> str:
    """Returns the error that Coq ends with, or an empty text if all is proved."""
    names = order()
    begin = names.index(row.file)
    with tempfile.TemporaryDirectory() as room:
        for name in names:
            shutil.copy(TOP / "coq" / f"{name}.v", room)
        for name in names[:begin]:
            shutil.copy(BUILT / f"{name}.vo", room)
        changed = Path(room) / f"{row.file}.v"
        text = changed.read_text()
        assert text.count(row.old) >= 1, f"{row.old} is not in {row.file}.v"
        changed.write_text(text.replace(row.old, row.new, 1))
        for name in [name for name in names[begin:] if name not in ("Shed", "Extract")]:
            command = ["coqc", "-q", "-Q", ".", "Recheck", f"{name}.v"]
            done = subprocess.run(command, cwd=room, capture_output=True, text=True, check=False)
            if done.returncode:
                return f"{done.stdout}{done.stderr}".strip()
    return ""


def judged(row: Row) -> str:
    """Returns what is wrong with how a row ended, or an empty text."""
    said = outcome(row)
    if not said:
        return "everything is proved all the same"
    return "" if OPEN.search(said) else f"Coq stops at something else than a goal:\n{said}"


def main(wanted: list[str]) -> int:
    """Tries the rows, and returns the status."""
    rows = [row for row in ROWS if not wanted or row.condition in wanted]
    failed = 0
    with ThreadPoolExecutor(max(1, (os.cpu_count() or 2) // 2)) as pool:
        for row, wrong in zip(rows, pool.map(judged, rows)):
            if wrong:
                failed += 1
                print(f"FAILED weakened: {row.condition}: {row.old} -> {row.new}: {wrong}")
    print(f"weakened: {len(rows) - failed} proofs stop at a goal, {failed} do not")
    return int(failed > 0)


if __name__ == "__main__":
    if not (BUILT / "Statement.vo").is_file():
        sys.exit("weakened: nothing is proved yet (run 'make recheck' first)")
    sys.exit(main(sys.argv[1:]))
