"""Decks and certificates that the tests of the page use."""

import importlib.machinery
import importlib.util
import json
import shutil
import subprocess
import sys
from concurrent.futures import ThreadPoolExecutor
from functools import cache
from pathlib import Path
from typing import Any

from pert_companion.model.errors import ProgramError
from pert_companion.programs.client import Programs

TOP = Path(__file__).resolve().parents[3]
PAGE = TOP / "companion" / "src" / "pert_companion" / "page"
HOUSE = TOP / "examples" / "house.csv"
SHED = TOP / "examples" / "shed.csv"
TERMS = b"TERMS,90,30,40,70\n"
NODE = shutil.which("node")
PROGRAMS = Programs()


@cache
def bench(activities: int) -> bytes:
    """Returns the deck of the benchmark with so many activities."""
    command = ["python3", str(TOP / "tests" / "speed" / "large-deck.py"), "bench", str(activities)]
    return subprocess.run(command, capture_output=True, check=True).stdout


@cache
def certificate_of(deck: bytes) -> str:
    """Returns the certificate that `pert certify` writes."""
    return PROGRAMS.pert(deck, "certify").decode("ascii")


def house_with_terms() -> bytes:
    """Returns the house with a price of time, whose cheapest length is 30."""
    return HOUSE.read_bytes().replace(b"\nEND\n", b"\n" + TERMS + b"END\n")


@cache
def certificates() -> dict[Path, str]:
    """Returns the certificates of the decks of examples and acceptance cases that have one."""
    decks = [SHED, HOUSE, *sorted((TOP / "tests" / "acceptance").glob("*/deck.csv"))]
    with ThreadPoolExecutor() as pool:
        texts = list(pool.map(_certificate_or_none, decks))
    return {deck: text for deck, text in zip(decks, texts) if text is not None}


def _certificate_or_none(deck: Path) -> str | None:
    try:
        text = certificate_of(deck.read_bytes())
    except ProgramError:
        return None
    return text if len(text) < 200_000 else None


@cache
def tampered() -> Any:
    """Returns the module of tests/hostile that changes certificates."""
    path = str(TOP / "tests" / "hostile" / "tampered.py")
    loader = importlib.machinery.SourceFileLoader("tampered", path)
    spec = importlib.util.spec_from_loader("tampered", loader)
    assert spec is not None
    module = importlib.util.module_from_spec(spec)
    sys.modules["tampered"] = module
    loader.exec_module(module)
    return module


def in_node(script: str, given: object) -> Any:
    """Returns what a script in node writes, as JSON. It has `given`, and the page's scripts."""
    assert NODE is not None
    names = {"PertCheck": "check", "PertCertificate": "certificate", "PertCompactor": "compactor"}
    loads = [f"const {name} = require('{PAGE}/{file}.js');" for name, file in names.items()]
    read = "const given = JSON.parse(require('fs').readFileSync(0, 'utf8'));"
    big = "BigInt.prototype.toJSON = function () { return Number(this); };"
    write = "process.stdout.write(JSON.stringify(answer(given)));"
    program = "\n".join([*loads, read, big, script, write])
    command = [NODE, "-e", program]
    data = json.dumps(given).encode()
    done = subprocess.run(command, input=data, capture_output=True, check=False)
    assert done.returncode == 0, done.stderr.decode()
    return json.loads(done.stdout)
