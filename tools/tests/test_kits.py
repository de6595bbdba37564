"""Reads what two kits print (tools/tests/kits) as the scripts do."""

from importlib.machinery import SourceFileLoader
from importlib.util import module_from_spec, spec_from_loader
from pathlib import Path

from proving.main import causes
from proving.progress import Progress

TOOLS = Path(__file__).resolve().parents[1]


def printed(name: str) -> str:
    """Returns a recorded output."""
    return (TOOLS / "tests" / "kits" / name).read_text(encoding="utf-8")


def followed(name: str, *wanted: str) -> Progress:
    """Returns what is known after a recorded output."""
    progress = Progress(wanted)
    for line in printed(name).splitlines():
        progress.read(line)
    return progress


def test_crates_that_are_proved() -> None:
    fresh = followed("13b/check", "low", "app")
    assert fresh.are_proved(["low", "app"])
    assert fresh.proved_now == {"low", "app"}
    kept = followed("13b/kept", "low", "app")
    assert kept.are_proved(["low", "app"])
    assert kept.ended == {"low", "app"} and not kept.proved_now


def test_a_log_that_has_no_summary_yet() -> None:
    names = ("pc_model", "pc_days", "pc_records", "pc_cells")
    progress = followed("13f/check", *names, "pc_text")
    assert progress.ended == {*names}
    assert progress.proved_now == {*names} - {"pc_model"}
    assert not progress.are_proved(["pc_days"])


def test_a_crate_that_is_not_proved_and_why() -> None:
    refused = followed("13b/refused", "low", "app")
    assert not refused.are_proved(["low"]) and not refused.are_proved(["app"])
    told = causes(printed("13b/refused"))
    assert told[0].startswith(
        "note: src/lib.rt:7:1: it is not proved that what the function ensures"
    )
    assert told[1].startswith("fn low::half: no proof: expected answers in ./proofs/half/Answers")
    assert told[-2:] == ["low: failed (1)", "app: not run, since low failed"]
    assert causes(printed("13b/check")) == causes(printed("13f/check")) == []


def test_lines_about_a_trial_are_taken_from_what_the_program_prints() -> None:
    loader = SourceFileLoader("trial", str(TOOLS / "try.py"))
    spec = spec_from_loader("trial", loader)
    assert spec
    trial = module_from_spec(spec)
    # (its dataclasses look for their module by name)
    __import__("sys").modules["trial"] = trial
    loader.exec_module(trial)
    said = b"F4 record 5: unknown kind\n" + printed("13b/try").encode()
    ended = trial.ENDED.search(said)
    assert ended and ended[1] == b"0"
    assert trial.OTHER.sub(b"", trial.ENDED.sub(b"", said)) == b"F4 record 5: unknown kind\n"
