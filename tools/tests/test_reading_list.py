"""Tests of tools/reading-list.py, on a small repository that is made for each."""

from pathlib import Path

import pytest

from reading_list.calls import clauses_of, is_law, traits_and_laws
from reading_list.definitions import parse_module
from reading_list.main import run
from reading_list.repository import Repository
from reading_list.texts import imports_of, signs_of, words_of

FILES = {
    "crates/pc_low/specs/Words.antt": """-- Words.
use Rattle.std.specs.Prelude.{ℕ, ◌≤◌}
use Rattle.pc_low.specs.declared.limits.TheConstants.{MOST}
use Rattle.pc_low.specs.declared.colour.Colour.{Colour as TheColour}

-- at most so many
abbrev pub IsFew : ℕ → Type 0
IsFew n = n ≤ MOST

-- the same for a colour
pub record HasFew (colour : TheColour) : Type 0 where
  pub few : IsFew colour.depth

-- one of two
pub data IsEither (n : ℕ) : Type 0 where
  is_few : IsFew n → IsEither n
  is_all : IsEither n
""",
    "crates/pc_low/specs/inside/Inside.antt": """-- Inside.
use Rattle.std.specs.Prelude.{ℕ, ◌≤◌}

-- nothing
abbrev pub IsNone : ℕ → Type 0
IsNone n = n ≤ 0
""",
    "crates/pc_low/src/limits.rt": "/// The most.\npub const MOST: usize = 7;\n",
    "crates/pc_low/src/colour.rt": "/// A colour.\npub struct Colour {\n    pub depth: u8,\n}\n",
    "crates/pc_low/src/edges.rt": """ghost use Rattle.pc_low.specs.Words.{IsFew};

/// A source.
pub trait Source {
    fn pull(&mut self) -> usize
        ensures { IsFew result };
}

/// A sink.
pub trait Sink {
    fn push(&mut self, n: usize);
}
""",
    "crates/pc_top/src/top.rt": """ghost use Rattle.pc_low.specs.Words.{IsFew, HasFew as HasLittle};
ghost use Rattle.pc_low.specs.declared.colour.Colour.{Colour};

/// Runs.
pub fn run<S: Source>(source: &mut S) -> i32
    ensures headline { IsFew result }
    ensures rest { (colour : Colour) → HasLittle colour }
{
    0
}

/// Runs.
pub fn check_run<S: Source>(source: &mut S) -> i32
    ensures headline { IsFew result }
{
    0
}

/// Runs.
pub fn session_run<S: Source>(source: &mut S) -> i32
    ensures heard { IsFew result }
{
    0
}
""",
    "crates/pc_top/src/laws.rt": """ghost use Rattle.std.specs.Prelude.{ℕ};
ghost use Rattle.pc_low.specs.Words.{IsEither};

/// States the first.
pub fn first_law()
    ensures { (n : ℕ) → IsEither n }
{}

/// States the second, by the first.
pub fn second_law(net: &Net)
    ensures either { (n : ℕ) → IsEither n }
{
    first_law();
}

/// Changes something.
pub fn clear(net: &mut Net)
    ensures { IsEither net.new }
{
    net.clear();
}
""",
    "crates/pc_whatif/src/session.rt": """ghost use Rattle.pc_low.specs.Words.{IsFew};

impl Session {
    /// Begins.
    pub fn begin() -> usize
        ensures { IsFew result }
    {
        0
    }

    /// Answers.
    pub fn answer(&mut self) -> usize
        ensures { IsFew result }
    {
        0
    }
}
""",
    "docs/deck.md": "# Deck\n\n## Words\n",
    "docs/auditor.md": "The words:\n\n    -- at most so many\n    abbrev pub IsFew : ℕ → Type 0\n"
    "    IsFew n = n ≤ MOST\n",
    "tools/library-words.txt": "# word, tab, meaning\nℕ\tnumbers\n◌≤◌\tat most\n",
    "tools/reading-sections.txt": "# place, page, heading\npc_low/specs\tdeck.md\tWords\n",
    "tools/reading-parts.txt": "# heading, definitions, what the part is\n",
    "tools/reading-notes.md": "# Notes\n\n## pc_low/Words.IsFew\n\n*For example*, 7 is few.\n",
}


@pytest.fixture(name="top")
def small_repository(tmp_path: Path) -> Path:
    """A repository in which nothing is wrong."""
    for name, text in FILES.items():
        path = tmp_path / name
        path.parent.mkdir(parents=True, exist_ok=True)
        path.write_text(text, encoding="utf-8")
    (tmp_path / "crates/pc_low/specs/inside/Inside.antt").unlink()
    return tmp_path


def change(top: Path, name: str, old: str, new: str) -> None:
    """Replaces a text that occurs once in a file."""
    path = top / name
    text = path.read_text(encoding="utf-8")
    assert text.count(old) == 1
    path.write_text(text.replace(old, new), encoding="utf-8")


def refused(top: Path, capsys: pytest.CaptureFixture[str]) -> list[str]:
    """The lines with which --check refuses."""
    status = run(top, ["--check"])
    lines = capsys.readouterr().err.splitlines()
    assert status == 1 and lines
    return lines


def page(top: Path, name: str) -> str:
    """A page that the command writes."""
    assert run(top, [str(top / "pages")]) == 0
    return (top / "pages" / name).read_text(encoding="utf-8")


def test_nothing_is_wrong_with_the_small_repository(
    top: Path, capsys: pytest.CaptureFixture[str]
) -> None:
    assert run(top, ["--check"]) == 0
    out, err = capsys.readouterr()
    assert err == ""
    assert out.splitlines()[0] == (
        "reading list: run: headline 1 definitions, 3 lines; all clauses 2 definitions, 6 lines"
    )


def test_each_definition_is_printed_once(top: Path) -> None:
    headline, rest = page(top, "headline.md"), page(top, "rest.md")
    assert (headline.count("abbrev pub IsFew"), rest.count("abbrev pub IsFew")) == (1, 0)
    assert (headline.count("pub record HasFew"), rest.count("pub record HasFew")) == (0, 1)
    assert '*crates/pc_low/specs/Words.antt* (in words: deck.md, "Words")' in headline
    assert "(after `IsFew` in its file)" in rest


def test_what_definitions_name_besides_is_printed(top: Path) -> None:
    headline, rest = page(top, "headline.md"), page(top, "rest.md")
    assert "| `MOST` | `7` | crates/pc_low/src/limits.rt |" in headline
    assert "| `◌≤◌` | at most |" in headline
    assert "pub struct Colour {\n    pub depth: u8,\n}" in rest
    assert "| `HasLittle` | `HasFew` of Rattle.pc_low.specs.Words |" in rest
    assert "| `TheColour` | `Colour` of Rattle.pc_low.specs.declared.colour.Colour |" in rest


def test_a_note_is_printed_below_its_definition(top: Path) -> None:
    assert "IsFew n = n ≤ MOST\n```\n\n*For example*, 7 is few.\n" in page(top, "headline.md")


def test_a_type_is_printed_below_the_first_definition_that_names_it(top: Path) -> None:
    rest = page(top, "rest.md")
    places = [rest.index(text) for text in ("pub record HasFew", "pub struct Colour", "## `first_")]
    assert places == sorted(places)


def in_two_parts(top: Path) -> None:
    """Lets the headline reach IsEither and HasFew, the second in a part of its own."""
    change(
        top,
        "crates/pc_top/src/top.rt",
        "    ensures headline { IsFew result }\n    ensures rest",
        "    ensures headline { HasLittle result → IsEither result }\n    ensures rest",
    )
    change(top, "crates/pc_top/src/top.rt", "{IsFew, HasFew", "{IsFew, IsEither, HasFew")
    (top / "tools/reading-parts.txt").write_text(
        "What is coloured\tpc_low/Words.HasFew\tColours come later.\n", encoding="utf-8"
    )


def test_a_later_part_has_what_only_its_definitions_reach(top: Path) -> None:
    in_two_parts(top)
    headline = page(top, "headline.md")
    texts = (
        "pub data IsEither",
        "abbrev pub IsFew",
        "## What is coloured\n\nColours come later.\n",
        "pub record HasFew",
        "pub struct Colour",
    )
    places = [headline.index(text) for text in texts]
    assert places == sorted(places)
    assert headline.count("pub record HasFew") == 1


def test_how_far_the_first_definitions_reach_is_counted(
    top: Path, capsys: pytest.CaptureFixture[str], monkeypatch: pytest.MonkeyPatch
) -> None:
    in_two_parts(top)
    monkeypatch.setattr("reading_list.checks.HEART", "HasFew")
    assert run(top, ["--check"]) == 0
    counted = capsys.readouterr().out.splitlines()[-1]
    lines = page(top, "headline.md").splitlines()
    last = lines.index("```", lines.index("  pub few : IsFew colour.depth"))
    assert counted == (
        f"reading list: headline.md: the first 3 definitions end on line {last + 1}; "
        "HasFew is number 3"
    )
    capsys.readouterr()
    monkeypatch.setattr("reading_list.checks.FIRST", (2, 9))
    found = refused(top, capsys)
    assert found[0].endswith("; at most on line 9")
    assert found[1] == "HasFew is definition 3; at most 2"


@pytest.mark.parametrize(
    ("name", "text"),
    [
        ("reading-parts.txt", "Gone\tpc_low/Words.Gone\tNothing.\n"),
        ("reading-notes.md", "## pc_low/Words.Gone\n\nNothing.\n"),
    ],
)
def test_a_part_and_a_note_name_definitions_of_the_headline(
    top: Path, capsys: pytest.CaptureFixture[str], name: str, text: str
) -> None:
    (top / "tools" / name).write_text(text, encoding="utf-8")
    assert refused(top, capsys) == [
        f"tools/{name}: headline.md has no definition pc_low/Words.Gone"
    ]


def test_laws_are_printed_whether_their_body_is_empty_or_not(top: Path) -> None:
    rest = page(top, "rest.md")
    assert "## `first_law`, crates/pc_top/src/laws.rt" in rest
    assert "## `second_law`, crates/pc_top/src/laws.rt" in rest
    assert "clear" not in rest
    found = [one.name for one in traits_and_laws(Repository(top))]
    assert found == ["Source", "Sink", "first_law", "second_law"]


def test_methods_are_printed_wherever_their_type_is(top: Path) -> None:
    (top / "crates/pc_whatif/src/session.rt").rename(top / "crates/pc_whatif/src/other.rt")
    assert "## `Session::answer`, crates/pc_whatif/src/other.rt" in page(top, "rest.md")


@pytest.mark.parametrize(
    ("head", "answer"),
    [
        ("pub fn law()\n    ensures { P }\n", True),
        ("pub fn law(net: &Net)\n    requires { P }\n    ensures { P → Q }\n", True),
        ("/// `f() -> x`, by `&mut`.\npub fn law()\n    ensures { P }\n", True),
        ("pub fn f() -> u8\n    ensures { P }\n", False),
        ("pub fn f(net: &mut Net)\n    ensures { P }\n", False),
        ("pub fn f(net: &Net)\n", False),
    ],
)
def test_a_law_has_no_result_and_changes_nothing(head: str, answer: bool) -> None:
    assert is_law(head) is answer


def test_a_name_that_no_page_defines_is_refused(
    top: Path, capsys: pytest.CaptureFixture[str]
) -> None:
    change(top, "crates/pc_top/src/top.rt", "{IsFew, HasFew as HasLittle}", "{IsFew, Gone}")
    change(top, "crates/pc_top/src/top.rt", "HasLittle colour", "Gone colour")
    assert "crates/pc_top/src/top.rt: uses Gone, which no page defines" in refused(top, capsys)


def test_a_constant_that_is_not_in_the_code_is_refused(
    top: Path, capsys: pytest.CaptureFixture[str]
) -> None:
    change(top, "crates/pc_low/src/limits.rt", "MOST", "LEAST")
    lines = refused(top, capsys)
    assert any("no declaration of MOST found" in line for line in lines)
    assert "crates/pc_low/specs/Words.antt: uses MOST, which no page defines" in lines


def second_constant(top: Path, crate: str) -> None:
    """Adds another constant MOST to a crate, and a definition of a clause that uses it."""
    folder = top / "crates" / crate
    (folder / "src/other.rt").write_text("pub const MOST: usize = 9;\n", encoding="utf-8")
    (folder / "specs").mkdir(exist_ok=True)
    text = FILES["crates/pc_low/specs/Words.antt"]
    text = text.replace("pc_low.specs.declared.limits", f"{crate}.specs.declared.other")
    text = text[: text.index("\n-- the same")].replace("IsFew", "IsScarce")
    text = "\n".join(line for line in text.split("\n") if "TheColour" not in line)
    (folder / "specs/Other.antt").write_text(text, encoding="utf-8")
    name = "crates/pc_top/src/top.rt"
    change(top, name, "{IsFew, ", "{IsFew};\nghost use Rattle.pc_low.specs.Words.{")
    (top / name).write_text(
        f"ghost use Rattle.{crate}.specs.Other.{{IsScarce}};\n"
        + (top / name)
        .read_text(encoding="utf-8")
        .replace("→ HasLittle", "→ IsScarce 1 → HasLittle")
    )


def test_two_constants_of_one_name_in_two_crates_are_both_printed(
    top: Path, capsys: pytest.CaptureFixture[str]
) -> None:
    second_constant(top, "pc_top")
    assert run(top, ["--check"]) == 0
    rest = page(top, "rest.md")
    assert "| `MOST` | `7` | crates/pc_low/src/limits.rt |" in page(top, "headline.md")
    assert "| `MOST` | `9` | crates/pc_top/src/other.rt |" in rest
    assert capsys.readouterr().err == ""


def test_two_constants_of_one_name_in_one_crate_are_refused(
    top: Path, capsys: pytest.CaptureFixture[str]
) -> None:
    second_constant(top, "pc_low")
    change(
        top,
        "crates/pc_top/src/top.rt",
        "    ensures headline { IsFew result }\n    ensures rest",
        "    ensures headline { IsFew result × IsScarce result }\n    ensures rest",
    )
    place = "crates/pc_low/src/limits.rt and crates/pc_low/src/other.rt"
    lines = refused(top, capsys)
    assert f"two items of one name in a crate: MOST in {place}" in lines


def test_a_definition_in_the_wrong_folder_is_refused(
    top: Path, capsys: pytest.CaptureFixture[str]
) -> None:
    inside = "crates/pc_low/specs/inside/Inside.antt"
    (top / inside).write_text(FILES[inside], encoding="utf-8")
    assert run(top, ["--check"]) == 0
    capsys.readouterr()
    change(top, "crates/pc_top/src/laws.rt", "Words.{IsEither};", "inside.Inside.{IsNone};")
    text = (top / "crates/pc_top/src/laws.rt").read_text(encoding="utf-8")
    text = text.replace("IsEither", "IsNone")
    (top / "crates/pc_top/src/laws.rt").write_text(text, encoding="utf-8")
    lines = refused(top, capsys)
    said = "in specs/ and reached by no promise, or in specs/inside/ and reached by one"
    assert lines == [
        f"crates/pc_low/specs/Words.antt:15 IsEither: {said}",
        f"crates/pc_low/specs/inside/Inside.antt:5 IsNone: {said}",
    ]


@pytest.mark.parametrize(
    ("name", "old", "new", "said"),
    [
        ("docs/auditor.md", "n ≤ MOST", "n ≤ 8", "quotes no definition: -- at most so many"),
        ("docs/deck.md", "## Words", "## Names", "deck.md has no section 'Words'"),
        ("tools/reading-sections.txt", "pc_low/specs", "pc_low/gone", "there is no pc_low/gone"),
        ("tools/library-words.txt", "◌≤◌\tat most\n", "", "◌≤◌ (Rattle.std.specs.Prelude): a word"),
    ],
)
def test_pages_and_tables_that_are_stale_are_refused(
    top: Path, capsys: pytest.CaptureFixture[str], name: str, old: str, new: str, said: str
) -> None:
    change(top, name, old, new)
    assert any(said in line for line in refused(top, capsys))


def test_a_star_in_a_row_is_a_name_and_its_section(
    top: Path, capsys: pytest.CaptureFixture[str]
) -> None:
    change(top, "tools/reading-sections.txt", "pc_low/specs\tdeck.md\tWords", "*/specs\tdeck.md\t*")
    said = "tools/reading-sections.txt: deck.md has no section"
    assert f"{said} 'pc_low'" in refused(top, capsys)
    (top / "docs/deck.md").write_text("# Deck\n\n## pc_low\n\n## pc_top\n", encoding="utf-8")
    assert run(top, ["--check"]) == 0


def test_more_than_a_person_reads_is_refused(
    top: Path, capsys: pytest.CaptureFixture[str], monkeypatch: pytest.MonkeyPatch
) -> None:
    monkeypatch.setattr("reading_list.checks.MOST", (0, 1650))
    monkeypatch.setattr("reading_list.checks.MOST_OF_ALL", 1)
    assert refused(top, capsys)[:2] == [
        "the headline reaches 1 definitions, 3 lines; at most 0 definitions and 1650 lines",
        "all clauses of run reach 2 definitions, 6 lines; at most 1 definitions",
    ]


def test_a_call_that_is_gone_is_reported(top: Path, capsys: pytest.CaptureFixture[str]) -> None:
    change(top, "crates/pc_top/src/top.rt", "pub fn check_run<", "pub fn checking_run<")
    assert run(top, ["--check"]) == 1
    assert capsys.readouterr().err == "reading-list: no call check_run\n"


def test_usage(top: Path, capsys: pytest.CaptureFixture[str]) -> None:
    assert run(top, ["--help"]) == 0
    assert run(top, ["a", "b"]) == 2
    assert run(top, ["--what"]) == 2
    assert capsys.readouterr().err.count("tools/reading-list.py --check") == 3


def test_clauses_end_at_the_brace_that_closes_them(top: Path) -> None:
    change(
        top,
        "crates/pc_top/src/top.rt",
        "{ IsFew result }\n    ensures rest",
        "{ P { a } }\n    ensures rest",
    )
    clauses = clauses_of(Repository(top), "run")
    assert [(one.name, one.text.strip()) for one in clauses] == [
        ("headline", "P { a }"),
        ("rest", "(colour : Colour) → HasLittle colour"),
    ]


def test_definitions_of_a_file(top: Path) -> None:
    path = top / "crates/pc_low/specs/Words.antt"
    module = parse_module("Rattle.pc_low.specs.Words", path)
    assert [(one.name, one.line, one.length) for one in module.order] == [
        ("IsFew", 7, 3),
        ("HasFew", 11, 3),
        ("IsEither", 15, 4),
    ]
    assert module.definitions["is_all"] is module.definitions["IsEither"]
    assert module.order[0].whole == "-- at most so many\n" + module.order[0].text


def test_imports_over_lines_and_with_other_names() -> None:
    found = imports_of("use Rattle.a.B.{\n  C,\n  D as E,\n}\nghost use Rattle.a.F as g;\n")
    assert found.names == {"C": ("Rattle.a.B", "C"), "E": ("Rattle.a.B", "D")}
    assert found.modules == {"g": "Rattle.a.F"}


def test_words_and_signs_leave_comments_out() -> None:
    assert words_of("a.b ≤ c -- d\ne") == ["a.b", "c", "e"]
    assert signs_of("a ≤ℤ ℕ × b -- ∈") == ["≤ℤ", "ℕ", "×"]
