"""Codes that are made of names: the same next month, and soon also for long and many names."""

from hypothesis import given
from hypothesis import strategies as st

from pert_companion.carry.codes import MAX_LENGTH, Codes, shortened, words_of
from timing import within

WORDS = st.text(alphabet="abcde012", min_size=1, max_size=140)


def letter_by_letter(text: str) -> str:
    """Returns the code of a text as the rule has it: one letter after another."""
    words = [(word, len(word)) for word in words_of(text)[:8]]
    words = [
        (word, min(size, MAX_LENGTH)) if word.isalpha() else (word, size) for word, size in words
    ]
    while sum(size for _, size in words) + len(words) - 1 > MAX_LENGTH:
        ranks = []
        for at, (word, size) in enumerate(words):
            ranks.append((size if word[:size].isalpha() else size - 100, at))
        at = max(ranks)[1]
        words[at] = (words[at][0], words[at][1] - 1)
        words = [(word, size) for word, size in words if size]
    return "-".join(word[:size] for word, size in words)


@given(st.lists(WORDS, min_size=1, max_size=9))
def test_words_lose_their_last_letters(words: list[str]) -> None:
    """The longest first; those with digits when the others have none left."""
    text = " ".join(words)
    assert shortened(text) == letter_by_letter(text)


def test_shortened_names() -> None:
    """Some names, worked out by hand."""
    assert shortened("Dig the trench") == "Dig-trench"
    assert shortened("Foundation of the garage") == "Foundatio-garage"
    assert shortened("Reinforcement section 12") == "Reinfo-sectio-12"
    assert shortened("x" * 1000) == "x" * 16


def test_codes_with_numbers() -> None:
    """A code that is taken gets the next number; capital letters count as small ones."""
    codes = Codes()
    assert [codes.make("Dig") for _ in range(3)] == ["Dig", "Dig-2", "Dig-3"]
    assert codes.take("dig-4") == "dig-4"
    assert codes.make("Dig") == "Dig-5"
    assert codes.make("Dig", "-s") == "Dig-s"
    assert codes.make("dig", "-s") == "dig-2-s"
    assert codes.make("a" * 20) == "a" * 16
    assert codes.make("a" * 20) == "a" * 14 + "-2"


def test_many_long_names_are_soon_done() -> None:
    """Four thousand names of a thousand characters that begin alike, and as many of one code."""
    names = [f"{'N' * 990}{number:06d}" for number in range(4_000)]
    with within(5):
        found = {shortened(name) for name in names}
        codes = Codes()
        made = {codes.make("same") for _ in names}
    assert found == {"N" * 16} and len(made) == 4_000
