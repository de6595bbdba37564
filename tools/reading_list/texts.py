"""Words, operators and imports of texts in Rattle and in antt."""

import re
from dataclasses import dataclass, field

NAME = r"[A-Za-z_][A-Za-z0-9_'\-]*"
USE = re.compile(r"^(?:ghost |pub )*use (Rattle\.[A-Za-z0-9_.]+?)(?:\.\{([^}]*)\}| as (\w+))?;?$")
WORD = re.compile(rf"(?<![.\w])({NAME}(?:\.{NAME})?)")
SIGN = re.compile(r"[^\s\w()\[\]{},.;:'\"]+ℤ?|[ℕℤ]")
COMMENT = re.compile(r"--.*")


@dataclass
class Imports:
    """What a file takes from others: single names, and modules that it takes completely.

    `names` gives for a name in the file the module that defines it and its name there; `modules`
    gives for the prefix of a dotted name the module.
    """

    names: dict[str, tuple[str, str]] = field(default_factory=dict)
    modules: dict[str, str] = field(default_factory=dict)

    def key_of(self, word: str) -> str | None:
        """The name under which an import lists a word or an operator, or None if none does."""
        for key in (word, f"◌{word}◌", f"{word}◌then◌else◌"):
            if key in self.names:
                return key
        return None


def one_line_lists(text: str) -> str:
    """The text with each list in braces that spans lines on one line."""

    def joined(match: re.Match[str]) -> str:
        inner = match[1]
        if "\n" not in inner or "use" in inner:
            return match[0]
        return "{" + " ".join(inner.split()) + "}"

    return re.sub(r"\{([^{}]*)\}", joined, text)


def imports_of(text: str) -> Imports:
    """The imports of a file."""
    found = Imports()
    for line in one_line_lists(text).split("\n"):
        match = USE.match(line.strip())
        if not match:
            continue
        module, listed, alias = match.groups()
        if listed is None:
            found.modules[alias or module.rsplit(".", 1)[1]] = module
            continue
        for item in listed.split(","):
            words = item.split()
            if words:
                found.names[words[-1]] = (module, words[0])
    return found


def words_of(text: str) -> list[str]:
    """The names in a text, outside comments; one with a dot in it is given with its first part."""
    return WORD.findall(COMMENT.sub("", text))


def signs_of(text: str) -> list[str]:
    """The operators of a text and the sets of numbers, as in `+`, `≤ℤ` and `ℕ`."""
    return SIGN.findall(COMMENT.sub("", text))
