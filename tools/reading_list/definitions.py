"""The definitions of a file of `specs/`."""

import re
from dataclasses import dataclass, field
from pathlib import Path

from reading_list.texts import NAME, Imports, imports_of

BEGINS = re.compile(
    rf"^(?:unfoldable )?(?:abbrev pub|pub record|pub data|pub)\s+({NAME}|◌[^\s◌]+◌)"
)
CONSTRUCTOR = re.compile(rf"^  ({NAME})\s*:")
# how a comment begins that speaks of what is above it
POINTS_UP = re.compile(r"-- (the same\b|its\b|those that|that is|these\b|and\b)")


@dataclass(eq=False)
class Definition:
    """A definition: its text, and the same with the comment above it (`whole`)."""

    module: "Module"
    name: str
    line: int
    length: int
    text: str
    whole: str

    def context(self) -> str | None:
        """What a reader needs of the definition above it in its file, if anything.

        It is needed if the definition has no comment of its own, or one that points up.
        """
        above = self.module.order[: self.module.order.index(self)][::-1]
        if self.whole.startswith("--"):
            points = bool(above) and POINTS_UP.match(self.whole) is not None
            return f"after `{above[0].name}` in its file" if points else None
        said = next((one for one in above if one.whole.startswith("--")), None)
        if said is None:
            return None
        lines = [line[2:].strip() for line in said.whole.split("\n") if line.startswith("--")]
        return f"with `{said.name}` in its file: {' '.join(lines)}"


@dataclass(eq=False)
class Module:
    """A file of definitions. `definitions` has a data type's constructors too, each as the type."""

    name: str
    path: Path
    imports: Imports = field(default_factory=Imports)
    definitions: dict[str, Definition] = field(default_factory=dict)
    order: list[Definition] = field(default_factory=list)

    def add(self, definition: Definition) -> None:
        """Adds a definition, and the constructors that it declares."""
        self.definitions[definition.name] = definition
        self.order.append(definition)
        if definition.text.startswith("pub data"):
            for name in constructors_of(definition.text):
                self.definitions.setdefault(name, definition)


def constructors_of(text: str) -> list[str]:
    """The constructors that the text of a data type declares."""
    return [made[1] for line in text.split("\n")[1:] if (made := CONSTRUCTOR.match(line))]


def is_heading(lines: list[str], at: int, name: str) -> bool:
    """Whether a line is a comment after the definition of this name, not above a clause of it."""
    if not lines[at].startswith("--"):
        return False
    while at < len(lines) and lines[at].startswith("--"):
        at += 1
    return at == len(lines) or not lines[at].startswith(f"{name} ")


def end_of(lines: list[str], at: int, name: str) -> int:
    """The line after the definition of this name that begins at `at`."""
    end = at + 1
    while end < len(lines) and not BEGINS.match(lines[end]) and not is_heading(lines, end, name):
        end += 1
    while not lines[end - 1].strip():
        end -= 1
    return end


def parse_module(name: str, path: Path) -> Module:
    """Reads a file of definitions."""
    text = path.read_text(encoding="utf-8")
    module = Module(name, path, imports_of(text))
    lines = text.split("\n")
    at = 0
    while at < len(lines):
        match = BEGINS.match(lines[at])
        if not match or lines[at].startswith(("pub use", "pub mod")):
            at += 1
            continue
        end = end_of(lines, at, match[1])
        first = at
        while first > 0 and lines[first - 1].startswith("--"):
            first -= 1
        whole, plain = "\n".join(lines[first:end]), "\n".join(lines[at:end])
        module.add(Definition(module, match[1], at + 1, end - first, plain, whole))
        at = end
    return module
