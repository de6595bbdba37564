"""What definitions take from the code: constants, plain types, and what other types are seen as."""

import re
from dataclasses import dataclass
from pathlib import Path

from reading_list.repository import Repository

DOC = r"(?:^ *//[^\n]*\n)*"
ATTRIBUTES = r"(?:^ *#\[[^\n]*\n)*"
PUBLIC = r"pub(?:\([a-z_: ]+\))?"


@dataclass(frozen=True)
class Code:
    """An item of the code that a definition names.

    `text` is a constant's value, a plain type's declaration, or the model that contracts see in
    place of a value of the type; only then `said` has the first sentence about the type.
    """

    sort: str
    crate: str
    name: str
    place: str
    text: str
    said: str = ""


def source_file(repository: Repository, crate: str, parts: list[str]) -> Path | None:
    """The file in which a name of Rattle.CRATE.specs.declared.PARTS is declared, or None."""
    base = repository.crates / crate / "src"
    for deep in range(len(parts), -1, -1):
        folder = base.joinpath(*parts[:deep])
        files = [folder.with_name(folder.name + ".rt")] if deep else []
        for file in [*files, folder / "mod.rt", folder / "lib.rt"]:
            if file.exists():
                return file
    return None


def declared(repository: Repository, crate: str, parts: list[str], name: str) -> Code | None:
    """The constant or the plain type that a name of definitions is taken from."""
    folders = [part for part in parts if part not in ("TheConstants", "TheVariants")]
    path = source_file(repository, crate, folders)
    if path is None:
        return None
    text, place = path.read_text(encoding="utf-8"), repository.place(path)
    if parts[-1] == "TheConstants":
        found = re.search(
            rf"^ *(?:{PUBLIC} )?const {name}: [^=]*= ([^;]*);", text, flags=re.MULTILINE
        )
        value = " ".join(found[1].split()) if found else ""
        return Code("constant", crate, name, place, value) if found else None
    kind = parts[-2] if parts[-1] == "TheVariants" else parts[-1]
    found = re.search(
        rf"{DOC}{ATTRIBUTES}^ *{PUBLIC} (?:struct|enum) {kind}\b", text, flags=re.MULTILINE
    )
    if not found:
        return None
    ends = [at for at in (text.find("\n}", found.end()), text.find(";\n", found.end())) if at >= 0]
    return Code("type", crate, kind, place, text[found.start() : min(ends) + 2].strip("\n"))


def types_in(text: str) -> list[str]:
    """The names of types in the fields of a type."""
    plain = re.sub(r"//[^\n]*|#\[[^\n]*", "", text)
    pairs = re.findall(r"[:(<] ?([A-Z]\w+)|, ([A-Z]\w+)", plain)
    return sorted({name for pair in pairs for name in pair if name})


def view_of(repository: Repository, name: str) -> Code | None:
    """What contracts see in place of values of a type, or None if they see the type itself."""
    for path, text in repository.sources.items():
        if f"Model for {name}" not in text:
            continue
        seen = re.search(
            rf"^impl(?:<[^\n]*?>)? Model for {name}\b.*?ghost Value = \{{ (.*?) \}};",
            text,
            flags=re.MULTILINE | re.DOTALL,
        )
        said = re.search(
            rf"((?:^ *///[^\n]*\n)+){ATTRIBUTES}^ *{PUBLIC} struct {name}\b",
            text,
            flags=re.MULTILINE,
        )
        if seen and said:
            lines = (line.strip().removeprefix("///").strip() for line in said[1].split("\n"))
            first = re.split(r"(?<=\.) ", " ".join(lines))[0]
            crate = path.relative_to(repository.crates).parts[0]
            model = " ".join(seen[1].split())
            return Code("view", crate, name, repository.place(path), model, first.strip())
    return None


def plain_type(repository: Repository, beside: Code, name: str) -> Code | None:
    """The struct with public fields that is declared in the same file."""
    found = re.search(
        rf"{DOC}{ATTRIBUTES}^pub struct {name} {{\n(?: +(?:pub |//)[^\n]*\n)+}}",
        (repository.top / beside.place).read_text(encoding="utf-8"),
        flags=re.MULTILINE,
    )
    return Code("type", beside.crate, name, beside.place, found[0]) if found else None
