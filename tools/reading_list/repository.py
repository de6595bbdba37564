"""The crates of a repository, and the definitions that a text in them reaches."""

import re
from collections.abc import Collection, Iterator
from functools import cached_property
from pathlib import Path

from reading_list.definitions import Definition, Module, parse_module
from reading_list.texts import Imports, signs_of, words_of

GIVEN_ON = re.compile(r"^pub use (Rattle\.[A-Za-z0-9_.]+)$", flags=re.M)


class Repository:
    """A checkout, whose files are read once."""

    def __init__(self, top: Path) -> None:
        self.top = top
        self.crates = top / "crates"
        self.own = {path.name for path in self.crates.iterdir()}
        self._modules: dict[str, Module | None] = {}

    @cached_property
    def sources(self) -> dict[Path, str]:
        """The text of each file of code, by its path, in order of paths."""
        found = sorted(
            path
            for path in self.crates.glob("*/**/*.rt")
            if "out" not in path.relative_to(self.crates).parts
        )
        return {path: path.read_text(encoding="utf-8") for path in found}

    def place(self, path: Path) -> str:
        """The path from the top."""
        return str(path.relative_to(self.top))

    def place_of(self, definition: Definition) -> str:
        """The file and the line of a definition."""
        return f"{self.place(definition.module.path)}:{definition.line}"

    def module_of(self, name: str) -> Module | None:
        """The module of a name such as Rattle.pc_net.specs.Nets, also if a crate re-exports it.

        Returns None if the name is not one of this repository's.
        """
        if name not in self._modules:
            # (a crate that re-exports a name under itself ends here)
            self._modules[name] = None
            self._modules[name] = self._found(name)
        return self._modules[name]

    def _found(self, name: str) -> Module | None:
        parts = name.split(".")
        if len(parts) < 4 or parts[2] != "specs" or parts[3] == "declared":
            return None
        base = self.crates / parts[1] / "specs"
        path = base.joinpath(*parts[3:-1], parts[-1] + ".antt")
        if path.exists():
            return parse_module(name, path)
        library = base / "Lib.antt"
        if library.exists():
            for given in GIVEN_ON.findall(library.read_text(encoding="utf-8")):
                if given.rsplit(".", 1)[1] == parts[-1]:
                    return self.module_of(given)
        return None

    def all_modules(self) -> Iterator[Module]:
        """The modules of all files in the folders specs/."""
        for path in sorted(self.crates.glob("*/specs/**/*.antt")):
            crate, _, *inner = path.relative_to(self.crates).with_suffix("").parts
            module = self.module_of(".".join(["Rattle", crate, "specs", *inner]))
            if module is not None:
                yield module

    def resolve(self, imports: Imports, local: Module | None, word: str) -> Definition | None:
        """The definition that a word names in a file, if it is one of this repository's."""
        if "." in word:
            front, back = word.split(".", 1)
            if front in imports.modules and (module := self.module_of(imports.modules[front])):
                return module.definitions.get(back.split(".")[0])
            if local and is_constructor(local, front):
                # a field of a variable that is called as a constructor is
                return None
            word = front
        if local and word in local.definitions:
            return local.definitions[word]
        if word not in imports.names:
            return None
        module_name, name = imports.names[word]
        found = self.module_of(module_name)
        return found.definitions.get(name) if found else None

    def reach(
        self,
        imports: Imports,
        local: Module | None,
        text: str,
        seen: set[Definition],
        listed: list[Definition],
        later: Collection[Definition] = (),
    ) -> None:
        """Lists what a text names, and below each what that names in turn, each once.

        A definition that is printed later is left out, with what only it reaches.
        """
        found = []
        for word in words_of(text) + [f"◌{sign}◌" for sign in signs_of(text)]:
            definition = self.resolve(imports, local, word)
            if definition is not None and definition not in seen and definition not in later:
                seen.add(definition)
                found.append(definition)
        for definition in found:
            listed.append(definition)
            inner = definition.module
            self.reach(inner.imports, inner, definition.text, seen, listed, later)

    def definition_of(self, place: str) -> Definition | None:
        """The definition at a place such as `pc_net/Nets.IsSound`: a crate, a file of its specs/
        and a name. A file in a folder is written `FOLDER.FILE`.
        """
        crate, _, rest = place.partition("/")
        file, _, name = rest.rpartition(".")
        module = self.module_of(f"Rattle.{crate}.specs.{file}")
        return module.definitions.get(name) if module else None


def is_constructor(module: Module, name: str) -> bool:
    """Whether a module has a constructor of this name."""
    return name in module.definitions and module.definitions[name].name != name
