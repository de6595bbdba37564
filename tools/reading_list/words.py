"""What the printed definitions name besides definitions."""

from dataclasses import dataclass, field

from reading_list.code import Code, declared, plain_type, types_in, view_of
from reading_list.repository import Repository
from reading_list.texts import Imports, signs_of, words_of

# words that no file has to import
BUILT_IN = ("Unit", "tt", "⊥", "×")


@dataclass(frozen=True)
class Alias:
    """Another name under which a definition, a type or a module's names are used."""

    name: str
    means: str
    module: str


@dataclass
class Words:
    """Constants, plain types, words of the language and of the kit's libraries, and other names.

    `used` has every imported name that a printed text uses, with one place of it.
    """

    repository: Repository
    codes: dict[tuple[str, str, str], Code] = field(default_factory=dict)
    library: dict[str, str] = field(default_factory=dict)
    aliases: set[Alias] = field(default_factory=set)
    used: dict[str, str] = field(default_factory=dict)
    flaws: set[str] = field(default_factory=set)

    def take(self, imports: Imports, text: str, place: str) -> None:
        """Notes the words of a text."""
        for word in words_of(text) + signs_of(text):
            front, _, back = word.partition(".")
            key = imports.key_of(front)
            if key is not None:
                self.take_name(key, *imports.names[key], place)
            elif back and front in imports.modules:
                self.take_prefixed(front, imports.modules[front], back.split(".")[0], place)
            elif front in BUILT_IN:
                self.library.setdefault(front, "the language")
                self.used.setdefault(front, place)

    def take_name(self, key: str, module: str, name: str, place: str) -> None:
        """Notes an imported name, which its module calls `name` and the file `key`."""
        self.used.setdefault(key, place)
        if key != name:
            self.aliases.add(Alias(key, name, module))
        parts = module.split(".")
        if parts[1] not in self.repository.own:
            self.library.setdefault(name, module)
            self.used.setdefault(name, place)
        elif parts[2:4] == ["specs", "declared"]:
            self.take_code(parts, name, place)

    def take_prefixed(self, prefix: str, module: str, name: str, place: str) -> None:
        """Notes a name behind the prefix of its module, as in `error.Fault`."""
        self.used.setdefault(name, place)
        self.used.setdefault(f"{prefix}.", place)
        self.aliases.add(Alias(f"{prefix}.", "", module))
        parts = module.split(".")
        if parts[1] not in self.repository.own:
            self.library.setdefault(name, module)
        elif parts[2:4] == ["specs", "declared"]:
            self.take_code(parts, name, place)

    def take_code(self, parts: list[str], name: str, place: str) -> None:
        """Notes the constant or the type that a name is taken from."""
        code = declared(self.repository, parts[1], parts[4:], name)
        if code is None:
            self.flaws.add(f"{place}: no declaration of {name} found ({'.'.join(parts)})")
        self.add(code)

    def add(self, code: Code | None) -> None:
        """Adds a constant or a type, and what the fields of a type are seen as."""
        if code is None:
            return
        key = (code.sort, code.crate, code.name)
        if key in self.codes:
            if self.codes[key] != code:
                places = f"{self.codes[key].place} and {code.place}"
                self.flaws.add(f"two items of one name in a crate: {code.name} in {places}")
            return
        self.codes[key] = code
        if code.sort == "type":
            for name in types_in(code.text):
                self.add(view_of(self.repository, name) or plain_type(self.repository, code, name))
