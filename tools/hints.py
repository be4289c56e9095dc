"""What a reader is told beside a text of READING: what a name means there that is another one elsewhere, and which fields
no text on the page reads by themselves."""
import re
from collections import defaultdict

from definitions import Definition, Names, code_of
from reading import NAME, WORDS, Node, Part, Reading

# What the types of values are made of, beside types and records.
VALUES = ("List", "Option", "Result", "Bool")


def tokens(text: str) -> list[str]:
    return NAME.findall("\n".join(code_of(line) for line in text.split("\n")))


class Hints:
    """Knows all texts of the page."""

    def __init__(self, reading: Reading, parts: list[Part]):
        self.reading = reading
        self.texts = {node: self.text_of(node) for node in reading.order}
        clauses = [part.clause.text for part in parts if part.clause]
        self.fields = set(re.findall(r"\.(\w+)", "\n".join([*self.texts.values(), *clauses])))
        self.places: dict[str, set[str]] = defaultdict(set)
        for node in reading.order:
            if node.kind != "word":
                self.places[node.name].add(self.place_of(node))
        for module, name in reading.kit:
            if re.match(r"\w", name):
                self.places[name].add("the kit")

    def place_of(self, node: Node) -> str:
        return node.place if node.kind == "definition" else f"crates/{node.place}"

    def text_of(self, node: Node) -> str:
        """What stands on the page of a definition or a word; a Rust type reads no field of a record."""
        if node.kind == "definition":
            there = self.reading.definition(node)
            if node not in self.reading.cut:
                return "\n".join([*there.modules, there.text])
            kept = [it.text for it in there.fields if it.name in self.reading.cut[node]]
            return "\n".join([*there.modules, self.reading.head_of(there), *kept])
        return self.reading.words[node.name] if node.kind == "word" else ""

    def head(self, node: Node) -> str:
        """The name over what is said of a node, with its crate where the name means two things."""
        if node.kind == "word":
            return f"`{WORDS}.{node.name}`"
        crate = node.place.split("/")[1] if node.kind == "definition" else node.place
        return f"`{node.name}` ({crate})" if len(self.places[node.name]) > 1 else f"`{node.name}`"

    def said(self, node: Node) -> list[str]:
        found: list[str] = []
        if node.kind in ("definition", "word"):
            file = self.reading.specs[node.place]
            others = "\n".join(token for token in tokens(self.texts[node]) if token != node.name and not file.find(token.split(".")[0]))
            found += self.meant(node.place, file.names, others)
        if node.kind == "definition" and node not in self.reading.cut:
            unread = self.unread(self.reading.definition(node))
            found += [f"No text on this page reads {', '.join(f'`{name}`' for name in unread)} by itself."] if unread else []
        return found

    def meant(self, at: str, names: Names, text: str) -> list[str]:
        """What the names of a text in a file mean, where they were given another name, or where one means two things."""
        split = [token.split(".") for token in tokens(text)]
        found = dict.fromkeys(self.meaning(at, names, first, rest) for first, *rest in split)
        meant = ", ".join(said for said in found if said)
        return [f"Here {meant}."] if meant else []

    def meaning(self, at: str, names: Names, first: str, rest: list[str]) -> str:
        """What a name means in a file, where that has to be said."""
        if first in names.names:
            module, name = names.names[first]
            place = self.whence(module, name)
            if name != first and place:
                return f"`{first}` is `{name}` of {place}"
            is_clear = len(self.places[first]) < 2 or at.split("/")[1:2] == module.split(".")[1:2]
            return f"`{first}` is that of {place}" if place and not is_clear else ""
        if first in names.modules and rest and not first[0].isupper():
            module = names.modules[first]
            return f"`{first}.` begins {self.whence_module(module)}"
        return ""

    def whence(self, module: str, name: str) -> str:
        if not self.is_own(module):
            return f"`{module.removeprefix('Rattle.')}`"
        node = self.reading.resolve(module, name)
        if node is None or name == "Ghosts":
            return ""
        return f"`{self.place_of(node)}`"

    def whence_module(self, module: str) -> str:
        parts = module.split(".")
        if parts[-1] == "TheVariants":
            return f"the cases of `{parts[-2]}`"
        return f"names of `crates/{'/'.join(parts[1:])}.antt`" if self.is_own(module) else f"names of `{'.'.join(parts[1:])}`"

    def is_own(self, module: str) -> bool:
        return any(crate in self.reading.crates for crate in module.split(".")[1:2])

    def unread(self, there: Definition) -> list[str]:
        """The fields with a value of a record that no text reads."""
        found: list[str] = []
        for field in there.fields:
            others = " ".join(it.text for it in there.fields if it is not field)
            is_read = field.name in self.fields or bool(re.search(rf"\b{field.name}\b", others))
            if not is_read and self.has_values(there, code_of(field.text).split(":", 1)[1]):
                found.append(field.name)
        return found

    def has_values(self, there: Definition, typed: str) -> bool:
        """Whether a type is one of values, and not a fact."""
        names = self.reading.specs[there.path].names
        return "≡" not in typed and all(token in VALUES or self.is_value(there, names, token) for token in tokens(typed))

    def is_value(self, there: Definition, names: Names, token: str) -> bool:
        """Whether a name is that of a type, or of a definition that is one without parameters."""
        node: Node | None = Node("definition", there.path, token)
        if not self.reading.specs[there.path].find(token):
            node = self.reading.resolve(*names.names[token]) if token in names.names else None
        if node is None or node.kind != "definition":
            return node is not None
        return bool(re.search(rf"\b{re.escape(node.name)} : Type 0", self.reading.definition(node).text))
