"""What stands under a clause: the definitions that it names, what these name, and so on, in reading order.

Names are resolved as the prover does: by `use` lines, by names that a file shows on, and else in the file itself. Of a
record of call clauses only the fields that are asked for are followed; of the words of an index, which clauses are
handed whole, only those that are said. Of a Rust type what contracts see of it is followed, and the types of its fields.
What the kit defines is listed, and not followed.
"""
import re
from dataclasses import dataclass, field
from pathlib import Path

from contracts import Clause, Function
from definitions import Definition, Names, SpecFile, code_of, names_of
from rusttypes import BOUND, RustType, RustTypes

NAME = re.compile(r"[A-Za-z_«][\w'»]*(?:-[A-Za-z_0-9][\w']*)*(?:\.[A-Za-z_0-9][\w'\-]*)*")
SIGN = re.compile(r"[^\s\w(){}\[\].,;:'`«»]+")
WORD = re.compile(r"(?m)^  (\w+) = (λ[^;]*);")
# The record of what contracts see of an index, in the file of the index over pages, and how texts name such a record.
WORDS = "words"
HOLDERS = ("g", "I", WORDS)
GHOSTS = "Ghosts"
# What is built in, and so imported nowhere.
BUILT_IN = ("Unit",)
# The clauses under which a reader has to believe what is defined: what each is called, its crate, its function and its
# name, '' for one without a name.
HEADLINES = (
    ("run: ok", "trajdb", "Db::run", "ok"),
    ("open: book", "trajdb", "Db::open", "book"),
    ("close: holds", "trajdb", "Db::close", "holds"),
    ("check: sound", "trajdb", "Db::check", "sound"),
    ("command: asks", "trajdb", "Db::command", "asks"),
    ("zones: a course", "zones", "stays", ""),
    ("zones: a leg", "zoning", "Site::stays_of", ""),
    ("zones: features", "zoning", "features_of", "exact"),
)


@dataclass(frozen=True)
class Node:
    """What a text names: a definition of a file, a Rust type of a crate, what contracts see of one, or a word of an
    index."""

    kind: str
    place: str
    name: str


@dataclass
class Part:
    """What one headline clause adds: its function and clause, and what stands under it alone, in reading order."""

    title: str
    function: Function | None
    clause: Clause | None
    nodes: list[Node] = field(default_factory=list)


class Reading:
    """Goes over the definitions of all crates."""

    def __init__(self, root: Path, specs: dict[str, SpecFile], crates: dict):
        self.root, self.specs, self.crates = root, specs, crates
        self.types = RustTypes(root)
        self.seen: set[Node] = set()
        self.order: list[Node] = []
        # The fields that are followed of a record of clauses, by its node.
        self.cut: dict[Node, set[str]] = {}
        self.kit: set[tuple[str, str]] = set()
        # The ghosts of a trait that texts say, by its node.
        self.ghosts: dict[Node, set[str]] = {}
        self.words, self.words_path = self.find_words()
        # The trait whose ghosts the words of an index are.
        held = specs[self.words_path].names.names.get(GHOSTS) if self.words else None
        self.holder = self.resolve(*held) if held else None

    def find_words(self) -> tuple[dict[str, str], str]:
        for path, file in self.specs.items():
            there = file.find(WORDS)
            if there and re.search(rf"(?m)^{WORDS} = record", there.text):
                return {match[1]: match[2] for match in WORD.finditer(there.text)}, path
        return {}, ""

    # What names lead to

    def resolve(self, module: str, name: str, depth: int = 0) -> Node | None:
        parts = module.split(".")
        if parts[0] != "Rattle" or len(parts) < 4 or parts[2] != "specs" or parts[1] not in self.crates:
            self.kit.add((module, name))
            return None
        if parts[3] == "declared":
            return Node("type", parts[1], parts[-2] if parts[-1] == "TheVariants" else parts[-1])
        path = "/".join(["crates", *parts[1:]]) + ".antt"
        file = self.specs.get(path)
        if file is None:
            return None
        if file.find(name):
            return Node("definition", path, name)
        further = file.names.shown.get(name)
        return self.resolve(*further, depth + 1) if further and depth < 5 else None

    def named(self, text: str, names: Names, path: str | None) -> list[Node]:
        """What a text names, in its order."""
        text = "\n".join(code_of(line) for line in text.split("\n"))
        found: dict[Node, None] = {}
        own = self.specs[path] if path else None
        for token in NAME.findall(text):
            first, *rest = token.split(".")
            if rest and rest[0] in self.words and first in HOLDERS:
                found[Node("word", self.words_path, rest[0])] = None
            node = None
            if own and own.find(first):
                node = Node("definition", path, first)
            elif first in names.names:
                node = self.resolve(*names.names[first])
            elif first in names.modules and rest:
                node = self.resolve(names.modules[first], rest[0])
            elif first in BUILT_IN:
                self.kit.add(("Rattle.antt", first))
            if node and node != Node("definition", self.words_path, WORDS):
                found[node] = None
        self.take_signs(text, names)
        return list(found)

    def take_signs(self, text: str, names: Names) -> None:
        """Notes the signs of the kit that a text uses, such as `◌++◌`."""
        signs = {f"◌{sign}◌" for sign in SIGN.findall(text)}
        self.kit |= {names.names[sign] for sign in signs if sign in names.names}

    def definition(self, node: Node) -> Definition:
        return self.specs[node.place].find(node.name)

    def under(self, node: Node) -> list[Node]:
        """What a node names itself."""
        if node.kind in ("type", "view"):
            return self.under_type(node)
        file = self.specs[node.place]
        if node.kind == "word":
            return self.named(self.words[node.name], file.names, node.place)
        there = self.definition(node)
        texts = [*there.modules, there.text]
        if node in self.cut:
            kept = [it.text for it in there.fields if it.name in self.cut[node]]
            texts = [*there.modules, self.head_of(there), *kept]
        found: dict[Node, None] = {}
        for text in texts:
            found.update(dict.fromkeys(self.named(text, file.names, node.place)))
        found.pop(node, None)
        return list(found)

    def under_type(self, node: Node) -> list[Node]:
        """What the declaration of a Rust type leads to; where contracts see it as something else, what they see."""
        there = self.types.find(node.place, node.name)
        if there is None:
            return []
        if node in self.ghosts:
            names = names_of(there.path.read_text().splitlines(), "//")
            text = "\n".join(code_of(line, "//") for line in there.ghosts(self.ghosts[node]))
            return self.named(text, names, None)
        if there.word == "trait":
            return []
        below: list[Node] = []
        if there.view:
            made = f"{there.view.value}\n{there.view.made}"
            below = [*self.named(made, there.view.names, None), *self.said_ghosts(made, there.view.bounds, there)]
        fields = there.view.fields() if there.view and node.kind == "view" else None
        return [it for it in [*below, *self.seen_types(there, there.field_types(fields))] if it != node]

    def seen_types(self, there: RustType, names: list[str]) -> list[Node]:
        """The types of crates that a type names."""
        found = [self.types.named_in(there.path, there.crate, name) for name in names]
        return [self.type_node(it.crate, it.name) for it in found if it and it.word in ("struct", "enum")]

    def type_node(self, crate: str, name: str) -> Node:
        """A Rust type; where contracts see it as something else, that is all there is to say."""
        there = self.types.find(crate, name)
        return Node("view" if there and there.view else "type", crate, name)

    def said_ghosts(self, text: str, bounds: dict[str, str], there: RustType) -> list[Node]:
        """The traits whose ghosts a text says of its type parameters, such as `S.seen`."""
        found: list[Node] = []
        for name, word in re.findall(r"\b([A-Z]\w*)\.(\w+)", text):
            trait = self.types.named_in(there.path, there.crate, bounds[name]) if name in bounds else None
            if trait and trait.ghosts({word}):
                found.append(Node("type", trait.crate, trait.name))
                self.ghosts.setdefault(found[-1], set()).add(word)
        return found

    def head_of(self, there: Definition) -> str:
        """The text of a record before its fields."""
        return re.split(r"(?m)\bwhere\s*$", there.text, maxsplit=1)[0]

    # The order

    def is_declared(self, node: Node) -> bool:
        """Whether it is what contracts see of a type that is there with its declaration, which says that too."""
        return node.kind == "view" and Node("type", node.place, node.name) in self.seen

    def visit(self, node: Node) -> None:
        """Takes a node behind all that it needs."""
        todo: list[tuple[Node, bool]] = [(node, False)]
        while todo:
            at, is_done = todo.pop()
            if is_done:
                self.order.append(at)
            elif at not in self.seen and not self.is_declared(at):
                self.seen.add(at)
                todo.append((at, True))
                todo += [(below, False) for below in reversed(self.under(at)) if below not in self.seen]

    def clause(self, crate: str, said: str, name: str) -> tuple[Function, Clause] | None:
        """The clause of that name, or the one that is a record of calls with such a field."""
        for function in self.crates[crate].at(tuple(said.split("::"))) if crate in self.crates else []:
            found = [it for it in function.stated if it.kind == "ensures"]
            for clause in found:
                if clause.name == name:
                    return function, clause
            for clause in found:
                if (record := self.record_of(function, clause)) and name in [it.name for it in self.definition(record).fields]:
                    return function, clause
        return None

    def record_of(self, function: Function, clause: Clause) -> Node | None:
        """The record of call clauses that a clause is, if it is one."""
        if not clause.word.endswith(("Call", "KeepsStore")):
            return None
        names = names_of(function.path.read_text().splitlines(), "//").names
        node = self.resolve(*names[clause.word]) if clause.word in names else None
        return node if node and node.kind == "definition" and self.definition(node).is_record() else None

    def read(self, title: str, crate: str, said: str, name: str) -> Part:
        found = self.clause(crate, said, name)
        if found is None:
            return Part(title, None, None)
        function, clause = found
        start = len(self.order)
        record = self.record_of(function, clause) if clause.name != name else None
        if record:
            self.cut.setdefault(record, set()).add(name)
            self.seen.discard(record)
        names = names_of(function.path.read_text().splitlines(), "//")
        text = clause.text.split("{", 1)[1]
        for node in [*self.handed(function, text), *self.named(text, names, None)]:
            self.visit(node)
        return Part(title, function, clause, self.order[start:])

    def handed(self, function: Function, text: str) -> list[Node]:
        """The types that a call takes and gives, where contracts see them as something else, and the traits that its
        clause says something of."""
        signature = " ".join(signature_of(function))
        lines = function.path.read_text().splitlines()
        owner = next((line for line in reversed(lines[: function.line]) if line.startswith("impl")), "") if function.owner else ""
        here = RustType(function.crate, function.owner, "", function.path, "", [])
        names = [function.owner, *re.findall(r"\b[A-Z]\w*", signature)]
        views = [node for node in self.seen_types(here, names) if node.kind == "view"]
        return [*dict.fromkeys(views), *self.said_ghosts(text, dict(BOUND.findall(owner + signature)), here)]


def signature_of(function: Function) -> list[str]:
    """The lines of a function before its clauses."""
    found: list[str] = []
    for line in function.head:
        if line.strip().startswith(("//", "ensures", "requires", "decreases", "measure")):
            break
        found.append(line)
    return found


def read_headlines(root: Path, specs: dict[str, SpecFile], crates: dict) -> tuple[Reading, list[Part]]:
    reading = Reading(root, specs, crates)
    return reading, [reading.read(*headline) for headline in HEADLINES]
