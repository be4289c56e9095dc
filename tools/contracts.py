"""What the sources of the crates have that a document can cite: functions with their clauses, types and traits, tests,
definitions and must-fail edits.

The sources are read as `rt fmt` leaves them, line by line: what stands in an `impl` or a `trait` is indented by four.
"""
import re
from dataclasses import dataclass, field
from pathlib import Path

from definitions import plain

OWNER = re.compile(r"(?:pub(?:\([a-z ]+\))? )?(impl|trait)\b(.*)")
HEAD = re.compile(r"(ensures|requires|decreases|measure)\b")
FUNCTION = re.compile(r"(pub(?:\([a-z ]+\))? )?(?:const )?(?:unsafe )?fn (\w+)")
TYPE = re.compile(r"(?:pub(?:\([a-z ]+\))? )?(?:struct|enum|trait|type|const|static|mod) (\w+)")
CLAUSE = re.compile(r"(ensures|requires)\*?(?: (\w+))? \{(?: (\w+))?")
GHOST = re.compile(r"ghost (\w+)\b(?: *[:=(]|\s*$)")
DEFINED = re.compile(r"(?:(?:abbrev|unfoldable|pub|record|data|rewrite) )*([^\s:(){}]+)(?: [({][^:]*| )?:|pub (?:record|data) (\S+)")
FIELD = re.compile(r"  (?:pub )?([^\s:(){}]+) :")
# The file of a crate's specs whose records are promises of calls: a clause that is one of them stands for its fields.
PROMISES = "Promises.antt"


@dataclass
class Clause:
    """A clause of a function as it stands, with its name or '', its first word, and the comment right above it."""

    kind: str
    name: str
    word: str
    comment: str
    text: str


@dataclass
class Function:
    """A function or a method: its crate, its modules, its type or trait if any, the names of its clauses, and those of
    the conditions that it asks for; one without a name has the name ''. The words are the first ones of the clauses.
    Its comment is what stands above it in `///` lines, and its head the lines before its body."""

    crate: str
    modules: tuple
    owner: str
    name: str
    path: Path
    line: int
    is_public: bool = False
    is_shown: bool = False
    is_test: bool = False
    clauses: set = field(default_factory=set)
    conditions: set = field(default_factory=set)
    words: dict = field(default_factory=dict)
    comment: str = ""
    head: list = field(default_factory=list)
    stated: list = field(default_factory=list)

    def places(self):
        """The paths by which a document may name it, in its crate."""
        own = (self.owner, self.name) if self.owner else (self.name,)
        return {self.modules[at:] + own for at in range(len(self.modules) + 1)}

    def said(self):
        return "::".join([self.crate, *((self.owner,) if self.owner else ()), self.name])


@dataclass
class Crate:
    name: str
    functions: list = field(default_factory=list)
    names: set = field(default_factory=set)
    ghosts: set = field(default_factory=set)
    definitions: dict = field(default_factory=dict)
    fields: dict = field(default_factory=dict)
    places: dict = field(default_factory=dict)
    edits: set = field(default_factory=set)
    words: set = field(default_factory=set)

    def at(self, parts):
        """The functions at a path: in a type or a trait, or free ones."""
        return [function for function in self.functions if tuple(parts) in function.places()]

    def has(self, parts):
        """Whether a path names a function, a type, a trait, a module or what contracts see of one."""
        return bool(self.at(parts)) or tuple(parts) in self.names or tuple(parts) in self.ghosts


def owner_of(rest):
    """The type or trait that an `impl` or a `trait` line is of."""
    rest = re.sub(r"^<(?:[^<>]|<[^<>]*>)*>", "", rest.strip())
    if " for " in rest:
        rest = rest.split(" for ", 1)[1]
    found = re.match(r"(?:&(?:mut )?)?(\w+)", rest.strip())
    return found[1] if found else ""


def closes(text):
    """Whether the braces of a text close as often as they open."""
    return text.count("{") <= text.count("}")


def comment_of(lines, at):
    """What the `///` lines above a line say, without the attributes between."""
    start = at
    while start and lines[start - 1].strip().startswith(("///", "#[")):
        start -= 1
    return plain([line for line in lines[start:at] if line.strip().startswith("///")], "///")


def head_of(lines, at):
    """The lines of a function from its first one to its body, and the clauses in them."""
    depth, clauses, end, above = len(lines[at]) - len(lines[at].lstrip()), [], at, []
    while end < len(lines):
        text = lines[end].strip()
        if HEAD.match(text):
            start = end
            while not closes("\n".join(lines[start : end + 1])):
                end += 1
            if found := CLAUSE.match(text):
                stated = "\n".join(line[depth:] for line in lines[start : end + 1])
                clauses.append(Clause(found[1], found[2] or "", found[3] or "", plain(above, "//"), stated))
            is_last = lines[end].endswith(";")
        else:
            is_last = text.endswith(("{", "{}", "}", ";")) and not text.startswith(("ghost ", "//"))
        above = [*above, text] if text.startswith("//") else []
        end += 1
        if is_last:
            break
    head = [line[depth:] for line in lines[at:end]]
    head[-1] = re.sub(r" ?(?:\{|\{.*\}|;)$", "", head[-1]) if not HEAD.match(head[-1].strip()) else head[-1].rstrip(";")
    return [line for line in head if line], clauses


def read_source(crate, path, modules):
    owner, in_trait, function, is_test = "", False, None, False
    lines = path.read_text().splitlines()
    for number, line in enumerate(lines, 1):
        text, depth = line.strip(), len(line) - len(line.lstrip())
        if text.startswith("//"):
            continue
        if text.startswith("#[test]"):
            is_test = True
        if depth == 0 and (found := OWNER.match(text)):
            owner, in_trait, function = owner_of(found[2]), found[1] == "trait", None
        elif depth == 0 and text.startswith("}"):
            owner, function = "", None
        if found := TYPE.match(text):
            crate.names |= {modules[at:] + (found[1],) for at in range(len(modules) + 1)}
        if (found := FUNCTION.match(text)) and depth in (0, 4):
            inside = owner if depth == 4 else ""
            public = found[1] == "pub " or (depth == 4 and in_trait)
            function = Function(crate.name, modules, inside, found[2], path, number, public, is_test)
            function.comment = comment_of(lines, number - 1)
            function.head, function.stated = head_of(lines, number - 1)
            crate.functions.append(function)
            is_test = False
        elif function and (found := CLAUSE.match(text)):
            (function.clauses if found[1] == "ensures" else function.conditions).add(found[2] or "")
            if found[1] == "ensures":
                function.words[found[2] or ""] = found[3]
        elif found := GHOST.match(text):
            crate.ghosts |= {(owner, found[1]), (found[1],)}


def read_definitions(crate, path):
    """The definitions of a file, and the fields of its records."""
    whole = ""
    for number, line in enumerate(path.read_text().splitlines(), 1):
        if line.startswith("--"):
            continue
        if found := DEFINED.match(line):
            whole = found[1] or found[2]
            crate.definitions.setdefault(whole, (path, number))
            crate.places.setdefault(whole, []).append((path, number))
            crate.fields.setdefault(whole, set())
        elif whole and (found := FIELD.match(line)):
            crate.fields[whole].add(found[1])


def spread(crate, function):
    """Puts the fields of a record of promises in the place of a clause that is one."""
    for clause, word in function.words.items():
        if any(path.name == PROMISES for path, _ in crate.places.get(word, [])):
            function.clauses = function.clauses - {clause} | crate.fields[word]


def shown_by(path):
    """The names that a crate shows to others out of its modules."""
    shown = set()
    for found in re.finditer(r"^pub use (?!std::)[\w:]*?(?:\{([^}]*)\}|(\w+));", path.read_text() if path.exists() else "", flags=re.M):
        shown |= set(re.findall(r"\w+", found[1] or found[2]))
    return shown


def read_crate(folder):
    crate = Crate(folder.name)
    for path in sorted((folder / "src").rglob("*.rt")):
        modules = path.relative_to(folder / "src").with_suffix("").parts
        if modules[-1] in ("lib", "main", "mod"):
            modules = modules[:-1]
        crate.names |= {modules[at:] for at in range(len(modules))}
        read_source(crate, path, modules)
    for path in sorted((folder / "specs").rglob("*.antt")):
        read_definitions(crate, path)
    texts = [path for part in ("src", "specs") for path in (folder / part).rglob("*") if path.is_file()]
    crate.words = {word for path in texts for word in re.findall(r"\w+", path.read_text())}
    shown = shown_by(folder / "src" / "lib.rt")
    for function in crate.functions:
        spread(crate, function)
        function.is_shown = not function.modules or (function.owner or function.name) in shown
    crate.edits = {path.stem for path in (folder / "must-fail").glob("*.edit")}
    return crate


def read_crates(root):
    return {path.name: read_crate(path) for path in sorted((root / "crates").iterdir()) if (path / "src").is_dir()}
