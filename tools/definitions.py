"""The definitions of the crates' specs, read as text: each with its comment, its fields, and what its names lead to."""
import re
from dataclasses import dataclass, field
from pathlib import Path

USE = re.compile(r"(?m)^\s*(?:ghost |unfoldable |abbrev )?(pub )?(?:ghost )?use (\w+(?:\.[\w+]+)*)(?:\.\{([^}]*)\})?(?: as (\w+))?")
IMPORT = re.compile(r"(?:unfoldable |abbrev )?(?:pub )?(?:ghost )?use\b|(?:pub )?mod\b")
SIGNATURE = re.compile(r"\s*((?:(?:abbrev|unfoldable|foldable|opaque|private|rewrite|pub|record|data|axiom) +)*)([^\s:(){}=;]+)\s*(.*)$")
FIELD = re.compile(r"^(\s*)(?:pub )?([\w']+)\s*:")


@dataclass
class Field:
    """A field of a record: its comment, and its text without that."""

    name: str
    comment: str
    text: str


@dataclass
class Definition:
    """A definition of a file: the text is as it stands there, without the comment above it."""

    path: str
    name: str
    line: int
    words: tuple[str, ...]
    comment: str
    text: str
    modules: tuple[str, ...]
    fields: list[Field] = field(default_factory=list)

    def is_public(self) -> bool:
        return "pub" in self.words

    def is_record(self) -> bool:
        return "record" in self.words

    def size(self) -> int:
        return len(self.text.splitlines()) + len(self.comment.splitlines())


@dataclass
class Names:
    """What the names of a file lead to: `names` to a module and a name in it, `modules` to a module."""

    names: dict[str, tuple[str, str]] = field(default_factory=dict)
    modules: dict[str, str] = field(default_factory=dict)
    shown: dict[str, tuple[str, str]] = field(default_factory=dict)


@dataclass
class SpecFile:
    path: str
    comment: str
    names: Names
    definitions: list[Definition] = field(default_factory=list)

    def find(self, name: str) -> Definition | None:
        return next((it for it in self.definitions if it.name == name), None)


def code_of(line: str, mark: str = "--") -> str:
    """A line without its comment."""
    at = line.find(mark)
    return line if at < 0 else line[:at]


def names_of(lines: list[str], mark: str = "--") -> Names:
    """The names that the `use` lines of a file bring in."""
    found = Names()
    for match in USE.finditer("\n".join(code_of(line, mark) for line in lines)):
        shown, path, items, other = match.groups()
        if items is None:
            found.modules[other or path.split(".")[-1]] = path
            continue
        for item in filter(None, (item.strip() for item in items.split(","))):
            name, _, local = item.partition(" as ")
            found.names[(local or name).strip()] = path, name.strip()
            if shown:
                found.shown[(local or name).strip()] = path, name.strip()
    return found


def plain(lines: list[str], mark: str) -> str:
    """The words of comment lines, one line for each paragraph."""
    words = [line.strip().removeprefix(mark).strip() for line in lines]
    return re.sub(r"(?<=\S)\n(?=\S)", " ", "\n".join(words)).strip()


def comment_above(lines: list[str], at: int, mark: str) -> list[str]:
    """The comment lines that stand right above a line."""
    start = at
    while start and lines[start - 1].strip().startswith(mark):
        start -= 1
    return lines[start:at]


def fields_of(lines: list[str], indent: int) -> list[Field]:
    """The fields of a record, each with the comment above it: one holds for all fields up to the next comment."""
    found: list[Field] = []
    above: list[str] = []
    for line in lines[1:]:
        match = FIELD.match(code_of(line))
        if line.strip().startswith("--"):
            above.append(line)
        elif match and len(match[1]) == indent:
            shared = found[-1].comment if found and not above else ""
            found.append(Field(match[2], plain(above, "--") or shared, line))
            above = []
        elif found and line.strip():
            found[-1].text += "\n" + line
            above = []
    return found


class FileReader:
    """Reads a file of definitions, line by line; what stands in a `module` with parameters is indented by two."""

    def __init__(self, root: Path, path: Path):
        self.lines = path.read_text().splitlines()
        self.path = str(path.relative_to(root))
        self.modules: list[tuple[int, str]] = []
        self.starts: list[tuple[int, tuple[str, ...], str, tuple[str, ...], int]] = []
        # The first line behind an entry that is no part of it.
        self.ends: list[int] = []

    def read(self) -> SpecFile:
        head: list[str] = []
        for line in self.lines:
            if not line.startswith("--"):
                break
            head.append(line)
        file = SpecFile(self.path, plain(head, "--"), names_of(self.lines))
        at = 0
        while at < len(self.lines):
            at = self.take(at)
        self.end(len(self.lines))
        file.definitions = [self.definition(*start, end) for start, end in zip(self.starts, self.ends)]
        return file

    def end(self, at: int) -> None:
        """Ends the entry before a line, whose own comment is no part of it."""
        if len(self.ends) < len(self.starts):
            while not self.lines[at - 1].strip() or self.lines[at - 1].strip().startswith("--"):
                at -= 1
            self.ends.append(at)

    def take(self, at: int) -> int:
        """Takes what begins on a line; the line behind it."""
        code = code_of(self.lines[at]).rstrip()
        indent = len(code) - len(code.lstrip())
        if not code.strip():
            return at + 1
        if IMPORT.match(code.strip()):
            self.end(at)
            while "{" in code and "}" not in code:
                at += 1
                code += code_of(self.lines[at])
            return at + 1
        while self.modules and indent < self.modules[-1][0]:
            self.modules.pop()
        if re.match(r"module\b", code.strip()):
            self.end(at)
            while not re.search(r"\bwhere\s*$", code) and at + 1 < len(self.lines):
                at += 1
                code += " " + code_of(self.lines[at]).strip()
            self.modules.append((indent + 2, code.strip()))
            return at + 1
        if indent == (self.modules[-1][0] if self.modules else 0):
            self.begin(at, code)
        return at + 1

    def begin(self, at: int, code: str) -> None:
        """Begins an entry, where the line has the signature of one."""
        words, name, rest = SIGNATURE.match(code).groups() if SIGNATURE.match(code) else ("", "", "")
        follows = self.lines[at + 1].strip() if at + 1 < len(self.lines) else ""
        is_typed = rest.startswith(":") or (not rest and follows.startswith(":"))
        if words.strip() or (name and is_typed):
            self.end(at)
            self.starts.append((at, tuple(words.split()), name, tuple(text for _, text in self.modules), len(code) - len(code.lstrip())))

    def definition(self, at: int, words: tuple[str, ...], name: str, modules: tuple[str, ...], indent: int, end: int) -> Definition:
        lines = self.lines[at:end]
        comment = plain(comment_above(self.lines, at, "--"), "--")
        fields = fields_of(lines, indent + 2) if "record" in words else []
        return Definition(self.path, name, at + 1, words, comment, "\n".join(lines), modules, fields)


def read_specs(root: Path) -> dict[str, SpecFile]:
    """The files of definitions of all crates, by path, in order."""
    paths = sorted((root / "crates").glob("*/specs/**/*.antt"))
    return {str(path.relative_to(root)): FileReader(root, path).read() for path in paths}
