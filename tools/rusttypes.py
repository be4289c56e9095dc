"""The Rust types of the crates: how each is declared, and what contracts see of it (`impl Model`, or the ghosts of a
trait). Names of types are resolved by the `use` lines of a file, or in its own crate."""
import re
from dataclasses import dataclass
from pathlib import Path

from contracts import comment_of
from definitions import Names, code_of, names_of

TYPE = re.compile(r"(?m)^(?:pub(?:\([a-z ]+\))? )?(struct|enum|trait|type) (\w+)\b")
MODEL = re.compile(r"(?ms)^impl(<[^\n]*?>)? Model for (\w+)[^\n]*\{\n(.*?)^\}\n")
GHOST = re.compile(r"(?m)^    ghost (Value|view) = \{")
IMPORT = re.compile(r"(?m)^use (\w+)(?:::\w+)*::(?:\{([^}]*)\}|(\w+));")
BOUND = re.compile(r"\b([A-Z]\w*): (\w+)")


@dataclass
class View:
    """What contracts see of a type: the type of what they see, and how it is made of the type's own fields."""

    value: str
    made: str
    names: Names
    bounds: dict[str, str]

    def fields(self) -> set[str]:
        """The fields of the type that contracts see something of."""
        return set(re.findall(r"\b\w+\.(\w+)", self.made))

    def is_copied(self) -> bool:
        """Whether what contracts see has a field for each field that is seen, by the same name."""
        inside = re.fullmatch(r"λ (\w+)\.\s*record \{(.*)\}", self.made, re.S)
        pairs = [pair.split("=", 1) for pair in inside[2].split(";") if "=" in pair] if inside else []
        return bool(inside and pairs) and all(value.strip() == f"{inside[1]}.{name.strip()}" for name, value in pairs)

    def said(self) -> str:
        if self.is_copied():
            return f"Contracts see it as `{self.value}`, field by field."
        if "\n" not in self.made:
            return f"Contracts see it as `{self.value}`: `{self.made}`."
        return f"Contracts see it as `{self.value}`:\n\n```text\n{self.made}\n```"


@dataclass
class RustType:
    """A type as it is declared, with its file and its comment."""

    crate: str
    name: str
    word: str
    path: Path
    comment: str
    lines: list[str]
    view: View | None = None

    def field_types(self, fields: set[str] | None = None) -> list[str]:
        """The names of the types of its fields, or of some of them."""
        found: list[str] = []
        for line in self.lines:
            code = re.sub(r"#\[.*?\]", "", code_of(line, "//"))
            field = re.match(r"\s+(?:pub(?:\([a-z ]+\))? )?(\w+): (.*)", code)
            if field and (fields is None or field[1] in fields):
                found += re.findall(r"\b[A-Z]\w*", field[2])
            elif not field:
                found += [name for part in re.findall(r"\((.*)\)", code) for name in re.findall(r"\b[A-Z]\w*", part)]
        return found

    def ghosts(self, words: set[str]) -> list[str]:
        """What contracts see of a trait, of these words alone: the lines, with the comments."""
        kept: list[str] = []
        for at, line in enumerate(self.lines):
            found = re.match(r"    ghost (\w+)\b", line)
            if found and found[1] in words:
                above = at
                while self.lines[above - 1].strip().startswith("///"):
                    above -= 1
                end = at
                while not self.lines[end].endswith(";"):
                    end += 1
                kept += self.lines[above : end + 1]
        return kept


def closed(text: str) -> str:
    """What stands before the brace that closes one opened before a text."""
    depth = 1
    for at, sign in enumerate(text):
        depth += (sign == "{") - (sign == "}")
        if not depth:
            return text[:at]
    return text


def dedented(text: str) -> str:
    """A text without what all its lines but the first are indented by."""
    first, *rest = text.strip().split("\n")
    least = min((len(line) - len(line.lstrip()) for line in rest if line.strip()), default=0)
    return "\n".join([first, *(line[least:] for line in rest)])


class RustTypes:
    """The types of all crates."""

    def __init__(self, root: Path):
        self.by_crate: dict[str, dict[str, RustType]] = {}
        self.imports: dict[Path, dict[str, str]] = {}
        for path in sorted((root / "crates").glob("*/src/**/*.rt")):
            self.take(path.relative_to(root).parts[1], path)

    def take(self, crate: str, path: Path) -> None:
        source, found = path.read_text(), self.by_crate.setdefault(crate, {})
        lines = source.splitlines()
        self.imports[path] = {}
        for match in IMPORT.finditer(source):
            for name in re.findall(r"\w+", match[2] or match[3]):
                self.imports[path][name] = match[1]
        for match in TYPE.finditer(source):
            at = source.count("\n", 0, match.start())
            if match[2] not in found or match[0].startswith("pub "):
                found[match[2]] = RustType(crate, match[2], match[1], path, comment_of(lines, at), declared(lines, at))
        for match in MODEL.finditer(source):
            ghosts = {ghost[1]: dedented(closed(match[3][ghost.end() :])) for ghost in GHOST.finditer(match[3])}
            if match[2] in found and "view" in ghosts:
                names = names_of([*lines[: source.count("\n", 0, match.start())], *match[3].splitlines()], "//")
                bounds = dict(BOUND.findall(match[1] or ""))
                found[match[2]].view = View(ghosts.get("Value", ""), ghosts["view"], names, bounds)

    def find(self, crate: str, name: str) -> RustType | None:
        return self.by_crate.get(crate, {}).get(name)

    def named_in(self, path: Path, crate: str, name: str) -> RustType | None:
        """The type that a name means in a file; one that its crate only passes on is sought in all."""
        whence = self.imports[path].get(name, "crate")
        if whence != "crate" and whence not in self.by_crate:
            return None
        there = self.find(crate if whence == "crate" else whence, name)
        if there or whence == "crate" and name not in self.imports[path]:
            return there
        others = [types[name] for types in self.by_crate.values() if name in types]
        return others[0] if len(others) == 1 else None


def declared(lines: list[str], at: int) -> list[str]:
    """The lines of a type's declaration, from its first one on."""
    end = at
    while not re.match(r"[})]|.*[;}]$", lines[end]) or lines[end].startswith(" "):
        end += 1
    return lines[at : end + 1]
