"""The citations of a document: what it names of the crates, and whether each is there.

`crate::function`: `clause`, `clause` cites clauses of a function; behind a comma or a semicolon a name alone is one of
the same crate, or of the same type. `crate::module`: `test` cites tests, `crate`: `some-edit` must-fail edits, and
`PATH`: `name` a test of a file, be it Python or Rattle. A path from the top of the repository cites a file, and a link
another page.
"""
import re
from dataclasses import dataclass, field

SPAN = re.compile(r"`([^`]+)`")
NAME = re.compile(r"[A-Za-z_]\w*(?:::\w+)*$")
TOPS = ("crates/", "tools/", "python/", "docs/", "examples/", "bench/", ".ci/")
LINK = re.compile(r"\]\(([^)\s]+)\)")
ITS = re.compile(r"(?:, `[^`]+`)*:? ?\(?(?:its clause|their clauses)")


@dataclass
class Fault:
    path: str
    line: int
    text: str

    def __str__(self):
        return f"{self.path}:{self.line}: {self.text}"


@dataclass
class Cited:
    """The faults met among what documents cite."""

    faults: list = field(default_factory=list)


@dataclass
class Target:
    """What the names behind a colon are of: a crate, and functions, a module of tests, a file or a type in it."""

    said: str
    crate: object = None
    parts: tuple = ()
    functions: list = field(default_factory=list)
    file: object = None
    is_there: bool = True


def elsewhere(crates, parts, clause=None):
    """Where else there is a function of that name, with that clause: for who mends a citation."""
    found = {
        function.said()
        for crate in crates.values()
        for function in crate.functions
        if function.name == parts[-1] and (clause is None or clause in function.clauses | function.conditions)
    }
    if clause is None:
        found |= {f"{crate.name}::{'::'.join(parts)}" for crate in crates.values() if crate.has(parts)}
    return "; there is " + ", ".join(sorted(found)[:4]) if found else ""


class Reader:
    """Reads the citations of one piece of text: of an item, or of a paragraph."""

    def __init__(self, root, crates, cited, path, home=None):
        self.root, self.crates, self.cited, self.path, self.home = root, crates, cited, path, home

    def fault(self, text):
        self.cited.faults.append(Fault(self.path, self.line, text))

    def read(self, text, line):
        """Reads a piece that begins on a line; how many clauses, tests and files it cites."""
        self.targets, self.is_of, self.last, found = [], False, "", 0
        end = 0
        for span in SPAN.finditer(text):
            self.line = line + text.count("\n", 0, span.start())
            gap = " ".join(text[end : span.start()].split())
            end = span.end()
            found += self.take(" ".join(span[1].split()), gap, text[end:])
        return found

    def take(self, said, gap, behind):
        if gap == ":" and self.targets:
            self.is_of = True
        if self.is_of and gap in (":", ",", "and", ", and") and re.match(r"[\w-]+$", said):
            return self.cite(said)
        is_next = bool(self.targets) and (gap in (",", "and", ", and") or gap.endswith((";", "; the private")))
        goes_on = self.is_of is False and gap in (",", "and", ", and")
        self.is_of = False
        target = self.target(said, is_next)
        if target is None:
            self.targets = []
            return self.file(said)
        self.targets = self.targets + [target] if goes_on else [target]
        if target.functions and ITS.match(" ".join(behind.split())):
            self.own(target)
        return 1 if target.functions or target.file or target.parts else 0

    def own(self, target):
        """All clauses of a function, which says so in words."""
        if not any(function.clauses for function in target.functions):
            self.fault(f"{target.said} has no clause")

    def target(self, said, is_next):
        first, _, rest = said.partition("::")
        if said in self.crates:
            return Target(said, self.crates[said])
        if first in self.crates and rest and NAME.match(said):
            return self.resolved(said, self.crates[first], tuple(rest.split("::")))
        if said.startswith(TOPS) and (self.root / said.split()[0]).is_file():
            return Target(said, file=self.root / said.split()[0])
        if not NAME.match(said):
            return None
        if is_next and (crate := self.targets[-1].crate):
            parts = tuple(said.split("::"))
            for place in (self.targets[-1].parts[:-1] + parts, parts):
                if crate.has(place):
                    return self.resolved(said, crate, place)
            return None
        if self.home and self.home.at(said.split("::")):
            return self.resolved(said, self.home, tuple(said.split("::")))
        return None

    def resolved(self, said, crate, parts):
        if not crate.has(parts):
            self.fault(f"there is no {said}{elsewhere(self.crates, parts)}")
        return Target(said, crate, parts, crate.at(parts), is_there=crate.has(parts))

    def cite(self, name):
        """A clause, test or edit of all targets."""
        for target in self.targets:
            if target.is_there:
                self.cite_of(target, name)
        return 1

    def cite_of(self, target, name):
        if target.file:
            if not has_test(target.file, name):
                self.fault(f"{target.said} has no test {name}")
        elif target.functions:
            if not any(name in function.clauses | function.conditions for function in target.functions):
                self.fault(f"{target.said} has no clause {name}{elsewhere(self.crates, target.parts, name)}")
        elif not target.parts:
            if name not in target.crate.edits:
                self.fault(f"{target.said} has no must-fail edit {name}{self.edit_of(name)}")
        else:
            self.cite_in(target, name)

    def edit_of(self, name):
        return "".join(f"; {crate.name} has" for crate in self.crates.values() if name in crate.edits)

    def cite_in(self, target, name):
        """A test of a module, or a method of a type."""
        if not target.crate.has((*target.parts, name)):
            self.fault(f"{target.said} has no {name}{elsewhere(self.crates, (name,))}")

    def file(self, said):
        """A file of the repository."""
        if not said.startswith(TOPS) or re.search(r"[*]|\b[A-Z_]{4,}\b", said):
            return 0
        if not (self.root / said.split()[0].rstrip("/")).exists():
            self.fault(f"there is no file {said}")
        return 1


def has_test(path, name):
    """Whether a file has a test of that name."""
    head = r"#\[test\]\s+fn" if path.suffix == ".rt" else "def"
    return bool(re.search(rf"{head} {re.escape(name)}\b", path.read_text()))


def anchors(text):
    """The anchors of a page's headings."""
    heads = re.findall(r"^#+ (.*)$", text, flags=re.M)
    return {re.sub(r"[^\w\- ]", "", head.lower().replace("`", "")).replace(" ", "-") for head in heads}


def read_links(root, path, cited):
    """Tests that each link of a page leads to a file, and to a heading of it."""
    text = path.read_text()
    for found in LINK.finditer(re.sub(r"^    .*$", "", text, flags=re.M)):
        place, _, anchor = found[1].partition("#")
        if "://" in found[1]:
            continue
        line = text.count("\n", 0, text.find(found[0])) + 1
        to = (path.parent / place).resolve() if place else path
        if not to.exists():
            cited.faults.append(Fault(str(path.relative_to(root)), line, f"the link {found[1]} leads nowhere"))
        elif anchor and to.suffix == ".md" and anchor not in anchors(to.read_text()):
            cited.faults.append(Fault(str(path.relative_to(root)), line, f"{place or 'this page'} has no heading {anchor}"))
