"""The pages that are made of the sources: the clauses, the definitions, and what to read under the headline clauses."""
import re
from collections import defaultdict
from pathlib import Path

from contracts import Function
from definitions import Definition, SpecFile, names_of
from hints import Hints
from premises import premises
from reading import Node, Part, Reading, signature_of
from rusttypes import RustType

PLACES = {"clauses": "docs/reference/CLAUSES.md", "definitions": "docs/reference/DEFINITIONS.md", "reading": "docs/proof/READING.md"}
MADE = "<!-- Made by tools/reference: change the sources, and run it again. -->"
# A comment that begins so is of what stands above it too.
LEANS = re.compile(r"(?:they|their|its|or|and|which is so|with|there are both|the same as|the second of the two)\b")
# What of names of the kit is asked first.
NOTES = {"slice_index": "0 past the end", "Unit": "what always holds"}
# The crate that has calls of others under one clause each, for the must-fail edits alone.
BODIES = "contract_tests"
# The call of the program, which is in no library.
PROGRAM = ("mftb", "start")


def is_own(function: Function) -> bool:
    """Whether a function is public in a crate that says what it promises; of the database over any index its calls are
    those of the database, and the crate of wrong bodies repeats what others promise."""
    if (function.crate, function.name) == PROGRAM and not function.owner:
        return True
    is_repeated = function.crate == BODIES
    return function.is_public and function.is_shown and function.owner != "Core" and not function.is_test and not is_repeated


def fenced(text: str, language: str) -> str:
    return f"```{language}\n{text}\n```"


def page(title: str, lead: str, parts: list[str]) -> str:
    return "\n\n".join([f"# {title}", MADE, lead, *parts]) + "\n"


# Clauses


def records_of(reading: Reading) -> dict[str, list[Definition]]:
    """The records of call clauses that public functions promise, by crate."""
    nodes: set[Node] = set()
    for crate in reading.crates.values():
        for function in filter(is_own, crate.functions):
            nodes |= {node for clause in function.stated if (node := reading.record_of(function, clause))}
    found: dict[str, list[Definition]] = defaultdict(list)
    for node in sorted(nodes, key=lambda node: (node.place, node.name)):
        found[node.place.split("/")[1]].append(reading.definition(node))
    return found


def said_of(function: Function) -> str:
    return f"{function.owner}::{function.name}" if function.owner else function.name


def function_part(function: Function, root: Path) -> str:
    place = f"`{function.path.relative_to(root / 'crates' / function.crate / 'src')}`"
    lines = [f"### `{said_of(function)}`", place, function.comment, fenced("\n".join(function.head), "rust")]
    return "\n\n".join(filter(None, lines))


def record_part(there: Definition) -> str:
    lines = [f"### Clauses of `{there.name}`", f"`{there.path.split('/specs/')[1]}`", there.comment, fenced(there.text, "text")]
    return "\n\n".join(filter(None, lines))


def clauses_page(root: Path, reading: Reading) -> str:
    records, parts = records_of(reading), []
    for name, crate in sorted(reading.crates.items()):
        own = [it for it in crate.functions if is_own(it) and it.stated]
        own = sorted(own, key=lambda it: (it.owner, it.name, str(it.path)))
        inside = [function_part(it, root) for it in own] + [record_part(it) for it in records.get(name, [])]
        parts += [f"## {name}", *inside] if inside else []
    lead = (
        "What each public function promises (`ensures`), and what it asks of its caller (`requires`), by crate and call. "
        "Where a clause is a record such as `RunCall`, each field of the record is a clause; the record follows its crate's calls. "
        "[Picking up the work](../../CONTRIBUTING.md) says how to read a clause, and [DEFINITIONS](DEFINITIONS.md) has what clauses cite."
    )
    return page("Clauses", lead, parts)


# Definitions


def definition_text(there: Definition, indent: str = "") -> str:
    above = [f"{indent}-- {line}" for line in there.comment.splitlines()]
    return "\n".join([*above, there.text])


def file_part(file: SpecFile) -> str:
    """The public definitions of a file, with the modules that they stand in."""
    texts, modules = [], ()
    for there in filter(Definition.is_public, file.definitions):
        opened = [text for text in there.modules if text not in modules]
        modules = there.modules
        texts.append("\n".join([*opened, definition_text(there, "  " * len(there.modules))]))
    name = file.path.split("/specs/")[1]
    return "\n\n".join(filter(None, [f"### {name}", file.comment, fenced("\n\n".join(texts), "text")]))


def definitions_page(specs: dict[str, SpecFile]) -> str:
    parts: list[str] = []
    for path, file in specs.items():
        head = f"## {path.split('/')[1]}"
        if any(map(Definition.is_public, file.definitions)):
            parts += ([] if head in parts else [head]) + [file_part(file)]
    lead = (
        "Each definition that contracts cite, by crate and file of `crates/CRATE/specs`, with its comment. "
        "[READING](../proof/READING.md) has those under the headline clauses, in reading order."
    )
    return page("Definitions", lead, parts)


# Reading


def node_part(root: Path, reading: Reading, node: Node, hints: Hints) -> str:
    if node.kind in ("type", "view"):
        there = reading.types.find(node.place, node.name)
        path, comment = (str(there.path.relative_to(root)), there.comment) if there else (f"crates/{node.place}/src", "")
        # What a view keeps to itself is no matter of contracts.
        comment = comment.split("\n\n")[0] if node.kind == "view" else comment
        lines = type_lines(reading, node, there) if there else []
    elif node.kind == "word":
        path, comment = node.place, f"`{node.name}` of an index over pages"
        lines = [fenced(f"{node.name} = {reading.words[node.name]}", "text")]
    else:
        found = reading.definition(node)
        path, comment, lines = found.path, led(reading, found), [fenced(shown_text(reading, node), "text")]
    return "\n\n".join([f"### {hints.head(node)}", placed(path, comment), *lines])


def placed(path: str, comment: str) -> str:
    """Where something stands, and what is said of it."""
    return f"`{path}`: {comment}" if comment else f"`{path}`"


def led(reading: Reading, there: Definition) -> str:
    """The comment of a definition. One that leans on those above it in the file stands behind the nearest that does not;
    one that was on the page before is not said again."""
    if not there.comment:
        return ""
    definitions = [reading.definition(node) for node in reading.order if node.kind == "definition"]
    same = next(it for it in definitions if it.comment == there.comment)
    if same is not there:
        return f"as `{same.name}`"
    file = reading.specs[there.path].definitions
    above = [it for it in file[: file.index(there)] if not LEANS.match(it.comment)]
    return f"(after `{above[-1].name}`: {above[-1].comment}) {there.comment}" if above and LEANS.match(there.comment) else there.comment


def type_lines(reading: Reading, node: Node, there: RustType) -> list[str]:
    """How a Rust type is declared, and what contracts see of it; of a trait the ghosts that are said."""
    if node.kind == "view" and there.view:
        return [there.view.said()]
    lines, said = there.lines, []
    if there.word == "trait":
        words = {word.name for word in reading.order if word.kind == "word"} if node == reading.holder else set()
        lines = [there.lines[0], *there.ghosts(words | reading.ghosts.get(node, set())), "}"]
        said = ["A `Ghosts I` is the record of these words for a type `I`."] if words else []
    return [fenced("\n".join(lines), "rust"), *said, *([there.view.said()] if there.view else [])]


def shown_text(reading: Reading, node: Node) -> str:
    """The text of a definition in its modules; of a record of call clauses only the fields that are read."""
    there = reading.definition(node)
    if node in reading.cut:
        kept = [it for it in there.fields if it.name in reading.cut[node]]
        text = reading.head_of(there) + "where\n" + "\n".join(f"  -- {it.comment}\n{it.text}" if it.comment else it.text for it in kept)
        left = len(there.fields) - len(kept)
        text += f"\n  -- {left} further promises: docs/reference/CLAUSES.md" if left else ""
    else:
        text = there.text
    return "\n".join([*there.modules, text])


def same_names(parts: list[Part]) -> dict[str, list[Node]]:
    """The names that mean two things in what is to be read."""
    by_name: dict[str, list[Node]] = defaultdict(list)
    for part in parts:
        for node in part.nodes:
            if node.kind != "word" and node not in by_name[node.name]:
                by_name[node.name].append(node)
    return {name: nodes for name, nodes in sorted(by_name.items()) if len(nodes) > 1}


def kit_names(reading: Reading) -> str:
    """What the definitions above take from the kit, by module."""
    by_module: dict[str, set[str]] = defaultdict(set)
    for module, name in reading.kit:
        by_module[module.removeprefix("Rattle.")].add(name)
    said = {module: [f"`{name}` ({NOTES[name]})" if name in NOTES else f"`{name}`" for name in sorted(names)] for module, names in by_module.items()}
    return "\n".join(f"- `{module}`: {', '.join(names)}" for module, names in sorted(said.items()))


def clause_lines(root: Path, reading: Reading, part: Part, hints: Hints) -> list[str]:
    """A clause under the first lines of its function, and what has to be shown before it says something."""
    function, clause = part.function, part.clause
    shown = "\n".join([*signature_of(function), *(f"    {line}" for line in clause.text.strip().splitlines())])
    names = names_of(function.path.read_text().splitlines(), "//")
    needed = premises(reading, part)
    said = hints.meant(str(function.path.relative_to(root)), names, clause.text)
    return [fenced(shown, "rust"), *said, *([f"It needs: {needed}."] if needed else [])]


def reading_page(root: Path, reading: Reading, parts: list[Part]) -> str:
    hints = Hints(reading, parts)
    texts: list[str] = []
    for part in parts:
        if part.clause is None:
            continue
        texts += [f"## {part.title}", f"What `{part.function.said()}` promises: what stands under it alone, and then the clause itself."]
        for node in part.nodes:
            texts += [node_part(root, reading, node, hints), *hints.said(node)]
        texts += clause_lines(root, reading, part, hints)
    texts += ["## Names of the kit", "The pages of the kit say what these mean.", kit_names(reading)]
    lead = (
        "The definitions that a reader has to believe under the headline clauses, in reading order: what is needed first stands first, "
        "and each stands once, with its file. Of a Rust type stands what contracts see of its values. A name that means two things means the one "
        "of the same crate, if nothing else is said. "
        "[Picking up the work](../../CONTRIBUTING.md) says how to read a text, and [THEOREM](THEOREM.md) what the clauses mean together."
    )
    return page("Reading", lead, texts)


def made_pages(root: Path, reading: Reading, parts: list[Part]) -> dict[str, str]:
    """The text of each page that is made, by its path."""
    texts = {PLACES["reading"]: reading_page(root, reading, parts), PLACES["definitions"]: definitions_page(reading.specs)}
    texts[PLACES["clauses"]] = clauses_page(root, reading)
    return texts


def bare(reading: Reading) -> dict[str, list[str]]:
    """The public clauses and definitions without a comment of words."""
    clauses: list[str] = []
    for crate in reading.crates.values():
        for function in filter(is_own, crate.functions):
            is_only = len(function.stated) == 1 and bool(function.comment)
            is_record = {it.text for it in function.stated if reading.record_of(function, it)}
            lacking = [it for it in function.stated if not it.comment and it.text not in is_record and not is_only]
            clauses += [f"{function.said()}: {it.name or it.kind}" for it in lacking]
    for name, records in records_of(reading).items():
        clauses += [f"{name}::{it.name}: {field.name}" for it in records for field in it.fields if not field.comment]
    found = [it for file in reading.specs.values() for it in file.definitions if it.is_public() and not it.comment]
    return {"clauses": clauses, "definitions": [f"{it.path}:{it.line}: {it.name}" for it in found]}
