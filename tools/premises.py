"""What a headline clause needs before it says something: that the call returned so, and what stands before its arrows."""
import re

from reading import Node, Part, Reading
from definitions import names_of

OPENING, CLOSING = "([{", ")]}"
BINDERS = re.compile(r"(?:[({][^(){}]*:[^(){}]*(?:\([^()]*\)[^(){}]*)*[)}]\s*)+")
RETURNED = re.compile(r"(On|If)(Ok|Err|Some|None) ")
# How often a name is put in the place of what it means.
DEEPEST = 3


def split_at(text: str, sign: str) -> list[str]:
    """A text cut at each sign that stands in no brackets."""
    found, depth, start = [], 0, 0
    for at, letter in enumerate(text):
        depth += (letter in OPENING) - (letter in CLOSING)
        if not depth and text.startswith(sign, at):
            found.append(text[start:at].strip())
            start = at + len(sign)
    return [part for part in [*found, text[start:].strip()] if part]


def bare(text: str) -> str:
    """A text without brackets around the whole of it."""
    text = text.strip()
    while text.startswith("(") and text.endswith(")") and len(split_at(text, " ")) == 1:
        text = text[1:-1].strip()
    return text


def put(text: str, names: list[str], values: list[str]) -> str:
    """A text with values in the places of names."""
    given = dict(zip(names, values))
    return re.sub(r"(?<![\w.'])[\w']+(?![\w'])", lambda found: given.get(found[0], found[0]), text)


def parameters(head: str) -> list[str]:
    """The parameters of a record that have to be given, from what stands before its fields."""
    flat = re.sub(r"\{[^{}]*\}", "", head)
    groups = re.findall(r"\(([^:()]*):", flat)
    return [name for group in groups for name in group.split()]


def opened(reading: Reading, text: str, names, path: str | None) -> tuple[str, str] | None:
    """What a text means that is a definition with its arguments, if that is one equation; and the file of that."""
    name, *given = split_at(text, " ")
    nodes = reading.named(name, names, path)
    if not nodes or nodes[0].kind != "definition":
        return None
    there = reading.definition(nodes[0])
    equations = re.findall(rf"(?ms)^\s*{re.escape(nodes[0].name)}((?: [\w']+)*) =(.*?)(?=^\s*{re.escape(nodes[0].name)} |\Z)", there.text)
    if len(equations) != 1 or there.modules or len(equations[0][0].split()) != len(given):
        return None
    body = " ".join(equations[0][1].split())
    return put(body, equations[0][0].split(), given), nodes[0].place


def field_text(reading: Reading, part: Part, record: Node, name: str) -> str:
    """The clause that is a field of a record of call clauses, of what the record is given."""
    there = reading.definition(record)
    text = next(it.text for it in there.fields if it.name == name).split(":", 1)[1]
    given = split_at(bare(part.clause.text.split("{", 1)[1].rsplit("}", 1)[0]), " ")[1:]
    named = parameters(reading.head_of(there).split(record.name, 1)[1])
    return put(text, named, given) if len(named) == len(given) else text


def premises(reading: Reading, part: Part) -> str:
    """In one line what a clause needs."""
    names, path = names_of(part.function.path.read_text().splitlines(), "//"), None
    text = part.clause.text.split("{", 1)[1].rsplit("}", 1)[0]
    record = reading.record_of(part.function, part.clause)
    if record in reading.cut:
        text = field_text(reading, part, record, part.title.split(": ")[1])
        names, path = reading.specs[record.place].names, record.place
    found: list[str] = []
    for _ in range(DEEPEST):
        text = walked(" ".join(text.split()), found)
        further = opened(reading, text, names, path)
        if not further or not ("→" in further[0] or RETURNED.match(further[0])):
            break
        text, path = further
        names = reading.specs[path].names
    return "; ".join(dict.fromkeys(found))


def walked(text: str, found: list[str]) -> str:
    """Takes what a text needs; what it then says."""
    while True:
        text = re.sub(r"^λ \w+\. ", "", bare(text))
        parts = split_at(text, "→")
        if RETURNED.match(text) and len(parts) == 1:
            word, value, *rest = split_at(text, " ")
            found.append(f"`{value}` is `{word[2:]}`")
            text = " ".join(rest)
        elif len(parts) > 1:
            found += [f"`{bare(part)}`" for part in parts[:-1] if not BINDERS.fullmatch(part)]
            text = parts[-1]
        else:
            return text
