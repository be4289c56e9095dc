"""How many public clauses and definitions may have no comment: tools/bare.txt, a line of each kind. It may not grow."""
from pathlib import Path

PLACE = Path("tools") / "bare.txt"


def read_most(root: Path) -> dict[str, int]:
    """The numbers, by kind; where two branches left a line each, the lower one."""
    most: dict[str, int] = {}
    path = root / PLACE
    for line in path.read_text().splitlines() if path.exists() else []:
        kind, _, number = line.partition(":")
        if number.strip().isdigit():
            most[kind] = min(int(number), most.get(kind, int(number)))
    return most


def write_most(root: Path, most: dict[str, int]) -> None:
    lines = ["# How many public clauses and definitions have no comment: tools/reference lowers it, and it may not grow."]
    (root / PLACE).write_text("\n".join([*lines, *(f"{kind}: {number}" for kind, number in sorted(most.items()))]) + "\n")
