"""The walk of docs/ARCHITECTURE.md, compared with the calls that the code makes."""
from __future__ import annotations

import re
import sys
from dataclasses import dataclass
from pathlib import Path

sys.path.insert(0, str(Path(__file__).resolve().parents[2] / "tools"))
from clauses_parts.scanning import blanked, end_of_block  # noqa: E402

PAGE = "docs/ARCHITECTURE.md"
HEADING = "## One position, from file to line"
MOST = 85


@dataclass(frozen=True)
class Step:
    """A function of the walk: its crate and its name."""

    crate: str
    name: str


def steps_of(text: str) -> list[Step]:
    """The functions of the table after the heading, in order."""
    steps = []
    table = text.partition(HEADING + "\n")[2].partition("\n## ")[0]
    for line in table.splitlines():
        cells = [it.strip() for it in line.strip("|").split("|")] if line.startswith("| ") else []
        if len(cells) == 3 and cells[1].startswith("`"):
            crate = cells[1].strip("`")
            steps += [Step(crate, name.rpartition("::")[2]) for name in re.findall(r"`([\w:]+)`", cells[2])]
    return steps


def bodies_of(top: Path, crate: str) -> dict[str, str]:
    """The bodies of the functions of a crate, by name; those of one name are joined."""
    found: dict[str, str] = {}
    for path in sorted((top / "crates" / crate / "src").rglob("*.rt")):
        text = blanked(path.read_text(encoding="utf-8"))
        for match in re.finditer(r"\bfn (\w+)", text):
            end = re.compile(r"\n *\{\n|(?<=\S) \{\n|;\n").search(text, match.end())
            body = ""
            if end and "{" in end[0]:
                start = text.index("{", end.start())
                body = text[start:end_of_block(text, start)]
            found[match[1]] = found.get(match[1], "") + body
    return found


def calls(body: str, name: str) -> bool:
    return bool(re.search(rf"\b{name}(?:::<[^>]*>)?\(", body))


def mistakes_in(top: Path) -> list[str]:
    """A line for each function of the walk that is not there, or that none of the earlier ones calls."""
    steps = steps_of((top / PAGE).read_text(encoding="utf-8"))
    found = [f"{PAGE}: the walk has {len(steps)} functions; at most {MOST} are allowed"] if len(steps) > MOST else []
    if not steps:
        return [f"{PAGE}: the walk has no functions"]
    crates: dict[str, dict[str, str]] = {}
    reached = ""
    for at, step in enumerate(steps):
        if step.crate not in crates:
            crates[step.crate] = bodies_of(top, step.crate)
        bodies = crates[step.crate]
        if step.name not in bodies:
            found.append(f"{PAGE}: {step.crate} has no function {step.name}")
        elif at and not calls(reached, step.name):
            found.append(f"{PAGE}: no function before {step.name} of {step.crate} in the walk calls it")
        reached += bodies.get(step.name, "")
    return found
