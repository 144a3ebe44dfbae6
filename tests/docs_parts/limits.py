"""How long a page may be, and whether the page that is made from the sources is current."""
from __future__ import annotations

import re
import sys
from pathlib import Path

sys.path.insert(0, str(Path(__file__).resolve().parents[2] / "tools"))
from clauses_parts.page import page  # noqa: E402
from clauses_parts.repository import Repository  # noqa: E402

# The lines that are written by hand: what tests/docs compares with the output of a command is not counted.
LINES = {"docs/PROOFS.md": 250, "docs/DECISIONS.md": 220}
OUTPUT = re.compile(r"^<!-- output(?:: part)? -->\n```\n(.*?)^```\n", re.M | re.S)
MADE = "docs/CLAUSES.md"


def lines_by_hand(text: str) -> int:
    return len(text.splitlines()) - sum(len(it.splitlines()) for it in OUTPUT.findall(text))


def mistakes_in(top: Path) -> list[str]:
    found = []
    for name, most in LINES.items():
        many = lines_by_hand((top / name).read_text(encoding="utf-8")) if (top / name).exists() else 0
        if many > most:
            found.append(f"{name}: it has {many} lines that are written by hand; at most {most} are allowed")
    made = top / MADE
    if not made.exists() or made.read_text(encoding="utf-8") != page(Repository(top)):
        found.append(f"{MADE}: it is not current; run tools/clauses --write")
    return found
