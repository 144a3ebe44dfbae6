"""The source files and definitions that pages name, such as `matching/specs/Match.antt` (`IsMatch`)."""
from __future__ import annotations

import re
from pathlib import Path

NAMED = re.compile(r"`(?:crates/)?([a-z]\w*/(?:src|specs|proofs)/[\w/]+\.(?:rt|antt))`"
                   r"(?:\s*\(((?:`[\w-]+`(?:,?\s*|\s+and\s+)?)+))?")


def named_in(text: str) -> list[tuple[int, str, list[str]]]:
    """The files that a page names, each with its line and the definitions that follow in brackets."""
    return [(text.count("\n", 0, it.start()) + 1, it[1], re.findall(r"`([\w-]+)`", it[2] or "")) for it in NAMED.finditer(text)]


def mistakes_in(top: Path, name: str) -> tuple[int, list[str]]:
    """The number of files that a page names, and a line for each that is not there or has no such definition."""
    named = named_in((top / name).read_text(encoding="utf-8"))
    found = []
    for line, path, definitions in named:
        file = top / "crates" / path
        if not file.exists():
            found.append(f"{name}:{line}: there is no crates/{path}")
            continue
        text = file.read_text(encoding="utf-8")
        found += [f"{name}:{line}: crates/{path} does not have {it}" for it in definitions if not re.search(rf"\b{it}\b", text)]
    return len(named), found
