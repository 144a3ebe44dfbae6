"""Where blocks, signatures and clauses end in Rattle code."""
from __future__ import annotations

import re

# Comments, strings and characters, whose braces do not count, and braces.
_MET = re.compile(r"//[^\n]*|\"(?:\\.|[^\"\\])*\"|b?'(?:\\.|[^'\\\n])'|[{}]", re.S)


def end_of_block(text: str, start: int) -> int:
    """The place after the brace that closes the one at `start`. Comments, strings and characters are skipped."""
    depth = 0
    for met in _MET.finditer(text, start):
        depth += (met[0] == "{") - (met[0] == "}")
        if depth == 0:
            return met.end()
    raise ValueError("a block has no end")


def end_of_clause(text: str, start: int) -> int:
    """The same for the text of a clause, in which `'` is a letter."""
    depth = 0
    for at in range(start, len(text)):
        depth += (text[at] == "{") - (text[at] == "}")
        if depth == 0:
            return at + 1
    raise ValueError("a clause has no end")


def blanked(text: str) -> str:
    """The text with spaces in place of `//` comments that are not docs, so that no brace in them counts."""
    return re.sub(r"(?<!/)//(?![/!])[^\n]*", lambda it: " " * len(it[0]), text)


def in_one_line(text: str) -> str:
    """The text with one space for each run of blanks."""
    return " ".join(text.split())
