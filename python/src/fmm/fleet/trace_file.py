"""Reads a trace file as the proved programs read it, and refuses its faults with their words."""
from __future__ import annotations

import hashlib
import re
from collections.abc import Iterator
from pathlib import Path
from typing import NamedTuple, Optional

from ..errors import InputError
from .common import Progress

BLANK = b" \t"
MOST_POSITIONS = 100_000  # of a trace
UNSIGNED, SIGNED = rb"[0-9]{1,20}", rb"-?[0-9]{1,20}"
FIELDS = [(UNSIGNED, 0, 4294967295), (SIGNED, -1000000000, 1000000000), (SIGNED, -1000000000, 1000000000),
          (UNSIGNED, 0, 4294967295)]


class Position(NamedTuple):
    """A position of a file: its line, the id of its trace, centimetres, and the fields after the id as they stand."""

    line: int
    trace: int
    x: int
    y: int
    fields: tuple[bytes, ...]


class TraceFile:
    """Reads the positions of a trace file, and leaves its checksum and its header in `checksum` and `header`."""

    def __init__(self, path: Path, progress: Optional[Progress] = None) -> None:
        self.path, self.progress = path, progress
        self.checksum: Optional[str] = None
        self.header = ""

    def fault(self, line: int, why: str) -> InputError:
        made = InputError(f"{self.path} line {line}{why}")
        made.path, made.line = str(self.path), line
        return made

    def blocks(self) -> Iterator[list[bytes]]:
        """Lists of lines without their ends."""
        digest, rest = hashlib.sha256(), b""
        with open(self.path, "rb") as file:
            while block := file.read(1 << 20):
                digest.update(block)
                if self.progress:
                    self.progress.add(len(block))
                lines = (rest + block).split(b"\n")
                rest = lines.pop()
                yield lines
                if len(rest) > 4096:
                    break
        yield [rest]
        self.checksum = digest.hexdigest()

    def positions(self) -> Iterator[Position]:
        """All positions in the order of the file."""
        number, whole = 0, None
        for block in self.blocks():
            for line in block:
                number += 1
                if len(line) > 4096:
                    raise self.fault(number, ": line too long")
                if whole is None:
                    if line.strip(BLANK + b"\r"):
                        whole = self.take_header(line)
                    continue
                found = whole.fullmatch(line)
                if found:
                    yield self.checked(number, line, found.groups())
                elif line.removesuffix(b"\r").strip(BLANK):
                    raise self.fault(number, fault_of(line, self.header.count(",") + 1))
        if whole is None:
            raise InputError("bad header", self.path)

    def checked(self, number: int, line: bytes, values: tuple[bytes, ...]) -> Position:
        """The position of a line, whose numbers have to be in their ranges."""
        trace, x, y = int(values[0]), int(values[1]), int(values[2])
        if not (trace <= 4294967295 and -1000000000 <= x <= 1000000000 and -1000000000 <= y <= 1000000000) \
                or len(values) == 4 and int(values[3]) > 4294967295:
            raise self.fault(number, fault_of(line, len(values)))
        return Position(number, trace, x, y, values[1:])

    def check_header(self) -> None:
        """Refuses a bad header, or another fault up to the first position."""
        next(self.positions(), None)

    def take_header(self, line: bytes) -> re.Pattern[bytes]:
        """Reads the header, and returns the pattern of all further lines."""
        self.header = line.removesuffix(b"\r").decode("latin-1")
        if self.header not in ("trace,x,y", "trace,x,y,time"):
            raise InputError("bad header", self.path)
        spellings = [rb"[ \t]*(" + spelling + rb")[ \t]*" for spelling, _, _ in FIELDS[:self.header.count(",") + 1]]
        return re.compile(b",".join(spellings) + rb"\r?")

    def traces(self) -> Iterator[tuple[int, list[Position]]]:
        """For each trace its id and its positions."""
        held: list[Position] = []
        for position in self.positions():
            if held and position.trace != held[0].trace:
                yield held[0].trace, held
                held = []
            elif len(held) == MOST_POSITIONS:
                raise self.fault(position.line, ": trace too long")
            held.append(position)
        if held:
            yield held[0].trace, held


def fault_of(line: bytes, fields: int) -> str:
    """What is wrong with a line, as FMM says it."""
    values = [value.strip(BLANK) for value in line.removesuffix(b"\r").split(b",")]
    if len(values) != fields:
        return ": wrong number of fields"
    for at, (value, (spelling, _, _)) in enumerate(zip(values, FIELDS), 1):
        if not re.fullmatch(spelling, value):
            return f" field {at}: bad number"
    for at, (value, (_, low, high)) in enumerate(zip(values, FIELDS), 1):
        if not low <= int(value) <= high:
            return f" field {at}: out of range"
    return ": bad line"
