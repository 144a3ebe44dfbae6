"""The parts: FOLDER/parts/NUMBER.txt has the text of `fmm_large match` for a group, and last a line that says what the part is.

    part NUMBER run RUN program PROGRAM traces T points P pieces C bytes B sha256 SUM

RUN is the checksum of the manifest, which names the network, the traces and the options; PROGRAM is that of the program that the
task ran. B and SUM are of the text before this line.
"""
from __future__ import annotations

import hashlib
import os
import re
from collections.abc import Iterator
from pathlib import Path
from typing import IO, NamedTuple, Optional

import numpy as np

from .._match_text import read_match
from ..errors import InputError
from .common import UNFINISHED, Progress, is_foreign, load_manifest, number_name

LAST = re.compile(rb"part (\d+) run ([0-9a-f]{64}) program ([0-9a-f]{64}) traces (\d+) points (\d+) pieces (\d+) bytes (\d+) "
                  rb"sha256 ([0-9a-f]{64})\n")
TOTAL = re.compile(rb"total traces (\d+) points (\d+) pieces (\d+) rows \d+\n")
AGAIN = "remove it and call again"
BLOCK = 8 << 20  # bytes that are read at a time; reading needs ten bytes for each


class LastLine(NamedTuple):
    """What the last line of a part says of its text."""

    pieces: int
    length: int
    digest: str


class Run:
    """A folder with its manifest."""

    def __init__(self, folder: Path) -> None:
        found = load_manifest(folder)
        if not found:
            raise InputError("has no manifest.json", folder)
        data, self.manifest = found
        self.folder, self.groups = folder, self.manifest["groups"]
        self.name = hashlib.sha256(data).hexdigest()

    def group_path(self, number: int) -> Path:
        return self.folder / "groups" / f"{number_name(number)}.csv"

    def part_path(self, number: int) -> Path:
        return self.folder / "parts" / f"{number_name(number)}.txt"

    def missing(self) -> list[int]:
        """The groups without a part. Refuses a part that is cut, doubled, or of something else, and files that are no parts."""
        there = set()
        for name in sorted(os.listdir(self.folder / "parts")):
            if is_foreign(name) or re.fullmatch(r"\d{6,}\.\S+\.tmp", name):
                continue
            number = int(name[:-4]) if re.fullmatch(r"\d{6,}\.txt", name) else 0
            if not 1 <= number <= len(self.groups) or name != number_name(number) + ".txt":
                raise InputError("is no part of this run: remove it", self.folder / "parts" / name)
            self.last_line(number)
            there.add(number)
        return [number for number in range(1, len(self.groups) + 1) if number not in there]

    def last_line(self, number: int) -> LastLine:
        """The last line of a part, which has to fit the group and the run."""
        path = self.part_path(number)
        size = os.path.getsize(path)
        with open(path, "rb") as file:
            file.seek(max(0, size - 600))
            end = file.read()
        found = LAST.fullmatch(end[end.rfind(b"\n", 0, -1) + 1:])
        if not found:
            raise InputError(f"is cut: {AGAIN}", path)
        group, run, program, traces, points, pieces, length, digest = found.groups()
        wanted = self.groups[number - 1]
        if run.decode() != self.name:
            raise InputError(f"is of another run: {AGAIN}", path)
        if program.decode() not in self.manifest["program"]:
            raise InputError(f"was made by another program: {AGAIN}", path)
        if int(group) != number:
            raise InputError(f"is the part of group {int(group)}: {AGAIN}", path)
        if (int(traces), int(points)) != (wanted["traces"], wanted["points"]):
            raise InputError(f"has other traces than its group: {AGAIN}", path)
        if int(length) != size - len(found.group()):
            raise InputError(f"is cut or doubled: {AGAIN}", path)
        return LastLine(int(pieces), int(length), digest.decode())

    def remove_temporary(self) -> None:
        for path in [*(self.folder / "parts").glob("*.tmp"), *self.folder.glob(f"{UNFINISHED}*")]:
            path.unlink(missing_ok=True)  # a job of an earlier call may have ended now


# ---- texts

class PartText(NamedTuple):
    """The text of a part: the positions of each trace, the number of pieces, and the checksum of the text."""

    positions: np.ndarray
    pieces: int
    digest: str


def read_text(path: Path, length: Optional[int] = None, progress: Optional[Progress] = None) -> PartText:
    """Reads the first `length` bytes of a file, or all, by the whole grammar of a match. The traces have the ids 0, 1, 2 .., and
    the total line counts them. Raises InputError."""
    digest, lines, traces, pieces = hashlib.sha256(), 0, 0, 0
    counts = [np.zeros(0, np.int64)]
    total = b""
    with open(path, "rb") as file:
        for block, rest in blocks(file, os.path.getsize(path) if length is None else length):
            total = rest
            digest.update(block + rest)
            if block:
                positions, more = read_block(path, block, lines, traces)
                counts.append(positions)
                traces += len(positions)
                pieces += more
                lines += block.count(b"\n")
            if progress:
                progress.add(len(block) + len(rest))
    positions = np.concatenate(counts)
    found = TOTAL.fullmatch(total)
    if not found:
        raise InputError("the total line is not in its place", path, lines + 1)
    if tuple(map(int, found.groups())) != (traces, int(positions.sum()), pieces):
        raise InputError("the total line counts others", path, lines + 1)
    return PartText(positions, pieces, digest.hexdigest())


def blocks(file: IO[bytes], length: int) -> Iterator[tuple[bytes, bytes]]:
    """Blocks of whole traces of the first `length` bytes; with the last one comes the last line."""
    rest = b""
    while length > 0:
        data = file.read(min(BLOCK, length))
        if not data:
            break
        length -= len(data)
        rest += data
        cut = rest.rfind(b"\ntrace ") + 1
        if length > 0 and cut:
            yield rest[:cut], b""
            rest = rest[cut:]
    cut = rest.rfind(b"\n", 0, -1) + 1
    yield rest[:cut], rest[cut:]


def read_block(path: Path, block: bytes, lines: int, first: int) -> tuple[np.ndarray, int]:
    """The positions of each trace of a block and the number of its pieces. Before it there are so many lines and traces."""
    begin = b"\n" + block[:6]
    counts = tuple((block.count(b"\n" + word) + begin.startswith(b"\n" + word))
                   for word in (b"trace ", b"at ", b"none ", b"piece "))
    total = b"total traces %d points %d pieces %d\n" % (counts[0], counts[1] + counts[2], counts[3])
    try:
        text = read_match(block + total, "text")
    except InputError as fault:
        line = None if fault.line is None else lines + fault.line
        raise InputError(str(fault).partition(": ")[2], path, line) from None
    wrong = np.flatnonzero(text.traces != np.arange(first, first + len(text.traces)))
    if text.kind != "match" or len(wrong):
        number = first + int(wrong[0]) if len(wrong) else first
        raise InputError(f"trace {number} is not in its place", path)
    return np.diff(text.position_first), len(text.cost)
