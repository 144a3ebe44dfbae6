"""Joins the parts to one text in the order of the trace file."""
from __future__ import annotations

import collections
import hashlib
import os
from collections.abc import Iterable, Sequence
from pathlib import Path
from typing import IO, NamedTuple

import numpy as np

from .._output import Outputs
from ..errors import InputError
from .common import Progress, checksum
from .parts import AGAIN, TOTAL, LastLine, Run, read_text

MOST_OPEN = 200


class OpenParts:
    """Reads many parts at a time through few open files, in a `with` block."""

    def __init__(self, run: Run) -> None:
        self.run, self.places = run, dict[int, int]()
        self.files: collections.OrderedDict[int, IO[bytes]] = collections.OrderedDict()

    def __enter__(self) -> OpenParts:
        return self

    def __exit__(self, *_: object) -> None:
        for file in self.files.values():
            file.close()

    def get(self, number: int) -> IO[bytes]:
        file = self.files.pop(number, None)
        if file is None:
            if len(self.files) >= MOST_OPEN:
                other, old = self.files.popitem(last=False)
                self.places[other] = old.tell()
                old.close()
            file = open(self.run.part_path(number), "rb")
            file.seek(self.places.get(number, 0))
        self.files[number] = file
        return file


class Checked(NamedTuple):
    """What parts have been found to be: the last line of each, and the positions of each of its traces."""

    lasts: list[LastLine]
    positions: list[np.ndarray]


def join(run: Run, output: Path) -> str:
    """Writes the texts of all traces in the order of the trace file and one total line; returns this line."""
    index = run.folder / "index"
    if checksum(index) != run.manifest["index"]:
        raise InputError(f"was changed: remove {run.folder}", index)
    checked = check_parts(run)
    with Progress("joining", run.manifest["points"]) as progress, open(index, "rb") as lines, Outputs() as outputs:
        return join_texts(run, lines, outputs.open(output, binary=True), checked, progress)


def check_parts(run: Run) -> Checked:
    """Reads each part by the whole grammar, and compares it with its last line."""
    numbers = range(1, len(run.groups) + 1)
    checked = Checked([], [])
    with Progress("checking", sum(os.path.getsize(run.part_path(number)) for number in numbers)) as progress:
        for number in numbers:
            path, last = run.part_path(number), run.last_line(number)
            checked.lasts.append(last)
            checked.positions.append(check_part(path, last, progress))
    return checked


def check_part(path: Path, last: LastLine, progress: Progress) -> np.ndarray:
    """The positions of each trace of a part, which has to be as its last line says."""
    try:
        text = read_text(path, last.length, progress)
    except InputError as fault:
        if digest_of(path, last.length) != last.digest:
            raise InputError(f"was changed: {AGAIN}", path) from None
        raise InputError(f"{fault}: {AGAIN}") from None
    if text.digest != last.digest:
        raise InputError(f"was changed: {AGAIN}", path)
    if text.pieces != last.pieces:
        raise InputError(f"has {text.pieces} pieces, not {last.pieces}: {AGAIN}", path)
    return text.positions


def digest_of(path: Path, length: int) -> str:
    digest = hashlib.sha256()
    with open(path, "rb") as file:
        while length > 0 and (block := file.read(min(length, 1 << 20))):
            digest.update(block)
            length -= len(block)
    return digest.hexdigest()


def join_texts(run: Run, index: Iterable[bytes], text: IO[bytes], checked: Checked, progress: Progress) -> str:
    """Writes the trace of each line of the index and the total line."""
    next_id = [0] * len(run.groups)
    traces = points = 0
    with OpenParts(run) as parts:
        for line in index:
            group, trace, wanted = map(int, line.split())
            number, path = next_id[group - 1], run.part_path(group)
            next_id[group - 1] += 1
            positions = checked.positions[group - 1]
            found = int(positions[number]) if number < len(positions) else 0
            if found != wanted:
                raise InputError(f"trace {number} has {found} positions, not {wanted}: {AGAIN}", path)
            text.write(b"trace %d\n%send %d\n" % (trace, read_trace(parts.get(group), number, path), trace))
            traces += 1
            points += wanted
            progress.add(wanted)
        check_ends(run, parts, checked.lasts)
    wanted_counts = run.manifest["count"], run.manifest["points"]
    if (traces, points) != wanted_counts:
        raise InputError("has traces {} points {}, its parts traces {} points {}".format(*wanted_counts, traces, points),
                         run.folder / "manifest.json")
    total = f"total traces {traces} points {points} pieces {sum(last.pieces for last in checked.lasts)}"
    text.write(total.encode() + b"\n")
    return total


def check_ends(run: Run, parts: OpenParts, lasts: Sequence[LastLine]) -> None:
    """Refuses a part with something between its last trace and its total line, or behind that."""
    for number, last in enumerate(lasts, 1):
        file = parts.get(number)
        if not TOTAL.fullmatch(file.readline()) or file.tell() != last.length:
            raise InputError(f"the total line is not in its place: {AGAIN}", run.part_path(number))


def read_trace(file: IO[bytes], number: int, path: Path) -> bytes:
    """The lines of the next trace of a part, between its first and its last."""
    end = b"end %d\n" % number
    lines: list[bytes] = []
    if file.readline() == b"trace %d\n" % number:
        for line in file:
            if line == end:
                return b"".join(lines)
            lines.append(line)
    raise InputError(f"trace {number} is not in its place: {AGAIN}", path)
