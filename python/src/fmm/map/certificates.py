"""Certificates of `fmm prove` as arrays.

Only what the program itself wrote is read: the numbers of its lines are counted, and `fmm check` is what checks a certificate.
"""
from __future__ import annotations

import io
import re
from dataclasses import dataclass
from typing import List

import numpy as np
import pandas as pd

from .._ragged import offsets_of, rows_of
from ..errors import InputError

NEWLINE = b"\n"
LINES = bytes.maketrans(b": -", b"\n\n0")  # the origin of a row has no last edge; 0 stands for it, and nothing reads it
BLOCK = 1 << 20  # bytes of rows that are read at once


@dataclass
class Rows:
    """Shortest routes: an entry for each pair of an origin and a node that is within the bound, by rising pair.

    Nodes and edges have their numbers in the network file, from 0.
    """

    origin: np.ndarray  # int64[e]
    node: np.ndarray  # int64[e]
    distance: np.ndarray  # int64[e]: centimetres
    last_edge: np.ndarray  # int64[e]: of the route; of no meaning where the node is the origin


@dataclass
class Certificate:
    """The evidence for the matches of a trace file. Positions and pieces have the order of the file."""

    traces: np.ndarray  # int64[t]: ids
    position_first: np.ndarray  # int64[t + 1]
    rank: np.ndarray  # int64[p]: of the chosen candidate, -1 for a position without candidates
    cell_first: np.ndarray  # int64[p + 1]
    cost: np.ndarray  # int64[c]: of the cell of each candidate, -1 if no sequence ends there
    piece_first: np.ndarray  # int64[q]: the first position of each piece, among all positions
    piece_last: np.ndarray  # int64[q]
    piece_cost: np.ndarray  # int64[q]
    rows: Rows


def whole_numbers(lines: bytes) -> np.ndarray:
    """A number from each line."""
    if not lines.strip():
        return np.zeros(0, np.int64)
    try:
        return pd.read_csv(io.BytesIO(lines), header=None, dtype=np.int64)[0].to_numpy()
    except ValueError as fault:
        raise InputError(f"has a number that cannot be read: {fault}", "the certificate") from None


def read_certificate(text: bytes) -> Certificate:
    """Reads what `prove` wrote. InputError: it is cut, or no certificate."""
    lines_end = text.find(b"\nrow ")
    last = text.rfind(NEWLINE, 0, -1) + 1
    words = text[last:].split()
    if not text.startswith(b"fmm-certificate ") or len(words) != 5 or words[:2] != [b"certified", b"traces"]:
        raise InputError("is no whole certificate", "the certificate")
    end = last if lines_end < 0 else lines_end + 1
    certificate = _Layers(text[text.index(NEWLINE) + 1:end]).certificate(read_rows(text[end:last]))
    if len(certificate.traces) != int(words[2]):
        raise InputError(f"has {len(certificate.traces)} traces, not {int(words[2])}", "the certificate")
    return certificate


def read_rows(text: bytes) -> Rows:
    """The lines `row S N:D:E ..`."""
    origins: List[np.ndarray] = [np.zeros(0, np.int64)]
    entries: List[np.ndarray] = [np.zeros((0, 3), np.int64)]
    at = 0
    while at < len(text):
        end = len(text) if at + BLOCK >= len(text) else text.index(NEWLINE, at + BLOCK) + 1
        block = text[at:end].replace(b"row ", b"")
        bytes_of = np.frombuffer(block, np.uint8)
        colons, ends = (np.flatnonzero(bytes_of == ord(byte)) for byte in ":\n")
        counts = np.diff(np.searchsorted(colons, ends), prepend=0) // 2
        values = whole_numbers(block.translate(LINES))
        heads = offsets_of(1 + 3 * counts)[:-1]
        if len(values) != len(counts) + 3 * counts.sum():
            raise InputError("has a row that cannot be read", "the certificate")
        origins.append(values[heads][rows_of(counts)])
        entries.append(np.delete(values, heads).reshape(-1, 3))
        at = end
    found = np.concatenate(entries)
    return Rows(np.concatenate(origins), found[:, 0], found[:, 1], found[:, 2])


class _Layers:
    """The lines of traces, positions and pieces."""

    def __init__(self, text: bytes) -> None:
        self.lines = text.split(NEWLINE)[:-1]
        self.traces: List[int] = []
        self.first: List[int] = []
        self.rank: List[int] = []
        self.cells: List[bytes] = []
        self.counts: List[int] = []
        self.pieces: List[List[int]] = []
        for line in self.lines:
            self._take(line)

    def _take(self, line: bytes) -> None:
        if line.startswith(b"layer "):
            words = line.split(b" ", 5)
            self.rank.append(int(words[3]))
            self.cells.append(words[5])
            self.counts.append(words[5].count(b" ") + 1)
        elif line.startswith(b"none "):
            self.rank.append(-1)
            self.counts.append(0)
        elif line.startswith(b"piece "):
            words = line.split(b" ", 5)
            self.pieces.append([self.first[-1] + int(words[1]), self.first[-1] + int(words[2]), int(words[4])])
        elif line.startswith(b"trace "):
            self.traces.append(int(line[6:]))
            self.first.append(len(self.rank))
        elif not line.startswith(b"end "):
            raise InputError(f"has a line {line[:40]!r}", "the certificate")

    def certificate(self, rows: Rows) -> Certificate:
        cells = re.sub(rb"<[0-9]+", b"", b" ".join(self.cells))
        cost = whole_numbers(cells.replace(b"-", b"-1").replace(b" ", NEWLINE))
        first = offsets_of(np.array(self.counts, np.int64))
        if len(cost) != first[-1]:
            raise InputError("has a cell that cannot be read", "the certificate")
        pieces = np.array(self.pieces, np.int64).reshape(-1, 3)
        return Certificate(np.array(self.traces, np.int64), np.array([*self.first, len(self.rank)], np.int64),
                           np.array(self.rank, np.int64), first, cost, pieces[:, 0], pieces[:, 1], pieces[:, 2], rows)
