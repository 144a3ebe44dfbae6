"""Reads and writes the network file of the proved programs."""
from __future__ import annotations

import os
import re
from operator import methodcaller
from typing import IO, Optional

import numpy as np

from ._lines import EdgeLines, Parts
from ._ragged import offsets_of, rows_of
from ._records import Column, read_records
from ._text_files import read_bytes
from .errors import InputError, PathText, shown
from .projection import FARTHEST

HEADER = ["edge", "from", "to", "line"]
LINE = re.compile(r"[ \t]*-?[0-9]+[ \t]+-?[0-9]+[ \t]*(?:;[ \t]*-?[0-9]+[ \t]+-?[0-9]+[ \t]*)+", re.ASCII)
DIGITS, BLANKS = b"-0123456789", bytes.maketrans(b",;\n", b"   ")
GREATEST_EDGE, GREATEST_NODE = 4_294_967_295, 18_446_744_073_709_551_615
GREATEST = int(np.iinfo(np.int64).max)
LONGEST = 100_000_000  # centimetres of an edge
LIMITS = {"edges": 150_000, "nodes": 60_000, "points": 1_000_000}
MOST_BYTES = 134_217_728
BATCH = 1 << 16


def write_network(file: IO[str], lines: EdgeLines, parts: Parts) -> None:
    """Writes the network file, with links far away. Node ids below 0 stand for those above 2**63, as EdgeLines keeps them."""
    file.write(",".join(HEADER) + "\n")
    xy = parts.moved(lines, 1)
    for low in range(0, len(lines), BATCH):
        high = min(low + BATCH, len(lines))
        first = lines.first[low:high + 1]
        points = [f"{x} {y}" for x, y in xy[first[0]:first[-1]].tolist()]
        bounds = (first - first[0]).tolist()
        columns = (lines.ids[low:high], lines.from_node[low:high].view(np.uint64), lines.to_node[low:high].view(np.uint64))
        rows = zip(*(column.tolist() for column in columns), bounds, bounds[1:])
        file.write("".join(f"{edge},{begin},{end},{';'.join(points[a:b])}\n" for edge, begin, end, a, b in rows))


def read_network(path: PathText) -> EdgeLines:
    """The edges of a network file. Refused with InputError: what the proved programs refuse, and what read_records refuses."""
    return plain_network(read_bytes(path, os.fspath(path))) or network_of_records(path)


def plain_network(data: bytes) -> Optional[EdgeLines]:
    """The edges of a network file that has nothing but numbers and the separators between them, some ten times as fast as by
    records. None for every other file: network_of_records reads it, or says what is wrong."""
    header, _, rows = data.partition(b"\n")
    forms = rows.translate(None, DIGITS).split(b"\n")
    counts = {form: point_count(form) for form in set(forms[:-1])}
    signs = sum(rows.count(sign) for sign in (b",-", b" -", b";-"))
    if header != ",".join(HEADER).encode() or forms[-1] or min(counts.values(), default=0) < 2 or rows.count(b"-") != signs:
        return None
    count = np.fromiter(map(counts.__getitem__, forms[:-1]), np.int64, len(forms) - 1)
    begin = offsets_of(2 * count + 3)
    try:
        values = np.fromstring(rows.translate(BLANKS), np.int64, sep=" ")
    except (ValueError, DeprecationWarning):  # a sign alone; depends on the version of numpy and on the filter of warnings
        return None
    if len(values) != begin[-1]:
        return None
    is_point = np.ones(len(values), bool)
    for place in range(3):
        is_point[begin[:-1] + place] = False
    ids, *nodes, x = (values[begin[:-1] + place] for place in range(4))
    is_wrong = any(node.min() < 0 or node.max() == GREATEST for node in nodes) or ids.max() > GREATEST_EDGE
    # Each sign after a comma is that of the first x of a line, and none is that of a zero.
    if is_wrong or (x < 0).sum() != rows.count(b",-") or len(np.unique(ids)) < len(ids):
        return None
    xy, first = values[is_point].reshape(-1, 2), offsets_of(count)
    if far_points(xy).any() or same_points(xy, first).any():
        return None
    lines = EdgeLines(ids, first, xy, *nodes)
    return None if (lines.lengths > LONGEST).any() else lines


def point_count(form: bytes) -> int:
    """How many points an edge has whose row is this without its numbers; 0 for a row of another form."""
    count = form.count(b" ")
    return count if form == b",,, " + b"; " * (count - 1) else 0


def network_of_records(path: PathText) -> EdgeLines:
    """The edges of a network file, with blanks and quotes where tables may have them."""
    table = read_records(path)
    if [name.strip() for name in table.header] != HEADER:
        raise InputError(f"is no network file: its header is {shown(','.join(table.header))}, not {','.join(HEADER)}", path)
    table.header = HEADER
    if not len(table):
        raise InputError("has no edges", path)
    edge, line = table.column("edge"), table.column("line")
    ids = whole(edge, GREATEST_EDGE).astype(np.int64)
    nodes = [whole(table.column(name), GREATEST_NODE).view(np.int64) for name in ("from", "to")]
    _, begins = np.unique(ids, return_index=True)
    if len(begins) < len(ids):
        doubled = np.ones(len(ids), bool)
        doubled[begins] = False
        refuse(edge, doubled, "comes a second time")
    xy, first = points_of(line)
    lines = EdgeLines(ids, first, xy, *nodes)
    if (lines.lengths > LONGEST).any():
        refuse(line, lines.lengths > LONGEST, "is longer than 1,000 km")
    return lines


def whole(column: Column, greatest: int) -> np.ndarray:
    texts = column.texts
    joined = "".join(texts)
    if joined.isascii() and joined.isdigit() and "" not in texts and max(map(len, texts)) <= 19:
        values = np.fromstring(" ".join(texts), np.uint64, sep=" ")
        if values.max() <= greatest:
            return values
    texts = [text.strip(" \t") for text in texts]
    wrong = np.array([not (text.isascii() and text.isdigit() and len(text) <= 20 and int(text) <= greatest) for text in texts])
    if wrong.any():
        refuse(column, wrong, f"is not a whole number from 0 to {greatest}")
    return np.fromiter(map(int, texts), np.uint64, len(texts))


def points_of(column: Column) -> tuple[np.ndarray, np.ndarray]:
    """The points of all lines, and where each line begins."""
    texts = column.texts
    count = np.fromiter(map(methodcaller("count", ";"), texts), np.int64, len(texts)) + 1
    wrong = np.array([not LINE.fullmatch(text) for text in texts])
    if wrong.any():
        refuse(column, wrong, "is not a line of two or more points in whole centimetres, such as 0 40000;5000 42000")
    values: np.ndarray = np.array(";".join(texts).replace(";", " ").split(), dtype=np.float64)
    first = offsets_of(count)
    xy = values.reshape(-1, 2).astype(np.int64)
    far, same = far_points(values.reshape(-1, 2)), same_points(xy, first)
    for bad, text in ((far, "has a coordinate beyond 1,000,000,000 cm"), (same, "has a point that equals the one before it")):
        if bad.any():
            refuse(column, np.isin(np.arange(len(texts)), rows_of(count)[bad]), text)
    return xy, first


def far_points(xy: np.ndarray) -> np.ndarray:
    """Which points are farther away than the programs take."""
    return ((xy > FARTHEST) | (xy < -FARTHEST)).any(axis=1)


def same_points(xy: np.ndarray, first: np.ndarray) -> np.ndarray:
    """Which points equal the one before in their line."""
    same = np.zeros(len(xy), bool)
    same[1:] = (xy[1:] == xy[:-1]).all(axis=1)
    same[first[:-1]] = False
    return same


def refuse(column: Column, wrong: np.ndarray, text: str) -> None:
    at = int(wrong.argmax())
    column.refuse(at, f"{shown(column.texts[at], 40) or 'an empty field'} {text}")
