"""The lines that `streams` writes for some drives, read into arrays.

`read_match` reads each text by its whole grammar. The lines of a drive have a known form, so this reader needs a tenth of the
time: it compares the words of all lines at once, and then looks at their numbers.
"""
from __future__ import annotations

from typing import List, Tuple

import numpy as np

from .._match_text import MatchText
from .._ragged import offsets_of, rows_of, spread
from .program import Lost

DIGITS = b"0123456789"
NO_LETTERS = bytes(byte if byte < 58 else 32 for byte in range(256))  # blanks in place of letters
# The words of the lines of a drive without their numbers, and a letter for each kind.
KINDS = {b" trace ": ord("t"), b" fix ": ord("f"), b" at  edge  offset  d ": ord("a"), b" none ": ord("n")}
IS_TRACE, IS_FIX, IS_AT, IS_NONE = b"tfan"
Piece = Tuple[int, int, int, int, List[int]]  # the drive, the first position, the last, the cost, the route


def drives_text(got: bytes, drive: int, counts: np.ndarray) -> MatchText:
    """The match of drives of so many positions each, in the lines that were written for them and their closing rows. The first
    drive has the id `drive`, the others those that follow.

    Lost: they are not such lines.
    """
    rest, pieces = without_pieces(lines_of(got, drive, counts.tolist()))
    try:
        kind = np.frombuffer(bytes(map(KINDS.__getitem__, rest.translate(None, DIGITS).split(b"\n")[:-1])), np.uint8)
    except KeyError:
        raise lost() from None
    size = np.where(kind == IS_AT, 6, 2)
    begin = size.cumsum() - size
    numbers = np.fromstring(rest.translate(NO_LETTERS), np.int64, sep=" ")
    if len(kind) != (2 * counts + 3).sum() or len(numbers) != size.sum():
        raise lost()
    name, place = numbers[begin], numbers[begin + 1]
    is_trace = kind == IS_TRACE
    if (place[is_trace] != name[is_trace]).any():
        raise lost()
    check_order(kind, name - drive, np.where(is_trace, 0, place), counts)
    base, ats = offsets_of(counts + 1), begin[kind == IS_AT]
    labels = np.full((3, base[-1]), -1, np.int64)
    labels[:, base[numbers[ats] - drive] + numbers[ats + 1]] = numbers[ats + 2], numbers[ats + 3], numbers[ats + 5]
    own = np.ones(base[-1], bool)
    own[base[1:] - 1] = False  # the closing rows
    return text_of(labels[:, own], [piece_of(line, drive) for line in pieces], counts)


def lines_of(got: bytes, drive: int, counts: List[int]) -> bytes:
    """The lines from the first to the last one of each drive, without those between drives. Lost: a drive has none."""
    found, end, text = [], 0, b"\n" + got
    for number, count in enumerate(counts, drive):
        begin = text.find(b"\n%d trace %d\n" % (number, number), end)
        last = b"\n%d none %d\n" % (number, count)
        at = text.find(last, begin)
        if begin < 0 or at < 0:
            raise lost()
        end = at + len(last) - 1  # the line feed may begin the line of the next drive
        found.append(text[begin + 1:end + 1])
    return b"".join(found)


def check_order(kind: np.ndarray, drive: np.ndarray, place: np.ndarray, counts: np.ndarray) -> None:
    """Lost: the lines of the drives are not one after the other, or are not a trace line, then in any order one at or none line
    for each position and, in their order, the fix lines, and last the none line of the closing row."""
    if not np.array_equal(drive, rows_of(2 * counts + 3)) or (place > counts[drive]).any():
        raise lost()
    base, first = offsets_of(counts + 1), offsets_of(2 * counts + 3)
    is_trace, is_fix, every = kind == IS_TRACE, kind == IS_FIX, np.arange(base[-1])
    key = base[drive] + place
    if not np.array_equal(np.flatnonzero(is_trace), first[:-1]):
        raise lost()
    if not np.array_equal(key[is_fix], every) or not np.array_equal(np.sort(key[~is_fix & ~is_trace]), every):
        raise lost()
    if (kind[first[1:] - 1] != IS_NONE).any() or (place[first[1:] - 1] != counts).any():
        raise lost()


def without_pieces(lines: bytes) -> Tuple[bytes, List[bytes]]:
    """The lines that tell no piece, and those that do."""
    rest, pieces, done = [], [], 0
    found = lines.find(b" piece ")
    while found >= 0:
        begin, end = lines.rfind(b"\n", done, found) + 1, lines.find(b"\n", found) + 1
        rest.append(lines[done:begin])
        pieces.append(lines[begin:end])
        done, found = end, lines.find(b" piece ", end)
    rest.append(lines[done:])
    return b"".join(rest), pieces


def piece_of(line: bytes, drive: int) -> Piece:
    """The piece that a line tells, with the number of its drive from `drive` on. Lost: it tells none."""
    words = line.split()
    try:
        own, first, last, cost, *route = map(int, [*words[:1], *words[2:4], words[5], *words[7:]])
    except (ValueError, IndexError):
        raise lost() from None
    if [words[1], words[4], words[6]] != [b"piece", b"cost", b"route"] or not route:
        raise lost()
    return own - drive, first, last, cost, route


def text_of(labels: np.ndarray, pieces: List[Piece], counts: np.ndarray) -> MatchText:
    """The match. Lost: the pieces do not have all positions with an edge, or a route begins or ends on another edge."""
    edge, begins = labels[0], offsets_of(counts)
    drive, first, last, cost = np.array([piece[:4] for piece in pieces], np.int64).reshape(-1, 4).T
    routes = [piece[4] for piece in pieces]
    if (last < first).any() or (drive < 0).any() or (drive >= len(counts)).any():
        raise lost()
    begin, end = begins[drive] + first, begins[drive] + last
    if (last >= counts[drive]).any() or not np.array_equal(spread(begin, last - first + 1), np.flatnonzero(edge >= 0)):
        raise lost()
    if edge[begin].tolist() != [route[0] for route in routes] or edge[end].tolist() != [route[-1] for route in routes]:
        raise lost()
    return MatchText("the match", "streams", np.arange(len(counts)), begins, rows_of(counts), edge, labels[1], labels[2],
                     drive, first, last, cost, offsets_of(np.array([len(route) for route in routes], np.int64)),
                     np.array([number for route in routes for number in route], np.int64), None)


def lost() -> Lost:
    return Lost("the program wrote something else than the lines of a drive")
