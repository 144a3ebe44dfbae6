"""The order of the lines in a text of match, follow or streams: which lines may follow which, and their numbers."""
from __future__ import annotations

from dataclasses import dataclass
from typing import Optional

import numpy as np

TRACE, AT, NONE, PIECE, END, FIX, FINISH = range(7)
BEGIN = 7  # what comes before the first line
LAST_OF_FULL = 99_999  # the number of the last position of a drive that takes no more
FOLLOWERS = {BEGIN: [TRACE], TRACE: [AT, NONE], AT: [AT, PIECE], NONE: [AT, NONE, END], PIECE: [AT, NONE, END], END: [TRACE]}
ALLOWED = np.zeros((8, 8), bool)
for _kind, _followers in FOLLOWERS.items():
    ALLOWED[_kind, _followers] = True


@dataclass
class Lines:
    """Lines of a text without its total line. `number` is the id of `trace` and `end`, I of `at`, `none`, `fix`, L of `piece`."""

    kind: np.ndarray  # int8
    number: np.ndarray  # int64
    begin: np.ndarray  # int64: F of `piece`
    line: np.ndarray  # int64: the number of the line in the text, from 0

    def take(self, places: np.ndarray) -> Lines:
        return Lines(self.kind[places], self.number[places], self.begin[places], self.line[places])


def first_of(lines: Lines, wrong: np.ndarray) -> Optional[int]:
    """The first wrong line in the order of the text."""
    return int(lines.line[wrong].min()) if wrong.any() else None


def before_each(kind: np.ndarray) -> np.ndarray:
    """The kind of the line before each line."""
    return np.append(np.int8(BEGIN), kind[:-1])[:len(kind)]


def match_fault(lines: Lines, streams: bool) -> Optional[int]:
    """The first line that the grammar of a match does not allow in its place. Lines `fix` and `finish` are not looked at.

    In `streams` texts the lines are sorted by their ids, and a trace may begin while the one before it in this order is open.
    """
    lines = lines.take(np.flatnonzero(lines.kind < FIX))
    kind, number = lines.kind, lines.number
    before = before_each(kind)
    if streams:
        before = np.where(kind == TRACE, np.int8(BEGIN), before)
    wrong = ~ALLOWED[before, kind]
    is_position, is_trace = (kind == AT) | (kind == NONE), kind == TRACE
    trace = np.cumsum(is_trace) - 1
    traces = np.flatnonzero(is_trace)
    if not len(traces):
        return first_of(lines, wrong)
    positions = np.cumsum(is_position)
    place = positions - 1 - positions[traces][trace]  # of the latest position within its trace
    wrong |= is_position & (number != place)
    wrong |= (kind == END) & (number != number[traces][trace])
    wrong |= (kind == PIECE) & (number != place)
    run = np.maximum.accumulate(np.where((kind == AT) & (before != AT), np.arange(len(kind)), 0))
    wrong |= (kind == PIECE) & (lines.begin != place[run])
    return first_of(lines, wrong)


def follow_fault(lines: Lines) -> Optional[int]:
    """The first line that comes before the position that settles it, or after a later one, or a wrong `fix` or `finish`."""
    kind, number = lines.kind, lines.number
    is_trace = kind == TRACE
    traces = np.flatnonzero(is_trace)
    if not len(traces) or not is_trace[0]:
        return int(lines.line[0]) if len(kind) else None
    trace = np.cumsum(is_trace) - 1

    def so_far(which: np.ndarray) -> np.ndarray:
        """How many of these lines the trace has had, the line itself included."""
        count = np.cumsum(which)
        return count - count[traces][trace]

    taken, finished = so_far(kind == FIX), so_far(kind == FINISH)
    positions = so_far((kind == AT) | (kind == NONE))
    latest = taken - 1
    wrong = (kind == FIX) & ((number != latest) | (finished > 0))
    wrong |= (kind == FINISH) & ((finished != 1) | (taken == 0))
    wrong |= (kind == AT) & (number > latest)
    wrong |= (kind == NONE) & ((number != latest) | (finished > 0))
    wrong |= (kind == PIECE) & (latest - number != np.where(finished > 0, 0, 1))
    wrong |= (kind == END) & ((finished != 1) | (positions != taken))
    return first_of(lines, wrong)


def streams_fault(lines: Lines, ids: np.ndarray, rank: np.ndarray) -> Optional[int]:
    """The first line of another id than its place allows. `rank` is the place of the id in the order of first appearance.

    An id has several drives if `idle` ends them before the file does; each has a line `trace`.
    """
    kind = lines.kind
    same = np.append(False, ids[1:] == ids[:-1])[:len(ids)]
    before = before_each(kind)
    open_endings = np.cumsum((kind == FINISH).astype(np.int64) - (kind == END))
    within_ending = np.append(0, open_endings)[:len(kind)] > 0
    begins = (kind == TRACE) | (kind == FIX) | (kind == FINISH)
    wrong = np.where(begins, within_ending, ~same)
    wrong |= (before == TRACE) & ~(same & (kind == FIX))
    wrong |= (kind == TRACE) & (lines.number != ids)
    wrong[traces_of_open_ids(kind, rank)] = True
    wrong[misplaced_finishes(lines, rank)] = True
    return first_of(lines, wrong)


def traces_of_open_ids(kind: np.ndarray, rank: np.ndarray) -> np.ndarray:
    """The lines `trace` of ids whose drive before has no line `end`."""
    order = np.argsort(rank, kind="stable")
    marks = order[(kind[order] == TRACE) | (kind[order] == END)]
    is_trace = kind[marks] == TRACE
    return marks[1:][is_trace[1:] & is_trace[:-1] & (rank[marks[1:]] == rank[marks[:-1]])]


def misplaced_finishes(lines: Lines, rank: np.ndarray) -> np.ndarray:
    """The lines `finish` that come too late among those that no other lines of positions part.

    They have the order of the first lines of their drives. But a full drive ends after all others, and its id begins another one.
    """
    kind, order = lines.kind, np.argsort(rank, kind="stable")
    begin, latest = (np.empty(len(kind), np.int64) for _ in range(2))
    for found, which in ((begin, TRACE), (latest, FIX)):
        places = np.where(kind[order] == which, np.arange(len(kind)), 0)
        found[order] = order[np.maximum.accumulate(places)]
    is_row = (kind == TRACE) | (kind == FIX)
    rows, finishes = np.flatnonzero(is_row), np.flatnonzero(kind == FINISH)
    part = np.cumsum(is_row)[finishes]
    late = np.append(False, (part[1:] == part[:-1]) & (begin[finishes[1:]] < begin[finishes[:-1]]))[:len(finishes)]
    following = np.append(rows, -1)[part]
    is_full = (lines.number[latest[finishes]] == LAST_OF_FULL) & (kind[following] == TRACE) & (rank[following] == rank[finishes])
    return finishes[late & ~is_full]
