"""When and where vehicles stood, from their measured positions."""
from __future__ import annotations

from dataclasses import dataclass
from typing import Tuple

import numpy as np

from ._ragged import rows_of, spread
from ._stop_times import Track, begins_of

LEAST_BOX, BOX_OF_NOISE, PART_OF_TIME = 20.0, 7.0, 0.7  # metres, multiple of the error, share of the seconds
CREEP = 0.6  # m/s: a vehicle that brakes stands from this speed on
MOVE_LASTS, MOST_APART, MOVE_OF_ERROR = 4.0, 12, 5.0  # seconds, positions, multiple of what standing vehicles seem to move
RAYLEIGH = 1.18  # the median length of a plane normal error, in standard errors of a coordinate


@dataclass
class Standing:
    """Stretches of standing: the first and last position, and the times in between which the vehicle stood."""

    first: np.ndarray
    last: np.ndarray
    begin: np.ndarray
    end: np.ndarray

    def take(self, which: np.ndarray) -> Standing:
        return Standing(self.first[which], self.last[which], self.begin[which], self.end[which])


def standing(track: Track, seconds: float) -> Standing:
    """The stretches of at least so many seconds in which a vehicle stayed at one place, but for the error of the positions.

    A vehicle stood while its positions stay within a box of seven times their error, 20 m at least; so one that crawls may stand.
    Begin and end are where the positions fit best to braking and to setting off. A time without positions between two positions
    at one place counts as standing.
    """
    first, last = _still(track, PART_OF_TIME * seconds)
    if not len(first):
        return Standing(first, last, np.zeros(0), np.zeros(0))
    first, last = _without_moves(track, first, last, seconds)
    turned = len(track.time) - 1 - last, len(track.time) - 1 - first
    begin = begins_of(track, first, last, CREEP)
    end = -begins_of(track.turned(), *turned, 0.0)
    found = Standing(first, last, begin, end)
    return found.take(end - begin >= seconds)


def _still(track: Track, seconds: float) -> Tuple[np.ndarray, np.ndarray]:
    """The first and last position of each stretch that is covered by windows of so many seconds within a box."""
    count = len(track.time)
    if not count:
        return np.zeros(0, np.int64), np.zeros(0, np.int64)
    until = _window_ends(track, seconds)
    begins = np.flatnonzero(until >= 0)
    box = max(LEAST_BOX, BOX_OF_NOISE * track.noise)
    wide = np.maximum(_extent(track.x, begins, until[begins]), _extent(track.y, begins, until[begins]))
    begins = begins[wide <= box]
    change = np.zeros(count + 1, np.int64)
    np.add.at(change, begins, 1)
    np.add.at(change, until[begins], -1)
    covered = np.concatenate((np.zeros(1, bool), np.cumsum(change)[:-1] > 0))
    steps = np.diff(covered.astype(np.int8))
    return np.flatnonzero(steps == 1), np.flatnonzero(steps == -1)


def _without_moves(track: Track, first: np.ndarray, last: np.ndarray, seconds: float) -> Tuple[np.ndarray, np.ndarray]:
    """The stretches without what lies beyond a move near their ends, such as that of a vehicle that sets off and waits at the
    next crossing, which is within the box too. What is left has to be long enough."""
    lag = int(np.clip(np.ceil(MOVE_LASTS / max(track.interval(), 1e-3)), 1, MOST_APART))
    at, of, moved = _moves(track, first, last, lag)
    far = moved > MOVE_OF_ERROR * float(np.median(moved)) / RAYLEIGH if len(at) else np.zeros(0, bool)
    at, of = at[far], of[far]
    since, until = track.time[at] - track.time[first[of]], track.time[last[of]] - track.time[at]
    late, early = (until < seconds) & (since > until), (since < seconds) & (until > since)
    new_first, new_last = first.copy(), last.copy()
    np.minimum.at(new_last, of[late], at[late] + lag - 1)
    np.maximum.at(new_first, of[early], at[early] + 1)
    good = track.time[new_last] - track.time[np.minimum(new_first, new_last)] >= PART_OF_TIME * seconds
    return np.where(good, new_first, first), np.where(good, new_last, last)


def _moves(track: Track, first: np.ndarray, last: np.ndarray, lag: int) -> Tuple[np.ndarray, np.ndarray, np.ndarray]:
    """How far a vehicle seems to move from each position of a stretch to the one `lag` positions later, by the means of up to
    three positions: the positions, the stretch of each, and the metres."""
    many = min(lag, 3)
    counts = np.maximum(last - first + 3 - lag - 2 * many, 0)
    of, at = rows_of(counts), spread(first + many - 1, counts)
    moved = np.zeros(len(at))
    for values in (track.x, track.y):
        total = np.concatenate((np.zeros(1), np.cumsum(values - values.mean())))
        before, after = total[at + 1] - total[at + 1 - many], total[at + lag + many] - total[at + lag]
        moved = np.hypot(moved, (after - before) / many)
    return at, of, moved


def _window_ends(track: Track, seconds: float) -> np.ndarray:
    """For each position the first one of its vehicle that comes at least so many seconds later, or -1."""
    count = len(track.time)
    begins = np.flatnonzero(np.append(True, track.vehicle[1:] != track.vehicle[:-1]))
    lengths = np.diff(np.append(begins, count))
    since = track.time - np.repeat(track.time[begins], lengths)
    reach = since[np.append(begins[1:], count) - 1]
    base = np.repeat(np.concatenate((np.zeros(1), np.cumsum(reach + seconds + 1)[:-1])), lengths)
    until = np.searchsorted(since + base, since + base + seconds, side="left")
    last = np.repeat(np.append(begins[1:], count) - 1, lengths)
    return np.where(until <= last, until, -1)


def _extent(values: np.ndarray, first: np.ndarray, last: np.ndarray) -> np.ndarray:
    """The greatest less the least of the values first[i] to last[i], for each i."""
    level = np.floor(np.log2(last - first + 1)).astype(np.int64)
    least, most, out = values, values, np.zeros(len(first))
    for now in range(int(level.max(initial=-1)) + 1):
        here = np.flatnonzero(level == now)
        second = last[here] - 2 ** now + 1
        out[here] = np.maximum(most[first[here]], most[second]) - np.minimum(least[first[here]], least[second])
        if 2 ** now < len(least):
            least, most = np.minimum(least[:-2 ** now], least[2 ** now:]), np.maximum(most[:-2 ** now], most[2 ** now:])
    return out


def overlaps(begin: np.ndarray, end: np.ndarray, of: np.ndarray, stood: Standing, vehicle: np.ndarray) -> np.ndarray:
    """How many seconds of each interval its vehicle stood. The intervals are sorted by vehicle (`of`) and time; `vehicle` is that
    of each stretch."""
    out = np.zeros(len(begin))
    known = np.flatnonzero(np.isfinite(begin) & np.isfinite(end))
    if not len(known) or not len(stood.begin):
        return out
    origin = min(begin[known].min(), stood.begin.min())
    day = max(end[known].max(), stood.end.max()) - origin + 1
    low, high = of[known] * day + begin[known] - origin, of[known] * day + end[known] - origin
    first = np.searchsorted(np.maximum.accumulate(high), vehicle * day + stood.begin - origin, side="right")
    after = np.searchsorted(low, vehicle * day + stood.end - origin, side="left")
    many = np.maximum(after - first, 0)
    which, pairs = rows_of(many), known[spread(first, many)]
    shared = np.minimum(stood.end[which], end[pairs]) - np.maximum(stood.begin[which], begin[pairs])
    np.add.at(out, pairs, np.maximum(shared, 0))
    return out
