"""Which positions of a drive are matched: those that are no jumps, and moved far enough from the last one that is matched."""
from __future__ import annotations

from typing import TYPE_CHECKING, Callable

import numpy as np

if TYPE_CHECKING:
    from ._noise import Motion

SHORT, AHEAD = 3, 5  # positions of a jump, and stretches after it that may go on from where it began


def thinned(x: np.ndarray, y: np.ndarray, drives: np.ndarray, step: float) -> np.ndarray:
    """Which positions are kept, as bools. `drives` numbers the drive of each position; a drive's positions are consecutive.

    The first and the last position of each drive are kept, and each other one whose distance from the last kept one is at
    least `step`, in the unit of x and y. Takes about half a second for a million positions.
    """
    count = len(x)
    kept = np.ones(count, dtype=bool)
    if step <= 0 or count < 3:
        return kept
    near = float(step) * float(step)
    change = np.flatnonzero(drives[1:] != drives[:-1]) + 1
    first = np.zeros(count, dtype=bool)
    first[0] = True
    first[change] = True
    last_x = last_y = 0.0
    out = []
    for begins, here_x, here_y in zip(first.tolist(), x.tolist(), y.tolist()):
        away_x, away_y = here_x - last_x, here_y - last_y
        if begins or away_x * away_x + away_y * away_y >= near:
            last_x, last_y = here_x, here_y
            out.append(True)
        else:
            out.append(False)
    kept[:] = out
    kept[change - 1] = True
    kept[-1] = True
    return kept


def jumps(motion: Motion, fastest: float, error: float) -> np.ndarray:
    """Which positions are jumps, as bools. Places and `error` are in one unit of length, `fastest` in it a second.

    A step is too fast if it is longer than `fastest` allows in its time, plus `error`. Steps that are too fast cut a drive into
    stretches. A stretch of up to three positions is a jump if the drive goes on after it from where it was before, or if it
    is the first or last one and a longer one is next to it. Times that are NaN show no jumps.
    """
    x, y, time, drives = motion
    found = np.zeros(len(x), dtype=bool)
    if len(x) < 2:
        return found
    with np.errstate(invalid="ignore"):
        fast = np.hypot(np.diff(x), np.diff(y)) > fastest * np.diff(time) + error
    new = np.diff(drives) != 0
    fast &= ~new
    if not fast.any():
        return found
    begins = np.flatnonzero(np.r_[True, fast | new])
    ends = np.r_[begins[1:], len(x)] - 1
    drive = drives[begins]

    def reached(first: int, then: int) -> bool:
        a, b = ends[first], begins[then]
        return bool(np.hypot(x[b] - x[a], y[b] - y[a]) <= fastest * (time[b] - time[a]) + error)

    count = ends - begins + 1
    changes = np.flatnonzero(np.r_[True, drive[1:] != drive[:-1]])
    for first, after in zip(changes, np.r_[changes[1:], len(begins)]):
        if after - first == 1:
            continue
        here, last = first, -1
        while here < after:
            then = next_stretch(here, last, after, count, reached)
            for stretch in range(here, then):
                found[begins[stretch]:ends[stretch] + 1] = True
            if then < after:
                last = then
            here = then + 1
    return found


def next_stretch(here: int, last: int, after: int, count: np.ndarray, reached: Callable[[int, int], bool]) -> int:
    """The stretch with which a drive goes on after stretch `last` (-1: none yet); those from `here` up to it are jumps."""
    if last >= 0 and reached(last, here) or count[here] > SHORT:
        return here
    if last < 0:
        return here + 1 if here + 1 < after and count[here + 1] > SHORT else here
    for then in range(here + 1, min(here + AHEAD, after)):
        if reached(last, then):
            return then
        if count[then] > SHORT:
            return here
    return after if after - here < AHEAD and count[last] > SHORT else here
