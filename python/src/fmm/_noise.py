"""How far measured positions are from the true ones: from standing vehicles, from smooth motion, and from the nearest roads."""
from __future__ import annotations

import re
import tempfile
from pathlib import Path
from typing import Any, NamedTuple, Optional, Tuple

import numpy as np
import pandas as pd

from ._programs import program, run, words_of
from ._tables import write_file
from ._thinning import thinned

WINDOW = 20.0  # seconds in which a vehicle that stands is looked for
RATIO = 1.2  # see standing_noise
WANDERING = 1.8  # see moving_noise; measured for errors whose memory is 20 s
HALF, QUARTER = 0.6745, 0.3186  # quantiles of the absolute value of a normal variable, in standard deviations
APART = 100.0  # metres
SAMPLE = 20_000  # positions whose nearest edge is looked for
FEW = 30  # windows or steps below which an estimate is not worth saying


class Motion(NamedTuple):
    """Positions in metres with their times. Rows of a drive are consecutive and in the order of time."""

    x: np.ndarray
    y: np.ndarray
    time: np.ndarray
    drive: np.ndarray

    def parted(self, gap: Optional[float]) -> Motion:
        """The same positions with a new drive after each time of more than `gap` seconds."""
        if gap is None or not len(self.time):
            return self
        new = np.diff(self.drive) != 0
        with np.errstate(invalid="ignore"):
            new |= np.diff(self.time) > gap
        return self._replace(drive=np.cumsum(np.r_[True, new]))

    def steps(self, thin: float) -> Tuple[float, float]:
        """How far positions are apart if those that moved less than `thin` metres are left out: the median, and a distance
        that at most one in a thousand exceeds."""
        kept = thinned(self.x, self.y, self.drive, thin)
        steps = np.hypot(np.diff(self.x[kept]), np.diff(self.y[kept]))[np.diff(self.drive[kept]) == 0]
        return (float(np.median(steps)), float(np.quantile(steps, 0.999))) if len(steps) else (thin, thin)

    def clock(self) -> np.ndarray:
        """Seconds that rise through all drives, with a long pause between two of them."""
        if not len(self.time):
            return self.time
        first = np.r_[True, self.drive[1:] != self.drive[:-1]]
        steps = np.diff(self.time, prepend=self.time[0])
        return np.cumsum(np.where(first, 1e5, steps))


def interval_of(motion: Motion) -> Optional[float]:
    """The median time from one position to the next, in seconds."""
    steps = np.diff(motion.time)[np.diff(motion.drive) == 0]
    steps = steps[steps > 0]
    return float(np.median(steps)) if len(steps) else None


def speed_of(motion: Motion, interval: float) -> float:
    """The usual speed of a vehicle that moves, in metres a second: the median without the slow stretches, in straight lines."""
    if interval > WINDOW / 4:
        steps, seconds = np.hypot(np.diff(motion.x), np.diff(motion.y)), np.diff(motion.time)
        good = (np.diff(motion.drive) == 0) & (seconds > 0)
        speeds = steps[good] / seconds[good]
    else:
        windows = Windows(motion, WINDOW)
        speeds = windows.moved / (windows.span / 2)
    return float(np.median(speeds[speeds >= 0.3 * np.quantile(speeds, 0.9)])) if len(speeds) else 0.0


class Windows:
    """Stretches of `span` seconds from each position on, with at least four positions.

    moved   how far the mean of the second half is from that of the first, in metres
    spread  standard deviation of a coordinate within the stretch
    far     what the vehicles of the data move in such a time when they drive
    """

    def __init__(self, motion: Motion, span: float) -> None:
        clock = motion.clock()
        self.span = span
        begin = np.arange(len(clock))
        half, end = np.searchsorted(clock, clock + span / 2), np.searchsorted(clock, clock + span, side="right")
        whole = np.zeros(len(clock), dtype=bool)
        last = np.maximum(end - 1, 0)
        if len(clock):
            whole = (clock[last] - clock >= 0.8 * span) & (half - begin >= 2) & (end - half >= 2)
        begin, half, end = begin[whole], half[whole], end[whole]
        centred = (motion.x - motion.x.mean(), motion.y - motion.y.mean()) if len(clock) else ()
        sums = [np.r_[0.0, np.cumsum(values)] for values in centred]
        squares = [np.r_[0.0, np.cumsum(np.diff(total) ** 2)] for total in sums]
        self.moved, variance = np.zeros(len(begin)), np.zeros(len(begin))
        for total, square in zip(sums, squares):
            first, second = total[half] - total[begin], total[end] - total[half]
            self.moved = np.hypot(self.moved, second / (end - half) - first / (half - begin))
            count = end - begin
            variance += (square[end] - square[begin] - (first + second) ** 2 / count) / (count - 1) / 2
        self.spread = np.sqrt(np.maximum(variance, 0))
        self.far = float(np.quantile(self.moved, 0.9)) if len(self.moved) else 0.0


def standing_noise(motion: Motion, interval: float) -> Optional[float]:
    """The error of a coordinate that standing vehicles show, in metres; None if hardly a vehicle stands.

    A stretch counts as standing if its halves have nearly the same mean, compared with what vehicles move in such a time and
    with the spread within it: a vehicle that moves has means that are more than twice the spread apart. An error that wanders
    slowly shows only in part during a short stop. None too if positions are more than 5 s apart: stops are too short then.
    """
    if interval > 5:
        return None
    windows = Windows(motion, max(WINDOW, 4 * interval))
    stands = (windows.moved < max(0.1 * windows.far, 1.0)) & (windows.moved < RATIO * windows.spread)
    if stands.sum() < FEW or windows.far < 0.5 * windows.span / 2:
        return None
    return float(np.median(windows.spread[stands]))


def residual_noise(motion: Motion, interval: float) -> Optional[float]:
    """The error of a coordinate against smooth motion, in metres: how far a position is beside the line of its neighbours.

    Only the part of the error that changes from one position to the next shows. None if positions are more than 3 s apart,
    since bends look like errors then.
    """
    if interval > 3:
        return None
    inner = (np.diff(motion.drive)[1:] == 0) & (np.diff(motion.drive)[:-1] == 0)
    along_x, along_y = motion.x[2:] - motion.x[:-2], motion.y[2:] - motion.y[:-2]
    bend_x = motion.x[2:] - 2 * motion.x[1:-1] + motion.x[:-2]
    bend_y = motion.y[2:] - 2 * motion.y[1:-1] + motion.y[:-2]
    length = np.hypot(along_x, along_y)
    moves = inner & (length > 0)
    if moves.sum() < FEW:
        return None
    beside = np.abs(along_x[moves] * bend_y[moves] - along_y[moves] * bend_x[moves]) / length[moves]
    return float(np.median(beside) / HALF / np.sqrt(6))


def moving_noise(standing: Optional[float], residual: Optional[float]) -> Optional[float]:
    """The whole error of a coordinate, from what standing vehicles and smooth motion show of it.

    What changes from one position to the next (the residual) shows whole. The rest wanders, and within a window of 20 s about
    half of it shows.
    """
    if standing is None:
        return residual
    if residual is None:
        return standing
    wanders = max(standing ** 2 - residual ** 2, 0.0)
    return float(np.sqrt(residual ** 2 + (WANDERING ** 2) * wanders))


def noise_beside(network: Any, motion: Motion) -> Optional[float]:
    """The error of a coordinate that the distances from the nearest edges show, in metres.

    Takes at most 20,000 positions that are 100 m apart, so that a fleet at its depot does not count, and their distances as the
    proved program finds them. The lower quartile counts too, since roads may be missing where many positions are. In a dense
    network another edge than the true one is often nearer, which makes great errors look smaller; that is corrected roughly.
    None if less than half of the positions have an edge within 100 m.
    """
    apart = np.flatnonzero(thinned(motion.x, motion.y, motion.drive, APART))
    some = apart if len(apart) >= FEW else np.arange(len(motion.x))
    some = some[::-(-len(some) // SAMPLE)] if len(some) else some
    away = distances(network, np.rint(100 * motion.x[some]).astype(np.int64), np.rint(100 * motion.y[some]).astype(np.int64))
    if len(away) < max(1, len(some) / 2):
        return None
    noise = float(min(np.median(away) / HALF, 1.3 * np.quantile(away, 0.25) / QUARTER))
    return noise * (1 + noise / 100)


def distances(network: Any, x: np.ndarray, y: np.ndarray) -> np.ndarray:
    """How far single positions, in whole centimetres, are from their nearest edges, in metres; those within 100 m."""
    with tempfile.TemporaryDirectory(prefix="fmm-") as folder:
        traces, found = Path(folder) / "traces.csv", Path(folder) / "match.txt"
        write_file(traces, pd.DataFrame({"trace": np.arange(len(x)), "x": x, "y": y}))
        run(program(network.needs_large), words_of("match", network.path, traces, ["--k", "1", "--radius", "10000"]), found)
        squares = re.findall(rb"^at .* d2 (\d+)$", found.read_bytes(), re.MULTILINE)
    return np.sqrt(np.array(squares, dtype=np.float64)) / 100
