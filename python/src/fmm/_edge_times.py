"""When each driven edge was entered and left, and how much of it was driven."""
from __future__ import annotations

from dataclasses import dataclass

import numpy as np
import pandas as pd

from ._along import Along, Routes


@dataclass
class EdgeTimes:
    """One entry for each edge of each route, in order. Times are NaN in traces without times."""

    piece: np.ndarray  # int64
    number: np.ndarray  # int64: from 1 in each piece
    edge: np.ndarray  # int64: the index of the edge
    begin: np.ndarray  # float64: the offset in cm where the drive begins on the edge
    end: np.ndarray  # float64: where it ends
    whole: np.ndarray  # bool: from the beginning of the edge to its end
    entry: np.ndarray  # float64: seconds
    exit: np.ndarray  # float64

    @property
    def metres(self) -> np.ndarray:
        """How far the vehicle drove on the edge."""
        return (self.end - self.begin) / 100


def edge_times(routes: Routes, along: Along, passing: Passing) -> EdgeTimes:
    """A vehicle passes the beginning of an edge between the positions before and after it, at a time by the distances to them
    along the route."""
    piece = routes.piece
    number = np.arange(len(piece)) - np.repeat(routes.first[:-1], np.diff(routes.first))
    first, last = along.first[:-1], along.first[1:] - 1
    least, most = along.along[first][piece], along.along[last][piece]
    begin, end = np.maximum(routes.starts, least), np.minimum(routes.ends, most)
    entry = passing.time(piece, routes.starts)
    entry[routes.first[:-1]] = passing.times[first]
    leave = np.roll(entry, -1)
    leave[routes.first[1:] - 1] = passing.times[last]
    whole = (least <= routes.starts) & (routes.ends <= most)
    end = np.maximum(begin, end) - routes.starts
    return EdgeTimes(piece, number + 1, routes.edge, begin - routes.starts, end, whole, entry, leave)


def latest_so_far(times: np.ndarray, group: np.ndarray) -> np.ndarray:
    """The greatest time so far in each group."""
    if len(times) < 2 or not ((times[1:] < times[:-1]) & (group[1:] == group[:-1])).any():
        return times
    return pd.Series(times).groupby(group).cummax().to_numpy()


class Passing:
    """When places of routes were passed. `times` has the seconds of each position in `along`, NaN without times."""

    def __init__(self, along: Along, times: np.ndarray) -> None:
        self.along, self.times = along, latest_so_far(times, along.piece)
        # All routes one after the other, so that one search serves all of them.
        reach = along.along[along.first[1:] - 1] if len(along.first) > 1 else np.zeros(0)
        self.base = np.concatenate((np.zeros(1), np.cumsum(np.ceil(reach) + 2)))
        self.keys = along.along + self.base[along.piece]

    def time(self, piece: np.ndarray, place: np.ndarray) -> np.ndarray:
        """The first time at each place of the route of a piece; before and after its positions, the time of the nearest one."""
        first, last = self.along.first[piece], self.along.first[piece + 1] - 1
        place = np.minimum(place, self.along.along[last])
        after = np.clip(np.searchsorted(self.keys, self.base[piece] + place, side="left"), first, last)
        before = np.maximum(after - 1, first)
        low, high = self.along.along[before], self.along.along[after]
        with np.errstate(invalid="ignore", divide="ignore"):
            share = np.where(high > low, (place - low) / (high - low), 1.0)
        share = np.clip(share, 0, 1)
        return self.times[before] + share * (self.times[after] - self.times[before])
