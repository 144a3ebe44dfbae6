"""The edges that are nearest to a place."""
from __future__ import annotations

import math
from typing import List, Tuple

import numpy as np

from .._places import Places

FIRST = 10_000.0  # centimetres: the first distance that is looked at
FARTHEST = 4e9  # farther than all distances


class Nearest:
    """Finds edges near a place by the extents of all segments. A search takes some milliseconds for a million segments."""

    def __init__(self, places: Places) -> None:
        lines = places.lines
        self.places = places
        edge = np.repeat(np.arange(len(lines)), np.diff(lines.first))
        self.part = np.flatnonzero(edge[1:] == edge[:-1])
        self.edge = edge[self.part]
        begin, end = lines.xy[self.part], lines.xy[self.part + 1]
        self.low, self.high = np.minimum(begin, end), np.maximum(begin, end)

    def edges(self, place: np.ndarray, number: int, radius: float = math.inf) -> List[Tuple[int, int, float]]:
        """At most `number` edges within `radius` metres, nearest first: index, offset in cm, distance in metres.

        Of edges at equal distances the one that comes first in the network is first.
        """
        most, reach = min(100 * radius, FARTHEST), FIRST
        while True:
            reach = min(reach, most)
            found = self._within(place, reach)
            if len(found) >= number or reach >= most:
                return found[:number]
            reach *= 4

    def _within(self, place: np.ndarray, reach: float) -> List[Tuple[int, int, float]]:
        near = np.flatnonzero(((self.low <= place + reach) & (self.high >= place - reach)).all(axis=1))
        x, y = np.full(len(near), place[0]), np.full(len(near), place[1])
        d2, offset = self.places.snap(self.part[near], x, y)
        edge = self.edge[near]
        order = np.lexsort((offset, edge, d2))
        edge, offset, d2 = edge[order], offset[order], d2[order]
        _, first = np.unique(edge, return_index=True)
        first = np.sort(first)
        first = first[d2[first] <= reach * reach]
        return list(zip(edge[first].tolist(), offset[first].tolist(), (np.sqrt(d2[first].astype(np.float64)) / 100).tolist()))
