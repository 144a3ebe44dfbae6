"""The candidates of positions, as the proved programs find them, many positions at a time."""
from __future__ import annotations

from dataclasses import dataclass
from typing import Iterator, Tuple

import numpy as np

from .._places import Places
from .._ragged import offsets_of, rows_of, runs, spread

LEAST_CELL = 5_000  # centimetres: the side of a square of the grid is the radius, or this if that is greater
MANY_CELLS = 4_096  # a segment that reaches more squares than this is compared with each square that has positions
AT_ONCE = 5_000  # positions


@dataclass
class Candidates:
    """The candidates of each position by rank: position i has those from first[i] to first[i + 1]."""

    first: np.ndarray  # int64[p + 1]
    edge: np.ndarray  # int64[c]: index of the edge
    offset: np.ndarray  # int64[c]: centimetres
    d2: np.ndarray  # int64[c]: square centimetres

    @property
    def counts(self) -> np.ndarray:
        return np.diff(self.first)


@dataclass(frozen=True)
class Search:
    """Where candidates are looked for: the first `k` edges by (squared distance, index) within `radius` cm of a position.

    usable   bool for each edge; the others are no candidates
    """

    places: Places
    usable: np.ndarray
    radius: int
    k: int


def find_candidates(search: Search, x: np.ndarray, y: np.ndarray) -> Candidates:
    """The candidates of each position, in whole centimetres."""
    found = [_Finder(search, x[at:at + AT_ONCE], y[at:at + AT_ONCE]).find() for at in range(0, len(x), AT_ONCE)]
    counts = [one.counts for one in found]
    nothing = np.zeros(0, np.int64)
    return Candidates(offsets_of(np.concatenate([nothing, *counts])), np.concatenate([nothing, *(one.edge for one in found)]),
                      np.concatenate([nothing, *(one.offset for one in found)]),
                      np.concatenate([nothing, *(one.d2 for one in found)]))


class _Finder:
    """Finds the candidates of some positions, by a grid of squares."""

    def __init__(self, search: Search, x: np.ndarray, y: np.ndarray) -> None:
        self.places, self.usable, self.radius, self.k = search.places, search.usable, search.radius, search.k
        self.x, self.y, self.side = x, y, max(search.radius, LEAST_CELL)
        self.squares = np.stack([x // self.side, y // self.side], axis=1)

    def find(self) -> Candidates:
        position, part = self._near()
        edge = np.searchsorted(self.places.lines.first, part, side="right") - 1
        d2, offset = self.places.snap(part, self.x[position], self.y[position])
        good = d2 <= self.radius ** 2
        position, part, edge, d2, offset = (values[good] for values in (position, part, edge, d2, offset))
        # the snap of an edge is that of its nearest segment, the first of several
        order = np.lexsort((part, d2, edge, position))
        first = runs(position[order] * np.int64(len(self.usable)) + edge[order])[0]
        kept = order[first]
        kept = kept[np.lexsort((edge[kept], d2[kept], position[kept]))]
        counts = np.bincount(position[kept], minlength=len(self.x))
        rank = np.arange(len(kept)) - np.repeat(offsets_of(counts)[:-1], counts)
        kept = kept[rank < self.k]
        return Candidates(offsets_of(np.minimum(counts, self.k)), edge[kept], offset[kept], d2[kept])

    def _near(self) -> Tuple[np.ndarray, np.ndarray]:
        """Pairs of a position and a segment, by the point with which it begins; all that are within the radius and others."""
        lines = self.places.lines
        part = np.delete(np.arange(len(lines.xy)), lines.first[1:] - 1) if len(lines.first) > 1 else np.zeros(0, np.int64)
        part = part[self.usable[np.searchsorted(lines.first, part, side="right") - 1]]
        low = np.minimum(lines.xy[part], lines.xy[part + 1]) - self.radius
        high = np.maximum(lines.xy[part], lines.xy[part + 1]) + self.radius
        inside = ((high >= [self.x.min(), self.y.min()]) & (low <= [self.x.max(), self.y.max()])).all(axis=1)
        part, low, high = part[inside], low[inside] // self.side, high[inside] // self.side
        number, square = _distinct(self.squares)
        pairs = [(part[row], where) for row, where in self._covered(low, high, square)]
        parts = np.concatenate([np.zeros(0, np.int64), *(one for one, _ in pairs)])
        where = np.concatenate([np.zeros(0, np.int64), *(one for _, one in pairs)])
        # each position with the segments of its square
        order = np.argsort(where, kind="stable")
        counts = np.bincount(where, minlength=len(square))
        begins = offsets_of(counts)[:-1]
        many = counts[number]
        return rows_of(many), parts[order][spread(begins[number], many)]

    def _covered(self, low: np.ndarray, high: np.ndarray, square: np.ndarray) -> Iterator[Tuple[np.ndarray, np.ndarray]]:
        """Pairs of a segment and the number of a square that its box touches."""
        wide = high - low + 1
        count = wide[:, 0] * wide[:, 1]
        few = np.flatnonzero(count <= MANY_CELLS)
        row = np.repeat(few, count[few])
        within = np.arange(len(row)) - np.repeat(offsets_of(count[few])[:-1], count[few])
        wanted = np.stack([low[row, 0] + within % wide[row, 0], low[row, 1] + within // wide[row, 0]], axis=1)
        number = _number_of(wanted, square)
        yield row[number >= 0], number[number >= 0]
        for one in np.flatnonzero(count > MANY_CELLS):
            touched = np.flatnonzero(((square >= low[one]) & (square <= high[one])).all(axis=1))
            yield np.full(len(touched), one), touched


def _keys(squares: np.ndarray) -> np.ndarray:
    """One number for each square; coordinates are below 2^31 either way."""
    return squares[:, 0] * np.int64(2 ** 32) + squares[:, 1]


def _distinct(squares: np.ndarray) -> Tuple[np.ndarray, np.ndarray]:
    """The number of each square among the distinct ones, and these, by rising key."""
    keys, first, number = np.unique(_keys(squares), return_index=True, return_inverse=True)
    return number, squares[first]


def _number_of(wanted: np.ndarray, squares: np.ndarray) -> np.ndarray:
    """The number of each wanted square among `squares`, which have rising keys; -1 if it is none of them."""
    keys, wanted_keys = _keys(squares), _keys(wanted)
    at = np.minimum(np.searchsorted(keys, wanted_keys), len(keys) - 1)
    return np.where(keys[at] == wanted_keys, at, -1)
