"""Places on the edges of a network: where an offset is, whether a position snaps to it, and the driven parts of lines.

Edges are given by their index in the file's order, offsets in whole centimetres from the beginning of the edge. Coordinates are
whole centimetres; places between them are float64 centimetres.
"""
from __future__ import annotations

from dataclasses import dataclass
from typing import Any, Tuple

import numpy as np

from ._lines import EdgeLines
from ._ragged import offsets_of, spread

SHORT = 2_000_000  # centimetres: up to this length of a segment, products fit 64 bits


@dataclass
class DrivenLines:
    """Lines along edges, one after the other."""

    first: np.ndarray  # int64[n + 1]: where each line begins
    places: np.ndarray  # float64[p, 2]
    point: np.ndarray  # int64[p]: the point of the network at this place; -1 between two points

    def without_doubles(self) -> DrivenLines:
        """The lines without places that equal the one before in their line."""
        x, y = self.places.T
        kept = np.ones(len(x), bool)
        kept[1:] = (x[1:] != x[:-1]) | (y[1:] != y[:-1])
        kept[self.first[:-1]] = True
        return DrivenLines(offsets_of(kept)[self.first], self.places[kept], self.point[kept])


class Places:
    """Looks up places on edges, many at a time."""

    def __init__(self, lines: EdgeLines) -> None:
        self.lines, self.length = lines, lines.lengths
        # Distances along all edges one after the other, so that one search serves all of them.
        self._base = offsets_of(self.length + 1)[:-1]
        self._along = lines.so_far + np.repeat(self._base, np.diff(lines.first))

    def part_at(self, edge: np.ndarray, offset: np.ndarray) -> np.ndarray:
        """The point of the network with which the segment at each offset begins; the last segment for an offset at the end."""
        at = self._along.searchsorted(self._base[edge] + offset, side="right") - 1
        return np.minimum(np.maximum(at, self.lines.first[edge]), self.lines.first[edge + 1] - 2)

    def at(self, edge: np.ndarray, offset: np.ndarray) -> np.ndarray:
        """The places float64[n, 2] at offsets, which are cut to the edge."""
        part = self.part_at(edge, np.minimum(offset, self.length[edge]))
        begin, after = self.lines.so_far[part], part + 1
        share = np.minimum(np.maximum((offset - begin) / (self.lines.so_far[after] - begin), 0), 1)[:, None]
        place = self.lines.xy[part]
        return place + share * (self.lines.xy[after] - place)

    def snaps(self, edge: np.ndarray, offset: np.ndarray, d2: np.ndarray, x: np.ndarray, y: np.ndarray) -> np.ndarray:
        """Whether each position (x, y) is at this squared distance from the place at this offset, both as FMM computes them."""
        part = self.part_at(edge, offset)
        good = self._snaps_to(part, offset, d2, x, y)
        rest = np.flatnonzero(~good & (part > self.lines.first[edge]))  # the end of the segment before is the same offset
        good[rest] = self._snaps_to(part[rest] - 1, offset[rest], d2[rest], x[rest], y[rest])
        return good & (offset <= self.length[edge])

    def _snaps_to(self, part: np.ndarray, offset: np.ndarray, d2: np.ndarray, x: np.ndarray, y: np.ndarray) -> np.ndarray:
        found = self.snap(part, x, y)
        return (found[0] == d2) & (found[1] == offset)

    def snap(self, part: np.ndarray, x: np.ndarray, y: np.ndarray) -> Tuple[np.ndarray, np.ndarray]:
        """The squared distance of each position from a segment, and the offset of the nearest point on the edge."""
        length = self.lines.so_far[part + 1] - self.lines.so_far[part]
        if len(length) and length.max() > SHORT:
            d2, offset = np.zeros(len(part), np.int64), np.zeros(len(part), np.int64)
            for some, kind in ((np.flatnonzero(length <= SHORT), np.int64), (np.flatnonzero(length > SHORT), object)):
                d2[some], offset[some] = self._snap(part[some], x[some], y[some], kind)
            return d2, offset
        return self._snap(part, x, y, np.int64)

    def _snap(self, part: np.ndarray, x: np.ndarray, y: np.ndarray, kind: Any) -> Tuple[np.ndarray, np.ndarray]:
        """`kind` is object, whole numbers without limit, for segments so long that their products exceed 64 bits."""
        begin, end = self.lines.xy[part].astype(kind), self.lines.xy[part + 1].astype(kind)
        px, py, so_far = x.astype(kind), y.astype(kind), self.lines.so_far
        dx, dy = end[:, 0] - begin[:, 0], end[:, 1] - begin[:, 1]
        square = dx * dx + dy * dy
        along = np.minimum(np.maximum((px - begin[:, 0]) * dx + (py - begin[:, 1]) * dy, 0), square)
        sx, sy = begin[:, 0] + dx * along // square, begin[:, 1] + dy * along // square
        length = (so_far[part + 1] - so_far[part]).astype(kind)
        return (sx - px) ** 2 + (sy - py) ** 2, so_far[part].astype(kind) + length * along // square

    def nearest(self, edge: int, x: int, y: int) -> Tuple[int, int]:
        """The squared distance of a position from an edge, and the offset of the nearest point."""
        parts = np.arange(self.lines.first[edge], self.lines.first[edge + 1] - 1)
        d2, offset = self.snap(parts, np.full(len(parts), x), np.full(len(parts), y))
        best = np.lexsort((offset, d2))[0]
        return int(d2[best]), int(offset[best])

    def driven(self, edge: np.ndarray, begin: np.ndarray, end: np.ndarray) -> DrivenLines:
        """The lines of parts of edges from offset `begin` to `end`, not before it, in centimetres."""
        end = np.maximum(begin, end)
        base = self._base[edge]
        after = self._along.searchsorted(base + begin, side="right")
        until = self._along.searchsorted(base + end, side="left")
        inner = np.maximum(until - after, 0)
        first = offsets_of(inner + 2)
        point = np.empty(first[-1], np.int64)
        point[spread(first[:-1] + 1, inner)] = spread(after, inner)
        ends, near = np.concatenate([first[:-1], first[1:] - 1]), np.concatenate([after - 1, until])
        near = np.minimum(near, np.tile(self.lines.first[edge + 1] - 1, 2))
        offset = np.concatenate([begin, end])
        between = np.flatnonzero(self._along[near] != np.tile(base, 2) + offset)
        point[ends] = near
        places = self.lines.xy[point].astype(np.float64)
        places[ends[between]] = self.at(np.tile(edge, 2)[between], offset[between])
        point[ends[between]] = -1
        return DrivenLines(first, places, point).without_doubles()

    def driven_points(self, route: np.ndarray, first: np.ndarray, begin: np.ndarray,
                      end: np.ndarray) -> Tuple[np.ndarray, np.ndarray]:
        """The points of the network on routes, without the places at their ends, and each point once where edges meet; and where
        the points of each route begin. Route i is the edges first[i] to first[i + 1] of `route`, from offset begin[i] of the
        first one to offset end[i] of the last one."""
        after, until = self.lines.first[route], self.lines.first[route + 1]
        opens, ends = first[:-1], first[1:] - 1
        after[opens] = self._along.searchsorted(self._base[route[opens]] + begin, side="right")
        until[ends] = self._along.searchsorted(self._base[route[ends]] + end, side="left")
        counts = np.maximum(until - after, 0)
        points, bounds = spread(after, counts), offsets_of(counts)[first]
        x, y = self.lines.xy[points].T
        kept = np.append(True, (x[1:] != x[:-1]) | (y[1:] != y[:-1]))[:len(points)]
        kept[bounds[:-1][bounds[:-1] < len(points)]] = True
        return points[kept], offsets_of(kept)[bounds]


def rising(values: np.ndarray, group: np.ndarray) -> np.ndarray:
    """In each group (equal neighbours of `group`) the rising values that are nearest to those given by their squares.

    Neighbours that fall are replaced by their mean, until none falls.
    """
    mean, count = values.astype(np.float64), np.ones(len(values), np.int64)
    of = group
    while True:
        falls = (mean[1:] < mean[:-1]) & (of[1:] == of[:-1])
        if not falls.any():
            return np.repeat(mean, count)
        begins = np.flatnonzero(np.append(True, ~falls))
        total = np.add.reduceat(mean * count, begins)
        count = np.add.reduceat(count, begins)
        mean, of = total / count, of[begins]
