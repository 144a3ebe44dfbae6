"""Positions that were left out of a trace file: their places on the route between the positions before and after."""
from __future__ import annotations

from typing import NamedTuple

import numpy as np

from ._along import Along, Routes
from ._places import Places, rising
from ._ragged import offsets_of, rows_of, spread

AT_ONCE = 200_000


class Stretches(NamedTuple):
    """For each position the stretch of the route of its piece that it is on, from `low` to `high`, and where it was measured,
    float64[n, 2]. Lengths are centimetres."""

    piece: np.ndarray
    low: np.ndarray
    high: np.ndarray
    xy: np.ndarray

    def part(self, some: slice) -> Stretches:
        """Those of some positions."""
        return Stretches(*(column[some] for column in self))


def route_at(routes: Routes, piece: np.ndarray, place: np.ndarray) -> np.ndarray:
    """The edge of the route (its index in `routes`) at a place along the route of a piece."""
    reach = routes.ends[routes.first[1:] - 1] if len(routes.first) > 1 else np.zeros(0)
    base = np.concatenate((np.zeros(1), np.cumsum(np.ceil(reach) + 2)))
    keys = np.maximum(routes.starts, 0) + base[routes.piece]
    at = np.searchsorted(keys, base[piece] + place, side="right") - 1
    return np.clip(at, routes.first[piece], routes.first[piece + 1] - 1)


def nearest_on_routes(routes: Routes, places: Places, stretches: Stretches) -> np.ndarray:
    """The place along its route, within its stretch, that is nearest to each position, in centimetres."""
    out = np.empty(len(stretches.piece))
    for begin in range(0, len(out), AT_ONCE):
        some = slice(begin, begin + AT_ONCE)
        out[some] = _nearest(routes, places, stretches.part(some))
    return out


def _nearest(routes: Routes, places: Places, stretches: Stretches) -> np.ndarray:
    lines, (piece, low, high, xy) = places.lines, stretches
    first, last = route_at(routes, piece, low), route_at(routes, piece, high)
    row, edge = rows_of(last - first + 1), spread(first, last - first + 1)
    street, start = routes.edge[edge], routes.starts[edge]
    begin = places.part_at(street, np.clip(low[row] - start, 0, places.length[street]))
    end = places.part_at(street, np.clip(high[row] - start, 0, places.length[street]))
    counts = end - begin + 1
    part = spread(begin, counts)
    start, row = np.repeat(start, counts), np.repeat(row, counts)
    so_far, length = lines.so_far[part] + start, (lines.so_far[part + 1] - lines.so_far[part]).astype(np.float64)
    step = (lines.xy[part + 1] - lines.xy[part]).astype(np.float64)
    away = xy[row] - lines.xy[part]
    share = (away * step).sum(axis=1) / (step * step).sum(axis=1)
    least, most = np.maximum((low[row] - so_far) / length, 0), np.minimum((high[row] - so_far) / length, 1)
    share = np.minimum(np.maximum(share, least), most)
    distance = ((away - share[:, None] * step) ** 2).sum(axis=1)
    order = np.lexsort((distance, row))
    best = order[offsets_of(np.bincount(row, minlength=len(piece)))[:-1]]
    return so_far[best] + share[best] * length[best]


def with_between(along: Along, before: np.ndarray, rows: np.ndarray, raw: np.ndarray, times: np.ndarray) -> Along:
    """The positions with further ones between them: `before` is the place in `along` of the position before each."""
    many = len(along.position)
    place = np.concatenate((np.arange(many), before))
    order = np.lexsort((np.concatenate((along.row, rows)), np.concatenate((np.full(many, -np.inf), np.nan_to_num(times))), place))
    piece = along.piece[place][order]
    raw = np.concatenate((along.raw, raw))[order]
    position = np.concatenate((along.position, np.full(len(rows), -1)))[order]
    row = np.concatenate((along.row, rows))[order]
    first = offsets_of(np.bincount(piece, minlength=len(along.first) - 1))
    return Along(position, row, piece, raw, rising(raw, piece), first, along.routes)
