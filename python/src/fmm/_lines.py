"""The lines of all edges as arrays in whole centimetres."""
from __future__ import annotations

from dataclasses import dataclass, field
from typing import Optional

import numpy as np

from ._ragged import offsets_of, spread

DENSE = 8  # a table by id is faster than a search, and small if ids are at most so many times the number of edges


@dataclass
class EdgeLines:
    """The edges in the order of the network file. Edge i has the points xy[first[i]:first[i + 1]].

    `so_far` is the length in cm from the first point of the edge to each point, as the proved programs define it: the sum of
    the whole parts of the lengths of the segments.
    """

    ids: np.ndarray
    first: np.ndarray
    xy: np.ndarray
    from_node: np.ndarray
    to_node: np.ndarray
    so_far: np.ndarray = field(init=False)
    _order: Optional[np.ndarray] = field(init=False, default=None, repr=False)
    _by_id: Optional[np.ndarray] = field(init=False, default=None, repr=False)

    def __post_init__(self) -> None:
        self.so_far = lengths_so_far(self.xy, self.first)

    def __len__(self) -> int:
        return len(self.ids)

    @property
    def lengths(self) -> np.ndarray:
        """The length of each edge in cm."""
        return self.so_far[self.first[1:] - 1]

    def position_of(self, ids: np.ndarray) -> np.ndarray:
        """The index of each edge id; -1 for ids that the network does not have."""
        ids = np.asarray(ids, np.int64)
        if not len(self.ids):
            return np.full(ids.shape, -1)
        if self._by_id is None and self._order is None:
            self._prepare_search()
        if self._by_id is not None:
            most = len(self._by_id) - 2
            return self._by_id[np.where((ids >= 0) & (ids <= most), ids, most + 1)]
        assert self._order is not None
        at = self._order[np.minimum(self.ids.searchsorted(ids, sorter=self._order), len(self.ids) - 1)]
        return np.where(self.ids[at] == ids, at, -1)

    def _prepare_search(self) -> None:
        """Makes a table of all ids, or where they are sparse their order."""
        most = int(self.ids.max())
        if most < DENSE * len(self.ids) and self.ids.min() >= 0:
            self._by_id = np.full(most + 2, -1)
            self._by_id[self.ids] = np.arange(len(self.ids))
        else:
            self._order = np.argsort(self.ids, kind="stable")

    def take(self, index: np.ndarray) -> EdgeLines:
        """Some edges, in the order of the indices."""
        xy, first = gathered(self.xy, self.first, np.asarray(index, np.int64))
        return EdgeLines(self.ids[index], first, xy, self.from_node[index], self.to_node[index])


@dataclass
class Parts:
    """Which part of which street each edge is: edge i is the part from begin[i] to end[i] cm of the street with the id street[i].

    The id of a street is the id of the edge that leads to its end. An edge that is not split is a street of its own. Where turn
    restrictions are kept, the first centimetres of some streets are edges of their own and occur several times. The network
    file has these links `away` cm to the east and to the north of their true place, since nodes need no place, and so no
    position is near a link. EdgeLines has their true place.
    """

    street: np.ndarray
    begin: np.ndarray
    end: np.ndarray
    away: tuple[int, int] = (0, 0)

    @classmethod
    def whole(cls, lines: EdgeLines) -> Parts:
        """The parts of a network in which no street is split."""
        return cls(lines.ids.copy(), np.zeros(len(lines), np.int64), lines.lengths.copy())

    def links(self, lines: EdgeLines) -> np.ndarray:
        """Which edges are copies or first parts of streets, rather than the part that gives a street its id."""
        return self.street != lines.ids

    def moved(self, lines: EdgeLines, sign: int) -> np.ndarray:
        """The points of the edges with the links moved from their true place (sign 1), or back to it (-1)."""
        links = np.repeat(self.links(lines), np.diff(lines.first))
        return lines.xy + sign * links[:, None] * np.array(self.away, np.int64)

    def streets(self, lines: EdgeLines) -> EdgeLines:
        """The streets: one line for each street id, from its begin to its end. The nodes are those of its first and last part."""
        if (self.street == lines.ids).all():
            return lines
        order = np.lexsort((lines.ids, self.begin, self.street))
        street, begin = self.street[order], self.begin[order]
        again = np.zeros(len(order), bool)
        again[1:] = (street[1:] == street[:-1]) & (begin[1:] == begin[:-1])
        # of copies of one part, the edge that gives the street its id comes before the others
        order = order[~again]
        last = np.append(self.street[order][1:] != self.street[order][:-1], True)
        opens = np.append(True, last[:-1])
        xy, first = gathered(lines.xy, lines.first, order)
        joint = np.zeros(len(xy), bool)
        joint[first[:-1][~opens]] = True
        count: np.ndarray = np.diff(first) - ~opens
        firsts = offsets_of(count)
        bounds = np.append(firsts[:-1][opens], firsts[-1])
        found = EdgeLines(self.street[order][last], bounds, xy[~joint], lines.from_node[order][opens], lines.to_node[order][last])
        return found.take(found.position_of(lines.ids[self.street == lines.ids]))


def whole_root(squares: np.ndarray) -> np.ndarray:
    """The whole part of the square root of each number in 0..2**63."""
    root = np.sqrt(squares.astype(np.float64)).astype(np.int64)
    root -= root * root > squares
    return root + ((root + 1) * (root + 1) <= squares)


def lengths_so_far(xy: np.ndarray, first: np.ndarray) -> np.ndarray:
    if not len(xy):
        return np.zeros(0, np.int64)
    steps = np.diff(xy, axis=0, prepend=xy[:1])
    lengths = whole_root((steps * steps).sum(axis=1))
    lengths[first[:-1]] = 0
    total = np.cumsum(lengths)
    return total - np.repeat(total[first[:-1]], np.diff(first))


def gathered(xy: np.ndarray, first: np.ndarray, index: np.ndarray) -> tuple[np.ndarray, np.ndarray]:
    """The points of some lines one after another, and where each line begins."""
    count = np.diff(first)[index]
    return xy[spread(first[index], count)], offsets_of(count)
