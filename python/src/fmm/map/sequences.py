"""What each candidate of a match would have cost: from the cells of a certificate to margins.

The cell of a candidate is the least cost of reaching it from the beginning of its piece (forward). Here the least cost of going
on from it to the end of the piece is computed (backward). The sum of both is what the best sequence through it costs.
"""
from __future__ import annotations

from dataclasses import dataclass
from typing import NamedTuple, Tuple

import numpy as np

from .._lines import EdgeLines, whole_root
from .._ragged import rows_of, spread
from ..errors import MismatchError
from .candidates import Candidates
from .certificates import Certificate, Rows

NEVER = np.int64(2 ** 60)  # a cost above all that occur; sums of two of them are no overflow
NEAR = 3  # edges


@dataclass(frozen=True)
class Costs:
    """The options of the costs, in centimetres."""

    sigma: int
    beta: int
    back: int

    def emission(self, d2: np.ndarray) -> np.ndarray:
        return d2 * 1000 // (2 * self.sigma ** 2)

    def transition(self, length: np.ndarray, straight: np.ndarray) -> np.ndarray:
        return np.abs(length - straight) * 1000 // self.beta


@dataclass
class Sequences:
    """For each candidate the best sequence of its piece that goes through it.

    Candidates are those of `candidates`, position by position. Costs are int64.
    """

    candidates: Candidates
    chosen: np.ndarray  # int64[p]: the chosen candidate, among all; -1 for positions without candidates
    emission: np.ndarray  # int64[c]
    before: np.ndarray  # int64[c]: the candidate before on the best sequence up to this one, among all; -1 for none
    transition: np.ndarray  # int64[c]: the cost of the route from there, 0 if there is none
    total: np.ndarray  # int64[c]: cost of the best sequence of the piece through this candidate, -1 if there is none
    another: np.ndarray  # bool[c]: whether it is on another road than the match
    margin: np.ndarray  # float64[p]: how much more the best sequence over another road costs; NaN if there is none


class Graph(NamedTuple):
    """Edges, and the numbers of the nodes where each begins and ends."""

    lines: EdgeLines
    begin: np.ndarray
    end: np.ndarray


class Trellis:
    """The layers of a certificate with the candidates of its positions."""

    def __init__(self, graph: Graph, places: Tuple[np.ndarray, np.ndarray], candidates: Candidates, certificate: Certificate,
                 costs: Costs) -> None:
        """`places` are x and y of the positions in whole centimetres."""
        if not np.array_equal(candidates.first, certificate.cell_first):
            raise MismatchError("its positions have other candidates: it is of other files", "the certificate")
        self.lines, self.begin, self.end = graph
        self.length, (self.x, self.y) = self.lines.lengths, places
        self.candidates, self.certificate, self.costs = candidates, certificate, costs
        self.piece = np.full(len(self.x), -1, np.int64)
        counts = certificate.piece_last - certificate.piece_first + 1
        self.piece[spread(certificate.piece_first, counts)] = rows_of(counts)
        self.wide = int(candidates.counts.max(initial=1))
        self.rank = np.arange(len(candidates.edge)) - np.repeat(candidates.first[:-1], candidates.counts)
        self.of = rows_of(candidates.counts)
        self.chosen = np.where(certificate.rank >= 0, candidates.first[:-1] + certificate.rank, -1)

    def layered(self, values: np.ndarray, filler: int) -> np.ndarray:
        """A row for each position with the values of its candidates by rank, filled up."""
        out = np.full((len(self.x), self.wide), filler, np.int64)
        out[self.of, self.rank] = values
        return out

    def solve(self) -> Sequences:
        """All sequences. MismatchError: the certificate is of other files."""
        emission = self.costs.emission(self.candidates.d2)
        cells = self.layered(np.where(self.certificate.cost < 0, NEVER, self.certificate.cost), int(NEVER))
        emissions = self.layered(emission, int(NEVER))
        joined = np.flatnonzero((self.piece[:-1] >= 0) & (self.piece[:-1] == self.piece[1:]))  # with the next position
        way = self._transitions(joined)
        before, transition = self._check(cells, emissions, joined, way)
        total = np.minimum(cells + self._backward(emissions, joined, way), NEVER)[self.of, self.rank]
        self._check_totals(total)
        another = ~self._driven(joined)
        rivals = np.where(another & (total < NEVER), total, NEVER)
        least = self.layered(rivals, int(NEVER)).min(axis=1, initial=NEVER)
        cost = np.where(self.piece >= 0, np.append(self.certificate.piece_cost, 0)[self.piece], 0)
        margin = np.where((least < NEVER) & (self.piece >= 0), least - cost, np.nan)
        return Sequences(self.candidates, self.chosen, emission, before, transition, np.where(total < NEVER, total, -1), another,
                         margin)

    def _transitions(self, joined: np.ndarray) -> np.ndarray:
        """The transition cost from each candidate of the positions `joined` to each one of the next, NEVER without a route."""
        candidates = self.candidates
        edge, offset = self.layered(candidates.edge, -1), self.layered(candidates.offset, 0)
        e, o = edge[joined][:, :, None], offset[joined][:, :, None]
        f, p = edge[joined + 1][:, None, :], offset[joined + 1][:, None, :]
        exists = (e >= 0) & (f >= 0)
        direct = exists & (e == f) & (o <= p + self.costs.back)
        walk = distances(self.certificate.rows, self.end[e], self.begin[f], exists & ~direct, len(self.lines) * 2)
        length = np.where(direct, np.maximum(p - o, 0), self.length[e] - o + walk + p)
        step = whole_root((self.x[joined + 1] - self.x[joined]) ** 2 + (self.y[joined + 1] - self.y[joined]) ** 2)
        cost = self.costs.transition(length, step[:, None, None])
        return np.where(direct | (walk >= 0) & exists, cost, NEVER)

    def _check(self, cells: np.ndarray, emissions: np.ndarray, joined: np.ndarray,
               way: np.ndarray) -> Tuple[np.ndarray, np.ndarray]:
        """Compares each cell with those of the position before. Returns the candidate before and the transition of each."""
        best = np.broadcast_to(emissions[:, :], cells.shape).copy()
        before, transition = np.full(cells.shape, -1, np.int64), np.zeros(cells.shape, np.int64)
        reach = np.minimum(cells[joined][:, :, None] + way, NEVER)
        rank = reach.argmin(axis=1)
        least = np.take_along_axis(reach, rank[:, None, :], 1)[:, 0]
        best[joined + 1] = np.minimum(least + emissions[joined + 1], NEVER)
        there = least < NEVER
        before[joined + 1] = np.where(there, self.candidates.first[joined][:, None] + rank, -1)
        transition[joined + 1] = np.where(there, np.take_along_axis(way, rank[:, None, :], 1)[:, 0], 0)
        if not np.array_equal(best[self.of, self.rank], cells[self.of, self.rank]):
            raise MismatchError("its cells have other costs: it is of other files or options", "the certificate")
        return before[self.of, self.rank], transition[self.of, self.rank]

    def _backward(self, emissions: np.ndarray, joined: np.ndarray, way: np.ndarray) -> np.ndarray:
        """For each candidate the least cost of all that comes after it in the piece."""
        after = np.where(emissions < NEVER, 0, NEVER)
        number = np.full(len(self.x), -1, np.int64)
        number[joined] = np.arange(len(joined))
        last = self.certificate.piece_last
        length = last - self.certificate.piece_first
        order = np.argsort(-length, kind="stable")  # the pieces that are long enough for step s are the first ones
        many = np.searchsorted(-length[order], -np.arange(length.max(initial=0) + 1), side="right")
        for step in range(1, int(length.max(initial=0)) + 1):
            position = last[order[:many[step]]] - step
            onward = emissions[position + 1] + after[position + 1]
            after[position] = np.minimum((way[number[position]] + onward[:, None, :]).min(axis=2), NEVER)
        return after

    def _check_totals(self, total: np.ndarray) -> None:
        """The best sequence of each piece goes through the chosen candidates, at the cost of the piece."""
        on = np.flatnonzero(self.piece >= 0)
        least = self.layered(total, int(NEVER))[on].min(axis=1, initial=NEVER)
        cost = self.certificate.piece_cost[self.piece[on]]
        if not (np.array_equal(total[self.chosen[on]], cost) and np.array_equal(least, cost)):
            raise MismatchError("its pieces have other costs: it is of other files or options", "the certificate")

    def _driven(self, joined: np.ndarray) -> np.ndarray:
        """Whether each candidate is on the road of the match: its edge is driven between the position before and the one after,
        or is one of the NEAR edges driven before and after these.

        At an end of a piece, so is an edge that meets the chosen one within sigma of the chosen place.
        """
        route, at = self._route(joined)
        some = np.flatnonzero(self.piece >= 0)
        begin, end = (at[bounds[self.piece[some]]] for bounds in (self.certificate.piece_first, self.certificate.piece_last))
        low = np.maximum(at[np.maximum(some - 1, 0)] - NEAR, begin)
        high = np.minimum(at[np.minimum(some + 1, len(at) - 1)] + NEAR, end)
        counts = high - low + 1
        size = np.int64(len(self.lines))
        driven = np.repeat(some, counts) * size + route[spread(low, counts)]
        return np.isin(self.of * size + self.candidates.edge, driven) | self._at_the_ends()

    def _route(self, joined: np.ndarray) -> Tuple[np.ndarray, np.ndarray]:
        """The edges of the routes of all pieces, one after the other, and the place of the edge of each position among them; for
        positions without candidates that of the position before."""
        candidates = self.candidates
        one, other = self.chosen[joined], self.chosen[joined + 1]
        direct = (candidates.edge[one] == candidates.edge[other]) & (
            candidates.offset[one] <= candidates.offset[other] + self.costs.back)
        own = np.ones(len(self.x), bool)
        own[joined[direct] + 1] = False
        own = np.flatnonzero(own & (self.chosen >= 0))
        position, walked, number = self._walks(joined[~direct])
        owner, order = np.append(position + 1, own), np.append(number, np.full(len(own), NEVER))
        sequence = np.lexsort((order, owner))
        route = np.append(walked, candidates.edge[self.chosen[own]])[sequence]
        return route, np.searchsorted(owner[sequence], np.arange(len(self.x)), side="right") - 1

    def _walks(self, joined: np.ndarray) -> Tuple[np.ndarray, np.ndarray, np.ndarray]:
        """The edges between the chosen candidates of the positions `joined` and the next: the position, the edge and a number
        that rises along each walk."""
        candidates, rows = self.candidates, self.certificate.rows
        position, origin = joined, self.end[candidates.edge[self.chosen[joined]]]
        node = self.begin[candidates.edge[self.chosen[joined + 1]]]
        found = [(position[:0], position[:0])]
        size = np.int64(2 * len(self.lines))
        keys = rows.origin * size + rows.node
        while len(position):
            on = origin != node
            position, origin, node = position[on], origin[on], node[on]
            last = rows.last_edge[np.searchsorted(keys, origin * size + node)] if len(position) else position
            found.append((position, last))
            node = self.begin[last]
        number = np.repeat(-np.arange(len(found)), [len(some) for some, _ in found])
        return np.concatenate([some for some, _ in found]), np.concatenate([edges for _, edges in found]), number

    def _at_the_ends(self) -> np.ndarray:
        """Whether a candidate of the first or the last position of a piece is where the chosen edge meets another one."""
        first, last = self.certificate.piece_first, self.certificate.piece_last
        several = first < last
        ends = np.zeros(len(self.x), bool)
        ends[first[several]] = ends[last[several]] = True
        edge, chosen = self.candidates.edge, np.append(self.candidates.edge, 0)[self.chosen[self.of]]
        meets = (self.begin[edge] == self.end[chosen]) | (self.end[edge] == self.begin[chosen])
        meets |= (self.begin[edge] == self.begin[chosen]) | (self.end[edge] == self.end[chosen])
        twins = (self.begin[edge] == self.end[chosen]) & (self.end[edge] == self.begin[chosen])
        return ends[self.of] & meets & ~twins & (self._away() < self.costs.sigma)

    def _away(self) -> np.ndarray:
        """How far each candidate is from the chosen one of its position, in centimetres."""
        from .._places import Places
        places = Places(self.lines)
        at = places.at(self.candidates.edge, self.candidates.offset)
        away = at - np.append(at, np.full((1, 2), np.inf), axis=0)[self.chosen[self.of]]
        return np.hypot(away[:, 0], away[:, 1])


def distances(rows: Rows, origin: np.ndarray, node: np.ndarray, wanted: np.ndarray, size: int) -> np.ndarray:
    """The length of the shortest route of each wanted pair of nodes, whose numbers are below `size`; -1 for the others and for
    pairs without a route within the bound."""
    origin, node = np.broadcast_arrays(origin, node)
    out = np.full(wanted.shape, -1, np.int64)
    if not len(rows.origin):
        return out
    keys = rows.origin * np.int64(size) + rows.node
    asked = origin[wanted] * np.int64(size) + node[wanted]
    at = np.minimum(np.searchsorted(keys, asked), len(keys) - 1)
    out[wanted] = np.where(keys[at] == asked, rows.distance[at], -1)
    return out


def node_numbers(lines: EdgeLines) -> Tuple[np.ndarray, np.ndarray]:
    """The numbers of the nodes where each edge begins and ends, as the program numbers them: by their first appearance."""
    nodes = np.stack([lines.from_node, lines.to_node], axis=1).ravel()
    _, first, inverse = np.unique(nodes, return_index=True, return_inverse=True)
    number = np.empty(len(first), np.int64)
    number[np.argsort(first, kind="stable")] = np.arange(len(first))
    both = number[inverse].reshape(-1, 2)
    return both[:, 0], both[:, 1]
