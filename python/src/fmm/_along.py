"""Where the positions of each piece are along its route."""
from __future__ import annotations

from dataclasses import dataclass
from typing import List, Optional

import numpy as np

from ._match_text import MatchText
from ._places import Places, rising
from ._ragged import offsets_of, rows_of, runs
from .errors import MismatchError

SMALL = 5_000  # positions up to which they are followed one by one, since that is faster than arrays


@dataclass
class Routes:
    """The routes of all pieces, one after the other: the edges, and where they are along the route in centimetres."""

    first: np.ndarray  # int64[q + 1]: where each route begins
    edge: np.ndarray  # int64[r]: index of the edge
    starts: np.ndarray  # float64[r]: the place of the beginning of the edge along the route
    ends: np.ndarray  # float64[r]: of its end

    @property
    def piece(self) -> np.ndarray:
        """The piece of each edge."""
        return rows_of(np.diff(self.first))

    def joined(self, street: np.ndarray, begin: np.ndarray, end: np.ndarray, length: np.ndarray) -> Routes:
        """The routes over streets, of which the edges are parts: edge i leads from begin[i] to end[i] of the street with the
        index street[i]. Parts that follow each other on a street become one drive over it."""
        of, start = street[self.edge], begin[self.edge]
        goes_on = np.zeros(len(of), bool)
        goes_on[1:] = (of[1:] == of[:-1]) & (start[1:] == end[self.edge][:-1]) & (start[1:] > 0)
        goes_on[self.first[:-1]] = False
        kept = np.flatnonzero(~goes_on)
        starts = self.starts[kept] - start[kept]
        return Routes(np.searchsorted(kept, self.first), of[kept], starts, starts + length[of[kept]])


@dataclass
class Along:
    """The matched positions in order, and where each is along the route of its piece, in centimetres from the route's beginning.

    A route begins where its first edge begins, so its first position is at its offset there.
    """

    position: np.ndarray  # int64[n]: the place of the position in the text; -1 if it was left out of the trace file
    row: np.ndarray  # int64[n]: the row of the input
    piece: np.ndarray  # int64[n]
    raw: np.ndarray  # float64[n]: as matched; standing vehicles move back and forth
    along: np.ndarray  # float64[n]: rising
    first: np.ndarray  # int64[q + 1]: where the positions of each piece begin
    routes: Routes


def along_routes(text: MatchText, row: np.ndarray, places: Places, back: Optional[int]) -> Along:
    """`row` has the row of the input of each position of the text; `back` is the option of the match in centimetres, None if it
    is not known. MismatchError: a route that does not lead past its positions."""
    position = np.flatnonzero(text.edge >= 0)
    counts = text.last - text.first + 1
    piece = rows_of(counts)
    place = _places_in_routes(text, position, piece, back)
    edge = places.lines.position_of(text.route)
    total = offsets_of(places.length[edge])
    starts = (total[:-1] - np.repeat(total[text.route_first[:-1]], np.diff(text.route_first))).astype(np.float64)
    raw = starts[place] + text.offset[position]
    routes = Routes(text.route_first, edge, starts, starts + places.length[edge])
    return Along(position, row[position], piece, raw, rising(raw, piece), offsets_of(counts), routes)


def _places_in_routes(text: MatchText, position: np.ndarray, piece: np.ndarray, back: Optional[int]) -> np.ndarray:
    """The edge of each position as a place in `text.route`.

    Neighbours on one edge form a run. Where the runs of an edge are as many as its places in the route, each run has the place
    of its rank. In the few other pieces the positions are followed along the route one by one, and in a small text in all.
    """
    edge = text.edge[position]
    if len(edge) <= SMALL:
        return _followed(text, position, np.arange(len(text.cost)), np.empty(len(edge), np.int64), back)
    route_piece = rows_of(np.diff(text.route_first))
    numbers = np.unique(text.route)
    most = np.int64(len(numbers) + 1)
    route_key = route_piece * most + np.searchsorted(numbers, text.route)
    key = piece * most + np.searchsorted(numbers, edge)
    first, counts = runs(key)
    place = np.repeat(_by_rank(key[first], route_key), counts)
    steps = np.diff(place)
    wrong = place < 0
    wrong[1:] |= (steps < 0) & (piece[1:] == piece[:-1])
    return _followed(text, position, np.unique(piece[wrong]), place, back)


def _followed(text: MatchText, position: np.ndarray, pieces: np.ndarray, place: np.ndarray, back: Optional[int]) -> np.ndarray:
    """`place`, with the places of the positions of some pieces."""
    begins, edge, offset = offsets_of(text.last - text.first + 1), text.edge[position], text.offset[position]
    for number in pieces.tolist():
        some = slice(begins[number], begins[number + 1])
        route = text.route[text.route_first[number]:text.route_first[number + 1]].tolist()
        found = _follow(edge[some], offset[some], route, back)
        if found is None:
            trace = text.traces[text.piece_trace[number]]
            where = f"the route of positions {text.first[number]} to {text.last[number]} of trace {trace}"
            raise MismatchError(f"{where} does not lead past their edges: the match of other files", text.name)
        place[some] = text.route_first[number] + found
    return place


def _by_rank(keys: np.ndarray, route_keys: np.ndarray) -> np.ndarray:
    """For the k-th of the equal keys the k-th place with this key, or -1 if there are not as many keys as places."""
    order = np.argsort(route_keys, kind="stable")
    left = np.searchsorted(route_keys[order], keys, side="left")
    right = np.searchsorted(route_keys[order], keys, side="right")
    sorted_keys = np.argsort(keys, kind="stable")
    first, counts = runs(keys[sorted_keys])
    rank, many = np.empty(len(keys), np.int64), np.empty(len(keys), np.int64)
    rank[sorted_keys] = np.arange(len(keys)) - np.repeat(first, counts)
    many[sorted_keys] = np.repeat(counts, counts)
    even = right - left == many
    return np.where(even, np.append(order, 0)[np.where(even, left + rank, 0)], -1)


def _follow(edge: np.ndarray, offset: np.ndarray, route: List[int], back: Optional[int]) -> Optional[np.ndarray]:
    """The place in the route of each position of a piece.

    If `back` is not known: all moves back on an edge are standing in most matches, and none is in a match without the option.
    """
    if back is not None:
        return _follow_with(edge, offset, route, back)
    moves = np.unique((offset[:-1] - offset[1:])[edge[:-1] == edge[1:]])[::-1].tolist()
    moves = [move for move in moves if move > 0]
    for some in [*moves[:1], 0, *moves[1:]]:
        found = _follow_with(edge, offset, route, some)
        if found is not None:
            return found
    return None


def _follow_with(edge: np.ndarray, offset: np.ndarray, route: List[int], back: int) -> Optional[np.ndarray]:
    """The places if moves back of up to `back` are standing; None if they do not lead to the end of the route."""
    begins = np.flatnonzero((edge[1:] != edge[:-1]) | (offset[:-1] > offset[1:] + back)) + 1
    at, found = 0, [0]
    for following in edge[begins].tolist():
        try:  # a shortest walk repeats no edge, so the next place of the edge is the one that the walk leads to
            now = route.index(following, at + 1)
        except ValueError:
            return None
        if now > at + 1 and route[at] in route[at + 1:now]:
            return None
        at = now
        found.append(at)
    if at != len(route) - 1:
        return None
    return np.array(found).repeat(np.diff(begins, prepend=0, append=len(edge)))
