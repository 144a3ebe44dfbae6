"""Keeps turn restrictions by the network alone.

An edge whose driver may not take every way on at its end ends at a copy of the node instead. The permitted streets are split a
few centimetres after the node. From the copy, links lead to where the streets are split: copies of these first centimetres, of
the same length. The network file has all links far away from the map (nodes need no place), so no position is near a link,
and no position has more candidates than without restrictions.
"""
from __future__ import annotations

from collections import Counter, defaultdict
from dataclasses import dataclass, field
from typing import Iterable, NamedTuple, Optional

import numpy as np

from .._lines import EdgeLines, Parts, whole_root
from .._ragged import offsets_of
from ..projection import FARTHEST
from .turns import Turn

FIRST = 20  # centimetres from the node within which a street is split
SHORTEST = 3  # centimetres: a shorter street is not split but copied as a whole
STRAIGHT = 0.3  # centimetres by which a split may bend a street
APART = 100_000_000  # centimetres: the least distance from the map to the links in the file


class Split(NamedTuple):
    """Where a street is split: the number of its points before the place, the place, and whether it is a further point."""

    before: int
    place: tuple[int, int]
    between: bool


@dataclass
class Crossings:
    """The edges of the ways and nodes that restrictions name."""

    ways: set[int]
    arriving: dict[tuple[int, int], list[int]]
    leaving: dict[tuple[int, int], list[int]]
    out: dict[int, list[int]]


@dataclass
class Rules:
    """For each restricted edge (by its index): the edges that may not follow, and those of which one has to."""

    forbidden: dict[int, set[int]] = field(default_factory=lambda: defaultdict(set))
    only: dict[int, set[int]] = field(default_factory=lambda: defaultdict(set))


def restrict(lines: EdgeLines, ways: np.ndarray, turns: Iterable[Turn]) -> tuple[EdgeLines, np.ndarray, Parts, int, Counter[str]]:
    """The network with its restrictions kept; `ways` has the way of each edge.

    Returns the edges, for each the index of the edge that it was (so that its row of the table can be repeated), the parts,
    the number of restrictions that are kept, and how many are not for each reason.
    """
    turns = list(turns)
    crossings, rules = crossings_of(lines, ways, turns), Rules()
    unused: Counter[str] = Counter()
    for turn in turns:
        fault = turn.fault or add_turn(turn, crossings, rules)
        if fault:
            unused[fault] += 1
    copies = copies_of(lines, rules, crossings)
    new_lines, origin, parts = Rebuilt(lines, copies).build()
    return new_lines, origin, parts, len(turns) - sum(unused.values()), unused


def crossings_of(lines: EdgeLines, ways: np.ndarray, turns: list[Turn]) -> Crossings:
    named = np.unique([way for turn in turns for way in (*turn.origins, *turn.targets)]).astype(np.int64)
    vias = np.unique([turn.via for turn in turns]).astype(np.int64)
    found = Crossings(set(ways[np.isin(ways, named)].tolist()), defaultdict(list), defaultdict(list), defaultdict(list))
    for edge in np.flatnonzero(np.isin(lines.to_node, vias)).tolist():
        found.arriving[int(ways[edge]), int(lines.to_node[edge])].append(edge)
    for edge in np.flatnonzero(np.isin(lines.from_node, vias)).tolist():
        node = int(lines.from_node[edge])
        found.leaving[int(ways[edge]), node].append(edge)
        found.out[node].append(edge)
    return found


def add_turn(turn: Turn, crossings: Crossings, rules: Rules) -> str:
    """Adds a restriction to the rules. Returns why it cannot be kept, or an empty text."""
    if not set(turn.origins + turn.targets) <= crossings.ways:
        return "names a way that the network lacks"
    origins = [crossings.arriving.get((way, turn.via), []) for way in turn.origins]
    targets = [crossings.leaving.get((way, turn.via), []) for way in turn.targets]
    if not all(origins) or not all(targets):
        return "no edge leads to its via node, or none away from it"
    if any(len(edges) > 1 for edges in (*origins, *targets)):
        return "its via node is inside one of its ways"
    for (origin,) in origins:
        (rules.only if turn.kind.startswith("only") else rules.forbidden)[origin].update(edge for edge, in targets)
    return ""


def copies_of(lines: EdgeLines, rules: Rules, crossings: Crossings) -> dict[tuple[int, frozenset[int]], list[int]]:
    """For each copy of a node (the node, the edges that go on from there): the edges that end at it."""
    copies: dict[tuple[int, frozenset[int]], list[int]] = defaultdict(list)
    for edge in sorted({*rules.forbidden, *rules.only}):
        node = int(lines.to_node[edge])
        out = frozenset(crossings.out[node])
        permitted = (frozenset(rules.only[edge]) if edge in rules.only else out) - rules.forbidden.get(edge, set())
        if permitted != out:
            copies[node, permitted].append(edge)
    return copies


class Rebuilt:
    """The edges after splitting and copying. Edges keep their index and id; an edge that is split keeps its last part."""

    def __init__(self, lines: EdgeLines, copies: dict[tuple[int, frozenset[int]], list[int]]) -> None:
        self.lines, self.copies = lines, copies
        self.from_node, self.to_node = lines.from_node.copy(), lines.to_node.copy()
        self.next_node = int(max(lines.from_node.max(), lines.to_node.max())) + 1 if len(lines) else 1
        self.extra: list[tuple[int, int]] = []  # of each copy: the edge, and the node that it begins at
        self.heads: dict[int, Optional[tuple[np.ndarray, int, int]]] = {}  # of each split edge: first part, its length, node
        self.tails: dict[int, np.ndarray] = {}

    def build(self) -> tuple[EdgeLines, np.ndarray, Parts]:
        permitted = sorted({edge for _, edges in self.copies for edge in edges})
        for edge in permitted:
            self.split(edge)
        for (_, edges), arriving in self.copies.items():
            node = self.new_node()
            self.to_node[arriving] = node
            self.extra += [(edge, node) for edge in sorted(edges)]
        return self.joined()

    def new_node(self) -> int:
        self.next_node += 1
        return self.next_node - 1

    def split(self, edge: int) -> None:
        begin, end = self.lines.first[edge], self.lines.first[edge + 1]
        points, so_far = self.lines.xy[begin:end], self.lines.so_far[begin:end]
        place = split_of(points, so_far)
        if place is None:
            self.heads[edge] = None
            return
        there = np.array([place.place], np.int64)
        head = np.concatenate([points[:place.before], there])
        self.tails[edge] = np.concatenate([there, points[place.before + (not place.between):]])
        self.heads[edge] = head, length_of(head), self.new_node()

    def joined(self) -> tuple[EdgeLines, np.ndarray, Parts]:
        """All edges: the old ones with their last part, then the first parts, then the copies."""
        count = len(self.lines)
        begin = np.zeros(count, np.int64)
        origins, lines, nodes = [], [], []
        for edge, head in self.heads.items():
            if head is not None:
                origins.append(edge)
                lines.append(head[0])
                nodes.append((int(self.from_node[edge]), head[2]))
                self.from_node[edge], begin[edge] = head[2], head[1]
        for edge, node in self.extra:
            head = self.heads[edge]
            origins.append(edge)
            lines.append(head[0] if head else self.points(edge))
            nodes.append((node, head[2] if head else int(self.to_node[edge])))
        origin = np.concatenate([np.arange(count), np.array(origins, np.int64)])
        xy, first = replaced(self.lines, self.tails, lines)
        ends = np.array(nodes, np.int64).reshape(-1, 2)
        ids = np.concatenate([self.lines.ids, self.lines.ids.max(initial=0) + 1 + np.arange(len(origins))])
        ends = np.concatenate([np.column_stack([self.from_node, self.to_node]), ends])
        found = EdgeLines(ids, first, xy, ends[:, 0].copy(), ends[:, 1].copy())
        begins = np.concatenate([begin, np.zeros(len(origins), np.int64)])
        away = far_away(self.lines.xy) if len(origins) else (0, 0)
        return found, origin, Parts(self.lines.ids[origin], begins, begins + found.lengths, away)

    def points(self, edge: int) -> np.ndarray:
        return self.lines.xy[self.lines.first[edge]:self.lines.first[edge + 1]]


def replaced(lines: EdgeLines, tails: dict[int, np.ndarray], further: list[np.ndarray]) -> tuple[np.ndarray, np.ndarray]:
    """The points of the edges, of which some have another line, and of further ones."""
    count = np.concatenate([np.diff(lines.first), [len(line) for line in further]]).astype(np.int64)
    for edge, tail in tails.items():
        count[edge] = len(tail)
    first = offsets_of(count)
    pieces, done = [], 0
    for edge, tail in sorted(tails.items()):
        pieces += [lines.xy[done:lines.first[edge]], tail]
        done = int(lines.first[edge + 1])
    pieces += [lines.xy[done:], *further]
    return np.concatenate(pieces), first


def far_away(xy: np.ndarray) -> tuple[int, int]:
    """By how many centimetres links are moved: to the most distant corner of the plane, if that is not within the map."""
    low, high = xy.min(axis=0), xy.max(axis=0)
    moves = np.where(FARTHEST - high > low + FARTHEST, FARTHEST - high, -FARTHEST - low)
    return (int(moves[0]), int(moves[1])) if (np.abs(moves) > high - low + APART).any() else (0, 0)


def length_of(points: np.ndarray) -> int:
    steps = np.diff(points, axis=0)
    return int(whole_root((steps * steps).sum(axis=1)).sum())


def split_of(points: np.ndarray, so_far: np.ndarray) -> Optional[Split]:
    """Where to split a line a few centimetres from its begin so that the lengths of its parts add up to its length; None if
    it is too short."""
    length = int(so_far[-1])
    if length < SHORTEST:
        return None
    high = min(FIRST, length - 1)
    corners = np.flatnonzero(so_far[1:-1] <= high) + 1
    if len(corners):
        return Split(int(corners[0]), (int(points[corners[0], 0]), int(points[corners[0], 1])), False)
    offsets = np.arange(1, high + 1)
    at = np.clip(np.searchsorted(so_far, offsets, "right") - 1, 0, len(points) - 2)
    begin, end = points[at], points[at + 1]
    step = end - begin
    places = begin + np.rint(step * ((offsets - so_far[at]) / (so_far[at + 1] - so_far[at]))[:, None]).astype(np.int64)
    gone, left = places - begin, end - places
    good = (gone != 0).any(axis=1) & (left != 0).any(axis=1)
    total = whole_root((gone * gone).sum(axis=1)) + whole_root((left * left).sum(axis=1))
    wrong = np.abs(total - whole_root((step * step).sum(axis=1)))
    away = np.abs(step[:, 0] * gone[:, 1] - step[:, 1] * gone[:, 0]) / np.hypot(step[:, 0], step[:, 1])
    best = np.lexsort((offsets, away > STRAIGHT, wrong, ~good))[0]
    if not good[best]:
        return None
    return Split(int(at[best]) + 1, (int(places[best, 0]), int(places[best, 1])), True)
