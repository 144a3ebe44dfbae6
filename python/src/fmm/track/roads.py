"""What the objects say of roads: places in degrees, names of streets, metres along roads."""
from __future__ import annotations

import heapq
import math
from collections.abc import Sequence
from pathlib import Path
from typing import Any, Optional

import numpy as np

from .._along import along_routes
from .._match_text import MatchText
from .._places import Places
from .._tables import read_table, whole_numbers
from ..errors import MismatchError
from ..network import Network
from ..projection import DEGREES, transformer
from ..service.drives import leg_metres, lines_of

MOST_NODES = 300  # that a search for a way looks at
Label = tuple[int, int]  # id of an edge, offset in centimetres


class Streets:
    """The roads of a network. `back` is the option of the match in centimetres."""

    def __init__(self, network: Network, back: int, lookup: Optional[Path] = None) -> None:
        self.network, self.back, self.places = network, back, Places(network.lines)
        self._to_degrees = transformer(network.projection.crs, DEGREES)
        names = network.table["name"].to_numpy(object)
        self.names: np.ndarray = np.where(names == "", network.table["ref"].to_numpy(object), names)
        if lookup is not None:
            self._look_up(lookup)
        lines = network.lines
        nodes, ends = np.unique(np.concatenate([lines.from_node, lines.to_node]), return_inverse=True)
        self._from, self._to = ends[:len(lines)], ends[len(lines):]
        self._leaving = np.argsort(self._from, kind="stable")
        self._first = np.searchsorted(self._from[self._leaving], np.arange(len(nodes) + 1))

    def _look_up(self, path: Path) -> None:
        """Takes the names of streets from a table with the columns edge and name."""
        frame = read_table(path, required=("edge", "name"), unique=["edge"])
        at = self.network.lines.position_of(whole_numbers(frame, "edge", 0, 2 ** 32 - 1))
        if (at < 0).any():
            raise MismatchError(f"has an edge {frame['edge'][int(np.argmin(at))]} that the network lacks", path)
        self.names = self.names.copy()
        self.names[at] = frame["name"].to_numpy(object)

    def degrees(self, centimetres: np.ndarray) -> np.ndarray:
        """Longitudes and latitudes of places, rounded to seven decimals (a centimetre)."""
        x, y = self._to_degrees.transform(centimetres[:, 0] / 100, centimetres[:, 1] / 100)
        return np.round(np.stack([x, y], axis=1), 7)

    def index(self, edges: Sequence[int]) -> np.ndarray:
        """The index of each edge id."""
        return self.network.lines.position_of(np.array(edges, np.int64))

    def at(self, labels: Sequence[Label]) -> tuple[list[Any], list[list[float]]]:
        """The names of the streets of labels, and the places in degrees."""
        edge = self.index([edge for edge, _ in labels])
        places = self.places.at(edge, np.array([offset for _, offset in labels], np.int64))
        return self.names[edge].tolist(), self.degrees(places).tolist()

    def measured(self, places: Sequence[tuple[int, int]]) -> list[list[float]]:
        """Places in whole centimetres as degrees."""
        return self.degrees(np.array(places, np.float64).reshape(-1, 2)).tolist()

    def metres(self, before: Label, after: Label) -> float:
        """Metres along the road from one label to the next; in a straight line if the shortest way has too many crossings."""
        first, last = self.index([before[0], after[0]]).tolist()
        if first == last and after[1] >= before[1] - self.back:
            return max(0, after[1] - before[1]) / 100
        rest = int(self.places.length[first]) - before[1] + after[1]
        between = self._way(int(self._to[first]), int(self._from[last]))
        if between is None:
            ends = self.places.at(np.array([first, last]), np.array([before[1], after[1]]))
            return math.dist(*ends.tolist()) / 100
        return (rest + between) / 100

    def _way(self, origin: int, target: int) -> Optional[int]:
        """Centimetres of the shortest way between two nodes; None if it was not found among the nearest nodes."""
        queue, known = [(0, origin)], {origin: 0}
        done: set[int] = set()
        while queue and len(done) < MOST_NODES:
            so_far, node = heapq.heappop(queue)
            if node == target:
                return so_far
            if node in done:
                continue
            done.add(node)
            for edge in self._leaving[self._first[node]:self._first[node + 1]].tolist():
                end, length = int(self._to[edge]), so_far + int(self.places.length[edge])
                if length < known.get(end, length + 1):
                    known[end] = length
                    heapq.heappush(queue, (length, end))
        return None

    def driven(self, labels: Sequence[Label], route: Sequence[int]) -> tuple[float, list[list[float]]]:
        """The metres and the line in degrees of a piece with these labels. A line of one place has it twice."""
        count, edges = len(labels), np.array(route, np.int64)
        zero, one = np.zeros(1, np.int64), np.array([0, 1])
        text = MatchText("the match", "streams", one[1:], one * count, np.zeros(count, np.int64),
                         np.array([edge for edge, _ in labels], np.int64), np.array([offset for _, offset in labels], np.int64),
                         np.zeros(count, np.int64), zero, zero, np.array([count - 1]), zero, one * len(edges), edges, None)
        along = along_routes(text, np.arange(count), self.places, self.back)
        lines = lines_of(self.places, along)
        line, _ = lines.all(lines.ends, self.places.lines.xy)
        same = np.append(False, (line[1:] == line[:-1]).all(axis=1))
        places = self.degrees(line[~same]).tolist()
        return float(leg_metres(along).sum()), places * 2 if len(places) == 1 else places
