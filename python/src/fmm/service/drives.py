"""Matched drives along their routes: what OSRM calls matchings, legs and tracepoints, as arrays."""
from __future__ import annotations

import json
import math
from dataclasses import dataclass
from typing import Dict, Tuple

import numpy as np

from .._along import Along, along_routes
from .._match_text import MatchText
from .._places import Places
from .._ragged import offsets_of, rows_of
from ..network import Network
from ..projection import DEGREES, transformed, transformer
from .texts import words_of


class Roads:
    """A network as the service needs it, made once: places on its edges, their names, and the way to and from degrees."""

    def __init__(self, network: Network) -> None:
        self.network, self.places = network, Places(network.lines)
        crs = network.projection.crs
        self._forth, self._back = transformer(DEGREES, crs), transformer(crs, DEGREES)
        self.names = network.names
        numbers: Dict[str, int] = {}
        # of each edge: the number of its name
        self.name = np.array([numbers.setdefault(name, len(numbers)) for name in self.names], np.int64)
        self.json_names = words_of([json.dumps(name, ensure_ascii=False).encode("utf-8", "replace") for name in numbers])
        self.points = self.degrees(network.lines.xy)  # those of the network
        self.profile = str(network.report.source.get("profile", ""))

    def plane(self, degrees: np.ndarray) -> np.ndarray:
        """Whole centimetres int64[n, 2] of longitudes and latitudes, as Projection.to_centimetres has them for places that it
        takes. Places that it does not take are far outside."""
        x, y = self._forth.transform(degrees[:, 0], degrees[:, 1])
        with np.errstate(invalid="ignore"):
            found = np.rint(100 * np.stack([x, y], axis=1))
            good = (np.abs(found) <= 1_000_000_000).all(axis=1, keepdims=True)
        return np.where(good, found, np.nan)

    def degrees(self, centimetres: np.ndarray) -> np.ndarray:
        """Longitudes and latitudes of places, rounded to seven decimals (a centimetre)."""
        x, y = transformed(self._back, centimetres[:, 0] / 100, centimetres[:, 1] / 100)
        return np.round(np.stack([x, y], axis=1), 7)


@dataclass
class Drives:
    """A match of some drives. Places are centimetres.

    text     what the program wrote
    along    the positions with an edge, and their places along the routes
    edge     of each position in `along`: the index of its edge
    snapped  of each position in `along`: its place on the edge
    away     of each position in `along`: metres between the measured place and the edge
    """

    text: MatchText
    along: Along
    edge: np.ndarray
    snapped: np.ndarray
    away: np.ndarray


def drives_of(roads: Roads, text: MatchText, back: int) -> Drives:
    """What follows from the text of a match and the network. `back` is the option in centimetres."""
    along = along_routes(text, np.arange(len(text.edge)), roads.places, back)
    on = along.position
    edge = roads.network.lines.position_of(text.edge[on])
    return Drives(text, along, edge, roads.places.at(edge, text.offset[on]), np.sqrt(text.d2[on]) / 100)


@dataclass
class Lines:
    """The driven line of each piece: the place where it begins, the points of the network that follow, and the place where it
    ends. An end that is a point of the network is not among the points."""

    ends: np.ndarray  # float64[q, 2, 2]: centimetres
    points: np.ndarray  # int64[n]: of EdgeLines.xy
    first: np.ndarray  # int64[q + 1]: where the points of each line begin

    def all(self, ends: np.ndarray, points: np.ndarray) -> Tuple[np.ndarray, np.ndarray]:
        """Whole lines one after the other, and where each begins, from values of the ends and of all points of the network."""
        bounds = self.first + np.arange(0, 2 * len(self.first), 2)
        whole = np.empty((bounds[-1], 2))
        whole[self.inner] = points[self.points]
        whole[bounds[:-1]], whole[bounds[1:] - 1] = ends[:, 0], ends[:, 1]
        return whole, bounds

    @property
    def inner(self) -> np.ndarray:
        """The place of each point in the whole lines."""
        return np.arange(1, len(self.points) + 1) + 2 * rows_of(np.diff(self.first))

    def thinned(self, kept: np.ndarray) -> Lines:
        """The lines with some of their points."""
        return Lines(self.ends, self.points[kept], offsets_of(kept)[self.first])


def lines_of(places: Places, along: Along) -> Lines:
    """The driven line of each piece."""
    routes = along.routes
    opens, closes = routes.first[:-1], routes.first[1:] - 1
    begin = np.rint(along.along[along.first[:-1]]).astype(np.int64)
    end = np.rint(along.along[along.first[1:] - 1] - routes.starts[closes]).astype(np.int64)
    ends = places.at(routes.edge[np.concatenate([opens, closes])], np.concatenate([begin, end]))
    ends = np.stack([ends[:len(opens)], ends[len(opens):]], axis=1)
    points, first = places.driven_points(routes.edge, routes.first, begin, end)
    xy, has_points, kept = places.lines.xy, np.flatnonzero(np.diff(first)), np.ones(len(points), bool)
    for side, at in ((0, first[has_points]), (1, first[has_points + 1] - 1)):
        kept[at[(xy[points[at]] == ends[has_points, side]).all(axis=1)]] = False
    return Lines(ends, points, first).thinned(kept)


def leg_metres(along: Along) -> np.ndarray:
    """The metres along the route from each position to the next. Those from one piece to another mean nothing."""
    return np.maximum(np.diff(along.along), 0) / 100


def confidence(cost: int, positions: int) -> float:
    """The mean likelihood of a position and of the route to it, 1 where all positions are on roads and no route makes a detour.

    A cost of 1,000 divides the likelihood by e: sigma metres from the road cost 500, beta metres of detour 1,000.
    """
    return math.exp(-cost / 1000 / positions)
