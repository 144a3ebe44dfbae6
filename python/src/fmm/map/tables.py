"""The arrays of a page: positions, drives, driven edges, candidates and the network around them."""
from __future__ import annotations

from dataclasses import dataclass
from typing import TYPE_CHECKING, Any, Dict, List, Optional

import numpy as np
import pandas as pd

from .. import _geometry
from .._places import Places
from .._ragged import offsets_of, rows_of, spread
from .._summaries import seconds_of
from .doubts import Doubts
from .margins import Margins
from .packing import Pack, Texts
from .plane import NOWHERE, Plane

if TYPE_CHECKING:
    from ..matches import Matches
    from ..network import Network

MATCHED, SMALL, BROKEN, FAR = 1, 2, 4, 8  # flags of a position
AROUND = 50_000  # centimetres around the positions whose edges are in the page
MOST_EDGES = 200_000


@dataclass
class Order:
    """The positions of a page: rows of `points` that have a place, drive by drive in the order of travel."""

    row: np.ndarray  # int64[p]
    drive: np.ndarray  # int64[p]
    first: np.ndarray  # int64[d + 1]: where the positions of each drive begin
    vehicle: List[str]  # of each drive
    trace: np.ndarray  # int64[d]: -1 for the rows of a vehicle that belong to no drive

    @property
    def place(self) -> np.ndarray:
        """The place of each row among the positions, by row; a row that the page has not is missing (-1)."""
        out = np.full(int(self.row.max(initial=-1)) + 1, -1, np.int64)
        out[self.row] = np.arange(len(self.row))
        return out


class Tables:
    """Packs the tables of a match."""

    def __init__(self, matches: Matches, doubts: Doubts, margins: Optional[Margins], plane: Plane, crs: Any) -> None:
        """`crs` is that of the measured places, None for metres of the plane."""
        self.matches, self.doubts, self.margins, self.plane = matches, doubts, margins, plane
        self.pack, self.more, self.texts = Pack(), Pack(), Texts()
        self.measured = plane.places(matches.points[["x", "y"]].to_numpy(np.float64), crs)
        self.times = seconds_of(matches.points["time"])
        self.order = self._order()
        known = self.times[~np.isnan(self.times)]
        self.begin = float(np.floor(known.min())) if len(known) else 0.0

    def _order(self) -> Order:
        points = self.matches.points
        row = np.flatnonzero(self.measured[:, 0] != NOWHERE)
        trace = points["trace"].to_numpy(dtype=np.int64, na_value=-1)[row]
        ids = points["id"].to_numpy(object)[row]
        codes, names = pd.factorize(ids, sort=True)
        time = self.times[row]
        order = np.lexsort((row, time, trace, codes))
        row, trace, codes = row[order], trace[order], codes[order]
        change = np.append(True, (trace[1:] != trace[:-1]) | (codes[1:] != codes[:-1])) if len(row) else np.zeros(0, bool)
        drive = np.cumsum(change) - 1
        return Order(row, drive, np.append(np.flatnonzero(change), len(row)), [str(names[code]) for code in codes[change]],
                     trace[change])

    def add_positions(self) -> None:
        points, row, pack = self.matches.points, self.order.row, self.pack
        matched = points["edge"].notna().to_numpy()
        geometry = _geometry.coordinates(points.geometry.array)
        places = np.full((len(points), 2), np.nan)
        with_place = np.flatnonzero(np.diff(geometry[0]) == 1)
        places[with_place] = geometry[1][geometry[0][with_place]]
        onto = self.plane.places(places, points.crs)
        onto = np.where((matched & (onto[:, 0] != NOWHERE))[:, None], onto, self.measured)
        flags = MATCHED * matched + SMALL * self.doubts.small + BROKEN * self.doubts.broken + FAR * self.doubts.far
        text = np.where(self.doubts.reason != "", self.doubts.reason, points["reason"].to_numpy(object))
        pack.add("xy", self.measured[row], "int32")
        pack.add("onto", onto[row], "int32")
        pack.add("time", self.times[row] - self.begin, "float64")
        pack.add("drive", self.order.drive, "int32")
        pack.add("row", row, "uint32")
        pack.add("flags", flags[row], "uint8")
        pack.add("distance", points["distance"].to_numpy(np.float64)[row], "float32")
        margin = points["margin"].to_numpy(np.float64) if "margin" in points else np.full(len(points), np.nan)
        pack.add("margin", margin[row], "float64")
        pack.add("reason", self.texts.numbers(text[row]), "uint32")
        pack.add("edge", points["edge"].to_numpy(dtype=np.int64, na_value=0)[row], "uint32")
        pack.add("name", self.texts.numbers(points["name"].to_numpy(object)[row]), "uint32")
        piece = points["piece"].to_numpy(dtype=np.int64, na_value=0)
        pack.add("piece", piece[row], "uint32")
        pack.add("pieceCost", self._piece_costs(piece)[row], "float64")

    def _piece_costs(self, piece: np.ndarray) -> np.ndarray:
        """The cost of the piece of each row, NaN without one."""
        routes, trace = self.matches.routes, self.matches.points["trace"].to_numpy(dtype=np.int64, na_value=-1)
        index = pd.MultiIndex.from_arrays([routes["trace"], routes["piece"]])
        known = pd.Series(routes["cost"].to_numpy(np.float64), index=index)
        known = known[~known.index.duplicated()]
        return known.reindex(pd.MultiIndex.from_arrays([trace, piece])).to_numpy(np.float64)

    def add_drives(self) -> None:
        order, pack = self.order, self.pack
        pack.add("driveFirst", order.first, "uint32")
        pack.add("driveTrace", order.trace, "float64")
        pack.add("driveVehicle", self.texts.numbers(order.vehicle), "uint32")

    def add_edges(self) -> None:
        """The driven edges, in the order of travel within each drive."""
        edges, pack = self.matches.edges, self.pack
        index = pd.MultiIndex.from_arrays([self.order.vehicle, self.order.trace])
        known = pd.Series(np.arange(len(index)), index=index)
        drive = known.reindex(pd.MultiIndex.from_arrays([edges["id"].astype(str), edges["trace"]])).to_numpy(np.float64)
        kept = np.flatnonzero(~np.isnan(drive))
        offsets, xy = _geometry.coordinates(edges.geometry.array)
        places = self.plane.places(xy, edges.crs)
        counts = np.diff(offsets)[kept]
        pack.add("edgeDrive", drive[kept], "int32")
        pack.add("edgeId", edges["edge"].to_numpy(np.int64)[kept], "uint32")
        pack.add("edgeName", self.texts.numbers(edges["name"].to_numpy(object)[kept]), "uint32")
        pack.add("edgeSpeed", edges["speed"].to_numpy(np.float64)[kept], "float32")
        pack.add("edgeMetres", edges["metres"].to_numpy(np.float64)[kept], "float32")
        for name in ("entry", "exit"):
            pack.add(f"edge{name.capitalize()}", seconds_of(edges[name])[kept] - self.begin, "float64")
        pack.add("edgeDoubt", self.doubts.edge[kept], "uint8")
        pack.add("edgeFirst", offsets_of(counts), "uint32")
        pack.add("edgeXy", places[spread(offsets[:-1][kept], counts)], "int32")

    def add_network(self, network: Network) -> str:
        """The edges around the positions, each street once. Returns a note if some are left out."""
        lines = network.streets
        kept = near_edges(network, self.matches, self._centimetres(network))
        note = ""
        if len(kept) > MOST_EDGES:
            note, kept = f"the page has the first {MOST_EDGES:,} of {len(kept):,} edges of the network", kept[:MOST_EDGES]
        some = lines.take(kept)
        x, y = some.xy[:, 0] / 100, some.xy[:, 1] / 100
        self.pack.add("networkFirst", some.first, "uint32")
        self.pack.add("networkXy", self.plane.places(np.stack([x, y], axis=1), network.projection.crs), "int32")
        return note

    def _centimetres(self, network: Network) -> np.ndarray:
        """The measured places of the page's positions in the plane of the network."""
        places = self.measured[self.order.row] / 100
        x, y = network.projection.to_centimetres(places[:, 0], places[:, 1], self.plane.crs)
        return np.stack([x, y], axis=1)

    def add_candidates(self) -> None:
        """The candidates of each position, in the order of the page's positions."""
        if self.margins is None:
            return
        margins, lines = self.margins, self.margins.network.lines
        found, some = margins.sequences, margins.sequences.candidates
        of_row = np.full(len(self.matches.points), -1, np.int64)
        of_row[margins.row] = np.arange(len(margins.row))
        position = of_row[self.order.row]
        counts = np.where(position >= 0, np.append(some.counts, 0)[position], 0)
        at = spread(np.append(some.first, 0)[position], counts)
        rank = np.arange(len(some.edge)) - np.repeat(some.first[:-1], some.counts)
        xy = Places(lines).at(some.edge[at], some.offset[at]) / 100
        parts, pack = margins.network.parts, self.more
        street = parts.street[some.edge]
        names = np.append(margins.network.table["name"].to_numpy(object), "")
        pack.add("first", offsets_of(counts), "uint32")
        pack.add("edge", street[at], "uint32")
        pack.add("name", self.texts.numbers(names[some.edge[at]]), "uint32")
        pack.add("xy", self.plane.places(xy, margins.network.projection.crs), "int32")
        pack.add("distance", np.sqrt(some.d2[at]) / 100, "float32")
        pack.add("emission", found.emission[at], "float64")
        pack.add("transition", found.transition[at], "float64")
        pack.add("before", np.append(rank, -1)[found.before[at]], "int8")
        pack.add("total", found.total[at], "float64")
        pack.add("another", found.another[at], "uint8")
        chosen = np.zeros(len(some.edge), bool)
        chosen[found.chosen[found.chosen >= 0]] = True
        pack.add("chosen", chosen[at], "uint8")

    def drives(self) -> Dict[str, Any]:
        """Figures for the page's head."""
        return {"positions": len(self.order.row), "drives": int((self.order.trace >= 0).sum()),
                "vehicles": len(set(self.order.vehicle))}


def near_edges(network: Network, matches: Matches, places: np.ndarray) -> np.ndarray:
    """The streets near the positions, by index, each direction of a two-way street once."""
    lines = network.streets
    if not len(places) or not len(lines):
        return np.zeros(0, np.int64)
    low, high = places.min(axis=0) - AROUND, places.max(axis=0) + AROUND
    inside = ((lines.xy >= low) & (lines.xy <= high)).all(axis=1)
    near = np.bincount(rows_of(np.diff(lines.first)), weights=inside, minlength=len(lines)) > 0
    ends = np.sort(np.stack([lines.from_node, lines.to_node], axis=1), axis=1)
    table = pd.DataFrame({"a": ends[:, 0], "b": ends[:, 1], "length": lines.lengths,
                          "middle": lines.xy[lines.first[:-1]].sum(axis=1) + lines.xy[lines.first[1:] - 1].sum(axis=1)})
    return np.flatnonzero(near & ~table.duplicated().to_numpy())
