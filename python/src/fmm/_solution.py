"""A match in terms of the input: where each row is, and what was driven. Streets that the network splits are whole again."""
from __future__ import annotations

from dataclasses import dataclass
from typing import Optional

import numpy as np
import pandas as pd

from ._along import Along, Routes, along_routes
from ._between import Stretches, nearest_on_routes, route_at, with_between
from ._edge_times import EdgeTimes, Passing, edge_times
from ._match_text import MatchText
from ._places import DrivenLines, Places
from ._traces import Traces
from .network import Network
from .options import Options, centimetres
from .positions import Positions

UNKNOWN = -1


@dataclass
class RowPlaces:
    """For each row of the input: where it belongs. Numbers are -1 (offset and distance NaN) where there is nothing to say."""

    trace: np.ndarray  # int64: the place of the trace in the text
    point: np.ndarray  # int64: the number of the position in its trace; -1 for rows that are not in the trace file
    piece: np.ndarray  # int64: among all pieces
    street: np.ndarray  # int64: the index of the street
    offset: np.ndarray  # float64: centimetres
    distance: np.ndarray  # float64: metres from the measured position
    reason: np.ndarray  # object: why there is no street, "" if there is one


@dataclass
class Between:
    """Rows that were left out of the trace file, after a position that has an edge."""

    row: np.ndarray  # int64: of the input
    before: np.ndarray  # int64: the matched position before, as a place in `along`
    piece: np.ndarray  # int64
    place: np.ndarray  # float64: centimetres along the route
    inside: np.ndarray  # bool: the next position belongs to the same piece


class Solution:
    """What the tables and summaries are made of."""

    def __init__(self, network: Network, positions: Positions, traces: Traces, text: MatchText,
                 options: Optional[Options]) -> None:
        """`options` are those of the match, None if they are not known."""
        self.network, self.positions, self.traces, self.text, self.options = network, positions, traces, text, options
        self.ids = traces.drives["id"].to_numpy(dtype=object)  # of each trace
        self.times = positions.frame["time"].to_numpy()  # of each row
        self.streets = Places(network.streets)
        self.street_of_edge = network.streets.position_of(network.parts.street)
        back = None if options is None else centimetres(options.back)
        matched = along_routes(text, traces.row, Places(network.lines), back)
        self.routes: Routes = matched.routes.joined(
            self.street_of_edge, network.parts.begin, network.parts.end, self.streets.length)
        self.between = self._between(matched)
        self.along: Along = matched
        if len(self.between.row):
            inside = self.between.inside
            self.along = with_between(matched, self.between.before[inside], self.between.row[inside], self.between.place[inside],
                                      self.times[self.between.row[inside]])
        self.passing = Passing(self.along, self.times[self.along.row])
        self.driven: EdgeTimes = edge_times(self.routes, self.along, self.passing)

    def _between(self, matched: Along) -> Between:
        """The rows that were left out of the trace file, after a position that has an edge."""
        table, text = self.traces.between, self.text
        trace = np.searchsorted(self.traces.drives.index.to_numpy(), table["trace"].to_numpy())
        position = text.position_first[trace] + table["point"].to_numpy(np.int64)
        on = np.flatnonzero(text.edge[position] >= 0) if len(table) else np.zeros(0, np.int64)
        row, position = table["row"].to_numpy(np.int64)[on], position[on]
        before = np.searchsorted(matched.position, position)
        last = np.minimum(before + 1, len(matched.position) - 1)
        inside = (last > before) & (matched.piece[last] == matched.piece[before])
        low, piece = matched.along[before], matched.piece[before]
        high = np.where(inside, matched.along[last], low)
        place = nearest_on_routes(self.routes, self.streets, Stretches(piece, low, high, self.measured(row)))
        return Between(row, before, piece, place, inside)

    @property
    def about_rows(self) -> np.ndarray:
        """The row of each street in the network's table of edges."""
        return self.network.lines.position_of(self.network.streets.ids)

    def measured(self, rows: np.ndarray) -> np.ndarray:
        """The measured places of some rows in centimetres of the network's plane, float64[n, 2]."""
        if len(self.traces.places):
            return self.traces.places[rows].astype(np.float64)
        frame = self.positions.frame
        x, y = frame["x"].to_numpy()[rows], frame["y"].to_numpy()[rows]
        return np.stack(self.network.projection.to_centimetres(x, y, self.positions.crs), axis=1).astype(np.float64)

    def row_places(self, far: str) -> RowPlaces:
        """Where each row is. `far` is the reason of positions without a candidate."""
        text, count = self.text, len(self.positions.frame)
        trace, point, piece, street = (np.full(count, UNKNOWN, np.int64) for _ in range(4))
        offset, distance = np.full(count, np.nan), np.full(count, np.nan)
        found = RowPlaces(trace, point, piece, street, offset, distance, np.full(count, "", object))
        row = self.traces.row
        found.reason[self.traces.reasons.index.to_numpy(np.int64)] = self.traces.reasons.to_numpy(object)
        found.trace[row] = text.trace_of
        found.point[row] = np.arange(len(row)) - text.position_first[text.trace_of]
        found.piece[row] = text.piece_of
        found.reason[row[text.edge < 0]] = far
        on = np.flatnonzero(text.edge >= 0)
        edge = self.network.lines.position_of(text.edge[on])
        found.street[row[on]] = self.street_of_edge[edge]
        found.offset[row[on]] = text.offset[on] + self.network.parts.begin[edge]
        found.distance[row[on]] = np.sqrt(text.d2[on]) / 100
        self._place_between(found, far)
        return found

    def _place_between(self, found: RowPlaces, far: str) -> None:
        """The rows that were left out of the trace file have their places on the route, or the reason of the position before."""
        table = self.traces.between
        if not len(table):
            return
        rows = table["row"].to_numpy(np.int64)
        found.trace[rows] = np.searchsorted(self.traces.drives.index.to_numpy(), table["trace"].to_numpy())
        found.reason[rows] = far
        between = self.between
        found.piece[between.row], found.reason[between.row] = between.piece, ""
        route = route_at(self.routes, between.piece, between.place)
        street = self.routes.edge[route]
        offset = np.clip(between.place - self.routes.starts[route], 0, self.streets.length[street])
        found.street[between.row], found.offset[between.row] = street, offset
        away = self.streets.at(street, offset) - self.measured(between.row)
        found.distance[between.row] = np.hypot(away[:, 0], away[:, 1]) / 100

    def piece_numbers(self) -> np.ndarray:
        """The number of each piece in its trace, from 1."""
        trace = self.text.piece_trace
        first = np.searchsorted(trace, trace, side="left")
        return np.arange(len(trace)) - first + 1

    def driven_lines(self) -> DrivenLines:
        """The line of each driven edge in centimetres."""
        return self.streets.driven(self.driven.edge, self.driven.begin, self.driven.end)


def seconds_to_times(seconds: np.ndarray, digits: int = 6) -> pd.DatetimeIndex:
    """Seconds since 1970 as times in UTC, NaN as NaT, rounded to so many decimals of a second."""
    known = np.isfinite(seconds)
    whole = np.floor(np.where(known, seconds, 0))
    parts = np.rint((np.where(known, seconds, 0) - whole) * 10 ** digits).astype(np.int64)
    nanoseconds = whole.astype(np.int64) * 10 ** 9 + parts * 10 ** (9 - digits)
    times = np.where(known, nanoseconds, np.iinfo(np.int64).min).view("datetime64[ns]")
    return pd.DatetimeIndex(times).tz_localize("UTC")
