"""The tables of a match: points, routes and driven edges."""
from __future__ import annotations

from typing import Any, Dict, Optional

import geopandas
import numpy as np
import pandas as pd

from . import _geometry
from ._places import DrivenLines
from ._solution import RowPlaces, Solution, seconds_to_times
from .options import FASTEST

ABOUT = ("way", "class", "name", "ref")
POINT_COLUMNS = ("id", "time", "x", "y", "trace", "point", "piece", "edge", "offset", "distance", "margin", *ABOUT, "reason",
                 "geometry")


def whole_or_none(values: np.ndarray, known: np.ndarray) -> pd.arrays.IntegerArray:
    """Whole numbers with missing ones."""
    return pd.arrays.IntegerArray(values.astype(np.int64), ~known)


def about(solution: Solution, street: np.ndarray, names: tuple[str, ...]) -> Dict[str, np.ndarray]:
    """Columns of the network's table for some streets; "" (NaN for numbers) where the index is -1."""
    rows = np.append(solution.about_rows, len(solution.network.table))[street]
    columns = {}
    for name in names:
        values = solution.network.table[name].to_numpy()
        columns[name] = np.append(values, np.nan if values.dtype.kind == "f" else "")[rows].astype(values.dtype, copy=False)
    return columns


def in_crs(solution: Solution, places: np.ndarray, crs: Any) -> np.ndarray:
    """Places in centimetres as coordinates of a CRS (metres of the plane for None)."""
    return np.stack(solution.network.projection.to_crs(places[:, 0], places[:, 1], crs), axis=1)


def lines_in_crs(solution: Solution, lines: DrivenLines, crs: Any) -> DrivenLines:
    """Lines in centimetres as lines in a CRS. Each point of the network is projected once, however often it was passed."""
    if crs is None:
        return DrivenLines(lines.first, in_crs(solution, lines.places, crs), lines.point)
    points, between = solution.streets.lines.xy, np.flatnonzero(lines.point < 0)
    used = np.zeros(len(points) + 1, bool)
    used[lines.point] = True
    passed = np.flatnonzero(used[:-1])
    projected = np.empty((len(points) + 1, 2))
    projected[passed] = in_crs(solution, points[passed], crs)
    places = projected[lines.point]
    places[between] = in_crs(solution, lines.places[between], crs)
    return DrivenLines(lines.first, places, lines.point)


def points(solution: Solution, places: RowPlaces, crs: Any) -> geopandas.GeoDataFrame:
    """One row for each row of the input."""
    frame = solution.positions.frame
    on, known = places.street >= 0, places.trace >= 0
    ids = solution.network.streets.ids
    pieces = np.append(solution.piece_numbers(), 0)
    columns: Dict[str, Any] = {
        "id": frame["id"].to_numpy(object), "time": seconds_to_times(frame["time"].to_numpy()),
        "x": frame["x"].to_numpy(), "y": frame["y"].to_numpy(),
        "trace": whole_or_none(np.append(solution.text.traces, 0)[places.trace], known),
        "point": whole_or_none(places.point, places.point >= 0),
        "piece": whole_or_none(pieces[places.piece], places.piece >= 0),
        "edge": whole_or_none(np.append(ids, 0)[places.street], on),
        "offset": places.offset / 100, "distance": places.distance,
        **about(solution, places.street, ABOUT), "reason": places.reason,
    }
    for name in frame.columns:
        if name not in ("id", "x", "y", "time"):
            columns[f"{name}_input" if name in POINT_COLUMNS else name] = frame[name].array
    geometry = _geometry.points(point_places(solution, places, crs), crs_of(solution, crs))
    return geopandas.GeoDataFrame(pd.DataFrame(columns, index=frame.index, copy=False), geometry=geometry)


def point_places(solution: Solution, places: RowPlaces, crs: Any) -> np.ndarray:
    """The place of each row on its street, or else where it was measured; NaN if it has no place."""
    out = np.full((len(places.street), 2), np.nan)
    on = np.flatnonzero(places.street >= 0)
    out[on] = in_crs(solution, solution.streets.at(places.street[on], places.offset[on]), crs)
    rest = np.flatnonzero(places.street < 0)
    if len(rest):
        measured = solution.measured(rest)
        good = np.abs(measured[:, 0]) < 2 ** 60
        out[rest[good]] = in_crs(solution, measured[good], crs)
    return out


def crs_of(solution: Solution, crs: Any) -> Any:
    return solution.network.projection.crs if crs is None else crs


def routes(solution: Solution, crs: Any, lines: DrivenLines) -> geopandas.GeoDataFrame:
    """One row for each piece. `lines` are those of the driven edges, in the CRS."""
    text, along = solution.text, solution.along
    first, last = along.row[along.first[:-1]], along.row[along.first[1:] - 1]
    begin, end = solution.passing.times[along.first[:-1]], solution.passing.times[along.first[1:] - 1]
    joined = DrivenLines(lines.first[solution.routes.first], lines.places, lines.point).without_doubles()
    columns = {
        "id": solution.ids[text.piece_trace], "trace": text.traces[text.piece_trace], "piece": solution.piece_numbers(),
        "first_row": first, "last_row": last,
        "begin": seconds_to_times(begin), "end": seconds_to_times(end), "seconds": end - begin,
        "metres": summed(solution.driven.metres, solution.routes.first), "cost": text.cost, "edges": route_texts(solution),
    }
    geometry = _geometry.lines(joined.first, joined.places, crs_of(solution, crs))
    return geopandas.GeoDataFrame(pd.DataFrame(columns, copy=False), geometry=geometry)


def summed(values: np.ndarray, first: np.ndarray) -> np.ndarray:
    """The sum of each row of values."""
    total = np.concatenate((np.zeros(1), np.cumsum(values)))
    return total[first[1:]] - total[first[:-1]]


def route_texts(solution: Solution) -> np.ndarray:
    """The ids of the streets of each route, separated by blanks."""
    ids = list(map(str, solution.network.streets.ids[solution.routes.edge].tolist()))
    first = solution.routes.first.tolist()
    out = np.empty(len(first) - 1, object)
    out[:] = [" ".join(ids[begin:end]) for begin, end in zip(first, first[1:])]
    return out


def edges(solution: Solution, crs: Any, lines: DrivenLines, standing: Optional[np.ndarray]) -> geopandas.GeoDataFrame:
    """One row for each driven edge, with its line in the CRS. `standing` has the seconds that the vehicle stood there."""
    driven, text = solution.driven, solution.text
    trace = text.piece_trace[driven.piece]
    seconds = driven.exit - driven.entry
    stood = np.where(np.isnan(seconds), np.nan, 0 if standing is None else np.minimum(standing, seconds))
    metres = driven.metres
    with np.errstate(invalid="ignore", divide="ignore"):
        known = (seconds - stood > 0) & (metres > 0) & ((stood == 0) | (metres <= FASTEST * (seconds - stood)))
        speed = np.where(known, 3.6 * metres / (seconds - stood), np.nan)
    columns = {
        "id": solution.ids[trace], "trace": text.traces[trace], "piece": solution.piece_numbers()[driven.piece],
        "number": driven.number, "edge": solution.network.streets.ids[driven.edge],
        **about(solution, driven.edge, (*ABOUT, "maxspeed", "direction")),
        "entry": seconds_to_times(driven.entry, 3), "exit": seconds_to_times(driven.exit, 3), "seconds": seconds,
        "standing": stood, "metres": metres, "whole": driven.whole, "speed": speed,
    }
    geometry = _geometry.lines(lines.first, lines.places, crs_of(solution, crs))
    return geopandas.GeoDataFrame(pd.DataFrame(columns, copy=False), geometry=geometry)
