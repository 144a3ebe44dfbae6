"""Answers from the tables of a match: travel times, distances and stops."""
from __future__ import annotations

from dataclasses import dataclass
from typing import Any, Dict, List, Sequence, Union

import geopandas
import numpy as np
import pandas as pd

from . import _geometry
from ._reading.zones import checked_zone
from ._stops import Standing, Track, overlaps, standing
from .errors import OptionError
from .options import FASTEST

ABOUT = ["way", "class", "name", "ref"]
TIMES = ("hour", "day", "weekday")
LEAST_NOISE, MOST_NOISE = 1.0, 25.0  # metres
By = Union[None, str, Sequence[str]]


def noise_of(distance: np.ndarray) -> float:
    """The standard error of a coordinate, by the distances of positions from their roads."""
    known = distance[np.isfinite(distance)]
    return float(np.clip(np.median(known) / 0.6745, LEAST_NOISE, MOST_NOISE)) if len(known) else LEAST_NOISE


def seconds_of(times: pd.Series) -> np.ndarray:
    """Times as seconds since 1970, NaT as NaN."""
    values = times.dt.tz_localize(None).to_numpy("datetime64[ns]").view(np.int64)
    return np.where(values == np.iinfo(np.int64).min, np.nan, values / 1e9)


@dataclass
class Stretches:
    """Where vehicles stood. `row` has the row of each position of the track, `names` the ids of the vehicles."""

    found: Standing
    track: Track
    row: np.ndarray
    names: np.ndarray

    def seconds_of(self, ids: np.ndarray, begin: np.ndarray, end: np.ndarray) -> np.ndarray:
        """How many seconds of some intervals their vehicle stood."""
        of = pd.Index(self.names).get_indexer(ids)
        order = np.lexsort((begin, of))
        out = np.zeros(len(of))
        vehicle = self.track.vehicle[self.found.first]
        out[order] = overlaps(begin[order], end[order], of[order], self.found, vehicle)
        return out


def stretches(points: pd.DataFrame, metres: np.ndarray, seconds: float) -> Stretches:
    """The stretches of standing of at least so many seconds. `metres` has the measured places of the points."""
    time = seconds_of(points["time"])
    good = np.flatnonzero(np.isfinite(time) & np.isfinite(metres).all(axis=1))
    codes, names = pd.factorize(points["id"].to_numpy(object), sort=True)
    row = good[np.lexsort((time[good], codes[good]))]
    track = Track(codes[row], time[row], metres[row, 0], metres[row, 1], noise_of(points["distance"].to_numpy(np.float64)))
    return Stretches(standing(track, seconds), track, row, names)


def stops(points: pd.DataFrame, stood: Stretches, to_crs: Any, crs: Any) -> geopandas.GeoDataFrame:
    """One row for each stretch. The edge is that of most of its positions."""
    found, rows = stood.found, stood.row
    places = np.array([[np.median(values[first:last + 1]) for values in (stood.track.x, stood.track.y)]
                       for first, last in zip(found.first.tolist(), found.last.tolist())]).reshape(-1, 2)
    edge = points["edge"].to_numpy(np.int64, na_value=-1)[rows] if len(rows) else np.zeros(0, np.int64)
    middle = np.array([usual(edge[first:last + 1]) for first, last in zip(found.first.tolist(), found.last.tolist())], np.int64)
    at = rows[found.first + middle] if len(middle) else np.zeros(0, np.int64)
    from ._solution import seconds_to_times
    columns: Dict[str, Any] = {
        "id": stood.names[stood.track.vehicle[found.first]], "begin": seconds_to_times(found.begin, 3),
        "end": seconds_to_times(found.end, 3), "seconds": found.end - found.begin, "edge": points["edge"].array[at],
        **{name: points[name].to_numpy(object)[at] for name in ABOUT}, "positions": found.last - found.first + 1,
        "first_row": rows[found.first], "last_row": rows[found.last],
    }
    geometry = _geometry.points(to_crs(places), crs)
    return geopandas.GeoDataFrame(pd.DataFrame(columns), geometry=geometry)


def usual(edges: np.ndarray) -> int:
    """The place of a position on the most frequent edge."""
    known = edges[edges >= 0]
    if not len(known):
        return 0
    values, counts = np.unique(known, return_counts=True)
    return int(np.flatnonzero(edges == values[counts.argmax()])[0])


def keys_of(edges: pd.DataFrame, points: pd.DataFrame, by: By, zone: str) -> Dict[str, Any]:
    """The columns to group by."""
    names: List[str] = [] if by is None else [by] if isinstance(by, str) else list(by)
    local = edges["entry"].dt.tz_convert(checked_zone(zone)) if any(name in TIMES for name in names) else None
    keys: Dict[str, Any] = {}
    for name in names:
        if local is not None and name in TIMES:
            keys[name] = {"hour": lambda: local.dt.hour.astype("Int64"), "day": lambda: local.dt.strftime("%Y-%m-%d"),
                          "weekday": lambda: local.dt.day_name()}[name]().array
        elif name == "vehicle":
            keys[name] = edges["id"].array
        elif name in edges.columns and name != "geometry":
            keys[name] = edges[name].array
        elif name in points.columns and name != "geometry":
            first = points[points["trace"].notna()].drop_duplicates("trace").set_index("trace")[name]
            keys[name] = first.reindex(edges["trace"]).array
        else:
            raise OptionError.unknown(name, [*TIMES, "vehicle", *edges.columns, *points.columns], "column")
    return keys


def travel_times(edges: pd.DataFrame, stood: np.ndarray, keys: Dict[str, Any]) -> pd.DataFrame:
    """The time that whole edges took, without the seconds in `stood`. A vehicle that stood nearly all the time says nothing."""
    seconds = edges["seconds"].to_numpy(np.float64) - stood
    used = edges["whole"].to_numpy(bool) & np.isfinite(seconds)
    used &= (stood == 0) | (edges["metres"].to_numpy(np.float64) <= FASTEST * seconds)
    table = pd.DataFrame({"edge": edges["edge"].array, **keys, "metres": edges["metres"].array, "seconds": seconds})[used]
    grouped = table.groupby(["edge", *keys], sort=True, observed=True)
    out = grouped.agg(drives=("seconds", "size"), seconds=("seconds", "mean"), median=("seconds", "median"),
                      metres=("metres", "mean")).reset_index()
    about = edges.drop_duplicates("edge").set_index("edge")[[*ABOUT, "direction", "maxspeed"]].reindex(out["edge"])
    out["speed"] = np.where(out["seconds"] > 0, 3.6 * out["metres"] / out["seconds"].where(out["seconds"] > 0, np.nan), np.nan)
    for place, name in enumerate(about.columns, 1):
        out.insert(place, name, about[name].array)
    return out


def distances(edges: pd.DataFrame, keys: Dict[str, Any]) -> pd.DataFrame:
    """The metres, seconds and seconds of standing of the driven edges."""
    table = pd.DataFrame({**keys, "metres": edges["metres"].array, "seconds": edges["seconds"].array,
                          "standing": edges["standing"].array})
    if not keys:
        return table.sum(min_count=1).to_frame().T
    return table.groupby(list(keys), sort=True, observed=True, dropna=False).sum(min_count=1).reset_index()
