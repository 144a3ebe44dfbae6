"""Many shapely geometries at once, from arrays of coordinates.

Shapely 2 has functions for this. Shapely 1.8 makes a million points in ten seconds and lines in twenty. So there the geometries
are made by GEOS as by shapely's own constructors, but without the copies: that takes two seconds.
"""
from __future__ import annotations

import contextlib
import ctypes
import gc
from itertools import repeat
from typing import Any, Iterator, NamedTuple, Optional, Tuple

import geopandas
import numpy as np
import shapely
import shapely.geometry
import shapely.wkt
from geopandas.array import GeometryArray

from ._ragged import offsets_of

NOTHING = np.zeros((0, 2))
SHAPELY_2 = int(shapely.__version__.split(".")[0]) >= 2


class Runs(NamedTuple):
    """The places of each of some geometries: `counts` places from `first` on."""

    first: np.ndarray
    counts: np.ndarray


def points(xy: np.ndarray, crs: object) -> GeometryArray:
    """A Point for each row of x and y; None where one of them is NaN."""
    good = np.isfinite(xy).all(axis=1)
    out = np.full(len(xy), None, object)
    if SHAPELY_2:
        out[good] = shapely.points(np.ascontiguousarray(xy[good]))
    else:
        rows = np.flatnonzero(good)
        _fill(out, rows, shapely.geometry.Point, xy, Runs(rows, np.ones(len(rows), np.int64)))
    return GeometryArray(out, crs=crs)


def lines(offsets: np.ndarray, xy: np.ndarray, crs: object) -> GeometryArray:
    """A LineString for each row of places offsets[i] to offsets[i + 1]; an empty one for rows of less than two places."""
    counts = np.diff(offsets)
    out = np.full(len(counts), None, object)
    rows = np.flatnonzero(counts > 1)
    for row in np.flatnonzero(counts <= 1).tolist():
        out[row] = shapely.wkt.loads("LINESTRING EMPTY")
    if SHAPELY_2:
        kept = np.repeat(counts > 1, counts)
        out[rows] = shapely.linestrings(xy[kept], indices=np.repeat(np.arange(len(rows)), counts[rows]))
    else:
        _fill(out, rows, shapely.geometry.LineString, xy, Runs(offsets[rows], counts[rows]))
    return GeometryArray(out, crs=crs)


@contextlib.contextmanager
def _no_collection() -> Iterator[None]:
    """The collector would look at each new object many times."""
    enabled = gc.isenabled()
    gc.disable()
    try:
        yield
    finally:
        if enabled:
            gc.enable()


def _fill(out: np.ndarray, rows: np.ndarray, kind: type, xy: np.ndarray, runs: Runs) -> None:
    """Puts a geometry for each run of places into the rows of `out`."""
    xy = np.ascontiguousarray(xy, np.float64)
    made = _made(kind, xy, runs)
    with _no_collection():
        if made is not None:
            new = object.__new__
            for row, pointer in zip(rows.tolist(), made):
                geometry: Any = new(kind)
                about = geometry.__dict__
                about["__geom__"], about["_ndim"], about["_is_empty"] = pointer, 2, False
                out[row] = geometry
            return
        places = xy.tolist()
        for row, begin, count in zip(rows.tolist(), runs.first.tolist(), runs.counts.tolist()):
            out[row] = kind(places[begin] if kind is shapely.geometry.Point else places[begin:begin + count])


def _made(kind: type, xy: np.ndarray, runs: Runs) -> Optional[Iterator[int]]:
    """Makes geometries of GEOS, and gives their addresses; None where GEOS is older than 3.10."""
    from shapely import geos
    library = geos._lgeos  # the functions of GEOS that shapely 1.8 has opened
    if not hasattr(library, "GEOSCoordSeq_copyFromBuffer_r"):
        return None
    pointer, whole, number, function = ctypes.c_void_p, ctypes.c_int, ctypes.c_double, ctypes.PYFUNCTYPE
    handle = repeat(pointer(geos.lgeos.geos_handle))
    if kind is shapely.geometry.Point:
        point = function(pointer, pointer, number, number)(("GEOSGeom_createPointFromXY_r", library))
        return map(point, handle, *xy[runs.first].T.tolist())
    copy = function(pointer, pointer, pointer, ctypes.c_uint, whole, whole)(("GEOSCoordSeq_copyFromBuffer_r", library))
    line = function(pointer, pointer, pointer)(("GEOSGeom_createLineString_r", library))
    begins = (xy.ctypes.data + 16 * runs.first).tolist()
    return map(line, handle, map(copy, handle, begins, runs.counts.tolist(), repeat(0), repeat(0)))


def coordinates(values: GeometryArray) -> Tuple[np.ndarray, np.ndarray]:
    """Where the places of each geometry begin, and all places; none for missing and empty ones."""
    if SHAPELY_2:
        data = np.asarray(values, object)
        return offsets_of(shapely.get_num_coordinates(data)), shapely.get_coordinates(data)
    places = [np.asarray(value.coords) if value is not None and not value.is_empty else NOTHING for value in values]
    return offsets_of(np.array([len(place) for place in places], np.int64)), np.concatenate([NOTHING, *places])


def there(series: geopandas.GeoSeries) -> np.ndarray:
    """Which geometries are neither missing nor empty, as bools. The series itself warns of a change of geopandas long ago."""
    values = series.values
    return ~(values.isna() | values.is_empty)


def texts(values: GeometryArray, decimals: int) -> np.ndarray:
    """The WKT of points and lines with so many decimals, None for missing ones."""
    offsets, xy = coordinates(values)
    form = f"%.{decimals}f %.{decimals}f"
    places, first = [form % (x, y) for x, y in xy.tolist()], offsets.tolist()
    out = np.full(len(values), None, object)
    for row, kind in enumerate(values.geom_type):
        if kind is not None:
            inner = ", ".join(places[first[row]:first[row + 1]])
            out[row] = f"{kind.upper()} ({inner})" if inner else f"{kind.upper()} EMPTY"
    return out
