"""Positions from a DataFrame, a GeoDataFrame, and what other readers bring into this form."""
from __future__ import annotations

from typing import Any, Optional, Sequence, Tuple

import numpy as np
import pandas as pd
import pyproj

from .. import _geometry
from ..errors import InputError
from .columns import LATITUDES, LONGITUDES, XS, YS, Columns, find_columns, plain
from .dates import pair_of, read_pair
from .numbers import coordinates
from .rows import Rows, Wanted, first_fault, own_name
from .times import Times, read_times

DEGREES = pyproj.CRS.from_epsg(4326)
NAMES = frozenset(LONGITUDES + LATITUDES + XS + YS)  # that show a header among the rows
FARTHEST = 10_000_000.0  # metres; the programs take no greater coordinates


def rows_of_frame(frame: pd.DataFrame, wanted: Wanted, name: str, lines: Optional[np.ndarray] = None) -> Rows:
    """The rows of a table. Points of a GeoDataFrame are the places, unless the caller names columns."""
    header = [str(column) for column in frame.columns]
    if len(set(header)) < len(header):
        raise InputError("two columns have the same name", name)
    decimal_comma = frame.attrs.get("separator", ",") != ","
    frame = frame.set_axis(header, axis=1) if header != list(frame.columns) else frame
    geometry = geometry_of(frame) if wanted.x is None and wanted.y is None else None
    others = [column for column in header if column != geometry]
    columns = with_time(find_columns(others, wanted, name, geometry is None), frame, wanted)
    if geometry is not None:
        columns = columns._replace(x=None, y=None)
        x, y, faults = places_of_points(frame[geometry])
        crs = wanted.crs or frame.crs
    else:
        refuse_other_header(frame, columns, name, lines)
        x, x_faults = coordinates(frame[columns.x], str(columns.x), decimal_comma)
        y, y_faults = coordinates(frame[columns.y], str(columns.y), decimal_comma)
        faults, crs = first_fault(x_faults, y_faults), wanted.crs
    crs = crs_of((x, y), columns, wanted, crs, name)
    faults = first_fault(faults, place_faults(x, y, crs))
    ids, id_faults = ids_of(frame, columns, name)
    times = times_of(frame, columns, decimal_comma, wanted.zone)
    faults = first_fault(first_fault(faults, id_faults), times.faults)
    usable = faults == ""
    own = {own_name(column): frame[column].to_numpy() if frame[column].dtype == object else frame[column].array
           for column in header if column not in (columns.x, columns.y, geometry) and (column not in ("id", "time") or column
           not in (columns.id, columns.time))}
    rows = pd.DataFrame({"id": ids, "x": x, "y": y, "time": times.seconds, **own})
    rows.loc[~np.isfinite(x) | ~np.isfinite(y), ["x", "y"]] = np.nan
    lines = np.full(len(frame), -1, dtype=np.int64) if lines is None else lines
    if len(frame) and not usable.any():
        raise InputError(f"no row can be used: {faults[0]}", name, int(lines[0]) if lines[0] >= 0 else None)
    return Rows(name, rows, faults, lines, np.zeros(len(frame), dtype=np.int64), crs, [columns.note(name, others)],
                0 if wanted.zone else times.unzoned)


def with_time(columns: Columns, frame: pd.DataFrame, wanted: Wanted) -> Columns:
    """The columns with those of the time, if the caller names none: a date and a time of day in two columns; without a usual name
    the only column of times."""
    pair = pair_of(frame) if wanted.time is None else None
    if pair is not None:
        return columns._replace(date=pair[0], time=pair[1])
    dated = [column for column in frame.columns if pd.api.types.is_datetime64_any_dtype(frame[column].dtype)]
    return columns._replace(time=dated[0]) if columns.time is None and len(dated) == 1 else columns


def times_of(frame: pd.DataFrame, columns: Columns, decimal_comma: bool, zone: Optional[str]) -> Times:
    """The times in seconds since 1970, NaN where there is none, and what is wrong with them."""
    if columns.time is None:
        return Times(np.full(len(frame), np.nan), np.full(len(frame), "", dtype=object))
    if columns.date is not None:
        return read_pair(frame[columns.date], frame[columns.time], zone)
    return read_times(frame[columns.time], decimal_comma, zone)


def refuse_other_header(frame: pd.DataFrame, columns: Columns, name: str, lines: Optional[np.ndarray]) -> None:
    """Refuses a table to which another one with other columns was appended: all rows after its header would be misread.

    A header has a word in place of a coordinate or of the time, and two names of columns or more.
    """
    header = [plain(str(column)) for column in frame.columns]
    names = NAMES.union(header)
    words = np.zeros(len(frame), dtype=bool)
    for column in (columns.x, columns.y, columns.time):
        if column is not None:
            words |= word_rows(frame[column])
    suspects = np.flatnonzero(words)
    hits = np.zeros(len(suspects), dtype=np.int64)
    for column in frame.columns:
        hits += np.fromiter((plain(str(value)) in names for value in frame[column].to_numpy()[suspects]), bool, len(suspects))
    for at in suspects[hits > 1]:
        if [plain(str(value)) for value in frame.iloc[at]] != header:
            raise InputError("is a second header with other columns: read its rows from a file of their own", name,
                             int(lines[at]) if lines is not None else None)


def has_names(record: Sequence[str], header: Sequence[str]) -> bool:
    """Whether two fields of a record or more are names of columns, those of a header or usual ones of places."""
    names = NAMES.union(map(plain, header))
    return sum(plain(field) in names for field in record) > 1


def word_rows(column: pd.Series) -> np.ndarray:
    """Which rows of a column begin with a letter."""
    if column.dtype != object:
        return np.zeros(len(column), dtype=bool)
    return np.array([isinstance(value, str) and value.lstrip()[:1].isalpha() for value in column.tolist()], dtype=bool)


def geometry_of(frame: pd.DataFrame) -> Optional[str]:
    """The name of the column of geometries of a GeoDataFrame."""
    name = getattr(frame, "_geometry_column_name", None)
    return name if name in frame.columns else None


def places_of_points(geometry: Any) -> Tuple[np.ndarray, np.ndarray, np.ndarray]:
    """x, y and faults of a column of geometries."""
    kinds = geometry.geom_type
    empty = ~_geometry.there(geometry)
    points = (kinds == "Point").to_numpy() & ~empty
    x, y = np.full(len(geometry), np.nan), np.full(len(geometry), np.nan)
    x[points], y[points] = geometry[points].x, geometry[points].y
    others = "the geometry is a " + kinds.fillna("").astype(object) + ", not a point"
    faults = np.where(empty, "no place", np.where(points, "", others))
    odd = points & ~(np.isfinite(x) & np.isfinite(y))
    return x, y, np.where(odd, "the coordinates are not finite numbers", faults).astype(object)


def crs_of(places: Tuple[np.ndarray, np.ndarray], columns: Columns, wanted: Wanted, crs: Optional[pyproj.CRS],
           name: str) -> Optional[pyproj.CRS]:
    """The CRS of the places; None for metres of the network's own projection. Refuses what contradicts the numbers."""
    x, y = places
    known = np.isfinite(x) & np.isfinite(y)
    small = bool(known.any() and (np.abs(x[known]) <= 180).all() and (np.abs(y[known]) <= 180).all())
    if wanted.plane:
        return None
    if crs is None and columns.degrees:
        crs = DEGREES
    if crs is None:
        if small:
            raise InputError("the positions look like degrees: give the crs (--positions-crs of fmm run, --crs of others), 4326 "
                             "for longitude and latitude, or \"metres\" for metres of the network's projection", name)
        return None
    crs = pyproj.CRS.from_user_input(crs)
    if crs.is_geographic and known.any() and (np.abs(x[known]) > 360).all() and (np.abs(y[known]) > 360).all():
        raise InputError(f"{x[known][0]:.15g} {y[known][0]:.15g} is not a longitude and a latitude in degrees: are these metres? "
                         "Give their crs", name)
    if crs.is_projected and small:
        raise InputError(f"{x[known][0]:.15g} {y[known][0]:.15g} are degrees and not metres of {crs.name}: say crs=4326", name)
    return crs


def place_faults(x: np.ndarray, y: np.ndarray, crs: Optional[pyproj.CRS]) -> np.ndarray:
    """What is wrong with places whose coordinates are numbers."""
    faults = np.full(len(x), "", dtype=object)
    known = np.isfinite(x) & np.isfinite(y)
    if crs is not None and crs.is_geographic:
        wrong = known & ((np.abs(x) > 180) | (np.abs(y) > 90))
        for place in np.flatnonzero(wrong):
            turned = abs(x[place]) <= 90 and abs(y[place]) <= 180
            faults[place] = (f"{x[place]:.15g} {y[place]:.15g} is not a longitude and a latitude in degrees"
                             f"{': exchanged?' if turned else ''}")
        faults[known & (x == 0) & (y == 0)] = "longitude 0 and latitude 0: a receiver without a fix"
    elif crs is None:
        for place in np.flatnonzero(known & ((np.abs(x) > FARTHEST) | (np.abs(y) > FARTHEST))):
            faults[place] = (f"{x[place]:.15g} {y[place]:.15g} is farther away than the program takes: centimetres in place of "
                             "metres?")
    return faults


def ids_of(frame: pd.DataFrame, columns: Columns, name: str) -> Tuple[np.ndarray, np.ndarray]:
    """The ids as text, and what is wrong with them. Without a column of ids all rows have the name of the source."""
    faults = np.full(len(frame), "", dtype=object)
    if columns.id is None:
        return np.full(len(frame), name, dtype=object), faults
    column = frame[columns.id]
    if column.dtype.kind == "f" and (column.dropna() % 1 == 0).all():
        column = column.astype("Int64")  # whole numbers that pandas keeps as floats since some are missing
    if pd.api.types.infer_dtype(column, skipna=False) == "string":
        texts = column.to_numpy(dtype=object)
    else:
        texts = np.where(column.isna(), "", column.astype(object).map(str, na_action="ignore").to_numpy(dtype=object))
    faults[texts == ""] = "no id"
    return texts, faults
