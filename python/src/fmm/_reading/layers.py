"""Positions from any layer of points that geopandas reads, and from queries of a database."""
from __future__ import annotations

import warnings
from typing import Any

import geopandas
import pandas as pd

from .._layer_files import layer_names
from ..errors import InputError, MissingLibraryError, PathText, shown
from .frames import rows_of_frame
from .rows import Rows, Wanted


def read_layer(path: PathText, wanted: Wanted, name: str) -> Rows:
    """The rows of a layer of points; `wanted.layer` is the name of the layer if the file has several."""
    if wanted.layer is None:
        check_single(path, name)
    try:
        with warnings.catch_warnings():
            warnings.simplefilter("ignore")
            frame = geopandas.read_file(path, **({} if wanted.layer is None else {"layer": wanted.layer}))
    except Exception as fault:  # the reader's own exceptions differ by its version and engine
        raise InputError(f"cannot be read as a layer: {shown(fault, 200)}", name) from None
    if not len(frame):
        raise InputError("has no rows", name)
    if isinstance(frame, geopandas.GeoDataFrame):
        kinds = frame.geom_type.dropna()
        if len(kinds) and kinds.str.contains("Line|Polygon").all():
            raise InputError("has lines or areas, not points", name)
    return rows_of_frame(frame, wanted, name)


def check_single(path: PathText, name: str) -> None:
    """Refuses a file of several layers, since one of them would be taken in silence."""
    try:
        layers = layer_names(path)
    except Exception:  # not a format of the library: reading the file will tell
        return
    if len(layers) > 1:
        raise InputError(f"has several layers; name one by layer: {shown(', '.join(layers), 100)}", name)


def read_query(connection: Any, query: str, wanted: Wanted, name: str) -> Rows:
    """The rows of an SQL query; a column of PostGIS geometries has the places if there is one."""
    engine, made = opened(connection) if isinstance(connection, str) else (connection, None)
    try:
        frame = geopandas.GeoDataFrame.from_postgis(query, engine, geom_col=wanted.layer or "geom")
    except ValueError:  # no such column: plain numbers
        frame = asked(query, engine, name)
    except Exception as fault:
        raise InputError(f"the query failed: {shown(fault, 200)}", name) from None
    finally:
        if made is not None:
            made.dispose()
    if not len(frame):
        raise InputError("the query has no rows", name)
    return rows_of_frame(frame, wanted, name)


def asked(query: str, engine: Any, name: str) -> pd.DataFrame:
    try:
        return pd.read_sql(query, engine)
    except Exception as fault:  # each driver has its own
        raise InputError(f"the query failed: {shown(fault, 200)}", name) from None


def opened(url: str) -> Any:
    """An engine for the URL of a database, twice: to use, and to dispose of."""
    try:
        import sqlalchemy
    except ModuleNotFoundError:
        raise MissingLibraryError("reading a database needs sqlalchemy; on Debian: apt-get install python3-sqlalchemy "
                                  "python3-psycopg2") from None
    engine = sqlalchemy.create_engine(url)
    return engine, engine
