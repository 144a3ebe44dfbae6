"""Tables as layers of files: by pyogrio where it is installed, which takes some 5 µs for a row, otherwise by fiona, 80 µs."""
from __future__ import annotations

import contextlib
import importlib.util
import logging
import sys
import warnings
from pathlib import Path
from typing import Any, Dict, Iterator, List

import geopandas

from ._output import reason
from .errors import InputError, OutputError, PathText

SHAPES = {"points": "Point", "routes": "LineString", "edges": "LineString", "network": "LineString",
          "stops": "Point"}


def engine() -> str:
    """The library that geopandas uses."""
    return "pyogrio" if importlib.util.find_spec("pyogrio") else "fiona"


def layer_names(path: PathText) -> List[str]:
    """The names of the layers of a file."""
    if engine() == "pyogrio":
        import pyogrio
        return [str(row[0]) for row in pyogrio.list_layers(path)]
    import fiona
    return list(fiona.listlayers(path))


def write_layer(frame: geopandas.GeoDataFrame, path: Path, driver: str, layer: str, name: str) -> None:
    """Writes a table with the types of its columns. `name` is what the user calls the file."""
    words: Dict[str, Any] = {"layer": layer} if driver == "GPKG" else {}
    try:
        with silenced():
            frame.to_file(path, driver=driver, engine=engine(), **words, **shape_of(frame, SHAPES[layer]))
    except OSError as fault:
        raise OutputError(f"{name}: {reason(fault)}") from None
    except Exception as fault:  # the libraries' own exceptions differ
        raise OutputError(f"{name}: {fault}") from None


@contextlib.contextmanager
def silenced() -> Iterator[None]:
    """Keeps from standard error what libraries say beside what they raise: of each row without a place, of a table without rows
    such as no stops, and tracebacks of what follows from a full disk."""
    log, hooks = logging.getLogger("fiona._env"), (sys.excepthook, sys.unraisablehook)
    level = log.level
    log.setLevel(logging.CRITICAL)
    sys.excepthook = lambda *_: None
    sys.unraisablehook = lambda _: None
    try:
        with warnings.catch_warnings():
            warnings.filterwarnings("ignore", "You are attempting to write an empty DataFrame")
            yield
    finally:
        log.setLevel(level)
        sys.excepthook, sys.unraisablehook = hooks


def shape_of(frame: geopandas.GeoDataFrame, shape: str) -> Dict[str, Any]:
    """The kind of geometries, for a table without any, too."""
    if engine() == "pyogrio":
        return {"index": False, "geometry_type": shape, "promote_to_multi": False}
    from geopandas.io.file import infer_schema
    return {"index": False, "schema": {**infer_schema(frame), "geometry": shape}}


def read_layer(path: Path, name: str) -> geopandas.GeoDataFrame:
    """A layer that write_layer wrote."""
    try:
        return geopandas.read_file(path, layer=name, engine=engine())
    except Exception as fault:  # the libraries' own exceptions differ
        raise InputError(f"its layer {name} cannot be read: {fault}", path) from None
