"""Writes the tables of a match to files and databases, and reads them back."""
from __future__ import annotations

import os
from pathlib import Path
from typing import TYPE_CHECKING, Any, Dict, Optional

import geopandas
import numpy as np
import pandas as pd

from . import _geometry
from ._column_types import write_column_types
from ._evidence import checksum_of, compare, part, read_side_file, write_side_file
from ._layer_files import read_layer, write_layer
from ._libraries import explained
from ._output import Outputs, pages_beside
from ._tables import CONTROL, escaped, read_table, write_rows
from .errors import InputError, OptionError, OutputError, PathText
from .options import Options
from .projection import DEGREES

if TYPE_CHECKING:
    from .matches import Matches

TABLES = ("points", "routes", "edges")
FILES = {"network": "network_edges"}  # network.csv is a network file of the proved programs
WHOLE = ("trace", "point", "piece", "edge", "number", "first_row", "last_row", "cost", "positions")
OPEN = ("trace", "point", "piece", "edge")  # whole numbers of points, which may be missing
TIMES = ("time", "begin", "end", "entry", "exit")
NUMBERS = ("x", "y", "offset", "distance", "margin", "seconds", "metres", "standing", "speed", "maxspeed")
DECIMALS = {"offset": 2, "distance": 8, "margin": 0, "seconds": 3, "metres": 2, "standing": 2, "speed": 2, "maxspeed": 1}
TAKEN = ("fid", "geom", "geometry", "ogc_fid", "wkt")


def to_file(matches: Matches, path: PathText, layer: Optional[str], standing: float) -> None:
    """Writes a GeoPackage, files of GeoJSON, or a folder of .csv files with their column types."""
    name = os.fspath(path)
    inputs = [source["path"] for source in matches.evidence.get("sources", []) if source.get("sha256")]
    inputs += [] if matches.network is None else matches.network.files
    with Outputs(inputs) as outputs:
        if name.endswith(".gpkg"):
            written = to_geopackage(matches, outputs, name, standing)
        elif name.endswith((".geojson", ".json")):
            written = to_geojson(matches, outputs, name, layer)
        elif Path(name).suffix and not Path(name).is_dir():
            raise OptionError(f"{name}: give a name that ends in .gpkg or .geojson, or a folder for .csv files")
        else:
            written = to_folder(matches, outputs, name)
        evidence = {**matches.evidence, "files": written, "report": matches.report.to_dict(),
                    "crs": None if matches.crs is None else matches.crs.to_wkt()}
        write_side_file(outputs, side_path(name), "matches", evidence)


def side_path(path: PathText) -> Path:
    """The side file of written matches: result.json beside result.gpkg, matches.json in a folder."""
    name = Path(path)
    return name.with_suffix(".json") if name.suffix == ".gpkg" else Path(f"{name}.json") if name.suffix else name / "matches.json"


def safe(frame: geopandas.GeoDataFrame) -> geopandas.GeoDataFrame:
    """A table whose columns every format takes: texts without control characters, names that differ in more than their case."""
    out, seen = frame.copy(deep=False), set(TAKEN)
    names: Dict[str, str] = {}
    for column in frame.columns:
        if column == "geometry":
            continue
        new = escaped(str(column))
        while new.lower() in seen:
            new += "_input"
        seen.add(new.lower())
        names[column] = new
        if frame[column].dtype == object or isinstance(frame[column].dtype, (pd.CategoricalDtype, pd.StringDtype)):
            out[column] = texts(frame[column])
    return out.rename(columns=names)


def texts(values: pd.Series) -> np.ndarray:
    """The values as texts without control characters, missing ones as None."""
    out = np.empty(len(values), object)
    out[:] = [None if missing else str(value) for value, missing in zip(values, pd.isna(values))]
    if CONTROL.search("".join(filter(None, out))):
        out[:] = [text and escaped(text) for text in out]
    return out


def layers_of(matches: Matches) -> Dict[str, geopandas.GeoDataFrame]:
    layers = {name: getattr(matches, name) for name in TABLES}
    if matches.network is not None:
        network = matches.network.edges.reset_index()
        layers["network"] = network if matches.crs is None or network.crs is None else network.to_crs(matches.crs)
    return layers


def to_geopackage(matches: Matches, outputs: Outputs, path: str, standing: float) -> Dict[str, str]:
    unfinished = outputs.path(path)
    for name, frame in {**layers_of(matches), "stops": matches.stops(standing)}.items():
        write_layer(safe(frame), unfinished, "GPKG", name, path)
    return {Path(path).name: checksum_of(unfinished)}


def to_geojson(matches: Matches, outputs: Outputs, path: str, layer: Optional[str]) -> Dict[str, str]:
    """Writes a file for each layer, or one for the chosen one, in degrees."""
    layers = layers_of(matches)
    if layer is not None and layer not in layers:
        raise OptionError.unknown(layer, list(layers), "layer")
    written = {}
    for name, frame in layers.items():
        if layer in (None, name):
            file = path if layer else geojson_path(path, name)
            unfinished = outputs.path(file)
            write_layer(safe(frame if frame.crs is None else frame.to_crs(DEGREES)), unfinished, "GeoJSON", name, file)
            written[Path(file).name] = checksum_of(unfinished)
    return written


def geojson_path(path: str, layer: str) -> str:
    """The file of a layer: result.edges.geojson for result.geojson."""
    given = Path(path)
    return os.fspath(given.with_name(f"{given.stem}.{layer}{given.suffix}"))


def to_folder(matches: Matches, outputs: Outputs, path: str) -> Dict[str, str]:
    folder = outputs.folder(path)
    written = {}
    for name, frame in layers_of(matches).items():
        name = FILES.get(name, name)
        file, table = outputs.open(folder / f"{name}.csv"), safe(frame)
        write_rows(file, readable(table, frame.crs), os.fspath(folder / f"{name}.csv"))
        file.flush()
        written[f"{name}.csv"] = checksum_of(outputs.outputs[-1].unfinished)
        write_column_types(outputs, folder / f"{name}.csv", table)
    return written


def readable(frame: geopandas.GeoDataFrame, crs: Any) -> pd.DataFrame:
    """A table as texts: ISO times in UTC, lengths with as many decimals as they need, lines as WKT."""
    columns: Dict[str, Any] = {}
    for name in frame.columns:
        values = frame[name]
        if name == "geometry":
            columns["WKT"] = _geometry.texts(values.array, 7 if crs is not None and crs.is_geographic else 2)
        elif isinstance(values.dtype, pd.DatetimeTZDtype):
            columns[name] = iso(values)
        elif name in DECIMALS and values.dtype != object:
            columns[name] = values.round(DECIMALS[name])
        else:
            columns[name] = values.astype(int) if values.dtype == bool else values
    return pd.DataFrame(columns)


def iso(times: pd.Series) -> np.ndarray:
    """ISO texts in UTC, with as many decimals of seconds as some time needs; None for NaT."""
    values = times.dt.tz_convert("UTC").dt.tz_localize(None).to_numpy("datetime64[ns]")
    missing = np.isnat(values)
    known = values[~missing].view(np.int64)
    unit: Any = "s" if not (known % 10 ** 9).any() else "ms" if not (known % 10 ** 6).any() else "us"
    out: np.ndarray = np.char.add(np.datetime_as_string(values, unit=unit), "Z").astype(object)
    out[missing] = None
    return out


def to_postgis(matches: Matches, engine: Any, schema: Optional[str], replace: bool) -> None:
    """Writes the four tables in one transaction."""
    with explained():
        import geoalchemy2  # noqa: F401
        import sqlalchemy
    try:
        with engine.begin() as connection:
            for name, frame in layers_of(matches).items():
                ready = safe(frame)
                ready.to_postgis(name, connection, schema=schema, if_exists="replace" if replace else "fail", index=False)
    except ValueError as fault:
        raise OutputError(f"{str(fault).rstrip('.')}; give replace=True to replace it") from None
    except sqlalchemy.exc.SQLAlchemyError as fault:
        raise OutputError(f"the database: {str(getattr(fault, 'orig', fault)).splitlines()[0]}") from None


def open_matches(path: PathText) -> Matches:
    """Opens what `Matches.to_file` wrote: a GeoPackage or a folder of .csv files. The network is not opened.

    InputError: no such file, or a damaged one; MismatchError: a file that is not the one which the side file names.
    """
    import pyproj
    from .matches import Matches
    from .report import Report
    side = side_path(path)
    if not Path(path).exists():
        raise InputError("No such file or directory", path)
    content = read_side_file(side, "matches")
    folder = Path(path) if Path(path).is_dir() else Path(path).parent
    beside = pages_beside(Path(path))
    if beside is not None:
        raise InputError(f"another program has changed it, since there is {beside.name}: close it there first", path)
    for name, wanted in part(content, side, "files", kind=dict).items():
        compare("the checksum", checksum_of(folder / name), wanted, folder / name, side)
    crs = None if content.get("crs") is None else pyproj.CRS.from_wkt(content["crs"])
    known = content.get("options", {}).get("values")
    matches = Matches(None, None if known is None else Options.of(**known), content, crs)
    for name in TABLES:
        table = read_csv(folder / f"{name}.csv", crs) if Path(path).is_dir() else read_layer(Path(path), name)
        matches.set_table(name, typed(table, name))
    fields = {key: value for key, value in part(content, side, "report", kind=dict).items() if key in Report.__dataclass_fields__}
    matches.set_report(Report(**fields))
    return matches


def read_csv(path: Path, crs: Any) -> geopandas.GeoDataFrame:
    frame = read_table(path, required=["WKT", "id"])
    geometry = geopandas.GeoSeries.from_wkt(frame.pop("WKT").replace("", None), crs=crs)
    return geopandas.GeoDataFrame(frame.replace("", None), geometry=geometry.array)


def typed(frame: geopandas.GeoDataFrame, table: str) -> geopandas.GeoDataFrame:
    """The columns with the types of `Matches`; the input's own columns stay as they were read."""
    for name in frame.columns:
        if name in TIMES:
            frame[name] = pd.to_datetime(frame[name], utc=True).astype("datetime64[ns, UTC]")  # pyogrio has milliseconds
        elif name in WHOLE:
            numbers = pd.to_numeric(frame[name])
            frame[name] = numbers.astype("Int64" if table == "points" and name in OPEN else "int64")
        elif name in NUMBERS:
            frame[name] = pd.to_numeric(frame[name]).astype(np.float64)
        elif name == "whole":
            frame[name] = frame[name].astype(int).astype(bool)
        elif name in ("id", "way", "class", "name", "ref", "reason", "edges", "direction"):
            frame[name] = frame[name].fillna("").astype(object)
    frame.index.name = "row" if table == "points" else None
    return frame
