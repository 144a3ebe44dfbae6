"""Measured positions: reading them from files, layers, databases and tables in memory."""
from __future__ import annotations

import glob
import hashlib
import os
import unicodedata
from dataclasses import dataclass, field
from pathlib import Path
from typing import Any, Dict, List, Optional, Sequence, Tuple

import numpy as np
import pandas as pd
import pyproj

from ._evidence import is_file, unchanged
from ._reading.csv import read_csv
from ._reading.frames import DEGREES, rows_of_frame
from ._reading.gpx import read_gpx
from ._reading.layers import read_layer, read_query
from ._reading.rows import Rows, Wanted
from ._reading.zones import checked_zone
from ._tables import escaped
from .errors import InputError, MismatchError, OptionError, shown

TABLES = (".csv", ".txt", ".tsv")
LAYERS = (".gpkg", ".shp", ".geojson", ".json", ".fgb", ".gml", ".kml", ".sqlite", ".zip", ".tab", ".mif")


@dataclass(frozen=True)
class Source:
    """Something that was read. `sha256` is that of the file, in hex; "" for tables in memory and queries."""

    path: str
    sha256: str
    rows: int


@dataclass
class Positions:
    """Measured positions, one row for each row of the input, in the input's order.

    frame     index `row` from 0; columns id (text), x, y (float64, in `crs`; NaN if there is no place), time (float64, seconds
              since 1970; NaN if there is none), then the input's own columns. One that is called like ours ends in `_input`
    crs       of x and y: EPSG:4326 for degrees; None for metres of the network's own projection
    left_out  the rows that cannot be used: row, file, line (-1 if unknown), id, reason. They stay in `frame`
    sources   what was read
    notes     lines for a report: which columns were taken for what, traces without times
    warnings  lines for a report: what to look at first
    parts     int64 for each row: rows of one id are joined only if their parts are equal, such as the segments of a track
    origin    for each row the number of its source and its line there (-1 if unknown): columns source, line
    """

    frame: pd.DataFrame
    crs: Optional[pyproj.CRS]
    left_out: pd.DataFrame
    sources: List[Source]
    notes: List[str] = field(default_factory=list)
    parts: np.ndarray = field(default_factory=lambda: np.zeros(0, dtype=np.int64))
    origin: pd.DataFrame = field(default_factory=pd.DataFrame)
    warnings: List[str] = field(default_factory=list)

    def __len__(self) -> int:
        return len(self.frame)

    @property
    def usable(self) -> np.ndarray:
        """Which rows are not in `left_out`, as bools."""
        good = np.ones(len(self.frame), dtype=bool)
        rows = self.left_out["row"].to_numpy(dtype=np.int64)
        good[rows[rows >= 0]] = False
        return good

    @property
    def bounds(self) -> Tuple[float, float, float, float]:
        """West, south, east and north of the usable rows, in `crs`."""
        x, y = self.frame["x"].to_numpy()[self.usable], self.frame["y"].to_numpy()[self.usable]
        if not len(x):
            raise InputError("there are no usable positions")
        return float(x.min()), float(y.min()), float(x.max()), float(y.max())


def read_positions(sources: Any, *, id: Optional[str] = None, x: Optional[str] = None, y: Optional[str] = None,
                   time: Optional[str] = None, crs: Any = None, layer: Optional[str] = None,
                   query: Optional[str] = None, timezone: Optional[str] = None) -> Positions:
    """Reads positions.

    sources   a path, a glob pattern, a DataFrame or GeoDataFrame, an SQLAlchemy engine or the URL of a database (with
              `query`), or a list of these. Files are GPX (.gpx), tables of comma-separated values (.csv, .txt), and layers of
              points in any format that geopandas reads
    id, x, y, time   the names of columns. Unnamed ones are guessed from usual names, such as vehicle, lon, lat and
              timestamp; `notes` says what was taken. Without a column of ids all rows of a source are one vehicle, named as
              the file
    crs       of x and y, as pyproj takes it; "metres" for metres of the network's own projection. By default EPSG:4326 for
              columns that are called longitude or latitude, the CRS of a layer, otherwise metres of the network's projection
    layer     the layer of a file that has several; with `query` the column of geometries ("geom" by default)
    query     the SQL query
    timezone  of times that name none, such as "Europe/Zurich". By default they are in UTC, and `warnings` says so

    Times are seconds since 1970, ISO times, or times of pandas; a date and a time of day may stand in two columns, such as date
    and time. Rows may come in any order, several vehicles mixed. A row that cannot be used is in `left_out` with its reason, such
    as a local time that comes twice. InputError: a file that cannot be read, has no usable row, or is given twice; positions that
    look like degrees where metres are expected, or the reverse. OptionError: a wrong crs or timezone.
    """
    wanted = Wanted(id, x, y, time, None if crs is None or crs == "metres" else crs_given(crs), isinstance(crs, str)
                    and crs == "metres", layer, None if timezone is None else checked_zone(timezone))
    listed = list(sources) if isinstance(sources, (list, tuple, set)) else [sources]
    items = [item for source in listed for item in expanded(source, query)]
    if not items:
        raise InputError("no positions were given")
    check_files([item for item in items if isinstance(item, Path)])
    stems = file_ids([item for item in items if isinstance(item, Path)])
    rows: List[Rows] = []
    read: List[Source] = []
    digests: Dict[str, str] = {}
    for item in items:
        with unchanged(*([item] if isinstance(item, Path) else [])):
            digest = checked_digest(item, digests) if isinstance(item, Path) else ""
            part = read_source(item, wanted, query, stems)
        rows.append(part)
        read.append(Source(part.name, digest, len(part.frame)))
    return joined(rows, read)


def crs_given(crs: Any) -> pyproj.CRS:
    try:
        return pyproj.CRS.from_user_input(crs)
    except (pyproj.exceptions.CRSError, TypeError, ValueError):
        raise OptionError(f"crs={shown(crs)} is no coordinate reference system; write 4326, EPSG:25832 or metres") from None


def expanded(source: Any, query: Optional[str]) -> List[Any]:
    """A source as paths, tables and connections. Patterns give the sorted names of what they match."""
    if isinstance(source, bytes):
        source = os.fsdecode(source)
    if isinstance(source, os.PathLike):
        return [Path(source)]
    if not isinstance(source, str) or query is not None:
        return [source]
    if os.path.lexists(source) or source == "-" or not glob.has_magic(source):
        return [Path(source)]
    found = sorted(glob.glob(source, recursive=True))
    if not found:
        raise InputError("no file has such a name", source)
    return [Path(path) for path in found]


def shown_path(path: Path) -> str:
    """The path as text that can be written: escapes for control characters and for bytes that are not UTF-8."""
    return escaped(os.fspath(path).encode("utf-8", "surrogateescape").decode("utf-8", "backslashreplace"))


def check_files(paths: Sequence[Path]) -> None:
    """Refuses files that do not exist, folders, and a file that comes twice."""
    seen: Dict[Tuple[int, int], str] = {}
    for path in paths:
        name = shown_path(path)
        if os.fspath(path) == "-":
            continue
        try:
            about = os.stat(path)
        except OSError as fault:
            raise InputError(fault.strerror or fault, name) from None
        if path.is_dir():
            raise InputError(f"is a folder; name its files, such as {name}/*.gpx", name)
        key = about.st_dev, about.st_ino
        if key in seen:
            raise InputError(f"is given twice{'' if seen[key] == name else f', also as {seen[key]}'}", name)
        seen[key] = name


def checked_digest(path: Path, digests: Dict[str, str]) -> str:
    """The SHA-256 of a regular file. Refuses a file with the bytes of another one."""
    if os.fspath(path) == "-" or not path.is_file():
        return ""
    digest, name = hashlib.sha256(), shown_path(path)
    try:
        with path.open("rb") as file:
            for block in iter(lambda: file.read(1 << 20), b""):
                digest.update(block)
    except OSError as fault:
        raise InputError(fault.strerror or fault, name) from None
    before = digests.setdefault(digest.hexdigest(), name)
    if before != name:
        raise InputError(f"has the same bytes as {before}", name)
    return digest.hexdigest()


def file_ids(paths: Sequence[Path]) -> Dict[Path, str]:
    """The id of the rows of each file that has no ids: its name without ending, with as many folders as make it unique."""
    stems = {path: Path(shown_path(path)).with_suffix("") for path in paths}
    for depth in range(1, 1 + max((len(stem.parts) for stem in stems.values()), default=1)):
        names = {path: "/".join(stem.parts[-depth:]) for path, stem in stems.items()}
        if len(set(names.values())) == len(names):
            return names
    return {path: shown_path(path) for path in paths}


def read_source(item: Any, wanted: Wanted, query: Optional[str], stems: Dict[Path, str]) -> Rows:
    """The rows of one source, by its kind."""
    if isinstance(item, pd.DataFrame):
        if not len(item):
            raise InputError("the table has no rows")
        return rows_of_frame(item, wanted, "table")
    if not isinstance(item, Path):
        if query is None:
            raise InputError(f"{shown(type(item).__name__)} is no source of positions; a database needs query=\"SELECT ..\"")
        return read_query(item, query, wanted, "query")
    name, ending = shown_path(item), item.suffix.lower()
    if ending == ".gpx" or ending not in TABLES + LAYERS and begins_as_xml(item):
        return read_gpx(item, name, stems[item], wanted.zone)
    if ending in LAYERS:
        return read_layer(item, wanted, name)
    rows = read_csv(item, wanted, name)
    if (rows.frame["id"] == name).all():
        rows.frame["id"] = np.full(len(rows.frame), stems[item], dtype=object)
    return rows


def begins_as_xml(path: Path) -> bool:
    if not is_file(path):
        return False  # what is read of a pipe is gone
    with path.open("rb") as file:
        return file.read(64).lstrip(b"\xef\xbb\xbf \t\r\n").startswith(b"<")


def joined(rows: List[Rows], sources: List[Source]) -> Positions:
    """All rows after each other, in one CRS."""
    crs = common_crs(rows)
    for part in rows:
        if crs is not None and part.crs is not None and part.crs != crs:
            turn = pyproj.Transformer.from_crs(part.crs, crs, always_xy=True)
            part.frame["x"], part.frame["y"] = turn.transform(part.frame["x"].to_numpy(), part.frame["y"].to_numpy())
    frame = pd.concat([part.frame for part in rows], ignore_index=True) if len(rows) > 1 else rows[0].frame
    frame.index = pd.RangeIndex(len(frame), name="row")
    frame.attrs.clear()
    alike = similar_ids(frame["id"])
    faults = np.concatenate([part.faults for part in rows])
    lines = np.concatenate([part.lines for part in rows])
    source = np.repeat(np.arange(len(rows)), [len(part.frame) for part in rows])
    names = np.array([part.name for part in rows], dtype=object)
    positions = Positions(frame, crs, left_out_of(frame, faults, names[source], lines), sources,
                          [note for part in rows for note in part.notes] + alike, np.concatenate([part.parts for part in rows]),
                          pd.DataFrame({"source": source, "line": lines}), unzoned_warnings(rows))
    return positions


def unzoned_warnings(rows: Sequence[Rows]) -> List[str]:
    """A line about times that count as UTC, since neither they nor the caller name a zone."""
    count = sum(part.unzoned for part in rows)
    return [f"{count:,} times name no time zone and count as UTC; timezone (--timezone) says theirs, such as Europe/Berlin"
            ] if count else []


def similar_ids(ids: pd.Series) -> List[str]:
    """A note about ids that look alike: they differ only in blanks around them or in how Unicode writes an accent."""
    groups: Dict[str, List[str]] = {}
    for name in pd.unique(ids):
        groups.setdefault(unicodedata.normalize("NFC", name).strip(), []).append(name)
    alike = [names for names in groups.values() if len(names) > 1]
    if not alike:
        return []
    shown_names = " and ".join(map(ascii, alike[0]))
    return [f"ids that differ only in blanks or in the form of accents are several vehicles: {shown(shown_names, 80)}"
            + (f" and {len(alike) - 1} more" if len(alike) > 1 else "")]


def left_out_of(frame: pd.DataFrame, faults: np.ndarray, files: np.ndarray, lines: np.ndarray) -> pd.DataFrame:
    out = np.flatnonzero(faults != "")
    return pd.DataFrame({"row": out, "file": files[out], "line": lines[out], "id": frame["id"].to_numpy()[out],
                         "reason": faults[out]})


def common_crs(rows: Sequence[Rows]) -> Optional[pyproj.CRS]:
    """The CRS of all sources, or degrees if they differ. Sources with and without a CRS do not go together."""
    known = [part.crs for part in rows]
    if all(crs is None for crs in known):
        return None
    for part in rows:
        if part.crs is None:
            other = next(other.name for other in rows if other.crs is not None)
            raise MismatchError(f"has metres of an unknown projection, and {other} has a known one; say the crs", part.name)
    return known[0] if all(crs == known[0] for crs in known) else DEGREES
