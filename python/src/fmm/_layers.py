"""Networks from layers of lines."""
from __future__ import annotations

from dataclasses import dataclass, fields
from typing import Any, Iterable, Mapping, NamedTuple, Optional

import geopandas
import numpy as np
import pandas as pd
import pyproj

from ._lines import EdgeLines, gathered
from ._network_report import NetworkReport
from ._ragged import offsets_of, spread
from ._streets import Streets, edges_of
from .errors import InputError, OptionError, shown
from .projection import DEGREES, NOWHERE, Projection, extent_of

TEXTS = ("way", "class", "name", "ref")
# What common layers call the columns of a network, in the order of preference.
KNOWN = {
    "way": ("way", "osm_id", "osmid", "way_id", "id"), "class": ("class", "fclass", "highway"), "name": ("name",),
    "ref": ("ref",), "maxspeed": ("maxspeed",),
}
ONEWAY = ("oneway", "one_way", "direction", "dir_travel")
RESERVED = frozenset({
    "edge", "street", "part_from", "part_to", "direction", "length", "geometry", "from_node", "to_node", "oneway",
    "maxspeed_backward", *KNOWN,
})


@dataclass
class LayerOptions:
    """See `read`."""

    oneway: Optional[str] = None
    forward: frozenset[str] = frozenset()
    backward: frozenset[str] = frozenset()
    join: float = 0.01
    columns: Optional[Mapping[str, str]] = None
    crs: Any = None

    def __post_init__(self) -> None:
        self.forward, self.backward = (frozenset(texts_of_values(values)) for values in (self.forward, self.backward))
        if (self.oneway is None) != (not (self.forward or self.backward)):
            raise OptionError("oneway names a column, and forward and backward the values in it: give both")
        if self.forward & self.backward:
            raise OptionError(f"{shown(min(self.forward & self.backward))} is a value of forward and of backward")
        if not 0 < self.join <= 100:
            raise OptionError(f"join is {self.join:g} m; it has to be above 0 and at most 100")


def texts_of_values(values: Iterable[object]) -> list[str]:
    return [str(value) for value in ([values] if isinstance(values, (str, int, bool)) else values)]


def read(roads: geopandas.GeoDataFrame, **words: Any) -> tuple[EdgeLines, pd.DataFrame, Projection, NetworkReport]:
    """The edges of a layer of lines.

    - `oneway` is a column; `forward` and `backward` are those of its values that mean open only along the line, or only against
      it. All other lines are open both ways.
    - `join` is in metres, by default 0.01. Ends of lines that are at most so far apart are one node, and a line is split where
      such a node is at one of its inner points.
    - `columns` says which columns are way, class, name, ref and maxspeed (km/h): {"way": "osm_id", ..}. By default these are
      columns with usual names.
    - `crs` is the projection of the network: by default that of the layer if it is in metres and fits, else one that fits.

    All other columns are kept as text. `way` is the number of the record from 1 if no column has it. Heights are dropped.
    Records that are no lines, or have no length, are left out and counted in the report. Refused with InputError: a layer
    without lines, a missing column, coordinates that are not finite, degrees without a CRS; with OptionError: unknown options.
    """
    known = [field.name for field in fields(LayerOptions)]
    unknown = set(words) - set(known)
    if unknown:
        raise OptionError.unknown(min(unknown), known)
    options, report = LayerOptions(**words), NetworkReport()
    name = str(roads.attrs.get("path", "the layer"))
    records, first, xy = lines_of(roads, name, report)
    projection, crs = projection_of(roads, xy, options.crs, name)
    places = np.column_stack(projection.to_centimetres(xy[:, 0], xy[:, 1], crs))
    lost = (places == NOWHERE).any(axis=1)
    if lost.any():
        at = int(lost.argmax())
        record = records[np.searchsorted(first, at, "right") - 1] + 1
        raise InputError(f"record {record}: {xy[at, 0]:.7g} {xy[at, 1]:.7g} has no place in {projection.name}", name)
    records, first, places = with_length(records, first, places, name, report)
    about, open_ways = attributes(roads, options, name, report)
    streets = joined(Shapes(records, first, places), about, open_ways, max(1, round(100 * options.join)))
    lines, table = edges_of(streets, name)
    report.source = {"path": roads.attrs.get("path"), "sha256": roads.attrs.get("sha256"), "records": len(roads)}
    return lines, table, projection, report


def lines_of(roads: geopandas.GeoDataFrame, name: str, report: NetworkReport) -> tuple[np.ndarray, np.ndarray, np.ndarray]:
    """The record of each line (a record may have several), where its points begin, and all points."""
    if not isinstance(roads, (geopandas.GeoDataFrame, geopandas.GeoSeries)):
        raise InputError(f"is no GeoDataFrame but {type(roads).__name__}", name)
    records, points, others = [], [], []
    for record, shape in enumerate(roads.geometry):
        arrays = [np.asarray(line.coords, np.float64)[:, :2] for line in simple_lines(shape)]
        records += [record] * len(arrays)
        points += arrays
        if not arrays:
            others.append(record + 1)
    report.leave_out("records", "are no lines", others)
    if not points:
        raise InputError("has no lines", name)
    first = offsets_of(np.array([len(line) for line in points], np.int64))
    xy = np.concatenate(points)
    wrong = ~np.isfinite(xy).all(axis=1)
    if wrong.any():
        record = records[np.searchsorted(first, int(wrong.argmax()), "right") - 1] + 1
        raise InputError(f"record {record}: a coordinate is not a finite number", name)
    return np.array(records), first, xy


def with_length(records: np.ndarray, first: np.ndarray, places: np.ndarray, name: str,
                report: NetworkReport) -> tuple[np.ndarray, np.ndarray, np.ndarray]:
    """The lines that are longer than a centimetre."""
    low, high = np.minimum.reduceat(places, first[:-1]), np.maximum.reduceat(places, first[:-1])
    kept = np.flatnonzero((low != high).any(axis=1))
    if not len(kept):
        raise InputError("has no lines with a length", name)
    report.leave_out("records", "have no length", sorted(set((records + 1).tolist()) - set((records[kept] + 1).tolist())))
    places, firsts = gathered(places, first, kept)
    return records[kept], firsts, places


def simple_lines(shape: Any) -> list[Any]:
    """The lines of a geometry: of a line itself, or of a collection of lines."""
    if shape is None or shape.is_empty:
        return []
    if shape.geom_type in ("LineString", "LinearRing"):
        return [shape]
    if shape.geom_type in ("MultiLineString", "GeometryCollection"):
        return [line for part in shape.geoms for line in simple_lines(part)]
    return []


def projection_of(roads: geopandas.GeoDataFrame, xy: np.ndarray, wanted: Any,
                  name: str) -> tuple[Projection, Optional[pyproj.CRS]]:
    """The projection of the network, and the CRS of the layer."""
    chosen = None if wanted is None else Projection.of(wanted)
    if roads.crs is None:
        if np.abs(xy).max() <= 180:
            raise InputError("has no CRS, and its coordinates look like degrees: name the CRS by roads.set_crs(4326)", name)
        return chosen or Projection(None), None
    crs = pyproj.CRS.from_user_input(roads.crs)
    if chosen is not None:
        return chosen, crs
    x, y = pyproj.Transformer.from_crs(crs, DEGREES, always_xy=True).transform(xy[:, 0], xy[:, 1])
    good = np.isfinite(x) & np.isfinite(y)
    if not good.any():
        raise InputError(f"its coordinates are no places in {crs.name}; is its CRS right?", name)
    extent = extent_of(x[good], y[good])
    if np.abs(extent[1::2]).max() > 90 or np.abs(extent[::2]).max() > 360:
        raise InputError(f"its coordinates are no places in {crs.name}; is its CRS right?", name)
    return Projection.own_or_fitting(crs, extent), crs


def attributes(roads: geopandas.GeoDataFrame, options: LayerOptions, name: str,
               report: NetworkReport) -> tuple[pd.DataFrame, tuple[np.ndarray, np.ndarray]]:
    """The table of the records, and whether each is open along its line and against it."""
    table = pd.DataFrame(roads.drop(columns=roads.geometry.name)) if isinstance(roads, geopandas.GeoDataFrame) else pd.DataFrame()
    chosen = dict(options.columns or {})
    for wanted, column in [*chosen.items(), *([("oneway", options.oneway)] if options.oneway is not None else [])]:
        if wanted not in (*KNOWN, "oneway"):
            raise OptionError.unknown(wanted, KNOWN, "column of a network")
        if column not in table:
            raise InputError(f"has no column {shown(column)}; its columns are {shown(', '.join(map(str, table)), 80)}", name)
    for wanted, usual in KNOWN.items():
        chosen.setdefault(wanted, next((column for column in usual if column in table), ""))
    about = pd.DataFrame(index=range(len(roads)))
    for wanted in TEXTS:
        column = chosen[wanted]
        about[wanted] = texts(table[column]) if column else [str(n) for n in range(1, len(roads) + 1)] if wanted == "way" else ""
    about["maxspeed"] = speeds(table[chosen["maxspeed"]], report) if chosen["maxspeed"] else np.nan
    for column in table:
        if column not in chosen.values():
            about[f"{column}_input" if str(column) in RESERVED else str(column)] = texts(table[column])
    if options.oneway is None:
        for column in (column for column in table if str(column).lower() in ONEWAY):
            report.note(f"all lines are open both ways; for the column {shown(column)}, give oneway, forward and backward")
        return about, (np.ones(len(roads), bool), np.ones(len(roads), bool))
    rule = np.array(texts(table[options.oneway]), dtype=object)
    missing = sorted((options.forward | options.backward) - set(rule))
    if missing:
        report.note(f"no record has {shown(', '.join(missing))} in the column {shown(options.oneway)}")
    return about, (~np.isin(rule, list(options.backward)), ~np.isin(rule, list(options.forward)))


def texts(values: pd.Series) -> list[str]:
    """The values as text; whole numbers have no decimals, and what is missing is empty."""
    missing = pd.isna(values)
    return ["" if gone else str(int(value)) if isinstance(value, float) and value.is_integer() else str(value)
            for value, gone in zip(values.tolist(), missing)]


def speeds(values: pd.Series, report: NetworkReport) -> list[float]:
    """Kilometres an hour: numbers above 0, or the texts of OpenStreetMap."""
    from ._osm.profiles import speed_of
    found, unread = [], []
    for text in texts(values):
        speed = float("nan") if text == "0" else speed_of(text)  # layers of Geofabrik have 0 for none
        if speed is None:
            unread.append(text)
        found.append(float("nan") if speed is None else speed)
    report.leave_out("speeds", "maxspeed cannot be read", unread)
    return found


class Shapes(NamedTuple):
    """Lines in whole centimetres: the record of each, where its points begin, and all points, int64[n, 2]."""

    records: np.ndarray
    first: np.ndarray
    places: np.ndarray


def joined(shapes: Shapes, about: pd.DataFrame, open_ways: tuple[np.ndarray, np.ndarray], join: int) -> Streets:
    """The streets between nodes: ends of lines, which are joined, and inner points at such nodes."""
    records, first, places = shapes
    ends = np.column_stack([first[:-1], first[1:] - 1]).ravel()
    nodes = Nodes(places[ends], join)
    node = np.zeros(len(places), np.int64)
    inner = np.ones(len(places), bool)
    inner[ends] = False
    node[ends] = nodes.at_ends
    node[inner] = nodes.find(places[inner])
    line = np.repeat(np.arange(len(records)), np.diff(first))
    cuts = np.flatnonzero(node > 0)
    starts = cuts[:-1][line[cuts[:-1]] == line[cuts[1:]]]
    ends = cuts[1:][line[cuts[:-1]] == line[cuts[1:]]]
    count = ends - starts + 1
    firsts, xy = offsets_of(count), places[spread(starts, count)]
    of = records[line[starts]]
    forward, backward = open_ways
    return Streets(node[starts], node[ends], firsts, xy, forward[of], backward[of], about.iloc[of].reset_index(drop=True))


class Nodes:
    """Nodes with numbers from 1, made of the ends of lines in their order: an end at most `join` cm from a node is that node."""

    def __init__(self, ends: np.ndarray, join: int) -> None:
        self.join = join
        self.cells: dict[tuple[int, int], list[tuple[int, int, int]]] = {}
        self.count = 0
        known: dict[tuple[int, int], int] = {}
        found = []
        for x, y in ends.tolist():
            number = known.get((x, y))
            if number is None:
                number = known[x, y] = self._find(x, y) or self._add(x, y)
            found.append(number)
        self.at_ends = np.array(found, np.int64)

    def _find(self, x: int, y: int) -> int:
        column, row = x // self.join, y // self.join
        for i in (column, column - 1, column + 1):
            for j in (row, row - 1, row + 1):
                for a, b, number in self.cells.get((i, j), ()):
                    if (a - x) ** 2 + (b - y) ** 2 <= self.join ** 2:
                        return number
        return 0

    def _add(self, x: int, y: int) -> int:
        self.count += 1
        self.cells.setdefault((x // self.join, y // self.join), []).append((x, y, self.count))
        return self.count

    def find(self, places: np.ndarray) -> np.ndarray:
        """The node at each place, 0 for none. Looks only at places near a node's cell."""
        wide = 2 * self.join
        cells = np.array([(x // wide, y // wide) for nodes in self.cells.values() for x, y, _ in nodes], np.int64).reshape(-1, 2)
        around = np.concatenate([cells + [i, j] for i in (-1, 0, 1) for j in (-1, 0, 1)])
        near = np.unique(keys(around))
        found = np.zeros(len(places), np.int64)
        for at in np.flatnonzero(np.isin(keys(places // wide), near)).tolist():
            found[at] = self._find(int(places[at, 0]), int(places[at, 1]))
        return found


def keys(cells: np.ndarray) -> np.ndarray:
    return cells[:, 0] * (1 << 32) + cells[:, 1]
