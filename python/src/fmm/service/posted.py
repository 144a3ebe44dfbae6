"""POST /match and POST /map: a GPX file, a table or GeoJSON, answered as GeoJSON with the columns of the package's tables, or as
a page with a map."""
from __future__ import annotations

import json
import tempfile
from dataclasses import dataclass
from pathlib import Path
from typing import Any, Dict, List, Tuple

import geopandas
import numpy as np
import pandas as pd
from shapely.errors import ShapelyError
from shapely.geometry import mapping, shape

from .._reading.csv import read_csv
from .._reading.frames import DEGREES, rows_of_frame
from .._reading.gpx import read_gpx
from .._reading.rows import Rows, Wanted
from .._solution import Solution
from .._traces import write_traces
from ..errors import InputError
from ..matches import Matches
from ..network import Network
from ..positions import Positions, Source, joined
from ..suggestions import suggest
from .matcher import Matcher, read
from .refusals import Refused
from .requests import one_of, options_of, too_many
from .settings import Settings

NAME = "the request"
LAYERS = ("points", "routes", "edges")
KINDS = {"application/gpx+xml": "gpx", "application/xml": "gpx", "text/xml": "gpx", "text/csv": "csv",
         "application/geo+json": "json", "application/json": "json"}
OPTIONS = ("gap", "sigma", "thin")  # that a request can choose; the programs were started with the others


@dataclass(frozen=True)
class Posted:
    """A request: the type of its content, its query, its body."""

    type: str
    query: str
    body: bytes


def geojson(matcher: Matcher, network: Network, settings: Settings, posted: Posted, until: float) -> Tuple[Dict[str, Any], int]:
    """The GeoJSON and the number of positions. Refused, FmmError: what is wrong with the request."""
    words = options_of(posted.query)
    layers = words.pop("layers", "points,routes").split(",")
    for layer in layers:
        one_of({"layers": layer}, "layers", LAYERS)
    matches = match(matcher, network, settings, posted, words, until)
    features = [feature for layer in dict.fromkeys(layers) for feature in features_of(getattr(matches, layer), layer)]
    return {"type": "FeatureCollection", "report": matches.report.to_dict(), "features": features}, len(matches.points)


def page(matcher: Matcher, network: Network, settings: Settings, posted: Posted, until: float) -> Tuple[str, int]:
    """The page with the map, and the number of positions. Its candidates come from another run of the program."""
    matches = match(matcher, network, settings, posted, options_of(posted.query), until)
    return matches.explore(title="Match").html, len(matches.points)


def match(matcher: Matcher, network: Network, settings: Settings, posted: Posted, words: Dict[str, str], until: float) -> Matches:
    """The match of the positions of a request. `words` are its options."""
    for name in words:
        if name not in OPTIONS:
            raise Refused("InvalidOptions", f"{name[:40]!r} is no option; known: {', '.join(OPTIONS)} and, of /match, layers")
    options = settings.options.but(**words)
    positions = read_posted(posted, settings.limits.positions)
    if "thin" not in words:  # else each jump of a vehicle that stands would be a drive round the block
        wanted = suggest(positions).options
        options = options.but(thin=wanted.thin, back=max(options.back, wanted.back))
    with tempfile.TemporaryDirectory(prefix="fmm-") as folder:
        traces = write_traces(positions, network, options, Path(folder))
        table = pd.read_csv(traces.path)
    drives: List[bytes] = []
    for number, drive in table.groupby("trace"):
        rows = np.stack([drive["x"].to_numpy(), drive["y"].to_numpy(), np.zeros(len(drive), np.int64)], axis=1)
        drives.append(matcher.follow(rows, int(number), options, until))
    text = read(b"".join(drives), len(drives), len(table)) if drives else None
    if text is None:
        raise Refused("NoMatch", "no position can be used: " + "; ".join(sorted(set(positions.left_out["reason"])))[:200])
    return Matches.solved(Solution(network, positions, traces, text, options), {}, crs=DEGREES)


def read_posted(posted: Posted, most: int) -> Positions:
    """The positions of a request."""
    kind = KINDS.get(posted.type.partition(";")[0].strip().lower())
    if kind is None:
        raise Refused("InvalidOptions", f"the content is GPX, CSV or GeoJSON: its type is one of {', '.join(KINDS)}", 415)
    if kind == "json":
        rows = read_json(posted.body, most)
    else:
        with tempfile.TemporaryDirectory(prefix="fmm-") as folder:
            path = Path(folder) / f"request.{kind}"
            path.write_bytes(posted.body)
            rows = read_gpx(path, NAME, "gpx") if kind == "gpx" else read_csv(path, Wanted(), NAME)
    if len(rows.frame) > most:
        raise too_many(most)
    return joined([rows], [Source(NAME, "", len(rows.frame))])


def read_json(body: bytes, most: int) -> Rows:
    """Rows as a list of objects, or GeoJSON: points with the properties id and time, or lines with the property coordTimes."""
    try:
        content = json.loads(body.decode("utf-8"), parse_constant=no_number)
    except (ValueError, RecursionError) as fault:
        raise InputError(f"is no JSON: {str(fault)[:100]}", NAME) from None
    if isinstance(content, list):
        if not content or not all(isinstance(row, dict) and row for row in content):
            raise InputError("is a list, but not of objects with the fields of a row", NAME)
        if not all(isinstance(value, (str, int, float, bool, type(None))) for row in content for value in row.values()):
            raise InputError("has a row with a field that is no text and no number", NAME)
        return rows_of_frame(pd.DataFrame(content), Wanted(), NAME)
    return rows_of_frame(geojson_frame(content, most), Wanted(), NAME)


def no_number(text: str) -> float:
    raise ValueError(f"{text} is no number of JSON")


def geojson_frame(content: Any, most: int) -> geopandas.GeoDataFrame:
    """One row for each point, and for each place of a line."""
    features = content.get("features") if isinstance(content, dict) and content.get("type") == "FeatureCollection" else [content]
    rows: List[Dict[str, Any]] = []
    if not isinstance(features, list):
        raise InputError("is no GeoJSON: features is no list", NAME)
    for number, feature in enumerate(features):
        rows += rows_of_feature(feature, number)
        if len(rows) > most:
            raise too_many(most)
    if not rows:
        raise InputError("has no positions", NAME)
    return geopandas.GeoDataFrame(pd.DataFrame(rows), geometry="geometry", crs=DEGREES)


def rows_of_feature(feature: Any, number: int) -> List[Dict[str, Any]]:
    """The rows of a feature, or of a geometry alone."""
    feature = feature if isinstance(feature, dict) else {}
    about = feature.get("properties") or {}
    geometry = feature.get("geometry") if feature.get("type") == "Feature" else feature
    try:
        found = shape(geometry)
    except (ShapelyError, ValueError, TypeError, AttributeError, KeyError, IndexError):
        raise InputError(f"feature {number} has no geometry of GeoJSON", NAME) from None
    if not isinstance(about, dict) or found.geom_type not in ("Point", "LineString", "MultiLineString"):
        raise InputError(f"feature {number} is no point and no line", NAME)
    simple = {str(name): value for name, value in about.items() if isinstance(value, (str, int, float, bool))}
    if found.geom_type == "Point":
        return [{**simple, "geometry": found}]
    lines = [found] if found.geom_type == "LineString" else list(found.geoms)
    places = [place for line in lines for place in line.coords]
    times = about.get("coordTimes", about.get("times"))
    flat = times if not isinstance(times, list) or found.geom_type == "LineString" else [t for part in times for t in part]
    if flat is not None and (not isinstance(flat, list) or len(flat) != len(places)):
        raise InputError(f"feature {number} does not have a time for each place of its line", NAME)
    name = str(simple.get("id", simple.get("name", number)))
    points = geopandas.points_from_xy([place[0] for place in places], [place[1] for place in places])
    stamps = [{}] * len(places) if flat is None else [{"time": value} for value in flat]
    return [{"id": name, **stamp, "geometry": point} for point, stamp in zip(points, stamps)]


def features_of(frame: geopandas.GeoDataFrame, layer: str) -> List[Dict[str, Any]]:
    """The rows of a table as features of GeoJSON. Times are ISO texts; what is missing is null."""
    table = frame.drop(columns="geometry")
    columns = {str(name): plain(table[name]) for name in table.columns}
    names = list(columns)
    index = frame.index.tolist() if layer == "points" else [None] * len(frame)
    return [
        {"type": "Feature", "geometry": None if line is None or line.is_empty else mapping(line),
         "properties": {"layer": layer, **({} if row is None else {"row": row}), **dict(zip(names, values))}}
        for line, values, row in zip(frame.geometry, zip(*columns.values()), index)]


def plain(values: pd.Series) -> List[Any]:
    """The values of a column as JSON has them."""
    if pd.api.types.is_datetime64_any_dtype(values):
        texts = values.dt.strftime("%Y-%m-%dT%H:%M:%S.%f")
        return [None if missing else f"{text[:-3]}Z" for text, missing in zip(texts, values.isna())]
    if values.dtype.kind == "f":
        rounded = np.round(values.to_numpy(), 3)
        return [value if np.isfinite(value) else None for value in rounded.tolist()]
    return [None if missing else value for value, missing in zip(values.tolist(), values.isna())]
