"""Match a map and tracks into tables, a GeoPackage, a map and a report.

MAP is an OpenStreetMap file (.osm.pbf, .osm, .osm.gz, .osm.bz2), a network that `fmm network` made, or a layer of lines in any
format that geopandas reads. POSITIONS are GPX files, tables (.csv, with commas, semicolons or tabs between the fields), or layers
of points: one or several files, with rows in any order.

FOLDER gets
  result.gpkg                        the layers points, routes, edges, network and stops
  points.csv, routes.csv, edges.csv  a row for each position, each piece of road, and each driven edge
  network_edges.csv                  a row for each edge of the network
  travel_times.csv                   how long each street took, by hour
  distances.csv                      how far each vehicle drove, by day
  stops.csv                          where and how long vehicles stood
  points.csvt, routes.csvt, ..       the types of the columns of each table, which GDAL and QGIS read
  map.html                           a map to look at: positions, roads, drives in time, and what is in doubt
  picture.png                        the driven roads on the map
  report.txt                         what was chosen and why, what was left out, and what to look at
  result.json, matches.json          the checksums of what made result.gpkg and the tables

Options of matching are in metres and seconds. Those that are not given are chosen from the positions; report.txt has the reasons.
Files appear when all of them are complete. An earlier result in FOLDER is replaced.
"""
from __future__ import annotations

import argparse
import dataclasses
import math
import os
import shutil
import warnings
from pathlib import Path
from typing import TYPE_CHECKING, Any, Optional

from ..errors import FmmWarning, MissingLibraryError, OptionError, one_line
from ._parser import Parser, above_zero

if TYPE_CHECKING:
    from ..matches import Matches
    from ..network import Network
    from ..positions import Positions

AROUND = 10_000  # metres around the positions that are read of a map
MOST_ON_MAP = 200_000  # positions
UNITS = {"k": "N", "gap": "SECONDS", "workers": "N", "fastest": "M/S"}
TEXTS = {
    "k": "most candidates of a position", "radius": "greatest distance of a candidate",
    "sigma": "standard error of the positions", "beta": "usual detour of a route", "bound": "longest route between two edges",
    "back": "how far a position may move back on its edge", "gap": "a drive ends at a pause that is longer",
    "workers": "threads", "thin": "match only positions that are so far apart",
    "fastest": "metres a second; faster positions are jumps and are not matched",
}


def main(words: list[str]) -> int:
    values = parser().parse_args(words)
    from .. import match, read_positions
    from .._output import Outputs
    options = option_words(values)
    positions = read_positions(values.positions, id=values.id, x=values.x, y=values.y, time=values.time,
                               crs=values.positions_crs, layer=values.layer, timezone=values.timezone)
    network, notes = read_map(values, positions)
    means = {name: getattr(values, name) for name in ("engine", "jobs", "memory", "folder")}
    with warnings.catch_warnings():
        warnings.simplefilter("ignore", FmmWarning)  # the report begins with them
        matches = match(network, positions, crs=values.result_crs, **means, **options)
    with Outputs([values.map, *network.files, *(source.path for source in positions.sources)]) as outputs:
        write_all(matches, outputs.files_of(values.into), values, notes)
    print(Path(values.into, "report.txt").read_text(encoding="utf-8"), end="")
    return 0


def parser() -> Parser:
    made = Parser("run", __doc__ or "")
    made.add_argument("map", metavar="MAP", help="the map")
    made.add_argument("positions", metavar="POSITIONS", nargs="+", help="the positions")
    made.add_argument("--into", metavar="FOLDER", required=True, help="the folder of the results")
    add_inputs(made)
    add_matching(made)
    result = made.add_argument_group("result")
    result.add_argument("--result-crs", metavar="CRS", help="of the geometries (that of the positions)")
    result.add_argument("--no-margins", dest="margins", action="store_false", default=None,
                        help="no margins, and no candidates in the map")
    result.add_argument("--standing", metavar="SECONDS", type=float, default=120.0, help="least length of a stop (%(default)g)")
    result.add_argument("--zone", help="the time zone of hours and days (that of --timezone, or UTC)")
    return made


def add_inputs(made: Parser) -> None:
    """The options about the map and the positions."""
    from .._osm.profiles import PROFILES
    from .network import listed
    maps = made.add_argument_group("map")
    maps.add_argument("--profile", choices=list(PROFILES), help="whose streets and directions (car)")
    maps.add_argument("--bbox", metavar="W,S,E,N", type=extent,
                      help="the part of the map to read in degrees, or all (10 km around the positions)")
    maps.add_argument("--crs", metavar="CRS", help="the projection: a UTM zone (32N) or an EPSG code (one that fits)")
    maps.add_argument("--no-restrictions", action="store_true", help="drop turn restrictions")
    maps.add_argument("--map-layer", metavar="NAME", help="the layer of a map that has several")
    maps.add_argument("--oneway", metavar="COLUMN", help="of a layer, the column of the direction")
    maps.add_argument("--forward", metavar="V,..", type=listed, help="its values for open along the line only")
    maps.add_argument("--backward", metavar="V,..", type=listed, help="its values for open against the line only")
    inputs = made.add_argument_group("positions")
    for name, text in (("id", "vehicles"), ("x", "x or longitude"), ("y", "y or latitude"), ("time", "times")):
        inputs.add_argument(f"--{name}", metavar="COLUMN", help=f"the column of {text} (guessed from usual names)")
    inputs.add_argument("--positions-crs", metavar="CRS", help="of x and y, or `metres` for the projection of the network")
    inputs.add_argument("--timezone", metavar="ZONE", help="of times that name none, such as Europe/Berlin (UTC)")
    inputs.add_argument("--layer", metavar="NAME", help="the layer of a file of positions that has several")


def add_matching(made: Parser) -> None:
    """The options of the match."""
    from ..options import ENGINES, Options
    matching = made.add_argument_group("matching")
    for field in dataclasses.fields(Options):
        matching.add_argument(f"--{field.name}", metavar=UNITS.get(field.name, "METRES"), help=TEXTS.get(field.name))
    means = made.add_argument_group("large matches")
    means.add_argument("--engine", choices=ENGINES, help="match in groups on this machine or on a cluster (one run if it fits)")
    means.add_argument("--jobs", metavar="N", type=above_zero, help="how many groups are matched at a time")
    means.add_argument("--memory", metavar="MB", type=above_zero,
                       help="memory of a run or of a job (what is free; 2000 on a cluster)")
    means.add_argument("--folder", help="for the groups; all machines need it under one path (the current folder for a cluster)")


def extent(text: str) -> Any:
    """The value of --bbox."""
    from .network import box
    if text == "all":
        return text
    try:
        return box(text)
    except argparse.ArgumentTypeError as fault:
        raise argparse.ArgumentTypeError(f"{fault}, or all") from None


def option_words(values: Any) -> dict[str, Any]:
    """The options of matching that were given. `none` switches off gap, thin and fastest."""
    from .._reading.zones import checked_zone
    from ..options import Options
    given = {field.name: getattr(values, field.name) for field in dataclasses.fields(Options)}
    words = {name: None if value == "none" else value for name, value in given.items() if value is not None}
    Options.of(**words)
    if not values.standing > 0:
        raise OptionError(f"--standing is a number above 0, not {values.standing:g}")
    values.zone = checked_zone(next(zone for zone in (values.zone, values.timezone, "UTC") if zone is not None))
    return words


# ---- the map

def read_map(values: Any, positions: Positions) -> tuple[Network, list[str]]:
    """The network, and notes for the report."""
    from .. import Network
    from .._map_files import kind_of
    words = {"profile": values.profile, "crs": values.crs, "layer": values.map_layer, "oneway": values.oneway,
             "forward": values.forward, "backward": values.backward, "restrictions": False if values.no_restrictions else None}
    words = {name: value for name, value in words.items() if value is not None}
    if values.bbox not in (None, "all"):
        words["bbox"] = values.bbox
    elif values.bbox is None and kind_of(values.map) == "osm":
        words["bbox"] = around(positions)
    notes = []
    if words.get("bbox") is not None and values.bbox is None:
        notes.append("of the map the part from {:.4f}, {:.4f} to {:.4f}, {:.4f} degrees was read; --bbox chooses another one"
                     .format(*words["bbox"]))
    return Network.from_file(values.map, **words), notes


def around(positions: Positions) -> Optional[tuple[float, float, float, float]]:
    """The extent of the positions and what is near them, in degrees; None if that is no proper part of the Earth."""
    import pyproj
    if positions.crs is None:
        return None
    west, south, east, north = positions.bounds
    to_degrees = pyproj.Transformer.from_crs(positions.crs, 4326, always_xy=True)
    west, south, east, north = to_degrees.transform_bounds(west, south, east, north)
    if not all(map(math.isfinite, (west, south, east, north))) or max(abs(south), abs(north)) > 85 or west > east:
        return None
    high = AROUND / 110_540
    wide = AROUND / (111_320 * math.cos(math.radians(max(abs(south), abs(north)))))
    if west - wide < -180 or east + wide > 180:
        return None
    west, south = (math.floor(1e4 * value) / 1e4 for value in (west - wide, south - high))  # as the report prints them
    east, north = (math.ceil(1e4 * value) / 1e4 for value in (east + wide, north + high))
    return west, south, east, north


# ---- the results

def write_all(matches: Matches, folder: Path, values: Any, notes: list[str]) -> None:
    """Writes all results into a folder."""
    from .._output import Outputs
    from ..report import Report
    write_map(matches, folder, values, notes)  # adds margins to the points
    matches.to_file(folder / "result.gpkg", standing=values.standing)
    write_tables(matches, folder, values)
    report: Report = matches.report
    try:
        from .._picture import write_picture
        write_picture(matches, folder / "picture.png")
    except (ImportError, MissingLibraryError):
        notes.append("there is no picture.png, since this Python has no matplotlib: apt-get install python3-matplotlib")
    about = str(matches.network.report).splitlines() if matches.network else []
    network = "\n".join(f"  {line}" for line in about if line not in report.text.splitlines())  # notes are in both
    text = report.text + "".join(f"note: {one_line(note)}\n" for note in notes) + (f"network:\n{network}\n" if network else "")
    with Outputs() as outputs:
        outputs.open(folder / "report.txt").write(text)


def write_map(matches: Matches, folder: Path, values: Any, notes: list[str]) -> None:
    """Writes the map, unless it would be too large to look at."""
    if len(matches.points) > MOST_ON_MAP:
        notes.append(f"there is no map.html, since there are more than {MOST_ON_MAP:,} positions; fmm map makes one all the same")
        return
    try:
        page = matches.explore(title="Driven roads", margins=values.margins)
    except MissingLibraryError as fault:
        notes.append(f"there is no map.html: {fault}")
        return
    page.save(folder / "map.html")
    notes += [f"map.html: {note}" for note in page.notes]


def write_tables(matches: Matches, folder: Path, values: Any) -> None:
    """Writes the tables of comma-separated values."""
    matches.to_file(folder / "tables")
    for path in list((folder / "tables").iterdir()):
        os.replace(path, folder / path.name)
    shutil.rmtree(folder / "tables")
    write_table(matches.stops(values.standing), folder / "stops.csv")
    if matches.points["time"].notna().any():
        write_table(matches.travel_times(by="hour", standing=values.standing, zone=values.zone), folder / "travel_times.csv")
        write_table(matches.distances(by=["vehicle", "day"], zone=values.zone), folder / "distances.csv")


def write_table(frame: Any, path: Path) -> None:
    """Writes a summary. Geometries are WKT, and times ISO texts."""
    from .._column_types import write_column_types
    from .._exports import readable
    from .._output import Outputs
    from .._tables import write_table as write
    if "median" in frame.columns:
        frame = frame.assign(median=frame["median"].round(3))
    with Outputs() as outputs:
        write(outputs, path, readable(frame, getattr(frame, "crs", None)))
        write_column_types(outputs, path, frame)
