"""Make a network file from a map, a layer of lines or a graph.

MAP is an OpenStreetMap file (.osm.pbf, .osm, .osm.gz, .osm.bz2), a layer of lines that GDAL reads (GeoPackage, Shapefile,
GeoJSON, ..), or a graph of OSMnx (GraphML). The network is three files: NETWORK.csv for the proved programs, NETWORK.edges.csv
with way, class, name, ref and maxspeed of each edge, and NETWORK.json, which has the projection and ties the files together. The
report on standard error says what was read, and what was left out and why.

    fmm network area.osm.pbf --into network.csv
    fmm network area.osm.pbf --into network.csv --profile bicycle --bbox 9.1,53.3,9.3,53.4
    fmm network roads.gpkg --into network.csv --oneway direction --forward one,F --backward against,T
"""
from __future__ import annotations

import argparse
from typing import Any

from ._parser import Parser


def main(words: list[str]) -> int:
    values = vars(parser().parse_args(words))
    from ..network import Network  # after the options, since it takes a second
    from . import say
    path, target = values.pop("map"), values.pop("into")
    network = Network.from_file(path, **{name: value for name, value in values.items() if value is not None})
    network.save(target)
    say(str(network.report))
    return 0


def parser() -> Parser:
    from .._osm.profiles import PROFILES
    made = Parser("network", __doc__ or "")
    made.add_argument("map", metavar="MAP", help="the map, layer or graph")
    made.add_argument("--into", metavar="NETWORK.csv", required=True, help="the network file")
    made.add_argument("--crs", metavar="CRS", help="the projection: a UTM zone (32N) or an EPSG code; by default one that fits")
    osm = made.add_argument_group("options for OpenStreetMap files")
    osm.add_argument("--profile", choices=list(PROFILES), help="whose streets and directions (car)")
    osm.add_argument("--bbox", metavar="W,S,E,N", type=box, help="only streets in this box, in degrees")
    osm.add_argument("--no-restrictions", dest="restrictions", action="store_const", const=False, help="drop turn restrictions")
    layer = made.add_argument_group("options for layers")
    layer.add_argument("--layer", metavar="NAME", help="the layer, if the file has several")
    layer.add_argument("--oneway", metavar="COLUMN", help="the column of the direction")
    layer.add_argument("--forward", metavar="V,..", type=listed, help="its values for open along the line only")
    layer.add_argument("--backward", metavar="V,..", type=listed, help="its values for open against the line only")
    layer.add_argument("--join", metavar="M", type=float, help="ends of lines at most so many metres apart are one node (0.01)")
    layer.add_argument("--columns", metavar="NAME=COLUMN,..", type=named,
                       help="which columns are way, class, name, ref and maxspeed")
    return made


def listed(text: str) -> list[str]:
    return [word for word in text.split(",") if word]


def named(text: str) -> dict[str, str]:
    pairs = [word.partition("=") for word in text.split(",")]
    if not all(sign and value for _, sign, value in pairs):
        raise argparse.ArgumentTypeError(f"{text} is not NAME=COLUMN,..")
    return {name: value for name, _, value in pairs}


def box(text: str) -> Any:
    try:
        west, south, east, north = map(float, text.split(","))
    except ValueError:
        raise argparse.ArgumentTypeError(f"{text} is not west,south,east,north in degrees") from None
    return west, south, east, north
