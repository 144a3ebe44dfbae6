"""Make a map of a match: one HTML file that shows why each road was chosen.

RESULT is a result.gpkg or a folder of tables, as `fmm run`, `fmm tables` or `Matches.to_file` wrote it. The map needs no network
connection. It shows positions, driven roads and the streets around them, plays drives in time, and marks what is in doubt: a
position is in doubt if the best sequence over another road would have cost less than --limit more, or if its drive breaks there.

    fmm map out/result.gpkg --into map.html
    fmm map out/result.gpkg --into map.html --network network.csv --tiles https://tile.openstreetmap.org/{z}/{x}/{y}.png

The candidates of each position come from a certificate: `fmm prove` runs once more for the network that RESULT names, or for
--network. Without that network, or for more than 100,000 positions, the map has no candidates, and says so.
"""
from __future__ import annotations

from ._parser import Parser


def main(words: list[str]) -> int:
    values = parser().parse_args(words)
    from .. import open_matches
    from . import say
    matches = open_matches(values.result)
    page = matches.explore(margins=values.margins, network=values.network, limit=values.limit, tiles=values.tiles,
                           title=values.title)
    page.save(values.into)
    for note in page.notes:
        say(f"fmm map: note: {note}")
    return 0


def parser() -> Parser:
    made = Parser("map", __doc__ or "")
    made.add_argument("result", metavar="RESULT", help="the result: a .gpkg file or a folder of tables")
    made.add_argument("--into", metavar="MAP.html", required=True, help="the map")
    made.add_argument("--network", metavar="NETWORK.csv", help="the network of the match, if it is not where it was")
    made.add_argument("--limit", metavar="COST", type=float,
                      help="a smaller margin is in doubt (3000: the other road is 5 %% as likely)")
    made.add_argument("--tiles", metavar="URL", help="a base map with {z}, {x} and {y}; the page then needs a network connection")
    made.add_argument("--title", default="Match", help="the title of the page (%(default)s)")
    group = made.add_mutually_exclusive_group()
    group.add_argument("--margins", action="store_true", default=None, help="candidates and margins for any number of positions")
    group.add_argument("--no-margins", dest="margins", action="store_false", help="no candidates and margins")
    return made
