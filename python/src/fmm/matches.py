"""What a match says: of each position, of each piece of road that was driven, and of each driven edge."""
from __future__ import annotations

from typing import TYPE_CHECKING, Any, Dict, Optional

import geopandas
import numpy as np
import pandas as pd

from . import _match_tables, _summaries
from ._places import DrivenLines
from ._solution import RowPlaces, Solution
from .errors import OptionError, PathText
from .network import Network
from .options import Options
from .positions import crs_given
from .projection import Projection
from .report import Report, report_of

if TYPE_CHECKING:
    from .map.page import Page

__all__ = ["Matches", "open_matches"]

STANDING = 30.0  # seconds: what counts as standing in the column `standing` of the edges


class Matches:
    """The result of `match`, or of `open_matches`.

    network, options, evidence   what made the match: checksums of the program, the network, the traces and the text
    left_out                     rows that could not be used: row, file, line, id, reason
    crs                          of the geometries

    `points`, `routes` and `edges` are made when they are first asked for. Times are in UTC (NaT where there is none), lengths in
    metres of the projection, durations in seconds (NaN where there is no time).
    """

    def __init__(self, network: Optional[Network], options: Optional[Options], evidence: Dict[str, Any], crs: Any) -> None:
        self.network, self.options, self.evidence, self.crs = network, options, evidence, crs
        self.left_out = pd.DataFrame(columns=["row", "file", "line", "id", "reason"])
        self.solution: Optional[Solution] = None
        self._driven: Optional[DrivenLines] = None
        self._rows: Optional[RowPlaces] = None
        self._tables: Dict[str, geopandas.GeoDataFrame] = {}
        self._stretches: Dict[float, _summaries.Stretches] = {}
        self._report = Report()

    @classmethod
    def solved(cls, solution: Solution, evidence: Dict[str, Any], *, reasons: Optional[Dict[str, str]] = None,
               crs: Any = None) -> Matches:
        """The matches of a solution. `reasons` say by name why an option was chosen."""
        projection, positions = solution.network.projection, solution.positions
        if crs is not None and projection.crs is None:
            raise OptionError("the network's projection is not known, so its places have no CRS: open the network with its crs")
        chosen = positions.crs if crs is None else crs_given(crs)
        matches = cls(solution.network, solution.options, evidence, projection.crs if chosen is None else chosen)
        matches.solution, matches.left_out = solution, positions.left_out
        matches._report = report_of(matches, reasons or {})
        return matches

    @property
    def points(self) -> geopandas.GeoDataFrame:
        """One row for each row of the input, in its order, with the index `row`.

        | column | type | meaning |
        |---|---|---|
        | id | text | the vehicle |
        | time | datetime, UTC | |
        | x, y | float64 | as measured, in the CRS of the positions |
        | trace, piece | Int64 | the drive, and the piece of it from 1 |
        | point | Int64 | the position in the drive from 0; missing for rows that thinning left out |
        | edge | Int64 | the edge, missing if the row has none |
        | offset | float64 | metres from the beginning of the edge |
        | distance | float64 | metres between the measured place and the edge |
        | margin | float64 | only after `add_margins` or `explore`: how much more another road would have cost |
        | way, class, name, ref | text | of the edge |
        | reason | text | why the row has no edge, or "" |
        | .. | | the input's own columns; one that has a name of this table ends in `_input` |
        | geometry | Point | the place on the edge; where there is none, the measured place |
        """
        if "points" not in self._tables:
            self._tables["points"] = _match_tables.points(self._known_solution(), self.row_places(), self.crs)
            self._rows = None
        return self._tables["points"]

    @property
    def routes(self) -> geopandas.GeoDataFrame:
        """One row for each piece: positions that were matched together, and the road that joins them.

        | column | type | meaning |
        |---|---|---|
        | id, trace, piece | text, int64, int64 | |
        | first_row, last_row | int64 | rows of `points` |
        | begin, end | datetime, UTC | |
        | seconds, metres | float64 | |
        | cost | int64 | of the piece, as the program counts it |
        | edges | text | the ids of the edges, in the order of travel |
        | geometry | LineString | the driven line; empty for a piece at a single place |
        """
        if "routes" not in self._tables:
            self._tables["routes"] = _match_tables.routes(self._known_solution(), self.crs, self._lines())
        return self._tables["routes"]

    @property
    def edges(self) -> geopandas.GeoDataFrame:
        """One row for each driven edge of each piece.

        | column | type | meaning |
        |---|---|---|
        | id, trace, piece, number | text, int64 | the vehicle, the drive, the piece, the place in the route from 1 |
        | edge, way, class, name, ref, maxspeed, direction | | of the network |
        | entry, exit | datetime, UTC | interpolated along the route between the positions before and after |
        | seconds | float64 | between them |
        | standing | float64 | the part of `seconds` in which the vehicle stood for 30 s or more at a time |
        | metres | float64 | how far the vehicle drove on the edge |
        | whole | bool | whether it drove from the beginning of the edge to its end |
        | speed | float64 | km/h while it did not stand |
        | geometry | LineString | the driven part of the edge |

        The parts of a street that the network splits for turn restrictions are one edge here.
        """
        if "edges" not in self._tables:
            solution = self._known_solution()
            driven = solution.driven
            ids = solution.ids[solution.text.piece_trace[driven.piece]]
            stood = self._stretches_of(STANDING).seconds_of(ids, driven.entry, driven.exit)
            self._tables["edges"] = _match_tables.edges(solution, self.crs, self._lines(), stood)
        return self._tables["edges"]

    @property
    def report(self) -> Report:
        """What was chosen and why, what was left out, and what to look at; `report.text` is for people."""
        return self._report

    @property
    def far(self) -> str:
        """The reason of positions without a candidate."""
        return "no edge within the radius" if self.options is None else f"no edge within {self.options.radius:g} m"

    def travel_times(self, by: _summaries.By = None, *, standing: Optional[float] = 120.0, zone: str = "UTC") -> pd.DataFrame:
        """How long whole edges took: a row for each edge and each value of `by`.

        by         "hour" (0 to 23), "day", "weekday", a column of `edges` or of the input, or a list of these
        standing   standing of at least so many seconds at a time does not count; None: all counts
        zone       the time zone of hours and days

        Columns: edge, way, class, name, ref, direction, maxspeed, those of `by`, drives (how many), seconds (their mean), median,
        metres, speed (km/h).
        """
        edges = self.edges
        stood = np.zeros(len(edges)) if standing is None else self._stretches_of(float(standing)).seconds_of(
            edges["id"].to_numpy(object), _summaries.seconds_of(edges["entry"]), _summaries.seconds_of(edges["exit"]))
        return _summaries.travel_times(edges, stood, _summaries.keys_of(edges, self.points, by, zone))

    def distances(self, by: _summaries.By = ("vehicle", "day"), *, zone: str = "UTC") -> pd.DataFrame:
        """How far vehicles drove: columns of `by` (as in travel_times), metres, seconds, and standing of 30 s or more at a time.

        An edge belongs to the hour and day at which it was entered.
        """
        return _summaries.distances(self.edges, _summaries.keys_of(self.edges, self.points, by, zone))

    def stops(self, seconds: float = 120.0) -> geopandas.GeoDataFrame:
        """Where vehicles stood for at least so many seconds: id, begin, end, seconds, edge, way, class, name, ref, positions,
        first_row, last_row, and the measured place. A time without positions between two positions at one place counts too."""
        if not seconds > 0:
            raise OptionError(f"seconds is a number above 0, not {seconds}")
        return _summaries.stops(self.points, self._stretches_of(float(seconds)), self._from_metres, self.points.crs)

    def to_file(self, path: PathText, layer: Optional[str] = None, *, standing: float = 120.0) -> None:
        """Writes the tables points, routes, edges and network: as layers of `result.gpkg`, which has a layer `stops` of at least
        `standing` seconds, too; as a folder of .csv files, where the network is network_edges.csv; or, for `result.geojson`, as
        result.points.geojson, .. With `layer` that file has this layer alone. A side file (JSON) says what made them.
        open_matches reads the first two."""
        from ._exports import to_file
        to_file(self, path, layer, standing)

    def to_postgis(self, engine: Any, *, schema: Optional[str] = None, replace: bool = False) -> None:
        """Writes the tables points, routes, edges and network to a PostGIS database, all or none of them."""
        from ._exports import to_postgis
        to_postgis(self, engine, schema, replace)

    def add_margins(self, network: Optional[PathText] = None) -> None:
        """Adds the column `margin` to `points`: how much more the best sequence over another road would cost, NaN if no other
        road is possible. A road is another one if its edge is not driven between the position before and the one after, and is
        not one of the three edges before or after these.

        Runs `fmm prove`, whose certificates have what each candidate costs; this takes longer than the match. `network` is a
        path for matches that were opened, by default that of the match. InputError: the network is not there. MismatchError: it
        is another one.
        """
        from .map.margins import find_margins, network_of, with_margins
        with_margins(self.points, find_margins(self, network_of(self, network)))

    def explore(self, *, margins: Optional[bool] = None, network: Optional[PathText] = None, limit: Optional[float] = None,
                tiles: Optional[str] = None, title: str = "Match") -> Page:
        """A map as one page of HTML: `matches.explore().save("map.html")`, or the last line of a notebook's cell.

        margins   candidates of each position, with what each would have cost; by default for up to 100,000 positions
        network   the path of the network, for matches that were opened; by default that of the match
        limit     a margin below this is in doubt, by default 3,000: the other road is at least exp(-3) = 5 % as likely
        tiles     the address of a base map with {z}, {x} and {y}; by default none, and the page needs no network connection
        """
        from .map import explore
        return explore(self, margins=margins, network=network, limit=limit, tiles=tiles, title=title)

    def text(self) -> bytes:
        """The text of `match` that these tables come from, made of `points` and `routes`. The streets of a network with turn
        restrictions have other ids there than the parts that the program matched."""
        from ._match_writer import text_of
        about = self.evidence.get("text", {})
        return text_of(self.points, self.routes, about.get("rows"), about.get("order") == "rows")

    def set_table(self, name: str, table: geopandas.GeoDataFrame) -> None:
        """A table that was read from a file."""
        self._tables[name] = table

    def set_report(self, report: Report) -> None:
        """The report of matches that were read from a file."""
        self._report = report

    def row_places(self) -> RowPlaces:
        """Where each row of the input belongs."""
        if self._rows is None:
            self._rows = self._known_solution().row_places(self.far)
        return self._rows

    def _known_solution(self) -> Solution:
        assert self.solution is not None
        return self.solution

    def _lines(self) -> DrivenLines:
        """The lines of the driven edges in the CRS."""
        if self._driven is None:
            solution = self._known_solution()
            self._driven = _match_tables.lines_in_crs(solution, solution.driven_lines(), self.crs)
        return self._driven

    def _metres(self) -> np.ndarray:
        """The measured places of the points in metres of the network's plane, NaN where there is none."""
        if self.solution is not None:
            places = self.solution.measured(np.arange(len(self.points))) / 100
        else:
            x, y = self.points["x"].to_numpy(), self.points["y"].to_numpy()
            places = np.stack(self._projection().to_centimetres(x, y, self.evidence.get("positions_crs")), axis=1) / 100
        places[np.abs(places[:, 0]) > 1e9] = np.nan
        return places

    def _projection(self) -> Projection:
        if self.network is not None:
            return self.network.projection
        text = self.evidence.get("network", {}).get("projection")
        return Projection(None) if text is None else Projection.of(text)

    def _from_metres(self, places: np.ndarray) -> np.ndarray:
        x, y = self._projection().to_crs(100 * places[:, 0], 100 * places[:, 1], self.points.crs)
        return np.stack([x, y], axis=1).reshape(-1, 2)

    def _stretches_of(self, seconds: float) -> _summaries.Stretches:
        if seconds not in self._stretches:
            self._stretches[seconds] = _summaries.stretches(self.points, self._metres(), seconds)
        return self._stretches[seconds]


def open_matches(path: PathText) -> Matches:
    """Opens what `Matches.to_file` wrote: a GeoPackage or a folder of .csv files. The network is not opened.

    InputError: no such file, or a damaged one; MismatchError: a file that is not the one which the side file names.
    """
    from ._exports import open_matches as opened
    return opened(path)
