"""Networks of streets: from maps, layers and graphs to the file that the proved programs read, and what is known of its edges."""
from __future__ import annotations

import os
import tempfile
from pathlib import Path
from typing import TYPE_CHECKING, Any, Optional, Union

import numpy as np

from . import _network_file
from ._evidence import checksum_of, compare, part, read_side_file, refuse_pipe, state, unchanged, write_side_file
from ._lines import EdgeLines, Parts
from ._network_report import NetworkReport
from ._network_sides import COLUMNS, EdgeRecords, NoRecords, links_away, read_edges, side_paths, side_table
from ._output import Outputs
from .errors import InputError, MismatchError, PathText
from .projection import DEGREES, Extent, Projection

if TYPE_CHECKING:  # pandas and geopandas take longer to import than most networks to read, and not all uses need them
    import geopandas
    import pandas as pd


class Network:
    """A network of directed edges. Make one by from_osm, from_geodataframe, from_graph or open."""

    def __init__(self, lines: EdgeLines, table: Union[pd.DataFrame, EdgeRecords, NoRecords], projection: Projection,
                 report: NetworkReport, parts: Optional[Parts] = None) -> None:
        self.lines, self._table, self.projection, self.report = lines, table, projection, report
        self.parts = Parts.whole(lines) if parts is None else parts
        self._path: Optional[Path] = None
        self._is_saved = False
        self._folder: Optional[tempfile.TemporaryDirectory[str]] = None
        self._checksum: Optional[str] = None
        self._state: Optional[list[int]] = None
        self._edges: Optional[geopandas.GeoDataFrame] = None
        self._streets: Optional[EdgeLines] = None
        self._describe()

    @classmethod
    def from_osm(cls, path: PathText, profile: Any = "car", bbox: Optional[Extent] = None, crs: Any = None,
                 restrictions: bool = True) -> Network:
        """From an OpenStreetMap file: .osm.pbf, .osm, .osm.gz or .osm.bz2, told apart by their content.

        `profile` is `car`, `main` (main roads for cars), `bicycle` or `foot`, a fmm._osm.profiles.Profile, or a function that
        gets the tags of a way with the tag `highway` and returns whether it is open along its nodes and against them, as a
        pair, or None. `bbox` is west, south, east, north in degrees: streets with a node in it are kept up to the next
        node outside. `crs` is the projection (EPSG code, CRS or a UTM zone such as 32N), by default one that fits. Turn
        restrictions are kept unless `restrictions` is False.

        Refused with InputError: a cut or damaged file, a history file, a way or a wanted node that comes twice, ids below 1, a
        file without streets of the profile. Ways that are marked as deleted, and parts of ways whose nodes the file lacks, are
        left out, and counted and named in `report`. Memory: some 20 bytes for each node of the streets, and a temporary file
        of 16 bytes for each node of the map.
        """
        from ._osm import network
        with unchanged(path):
            return cls(*network.read(path, profile, bbox, crs, restrictions))

    @classmethod
    def from_geodataframe(cls, roads: geopandas.GeoDataFrame, **options: Any) -> Network:
        """From lines in any CRS. The options are those of fmm._layers.read: oneway, forward, backward, join, columns, crs."""
        from . import _layers
        return cls(*_layers.read(roads, **options))

    @classmethod
    def from_graph(cls, graph: Any, crs: Any = None) -> Network:
        """From a graph of networkx or OSMnx: see fmm._graphs.read."""
        from . import _graphs
        return cls(*_graphs.read(graph, crs))

    @classmethod
    def from_file(cls, path: PathText, **options: Any) -> Network:
        """From any file, told apart by its content: an OpenStreetMap file (options of from_osm), a layer that GDAL reads
        (those of from_geodataframe, and `layer`, its name), GraphML (of from_graph), or a network file (of open)."""
        from . import _map_files
        kind = _map_files.kind_of(path)
        words = _map_files.check_words(kind, options)
        if kind == "osm":
            return cls.from_osm(path, **words)
        if kind == "graph":
            return cls.from_graph(_map_files.read_graph(path), **words)
        if kind == "network":
            return cls.open(path, **words)
        with unchanged(path):
            return cls.from_geodataframe(_map_files.read_layer(path, words.pop("layer", None)), **words)

    @classmethod
    def open(cls, path: PathText, crs: Any = None) -> Network:
        """Opens a network file with its side files, if they are there. `crs` is the projection of a file without side files.

        Refused with InputError: a damaged file; with MismatchError: side files of another network, another `crs`.
        """
        refuse_pipe(path)
        table_path, side_path = side_paths(path)
        with unchanged(path):
            lines, checksum = _network_file.read_network(path), checksum_of(path)
            given = None if crs is None else Projection.of(crs)
            if not side_path.exists():
                if table_path.exists():
                    raise MismatchError(f"lies beside {table_path.name} without {side_path.name}, which ties the two", path)
                network = cls(lines, NoRecords(len(lines)), given or Projection(None), NetworkReport({"path": os.fspath(path)}))
            else:
                network = cls._with_side_files(path, lines, table_path, side_path)
            network._keep_file(path, checksum)
        if side_path.exists() and given is not None and not given.matches(network.projection):
            compare("the projection", network.projection.name, given.name, path, "the projection that was asked for")
        return network

    @classmethod
    def _with_side_files(cls, path: PathText, lines: EdgeLines, table_path: Path, side_path: Path) -> Network:
        side = read_side_file(side_path, "network")
        compare("the checksum", checksum_of(path), part(side, side_path, "network", "sha256"), path, side_path)
        compare("the checksum", checksum_of(table_path), part(side, side_path, "edges_table", "sha256"), table_path, side_path)
        crs = side.get("projection", {}).get("crs") if isinstance(side.get("projection"), dict) else None
        report = NetworkReport.from_dict(part(side, side_path, "report", kind=dict))
        report.source = part(side, side_path, "source", kind=dict)
        table, parts = read_edges(table_path, lines, links_away(side, side_path))
        lines.xy = parts.moved(lines, -1)
        return cls(lines, table, Projection(None) if crs is None else Projection.of(crs), report, parts)

    def save(self, path: PathText) -> Path:
        """Writes NETWORK.csv for the proved programs, NETWORK.edges.csv with a row for each edge, and NETWORK.json, which ties
        the two together. All three appear when they are complete. Lengths in the table are metres, speeds km/h."""
        from ._tables import write_rows
        table_path, side_path = side_paths(path)
        inputs = [self.report.source["path"]] if self.report.source.get("path") else []
        with Outputs(inputs) as outputs:
            files = outputs.open(path), outputs.open(table_path)
            _network_file.write_network(files[0], self.lines, self.parts)
            write_rows(files[1], side_table(self.table, self.lines, self.parts), os.fspath(table_path))
            for file in files:
                file.flush()
            checksums = [checksum_of(output.unfinished) for output in outputs.outputs]
            write_side_file(outputs, side_path, "network", self.evidence(*checksums))
        self._keep_file(path, checksums[0])
        return Path(path)

    def _keep_file(self, path: PathText, checksum: str) -> None:
        """Takes a file as that of the network."""
        self._path, self._checksum, self._state, self._is_saved = Path(path), checksum, state(path), True

    def check_file(self) -> None:
        """Refuses with InputError a network file that is not the one that was read or saved any more."""
        if self._state is not None and state(self.path) != self._state:
            if checksum_of(self.path) != self.checksum:
                raise InputError("was changed after it was read: open it again", self.path)
            self._state = state(self.path)

    def evidence(self, network: str, table: str) -> dict[str, Any]:
        """The content of the side file, for the checksums of the other two files."""
        return {
            "network": {"sha256": network, "edges": self.edge_count, "nodes": self.node_count, "points": self.point_count},
            "projection": {"crs": self.projection.text, "name": self.projection.name,
                           "scale_error": None if np.isnan(self.report.scale_error) else self.report.scale_error},
            "links_away": list(self.parts.away), "source": self.report.source, "edges_table": {"sha256": table},
            "report": self.report.to_dict(),
        }

    @property
    def path(self) -> Path:
        """The network file for the proved programs; in a private temporary folder until the network is saved."""
        if self._path is None:
            self._folder = tempfile.TemporaryDirectory(prefix="fmm-")
            self._path = Path(self._folder.name, "network.csv")
            with Outputs() as outputs:
                _network_file.write_network(outputs.open(self._path), self.lines, self.parts)
        return self._path

    @property
    def saved_path(self) -> Optional[Path]:
        """The network file; None while it is only in a temporary folder."""
        return self._path if self._is_saved else None

    @property
    def files(self) -> list[Path]:
        """The network file and its side files, if the network is saved."""
        return [] if self.saved_path is None else [self.saved_path, *side_paths(self.saved_path)]

    @property
    def name(self) -> str:
        """What messages call the network: its file or, until it is saved, what it was made of."""
        return os.fspath(self.saved_path or self.report.source.get("path") or "the network")

    @property
    def checksum(self) -> str:
        """The SHA-256 of the network file, in hexadecimal digits."""
        if self._checksum is None:
            self._checksum = checksum_of(self.path)
        return self._checksum

    @property
    def table(self) -> pd.DataFrame:
        """What is known of each edge, in the order of the network file."""
        if isinstance(self._table, (EdgeRecords, NoRecords)):
            self._table = self._table.frame()
        return self._table

    @table.setter
    def table(self, table: pd.DataFrame) -> None:
        self._table = table

    @property
    def names(self) -> list[str]:
        """The name of each edge, "" for none, in the order of the network file."""
        return self._table.names if isinstance(self._table, (EdgeRecords, NoRecords)) else self._table["name"].tolist()

    @property
    def edge_count(self) -> int:
        """How many directed edges the network has."""
        return len(self.lines)

    @property
    def node_count(self) -> int:
        """How many nodes its edges have."""
        return len(np.unique(np.concatenate([self.lines.from_node, self.lines.to_node])))

    @property
    def point_count(self) -> int:
        """How many points the lines of its edges have."""
        return len(self.lines.xy)

    @property
    def needs_large(self) -> bool:
        """Whether only fmm_large takes this network, by the limits of docs/FORMATS.md."""
        counts = {"edges": self.edge_count, "nodes": self.node_count, "points": self.point_count}
        return any(counts[what] > most for what, most in _network_file.LIMITS.items()) or (
            self.point_count > 1 << 22 and self.path.stat().st_size > _network_file.MOST_BYTES)

    @property
    def bounds(self) -> Optional[Extent]:
        """West, south, east, north in degrees; None if the projection is unknown."""
        if self.projection.crs is None or not len(self.lines.xy):
            return None
        from .projection import extent_of
        return extent_of(*self.projection.to_crs(self.lines.xy[:, 0], self.lines.xy[:, 1], DEGREES))

    @property
    def streets(self) -> EdgeLines:
        """The lines of the streets as they were before turn restrictions split some. Without such splits they are `lines`."""
        if self._streets is None:
            self._streets = self.parts.streets(self.lines)
        return self._streets

    @property
    def edges(self) -> geopandas.GeoDataFrame:
        """A row for each edge of the network file, with the index `edge` (int64).

        | column | type | meaning |
        |---|---|---|
        | from_node, to_node | int64 | nodes; ids above 2**63 appear as negative numbers |
        | direction | text | forward or backward, along the way |
        | way, class, name, ref | text | id, kind, name and number of the way in the source, "" for none |
        | maxspeed | float | km/h in this direction, NaN if there is none or it cannot be read |
        | oneway | bool | whether the other direction is closed |
        | length | float | metres in the projection, as the proved programs measure it |
        | street, part_from, part_to | int64, float | the edge is the part from part_from to part_to metres of this street |
        | geometry | LineString | metres, in the CRS of the projection |

        Where turn restrictions are kept, the first centimetres of some streets are edges of their own, which occur several times.
        No position is matched to them, but routes go over them. All parts of a street have the same `street`: the id of the part
        that leads to its end. Everywhere else `street` is the id of the edge. Further columns are those of the source. The frame
        is made at the first call: some 3 s for a million edges.
        """
        if self._edges is None:
            import geopandas
            import pandas as pd

            from . import _geometry
            geometry = _geometry.lines(self.lines.first, self.lines.xy / 100, self.projection.crs)
            known = pd.DataFrame({"from_node": self.lines.from_node, "to_node": self.lines.to_node})
            lengths = pd.DataFrame({"length": self.lines.lengths / 100, "street": self.parts.street,
                                    "part_from": self.parts.begin / 100, "part_to": self.parts.end / 100})
            further = [name for name in self.table if name not in COLUMNS]
            frame = pd.concat([known, self.table[list(COLUMNS)], lengths, self.table[further]], axis=1)
            frame.index = pd.Index(self.lines.ids, name="edge")
            self._edges = geopandas.GeoDataFrame(frame, geometry=geometry, crs=self.projection.crs)
        return self._edges

    def _describe(self) -> None:
        """Completes the report by what every network has."""
        report = self.report
        report.projection, report.scale_error = self.projection.name, float("nan")
        if self.projection.crs is not None and len(self.lines):
            report.scale_error = self.projection.scale_error(self.bounds)  # type: ignore[arg-type]
            if report.scale_error > 0.01:
                report.note(f"lengths are wrong by up to {100 * report.scale_error:.2g} % in {self.projection.name}; leave the "
                            "projection out, and one that fits is chosen")
        report.size = {"edges": self.edge_count, "nodes": self.node_count, "points": self.point_count}
        for what, most in _network_file.LIMITS.items():
            if report.size[what] > most:
                report.note(f"fmm takes at most {most} {what}; fmm_large takes this network")
