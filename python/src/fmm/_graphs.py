"""Networks from graphs of networkx and OSMnx."""
from __future__ import annotations

from typing import Any, Iterator, Optional

import numpy as np
import pandas as pd
import pyproj

from ._layers import RESERVED
from ._lines import EdgeLines
from ._network_report import NetworkReport
from ._osm.profiles import speed_of
from ._ragged import offsets_of
from ._streets import Streets, edges_of
from .errors import InputError, shown
from .projection import DEGREES, NOWHERE, Projection, extent_of

NAMES = {"way": "osmid", "class": "highway", "name": "name", "ref": "ref"}
USED = frozenset({*NAMES.values(), "maxspeed", "geometry", "oneway", "reversed"})
GREATEST = 2**63 - 1


def read(graph: Any, crs: Any = None) -> tuple[EdgeLines, pd.DataFrame, Projection, NetworkReport]:
    """The edges of a graph. Each edge of a directed graph becomes one edge, each of an undirected graph two.

    Nodes need `x` and `y`: degrees, or in `graph.graph["crs"]`. Edges may have `geometry` (LineString), `osmid`, `highway`,
    `name`, `ref`, `maxspeed` and `reversed`, as OSMnx has them; lists become texts with `; ` between. Further values are kept
    as text. Whole numbers as nodes keep their numbers in from_node and to_node; other nodes are numbered from 1 in the order of
    the graph, and `from_key` and `to_key` have their text. `crs` is the projection of the network, by default that of the graph
    if it is in metres and fits, else one that fits.

    Refused with InputError: nodes without finite x and y, a graph without edges, a geometry that does not lead from one node
    of its edge to the other.
    """
    directed, name = bool(getattr(graph, "is_directed", lambda: False)()), "the graph"
    if not hasattr(graph, "edges") or not hasattr(graph, "nodes"):
        raise InputError(f"is no graph of networkx but {type(graph).__name__}", name)
    places = places_of(graph, name)
    numbers, kept = numbers_of(graph)
    edges = list(edges_with_data(graph))
    if not edges:
        raise InputError("has no edges", name)
    lines = [line_of(u, v, about, places, name) for u, v, about in edges]
    first = offsets_of(np.array([len(line) for line in lines], np.int64))
    xy = np.concatenate(lines)
    source = source_crs(graph, xy, name)
    projection = Projection.of(crs) if crs is not None else fitting(source, xy)
    x, y = projection.to_centimetres(xy[:, 0], xy[:, 1], source)
    if (x == NOWHERE).any():
        u, v, _ = edges[int(np.searchsorted(first, int((x == NOWHERE).argmax()), "right")) - 1]
        raise InputError(f"the edge from {shown(u)} to {shown(v)} has no place in {projection.name}", name)
    report = NetworkReport(source={"path": None, "graph": type(graph).__name__})
    table = table_of(edges, kept, report)
    begin, end = (np.array([numbers[edge[side]] for edge in edges], np.int64) for side in (0, 1))
    both = np.full(len(edges), not directed)
    found, table = edges_of(Streets(begin, end, first, np.column_stack([x, y]), np.ones(len(edges), bool), both, table), name)
    if directed:
        table["direction"] = np.where([bool(about.get("reversed") is True) for _, _, about in edges], "backward", "forward")
        table["oneway"] = [bool(about.get("oneway") is True) for _, _, about in edges]
    return found, table, projection, report


def edges_with_data(graph: Any) -> Iterator[tuple[Any, Any, dict[str, Any]]]:
    for u, v, about in graph.edges(data=True):
        yield u, v, about


def places_of(graph: Any, name: str) -> dict[Any, np.ndarray]:
    places = {}
    for node, about in graph.nodes(data=True):
        try:
            place = np.array([float(about["x"]), float(about["y"])])
        except (KeyError, TypeError, ValueError):
            raise InputError(f"node {shown(node)} has no x and y", name) from None
        if not np.isfinite(place).all():
            raise InputError(f"node {shown(node)}: x and y are not finite numbers", name)
        places[node] = place
    return places


def numbers_of(graph: Any) -> tuple[dict[Any, int], bool]:
    """The number of each node, and whether it is the node itself."""
    kept = all(isinstance(node, (int, np.integer)) and 0 <= node <= GREATEST for node in graph.nodes)
    return {node: int(node) if kept else number for number, node in enumerate(graph.nodes, 1)}, kept


def line_of(u: Any, v: Any, about: dict[str, Any], places: dict[Any, np.ndarray], name: str) -> np.ndarray:
    """The points of an edge from u to v."""
    shape = about.get("geometry")
    if shape is None:
        return np.array([places[u], places[v]])
    if getattr(shape, "geom_type", "") != "LineString" or len(shape.coords) < 2:
        raise InputError(f"the edge from {shown(u)} to {shown(v)}: its geometry is no LineString", name)
    points = np.asarray(shape.coords, np.float64)[:, :2]
    if not np.isfinite(points).all():
        raise InputError(f"the edge from {shown(u)} to {shown(v)}: a coordinate is not a finite number", name)
    along = np.abs(points[0] - places[u]).sum() + np.abs(points[-1] - places[v]).sum()
    against = np.abs(points[0] - places[v]).sum() + np.abs(points[-1] - places[u]).sum()
    points = points[::-1] if against < along else points
    size = max(float(np.abs(np.diff(points, axis=0)).sum()), float(np.abs(places[u] - places[v]).sum()))
    if min(along, against) > 0.5 * size + 1e-9:
        raise InputError(f"the edge from {shown(u)} to {shown(v)}: its geometry does not lead from one to the other", name)
    return points


def source_crs(graph: Any, xy: np.ndarray, name: str) -> pyproj.CRS:
    crs = getattr(graph, "graph", {}).get("crs")
    if crs is not None:
        try:
            return pyproj.CRS.from_user_input(crs)
        except pyproj.exceptions.CRSError:
            raise InputError(f"its crs is unknown: {shown(crs)}", name) from None
    if np.abs(xy[:, 0]).max() <= 180 and np.abs(xy[:, 1]).max() <= 90:
        return DEGREES
    raise InputError('has no crs, and its places are no degrees: set graph.graph["crs"]', name)


def fitting(source: pyproj.CRS, xy: np.ndarray) -> Projection:
    x, y = pyproj.Transformer.from_crs(source, DEGREES, always_xy=True).transform(xy[:, 0], xy[:, 1])
    return Projection.own_or_fitting(source, extent_of(x, y))


def table_of(edges: list[tuple[Any, Any, dict[str, Any]]], kept: bool, report: NetworkReport) -> pd.DataFrame:
    table = pd.DataFrame({name: [text_of(about.get(key)) for _, _, about in edges] for name, key in NAMES.items()}, dtype=object)
    limits = [text_of(about.get("maxspeed")) for _, _, about in edges]
    speeds: list[Optional[float]] = [speed_of(limit) for limit in limits]
    report.leave_out("speeds", "maxspeed cannot be read", [limit for limit, speed in zip(limits, speeds) if speed is None])
    table["maxspeed"] = [float("nan") if speed is None else speed for speed in speeds]
    if not kept:
        table["from_key"], table["to_key"] = [text_of(u) for u, _, _ in edges], [text_of(v) for _, v, _ in edges]
    further = dict.fromkeys(str(key) for _, _, about in edges for key in about if key not in USED)
    for key in further:
        table[f"{key}_input" if key in RESERVED else key] = [text_of(about.get(key)) for _, _, about in edges]
    return table


def text_of(value: Any) -> str:
    """The text of an attribute; parts of a list are separated by `; `."""
    if value is None or isinstance(value, float) and np.isnan(value):
        return ""
    if isinstance(value, (list, tuple, set)):
        return "; ".join(text_of(part) for part in value)
    return str(value)
