"""Networks from graphs of networkx and OSMnx."""
from __future__ import annotations

from pathlib import Path
from typing import Any

import pytest
from shapely.geometry import LineString, Point

from fmm import Network
from fmm.errors import InputError

networkx = pytest.importorskip("networkx", reason="graphs, since there is no networkx")


def graph_of_osmnx() -> Any:
    """As OSMnx makes it: degrees, a list of ways on a simplified edge, geometry on curved edges only."""
    graph = networkx.MultiDiGraph(crs="epsg:4326")
    for node, x, y in ((101, 9.43, 54.31), (102, 9.431, 54.31), (103, 9.431, 54.311)):
        graph.add_node(node, x=x, y=y, street_count=3)
    curve = LineString([(9.43, 54.31), (9.4305, 54.3102), (9.431, 54.31)])
    graph.add_edge(101, 102, osmid=[7, 8], highway="residential", name=["A", "B"], maxspeed="50", oneway=False, reversed=False,
                   geometry=curve, length=70.0)
    back = LineString(curve.coords[::-1])
    graph.add_edge(102, 101, osmid=[7, 8], highway="residential", oneway=False, reversed=True, geometry=back)
    graph.add_edge(102, 103, osmid=9, ref="B 76", highway="primary", oneway=True, reversed=False, lanes=float("nan"))
    return graph


def test_a_graph_of_osmnx() -> None:
    network = Network.from_graph(graph_of_osmnx())
    edges = network.edges
    assert edges[["from_node", "to_node"]].values.tolist() == [[101, 102], [102, 101], [102, 103]]
    assert edges.way.tolist() == ["7; 8", "7; 8", "9"] and edges.ref.tolist() == ["", "", "B 76"]
    assert edges.name.tolist() == ["A; B", "", ""] and edges.oneway.tolist() == [False, False, True]
    assert edges.direction.tolist() == ["forward", "backward", "forward"] and edges.maxspeed.tolist()[0] == 50
    assert [len(line.coords) for line in edges.geometry] == [3, 3, 2] and edges.length_input.tolist() == ["70.0", "", ""]
    assert network.projection.name == "EPSG:32632 (UTM 32N)" and edges.lanes.tolist() == ["", "", ""]


def test_the_projection_of_a_graph_is_kept() -> None:
    graph = networkx.MultiDiGraph(crs="EPSG:25832")
    graph.add_node(1, x=527976.39, y=6018098.57)
    graph.add_node(2, x=528000.0, y=6018098.57)
    graph.add_edge(1, 2)
    network = Network.from_graph(graph)
    assert network.projection.name.startswith("EPSG:25832")
    assert network.lines.xy.tolist() == [[52797639, 601809857], [52800000, 601809857]]


def test_an_undirected_graph_is_open_both_ways_and_keys_are_kept(tmp_path: Path) -> None:
    graph = networkx.Graph(crs="EPSG:32632")
    graph.add_node("a", x=500000.0, y=6000000.0)
    graph.add_node("b", x=500100.0, y=6000000.0)
    graph.add_edge("a", "b", geometry=LineString([(500100, 6000000), (500050, 6000010), (500000, 6000000)]), edge=5)
    network = Network.from_graph(graph)
    edges = network.edges
    assert edges[["from_node", "to_node", "direction"]].values.tolist() == [[1, 2, "forward"], [2, 1, "backward"]]
    assert edges.geometry.iloc[0].coords[0] == (500000, 6000000) and edges.from_key.tolist() == ["a", "a"]
    assert edges.edge_input.tolist() == ["5", "5"]
    assert Network.open(network.save(tmp_path / "n.csv")).table.equals(network.table)


def change_last(**about: Any) -> Any:
    return lambda graph: graph.edges[102, 103, 0].update(about)


@pytest.mark.parametrize("change, message", [
    (lambda graph: graph.nodes[101].pop("x"), "the graph: node 101 has no x and y"),
    (lambda graph: graph.nodes[101].update(y=float("nan")), "node 101: x and y are not finite numbers"),
    (lambda graph: graph.remove_edges_from(list(graph.edges)), "has no edges"),
    (lambda graph: graph.graph.update(crs="nonsense"), "its crs is unknown: nonsense"),
    (change_last(geometry=Point(1, 2)), "the edge from 102 to 103: its geometry is no LineString"),
    (change_last(geometry=LineString([(9, 54), (9, 54.001)])), "does not lead from one to the other"),
    (change_last(geometry=LineString([(9, 54), (float("inf"), 54)])), "a coordinate is not a finite number"),
])
def test_wrong_graphs_are_refused(change: Any, message: str) -> None:
    graph = graph_of_osmnx()
    change(graph)
    with pytest.raises(InputError, match=message):
        Network.from_graph(graph)


def test_metres_without_a_crs_are_refused() -> None:
    graph = networkx.DiGraph()
    graph.add_node(1, x=5e5, y=6e6)
    graph.add_node(2, x=5e5, y=6.1e6)
    graph.add_edge(1, 2)
    with pytest.raises(InputError, match='has no crs, and its places are no degrees: set graph.graph."crs"'):
        Network.from_graph(graph)


def test_what_is_no_graph_is_refused() -> None:
    with pytest.raises(InputError, match="is no graph of networkx but dict"):
        Network.from_graph({})
