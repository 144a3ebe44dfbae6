"""Saving and opening networks."""
from __future__ import annotations

import json
import os
import subprocess
import sys
from pathlib import Path

import numpy as np
import pytest
from hypothesis import HealthCheck, example, given, settings
from hypothesis import strategies as some
from osm_maps import grid, osm_text, street, write

from fmm import Network
from fmm._lines import EdgeLines, whole_root
from fmm._network_file import network_of_records, plain_network
from fmm.errors import InputError, MismatchError, OptionError

HEADER = "edge,from,to,line\n"
COORDINATE = some.integers(-10**9, 10**9)


@pytest.fixture
def network(tmp_path: Path) -> Network:
    nodes, ways = grid(3)
    ways = {way: street(refs, name=f"Straße, {way}", ref="B 7") for way, (refs, _) in ways.items()}
    return Network.from_osm(write(tmp_path, osm_text(nodes, ways)))


def test_a_saved_network_comes_back(network: Network, tmp_path: Path, top: Path) -> None:
    path = network.save(tmp_path / "n.csv")
    again = Network.open(path)
    assert again.edges.drop(columns="geometry").equals(network.edges.drop(columns="geometry"))
    assert again.edges.geometry.geom_equals(network.edges.geometry).all() and again.edges.crs == network.edges.crs
    assert (again.checksum, again.projection.name) == (network.checksum, network.projection.name)
    assert again.report.source["sha256"] and str(again.report) == str(network.report)
    (tmp_path / "traces.csv").write_text("trace,x,y\n")
    assert subprocess.run([top / "fmm", "match", path, tmp_path / "traces.csv"], capture_output=True).returncode == 0


def test_files_that_do_not_belong_together_are_refused(network: Network, tmp_path: Path) -> None:
    path = network.save(tmp_path / "n.csv")
    text = path.read_text()
    path.write_text(text.replace("0;", "1;", 1))
    with pytest.raises(MismatchError, match="n.csv: does not belong to .*n.json: the checksum is .* here, .* there"):
        Network.open(path)
    path.write_text(text)
    (tmp_path / "n.edges.csv").write_text((tmp_path / "n.edges.csv").read_text().replace("B 7", "B 8", 1))
    with pytest.raises(MismatchError, match="n.edges.csv: does not belong to .*n.json"):
        Network.open(path)
    network.save(path)
    with pytest.raises(MismatchError, match=r"projection is EPSG:32632 \(UTM 32N\) here, EPSG:32633 \(UTM 33N\) there"):
        Network.open(path, crs="33N")
    assert Network.open(path, crs="EPSG:32632").edge_count == network.edge_count
    (tmp_path / "n.edges.csv").unlink()
    with pytest.raises(InputError, match="n.edges.csv: No such file or directory"):
        Network.open(path)


@pytest.mark.parametrize("change", [
    {"kind": "match"}, {"network": 7}, {"links_away": [1]}, {"links_away": ["1", 2]}, {"report": None}, {"edges_table": {}},
    {"source": []},
])
def test_damaged_side_files_are_refused(network: Network, tmp_path: Path, change: dict) -> None:
    path = network.save(tmp_path / "n.csv")
    side = tmp_path / "n.json"
    side.write_text(json.dumps({**json.loads(side.read_text()), **change}))
    with pytest.raises(InputError, match=f"^{side}: is (damaged|the side file of)"):
        Network.open(path)


def test_a_network_file_alone(top: Path, tmp_path: Path) -> None:
    network = Network.open(top / "examples" / "network.csv")
    assert network.projection.crs is None and network.edges.crs is None and network.edges.way.iloc[0] == ""
    assert "a plane of unknown place" in str(network.report)
    assert network.save(tmp_path / "n.csv").read_bytes() == (top / "examples" / "network.csv").read_bytes()
    assert Network.open(tmp_path / "n.csv").projection.crs is None
    assert Network.open(top / "examples" / "network.csv", crs="32N").edges.crs.to_epsg() == 32632
    with pytest.raises(OptionError, match="no known projection"):
        network.projection.to_crs(np.array([1]), np.array([1]), 4326)


@pytest.mark.parametrize("text, message", [
    ("edge,from,line,to\n1,1,2,0 0;9 9\n", "is no network file: its header is edge,from,line,to, not edge,from,to,line"),
    (HEADER, "has no edges"),
    (HEADER + "1,1,2,0 0\n", "line 2 column line: 0 0 is not a line of two or more points"),
    (HEADER + "1,1,2,0 0;9\n", "line 2 column line: 0 0;9 is not a line"),
    (HEADER + "1,1,2,0 0;9 x\n", "is not a line of two or more points in whole centimetres"),
    (HEADER + "1,1,2,0 0;9.5 1\n", "is not a line"),
    (HEADER + "1,1,2,0 0;1 0;1 0\n", "line 2 column line: 0 0;1 0;1 0 has a point that equals the one before it"),
    (HEADER + "1,1,2,0 0;2000000000 0\n", "has a coordinate beyond 1,000,000,000 cm"),
    (HEADER + "1,1,2,0 0;200000000 0\n", "is longer than 1,000 km"),
    (HEADER + "1,1,2,0 0;9 0\n1,1,2,0 0;9 0\n", "line 3 column edge: 1 comes a second time"),
    (HEADER + "-1,1,2,0 0;9 0\n", "line 2 column edge: -1 is not a whole number from 0 to 4294967295"),
    (HEADER + "4294967296,1,2,0 0;9 0\n", "column edge: 4294967296 is not a whole number"),
    (HEADER + "1,1,18446744073709551616,0 0;9 0\n", "column to: 18446744073709551616 is not a whole number"),
    (HEADER + "1,1,2,0 0;9 0", "line 2: the last line does not end with a line feed, so the file may be cut"),
])
def test_wrong_network_files_are_refused(tmp_path: Path, text: str, message: str) -> None:
    path = tmp_path / "n.csv"
    path.write_text(text)
    with pytest.raises(InputError, match=f"^{path}:? .*{message}|^{path}: {message}"):
        Network.open(path)


def test_what_the_program_allows_is_read(tmp_path: Path) -> None:
    path = tmp_path / "n.csv"
    path.write_text('edge, from,to,line\r\n 7 ,18446744073709551615,"2", 0 0 ;\t-3 4;-3  10 \r\n\r\n')
    lines = Network.open(path).lines
    assert lines.xy.tolist() == [[0, 0], [-3, 4], [-3, 10]] and lines.so_far.tolist() == [0, 5, 11] and lines.ids.tolist() == [7]
    assert lines.from_node.view(np.uint64).tolist() == [2**64 - 1]
    assert "\n7,18446744073709551615,2,0 0;-3 4;-3 10\n" in Network.open(path).save(tmp_path / "m.csv").read_text()


def lists(lines: EdgeLines) -> list:
    """The edges as plain lists."""
    return [part.tolist() for part in (lines.ids, lines.first, lines.xy, lines.from_node, lines.to_node)]


@given(some.text("07,;- \n", max_size=24))
@example("7,0,0,0 -0;-7 0\n")
@example("7,0,-0,-7 0;0 0\n")
@example("7,-0,0,-0 0;7 0\n")
@example("-0,0,0,-0 0;7 0\n")
@example("7,7,7,7-7 ;7 7\n")
@example("7,,7,7 7-7;0 0\n")
@example("7,0,0,- 0;0 0\n")
@settings(suppress_health_check=[HealthCheck.too_slow])
def test_plain_networks_are_read_as_all_others(tmp_path_factory: pytest.TempPathFactory, text: str) -> None:
    path = tmp_path_factory.getbasetemp() / "plain.csv"
    path.write_text(HEADER + text)
    found = plain_network(path.read_bytes())
    if found is not None:
        assert lists(found) == lists(network_of_records(path))


LINE = some.lists(some.tuples(COORDINATE, COORDINATE), min_size=2, max_size=4)


@given(some.lists(some.tuples(some.integers(0, 2**63 - 2), LINE), min_size=1, max_size=5))
def test_networks_of_numbers_are_plain(tmp_path_factory: pytest.TempPathFactory, edges: list) -> None:
    path = tmp_path_factory.getbasetemp() / "plain.csv"
    path.write_text(HEADER + "".join(
        f"{edge},{node},{node // 2},{';'.join(f'{x} {y}' for x, y in points)}\n" for edge, (node, points) in enumerate(edges)))
    try:
        wanted = lists(network_of_records(path))
    except InputError:
        assert plain_network(path.read_bytes()) is None
        return
    found = plain_network(path.read_bytes())
    assert found is not None and lists(found) == wanted


def test_a_network_is_read_without_pandas(network: Network, tmp_path: Path, top: Path) -> None:
    path = network.save(tmp_path / "n.csv")
    text = f"""import sys; from fmm.network import Network
network = Network.open({str(path)!r})
assert network.names == {network.names!r} and not {{"pandas", "geopandas", "shapely"}} & set(sys.modules)
assert network.table["name"].tolist() == network.names"""
    subprocess.run([sys.executable, "-c", text], env={**os.environ, "PYTHONPATH": str(top / "python" / "src")}, check=True)


@given(some.lists(some.integers(0, 2**62), min_size=1))
def test_roots_are_whole_parts(numbers: list[int]) -> None:
    for square, root in zip(numbers, whole_root(np.array(numbers)).tolist()):
        assert root * root <= square < (root + 1) ** 2


@given(some.lists(some.lists(some.tuples(COORDINATE, COORDINATE), min_size=2, max_size=5, unique=True), min_size=1, max_size=5))
def test_edge_lines(lines: list) -> None:
    first = np.cumsum([0, *map(len, lines)])
    ids = np.arange(len(lines))[::-1] * 3
    made = EdgeLines(ids, first, np.array([p for line in lines for p in line]), ids, ids + 1)
    for i, line in enumerate(lines):
        steps = [((a[0] - b[0]) ** 2 + (a[1] - b[1]) ** 2) for a, b in zip(line, line[1:])]
        so_far = np.cumsum([0, *(whole_root(np.array([step]))[0] for step in steps)])
        assert made.so_far[first[i]:first[i + 1]].tolist() == so_far.tolist()
    assert made.position_of(np.array([*ids, -1, 1, 10**6])).tolist() == [*range(len(lines)), -1, -1, -1]
    assert made.take(np.array([len(lines) - 1])).xy.tolist() == [list(p) for p in lines[-1]]
