"""The command that makes a network file, and networks from files of any kind."""
from __future__ import annotations

import re
import subprocess
from pathlib import Path

import geopandas
import pytest
from osm_maps import grid, osm_text, write
from shapely.geometry import LineString

from fmm import Network, commands
from fmm.errors import InputError, OptionError

DATA = Path(__file__).parent / "data"
X, Y = 500_000.0, 6_000_000.0


def run(*words: object) -> int:
    """Runs the command within this process."""
    return commands.main(["network", *map(str, words)])


def roads() -> geopandas.GeoDataFrame:
    lines = [LineString([(X, Y), (X + 90, Y)]), LineString([(X + 90, Y), (X + 90, Y + 80)])]
    return geopandas.GeoDataFrame({"dir": ["F", "B"], "label": ["a", "b"]}, geometry=lines, crs=32632)


def test_a_map_becomes_three_files_that_belong_together(top: Path, small: Path, tmp_path: Path) -> None:
    words = [str(top / "fmm"), "network", str(small / "village.osm"), "--into", str(tmp_path / "n.csv")]
    done = subprocess.run(words, capture_output=True, text=True)
    assert (done.returncode, done.stdout) == (0, "")
    assert sorted(path.name for path in tmp_path.iterdir()) == ["n.csv", "n.edges.csv", "n.json"]
    assert "projection: EPSG:32632 (UTM 32N), lengths are wrong by at most 0.039 %" in done.stderr
    assert "network: 26 edges, 14 nodes, 63 points" in done.stderr and "left out: 1 nodes" in done.stderr
    network = Network.open(tmp_path / "n.csv")
    assert network.edges.name.iloc[0] == "Lange Straße"
    assert network.path.read_bytes() == (DATA / "village_network.csv").read_bytes()


def test_options_of_maps(small: Path, tmp_path: Path, capsys: pytest.CaptureFixture[str]) -> None:
    assert run(small / "village.osm", "--into", tmp_path / "n.csv", "--profile", "main", "--crs", "33N", "--no-restrictions") == 0
    assert (tmp_path / "n.csv").read_bytes() == (DATA / "village_main_network.csv").read_bytes()
    assert "EPSG:32633 (UTM 33N)" in capsys.readouterr().err
    assert run(small / "village.osm", "--into", tmp_path / "n.csv", "--bbox", "9.42,54.309,9.431,54.4", "--profile", "foot") == 0
    assert 0 < Network.open(tmp_path / "n.csv").edge_count < 26


def test_layers_of_several_formats_give_the_same_network(tmp_path: Path) -> None:
    frame = roads()
    frame.to_file(tmp_path / "r.gpkg", layer="streets", driver="GPKG")
    frame.to_file(tmp_path / "r.shp")
    frame.to_crs(4326).to_file(tmp_path / "r.geojson", driver="GeoJSON")
    texts = []
    for name in ("r.gpkg", "r.shp", "r.geojson"):
        assert run(tmp_path / name, "--into", tmp_path / "n.csv", "--oneway", "dir", "--forward", "F", "--backward", "B,T",
                   "--columns", "name=label") == 0
        texts.append((tmp_path / "n.csv").read_text())
    assert len(set(texts)) == 1 and texts[0].count("\n") == 3
    assert Network.open(tmp_path / "n.csv").edges.name.tolist() == ["a", "b"]


def test_a_graph_and_a_network_file(tmp_path: Path) -> None:
    networkx = pytest.importorskip("networkx", reason="graphs, since there is no networkx")
    graph = networkx.MultiDiGraph(crs="EPSG:32632")
    graph.add_node(5, x=str(X), y=str(Y))
    graph.add_node(6, x=X + 90, y=Y)
    graph.add_edge(5, 6, geometry=f"LINESTRING ({X} {Y}, {X + 9} {Y + 9}, {X + 90} {Y})", oneway="True", osmid="7")
    networkx.write_graphml(graph, tmp_path / "g.graphml")
    network = Network.from_file(tmp_path / "g.graphml")
    assert network.edges[["from_node", "to_node", "way", "oneway"]].values.tolist() == [[5, 6, "7", True]]
    assert len(network.edges.geometry.iloc[0].coords) == 3
    assert Network.from_file(network.save(tmp_path / "n.csv")).checksum == network.checksum


def test_a_file_with_several_layers(tmp_path: Path) -> None:
    for name in ("a", "b"):
        roads().to_file(tmp_path / "r.gpkg", layer=name, driver="GPKG")
    with pytest.raises(InputError, match="r.gpkg: has the layers a, b: name one"):
        Network.from_file(tmp_path / "r.gpkg")
    with pytest.raises(InputError, match="has no layer c, but a, b"):
        Network.from_file(tmp_path / "r.gpkg", layer="c")
    assert Network.from_file(tmp_path / "r.gpkg", layer="b").edge_count == 4


def test_options_of_another_kind_are_refused(small: Path, tmp_path: Path) -> None:
    with pytest.raises(OptionError, match="join is no option for an OpenStreetMap file"):
        Network.from_file(small / "village.osm", join=1)
    roads().to_file(tmp_path / "r.gpkg", driver="GPKG")
    with pytest.raises(OptionError, match="profile is no option for a layer"):
        Network.from_file(tmp_path / "r.gpkg", profile="car")
    with pytest.raises(OptionError, match="profil is no option; did you mean profile?"):
        Network.from_file(tmp_path / "r.gpkg", profil="car")


@pytest.mark.parametrize("words, status, message", [
    (["no.osm", "--into", "none.csv"], 1, "fmm network: no.osm: No such file or directory"),
    (["monday.gpx", "--into", "none.csv"], 1, "fmm network: monday.gpx: has the layers"),
    (["fleet.csv", "--into", "none.csv"], 1, "fmm network: fleet.csv: "),
    (["empty", "--into", "none.csv"], 1, "fmm network: empty: is empty"),
    (["village.osm"], 2, "fmm network: the following arguments are required: --into"),
    (["village.osm", "--into", "none.csv", "--profile", "cars"], 2, "fmm network: argument --profile: invalid choice"),
    (["village.osm", "--into", "none.csv", "--bbox", "1,2"], 2, "fmm network: argument --bbox: 1,2 is not west,south,east,north"),
    (["village.osm", "--into", "none.csv", "--crs", "61N"], 2, "fmm network: 61 is no UTM zone"),
    (["village.osm", "--into", "none.csv", "--crs", "12N"], 1, "fmm network: village.osm: node 1 at .* has no place in EPSG"),
    (["village.osm", "--into", "none.csv", "--raduis", "1"], 2, "fmm network: --raduis is no option"),
    (["village.osm", "--into", "no/none.csv"], 1, "fmm network: no/none.csv: No such file or directory"),
    (["village.osm", "--into", "village.osm"], 1, "fmm network: village.osm: is an input of the same call"),
    (["village.osm", "--into", "/dev/full"], 1, "fmm network: /dev/full"),
])
def test_wrong_calls_take_one_line_and_leave_nothing(small: Path, tmp_path: Path, words: list, status: int, message: str,
                                                     monkeypatch: pytest.MonkeyPatch, capsys: pytest.CaptureFixture[str]) -> None:
    monkeypatch.chdir(tmp_path)
    for name in ("village.osm", "monday.gpx", "fleet.csv"):
        (tmp_path / name).write_bytes((small / name).read_bytes())
    (tmp_path / "empty").touch()
    before = sorted(tmp_path.iterdir())
    assert run(*words) == status
    shown = capsys.readouterr()
    assert shown.out == "" and shown.err.count("\n") == 1 and re.match(message, shown.err)
    assert sorted(tmp_path.iterdir()) == before


def test_a_large_network_is_named(tmp_path: Path, monkeypatch: pytest.MonkeyPatch) -> None:
    from fmm import _network_file
    monkeypatch.setitem(_network_file.LIMITS, "edges", 10)
    network = Network.from_osm(write(tmp_path, osm_text(*grid(3))))
    assert network.needs_large and "note: fmm takes at most 10 edges; fmm_large takes this network" in str(network.report)
