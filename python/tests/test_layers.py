"""Networks from layers of lines."""
from __future__ import annotations

import warnings
from collections.abc import Callable
from pathlib import Path

import geopandas
import numpy as np
import pandas as pd
import pytest
from hypothesis import given
from hypothesis import strategies as some
from profiles import slow
from shapely import wkt
from shapely.geometry import LineString, MultiLineString, Point

from fmm import Network
from fmm.errors import InputError, OptionError

DATA = Path(__file__).parent / "data"


def layer(lines: list, crs: object = 32632, **columns: list) -> geopandas.GeoDataFrame:
    shapes = [LineString(line) if isinstance(line, list) else line for line in lines]
    return geopandas.GeoDataFrame(columns, geometry=shapes, crs=crs)


def test_the_layer_of_the_script_gives_its_network(small: Path) -> None:
    table = pd.read_csv(small / "roads.csv", dtype=str, keep_default_na=False)
    roads = geopandas.GeoDataFrame(table.drop(columns="WKT"), geometry=[wkt.loads(text) for text in table.WKT], crs=32632)
    network = Network.from_geodataframe(roads, oneway="direction", forward=["one"], backward=["against"])
    assert network.path.read_bytes() == (DATA / "roads_network.csv").read_bytes()
    lookup = pd.read_csv(DATA / "roads_lookup.csv", dtype=str, keep_default_na=False)
    edges = network.edges
    assert edges.direction.tolist() == lookup.direction.tolist() and edges.way.tolist() == lookup.record.tolist()
    assert edges.fid.tolist() == lookup.fid.tolist() and edges.label.tolist() == lookup.label.tolist()
    assert network.projection.name == "EPSG:32632 (UTM 32N)"


def test_lines_join_at_ends_and_inner_points() -> None:
    x, y = 500_000, 6_000_000
    roads = layer([[(x, y), (x + 50, y), (x + 100, y)], [(x + 50.004, y + 0.003), (x + 50, y + 80)],
                   [(x + 100, y + 3), (x + 200, y)]])
    edges = Network.from_geodataframe(roads).edges
    assert len(edges) == 8 and edges.way.tolist() == ["1"] * 4 + ["2"] * 2 + ["3"] * 2
    assert edges.from_node.iloc[4] == edges.to_node.iloc[0] and edges.from_node.iloc[6] not in set(edges.to_node.iloc[:6])
    wide = Network.from_geodataframe(roads, join=3.5).edges
    assert wide.from_node.iloc[6] == wide.to_node.iloc[2]


def test_one_way_values_and_columns() -> None:
    roads = layer([[(0, 0), (9, 0)], [(9, 0), (9, 9)], [(9, 9), (0, 0)]], None, oneway=["F", "T", "B"], osm_id=[7.0, 8.0, np.nan],
                  fclass=["primary", "x", None], maxspeed=[50, 0, 30], name=["ä", "b", "c"], length=[1, 2, 3])
    roads.geometry = roads.geometry.translate(500_000, 6_000_000)
    edges = Network.from_geodataframe(roads, oneway="oneway", forward="F", backward=["T"]).edges
    assert list(zip(edges.way, edges.direction, edges.oneway)) == [
        ("7", "forward", True), ("8", "backward", True), ("", "forward", False), ("", "backward", False)]
    assert edges["class"].tolist() == ["primary", "x", "", ""] and edges.length_input.tolist() == ["1", "2", "3", "3"]
    assert edges.maxspeed.tolist() == pytest.approx([50, np.nan, 30, 30], nan_ok=True)
    report = str(Network.from_geodataframe(roads).report)
    assert "note: all lines are open both ways; for the column oneway, give oneway, forward and backward" in report
    assert "no record has Q" in str(Network.from_geodataframe(roads, oneway="oneway", forward=["F", "Q"]).report)
    assert Network.from_geodataframe(roads, columns={"name": "fclass"}).edges.name.iloc[0] == "primary"


@slow
@given(places=some.lists(some.tuples(some.integers(0, 400), some.integers(0, 400)), min_size=2, max_size=12, unique=True))
def test_two_crs_give_the_same_roads(places: list) -> None:
    lines = [[(500_000 + a[0], 6_000_000 + a[1]), (500_000 + b[0], 6_000_000 + b[1])] for a, b in zip(places, places[1:])]
    roads = layer(lines)
    own, degrees = Network.from_geodataframe(roads), Network.from_geodataframe(roads.to_crs(4326))
    assert own.projection.matches(degrees.projection)
    assert own.lines.from_node.tolist() == degrees.lines.from_node.tolist()
    assert np.abs(own.lines.xy - degrees.lines.xy).max() <= 1
    mercator = Network.from_geodataframe(roads.to_crs(3857))
    assert mercator.projection.name == "EPSG:32632 (UTM 32N)" and np.abs(own.lines.xy - mercator.lines.xy).max() <= 1
    other = Network.from_geodataframe(roads, crs="EPSG:25832")
    assert other.projection.name.startswith("EPSG:25832") and other.edge_count == own.edge_count


def test_what_is_no_line_is_counted(tmp_path: Path) -> None:
    x, y = 500_000.0, 6_000_000.0
    shapes = [LineString([(x, y, 7), (x + 9, y, 8)]), None, Point(x, y),
              MultiLineString([[(x, y), (x, y + 5)], [(x, y), (x - 5, y)]]), LineString(), LineString([(x, y), (x, y + 0.001)])]
    network = Network.from_geodataframe(layer(shapes))
    assert network.edges.way.tolist() == ["1", "1", "4", "4", "4", "4"]
    assert "left out: 3 records: are no lines (2, 3, 5)" in str(network.report)
    assert "left out: 1 records: have no length (6)" in str(network.report)


@pytest.mark.parametrize("lines, crs, words, fault, message", [
    ([Point(1, 2)], 32632, {}, InputError, "the layer: has no lines"),
    ([[(9.1, 54.2), (9.2, 54.3)]], None, {}, InputError, "has no CRS, and its coordinates look like degrees"),
    ([[(500000, 6e6), (float("nan"), 6e6)]], 32632, {}, InputError, "record 1: a coordinate is not a finite number"),
    ([[(5e7, 6e8), (5e7, 6.1e8)]], None, {}, InputError, "record 1: 5e[+]07 6e[+]08 has no place in a plane of unknown place"),
    ([[(5e5, 6e6), (5e5, 6.1e6)]], 4326, {}, InputError, "its coordinates are no places in WGS 84; is its CRS right"),
    ([[(5e5, 6e6), (5e5, 6.1e6)]], 32632, {"oneway": "q"}, OptionError, "oneway names a column, and forward and backward the"),
    ([[(5e5, 6e6), (5e5, 6.1e6)]], 32632, {"oneway": "q", "forward": "F"}, InputError, "has no column q"),
    ([[(5e5, 6e6), (5e5, 6.1e6)]], 32632, {"columns": {"name": "q"}}, InputError, "has no column q"),
    ([[(5e5, 6e6), (5e5, 6.1e6)]], 32632, {"columns": {"nam": "q"}}, OptionError, "nam is no column of a network; did you mean"),
    ([[(5e5, 6e6), (5e5, 6.1e6)]], 32632, {"jion": 1}, OptionError, "jion is no option; did you mean join?"),
    ([[(5e5, 6e6), (5e5, 6.1e6)]], 32632, {"join": 0}, OptionError, "join is 0 m"),
    ([[(0, -5e6), (0, 5e6)]], 32632, {}, InputError, "way 1: an edge of more than 1,000 km"),
])
def test_wrong_layers_are_refused(lines: list, crs: object, words: dict, fault: type, message: str) -> None:
    with warnings.catch_warnings(), pytest.raises(fault, match=message):
        warnings.simplefilter("ignore")
        Network.from_geodataframe(layer(lines, crs), **words)


@pytest.mark.parametrize("edit, message", [
    (lambda text: text.replace(",both\n", ',"both\n', 1), "line 2: .*quote"),
    (lambda text: text.replace(",both\n", ",both,more\n", 1), "line 2: .*fields"),
    (lambda text: text[:-3], "line 7: .*line feed"),
])
def test_a_damaged_table_of_lines_is_refused(small: Path, tmp_path: Path, edit: Callable[[str], str], message: str) -> None:
    """GDAL loses records of each of them without a word."""
    path = tmp_path / "roads.csv"
    path.write_text(edit((small / "roads.csv").read_text()))
    for source in (path, tmp_path):
        with pytest.raises(InputError, match=f"^{path} {message}"):
            Network.from_file(source, crs="32N")
