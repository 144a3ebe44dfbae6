"""Matches in files, and opened again."""
from __future__ import annotations

import json
import shutil
import subprocess
from pathlib import Path

import geopandas
import numpy as np
import pandas as pd
import pytest
import simulated

from fmm.errors import InputError, MismatchError, OptionError, OutputError
from fmm.matches import Matches, open_matches
from fmm.matching import match
from fmm.network import Network
from fmm.options import Options
from fmm.positions import read_positions


@pytest.fixture(scope="module")
def matches(tmp_path_factory: pytest.TempPathFactory) -> Matches:
    town, positions, _ = simulated.fleet(7)
    path = tmp_path_factory.mktemp("town") / "network.csv"
    path.write_text(town.network_text())
    network = Network.open(path, crs="32N")
    network.table = town.table()
    positions = positions[positions["vehicle"].isin(["42", "007"])].iloc[:1200].reset_index(drop=True)
    positions["FID"], positions["note"] = "x\x1b\n1", ["=1+1", None] * 600
    positions.loc[5, "x"], positions.loc[6, "x"] = np.nan, 9e5
    return match(network, read_positions(positions, id="vehicle"), options=Options.of(back=20, gap=300), crs=4326)


@pytest.fixture(scope="module")
def files(matches: Matches, tmp_path_factory: pytest.TempPathFactory) -> Path:
    """A folder with the match as result.gpkg, and as the folder tables. Tests only read it."""
    folder = tmp_path_factory.mktemp("files")
    for name in ("result.gpkg", "tables"):
        matches.to_file(folder / name)
    return folder


def same(first: geopandas.GeoDataFrame, second: geopandas.GeoDataFrame) -> None:
    """Whether the columns of a match are the same, with as many decimals as files have."""
    for name in first.columns:
        one, other = first[name], second[name if name in second else f"{name}_input"]
        if name == "geometry":
            assert np.array_equal(one.is_empty, other.is_empty)
            assert np.allclose(one.bounds, other.bounds, atol=1e-7, equal_nan=True)
        elif name not in ("FID", "note", "vehicle"):
            assert one.dtype == other.dtype, name
            if one.dtype == float:
                assert np.allclose(one, other, atol=0.006, equal_nan=True), name
            else:
                assert (one.isna() & other.isna() | (one == other).fillna(False)).all(), name


def ogrinfo(*words: object) -> str:
    return subprocess.run(["ogrinfo", *map(str, words)], check=True, stdout=subprocess.PIPE, text=True).stdout


@pytest.mark.parametrize("name", ["result.gpkg", "tables"])
def test_tables_in_files_are_the_same_tables(matches: Matches, files: Path, name: str) -> None:
    opened = open_matches(files / name)
    for table in ("points", "routes", "edges"):
        same(getattr(matches, table), getattr(opened, table))
    assert opened.text() == matches.text()
    assert opened.report.text == matches.report.text
    assert opened.options == matches.options
    assert opened.evidence["network"]["sha256"] == matches.network.checksum  # type: ignore[union-attr]
    assert len(opened.stops(15)) == len(matches.stops(15)) > 0
    assert np.allclose(opened.travel_times("hour")["seconds"], matches.travel_times("hour")["seconds"], atol=0.002)


def test_the_layers_of_a_geopackage_have_types(matches: Matches, files: Path) -> None:
    shown = ogrinfo("-so", "-al", files / "result.gpkg")
    for line in ("Layer name: points", "Layer name: routes", "Layer name: edges", "Layer name: network", "Geometry: Line String",
                 "Geometry: Point", "Feature Count: 1200", "id: String (0.0)", "entry: DateTime (0.0)", "seconds: Real (0.0)",
                 "whole: Integer(Boolean) (0.0)", "edge: Integer64 (0.0)", "maxspeed: Real (0.0)", "FID_input: String (0.0)"):
        assert line in shown, line
    longest = ogrinfo("-q", "-sql", "SELECT count(*) AS n FROM edges WHERE seconds > 60", files / "result.gpkg")
    assert f"= {int((matches.edges['seconds'] > 60).sum())}\n" in longest


def test_csv_is_text_that_people_read(matches: Matches, files: Path) -> None:
    points = pd.read_csv(files / "tables/points.csv", dtype=str, keep_default_na=False)
    assert len(points) == 1200 and points["id"][0] == "42"
    assert points["FID_input"][0] == "x\\x1b\\n1"
    assert points["time"][0].endswith("Z") and points["WKT"][0].startswith("POINT (9.4")
    assert points["reason"].tolist()[5:7] == [matches.points["reason"][5], "no edge within 100 m"]
    assert points["edge"].tolist()[5:7] == ["", ""] and points["WKT"][5] == ""


def test_gdal_takes_the_ids_of_csv_as_texts(files: Path, tmp_path: Path) -> None:
    """Also where it is asked to guess types: 007 stays 007."""
    for table, lines in {
            "points": ("id: String", "time: DateTime", "edge: Integer64", "offset: Real", "Geometry: "),
            "edges": ("id: String", "way: String", "entry: DateTime", "whole: Integer(Boolean)", "seconds: Real"),
            "network_edges": ("edge: Integer64", "way: String", "maxspeed: Real", "oneway: Integer(Boolean)")}.items():
        made = tmp_path / f"{table}.gpkg"
        subprocess.run(["ogr2ogr", "-oo", "AUTODETECT_TYPE=YES", str(made), str(files / "tables" / f"{table}.csv")], check=True)
        shown = ogrinfo("-so", "-al", made)
        for line in lines:
            assert line in shown, line
    assert set(geopandas.read_file(tmp_path / "points.gpkg")["id"]) == {"007", "42"}


def test_geojson_has_a_file_for_each_layer_in_degrees(matches: Matches, tmp_path: Path) -> None:
    matches.to_file(tmp_path / "a.b.geojson")
    assert sorted(path.name for path in tmp_path.iterdir()) == [
        "a.b.edges.geojson", "a.b.geojson.json", "a.b.network.geojson", "a.b.points.geojson", "a.b.routes.geojson"]
    assert set(json.loads((tmp_path / "a.b.geojson.json").read_text())["files"]) == {
        f"a.b.{layer}.geojson" for layer in ("points", "routes", "edges", "network")}
    for layer, count in (("points", 1200), ("routes", len(matches.routes)), ("edges", len(matches.edges)), ("network", 120)):
        shown = ogrinfo("-so", "-al", tmp_path / f"a.b.{layer}.geojson")
        assert f"Feature Count: {count}\n" in shown and 'ID["EPSG",4326]' in shown
    edges = json.loads((tmp_path / "a.b.edges.geojson").read_text())["features"]
    assert 9 < edges[0]["geometry"]["coordinates"][0][0] < 10


def test_geojson_of_one_layer(matches: Matches, tmp_path: Path) -> None:
    matches.to_file(tmp_path / "driven.geojson", layer="edges")
    assert sorted(path.name for path in tmp_path.iterdir()) == ["driven.geojson", "driven.geojson.json"]
    assert len(json.loads((tmp_path / "driven.geojson").read_text())["features"]) == len(matches.edges)
    with pytest.raises(OptionError, match="did you mean points"):
        matches.to_file(tmp_path / "a.geojson", layer="point")


def test_the_folder_has_the_network_too(matches: Matches, files: Path) -> None:
    assert sorted(path.name for path in (files / "tables").iterdir()) == [
        "edges.csv", "edges.csvt", "matches.json", "network_edges.csv", "network_edges.csvt", "points.csv", "points.csvt",
        "routes.csv", "routes.csvt"]
    table = pd.read_csv(files / "tables" / "network_edges.csv")
    network = matches.network.edges  # type: ignore[union-attr]
    assert table["edge"].tolist() == network.index.tolist() and table["name"].tolist() == network["name"].tolist()
    assert np.allclose(table["length"], network["length"]) and table["WKT"][0].startswith("LINESTRING (9.4")


def test_files_that_were_exchanged_are_noticed(matches: Matches, files: Path, tmp_path: Path) -> None:
    shutil.copytree(files / "tables", tmp_path / "out")
    text = (tmp_path / "out/edges.csv").read_text()
    (tmp_path / "out/edges.csv").write_text(text.replace("residential", "motorway", 1))
    with pytest.raises(MismatchError, match="edges.csv: does not belong to .*matches.json: the checksum"):
        open_matches(tmp_path / "out")
    with pytest.raises(InputError, match="none.gpkg: No such file"):
        open_matches(tmp_path / "none.gpkg")
    with pytest.raises(OptionError, match="give a name that ends in .gpkg"):
        matches.to_file(tmp_path / "result.xlsx")
    (tmp_path / "link.gpkg").symlink_to(tmp_path / "target")
    with pytest.raises(OutputError, match="is a symbolic link"):
        matches.to_file(tmp_path / "link.gpkg")
    assert not (tmp_path / "link.json").exists()
