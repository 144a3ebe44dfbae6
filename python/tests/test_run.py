"""`fmm run`: from a map and tracks to all results, and what it says of wrong inputs."""
from __future__ import annotations

import csv
import dataclasses
import json
import os
import re
import shutil
import subprocess
import sys
from pathlib import Path

import geopandas
import pandas as pd
import pytest

import fmm
from fmm import _picture, commands

TOP = Path(__file__).resolve().parents[2]
SMALL = TOP / "recipes" / "small"
FRONT = [str(TOP / "fmm"), "run"]
TABLES = ["distances", "edges", "network_edges", "points", "routes", "stops", "travel_times"]
FILES = sorted([f"{name}.{end}" for name in TABLES for end in ("csv", "csvt")] + [
    "map.html", "matches.json", "picture.png", "report.txt", "result.gpkg", "result.json"])


def fill(folder: Path) -> None:
    for name in ("village.osm", "monday.gpx", "walk.gpx", "fleet.csv", "roads.csv"):
        shutil.copy(SMALL / name, folder)


@pytest.fixture
def place(tmp_path: Path, monkeypatch: pytest.MonkeyPatch) -> Path:
    """A folder with the small map and tracks, in which the test runs."""
    fill(tmp_path)
    monkeypatch.chdir(tmp_path)
    return tmp_path


@pytest.fixture(scope="module")
def made(tmp_path_factory: pytest.TempPathFactory) -> tuple[Path, str]:
    """The results of `fmm run village.osm monday.gpx`, as ./fmm makes them in a process of its own, and what it says."""
    folder = tmp_path_factory.mktemp("made")
    fill(folder)
    done = subprocess.run([*FRONT, "village.osm", "monday.gpx", "--into", "out"], cwd=folder, capture_output=True, text=True,
                          env={**os.environ, "FMM_PYTHON": sys.executable})
    assert (done.returncode, done.stderr) == (0, "")
    return folder / "out", done.stdout


@pytest.fixture
def done(place: Path, made: tuple[Path, str]) -> str:
    """The same results are in the folder in which the test runs. Gives what the command said."""
    shutil.copytree(made[0], "out")
    return made[1]


def run(*words: str) -> int:
    return commands.main(["run", *words, "--into", "out"])


def rows(name: str) -> list[dict[str, str]]:
    with open(Path("out", name), newline="") as file:
        return list(csv.DictReader(file))


def test_results(done: str) -> None:
    assert sorted(os.listdir("out")) == FILES
    report = Path("out/report.txt").read_text()
    assert report == done
    assert report.startswith("positions: 33, with an edge: 33 (100.0 %)\n")
    assert "option back: " in report and "projection: EPSG:32632" in report and "left out: 1 nodes" in report
    points = rows("points.csv")
    assert len(points) == 33 and points[0]["name"] == "Lange Straße" and points[0]["time"] == "2024-05-06T08:00:00Z"
    assert {row["id"] for row in points} == {"monday"}
    driven = [float(row["metres"]) for row in rows("edges.csv")]
    assert [float(row["metres"]) for row in rows("distances.csv")] == [pytest.approx(sum(driven), abs=0.1)]
    assert all(float(row["seconds"]) > 0 for row in rows("travel_times.csv"))
    assert "Lange Straße" in Path("out/map.html").read_text()
    assert all(float(row["margin"] or "inf") > 0 for row in points)
    assert Path("out/picture.png").read_bytes().startswith(b"\x89PNG")
    assert json.loads(Path("out/result.json").read_text())["kind"] == "matches"


def test_layers(done: str) -> None:
    """The GeoPackage has typed layers, as GDAL itself reads them."""
    names = ("points", "routes", "edges", "network", "stops")
    layers = {name: geopandas.read_file("out/result.gpkg", layer=name) for name in names}
    assert [len(layers[name]) for name in ("points", "routes", "network")] == [33, 2, 26]
    assert len(layers["stops"]) == len(rows("stops.csv"))
    assert layers["edges"]["seconds"].dtype == float and layers["edges"].crs == 4326
    if not shutil.which("ogrinfo"):
        pytest.skip("the layers as ogrinfo reads them, since there is no ogrinfo")
    said = subprocess.run(["ogrinfo", "-so", "out/result.gpkg", "edges"], capture_output=True, text=True, check=True).stdout
    assert "entry: DateTime" in said and "seconds: Real" in said and "whole: Integer(Boolean)" in said


EMPTY = pytest.mark.filterwarnings("error:You are attempting to write an empty DataFrame")


@EMPTY
def test_pbf(place: Path) -> None:
    if not shutil.which("osmium"):
        pytest.skip("maps in PBF, since there is no osmium")
    subprocess.run(["osmium", "cat", "village.osm", "-o", "map.osm.pbf"], check=True, capture_output=True)
    assert run("map.osm.pbf", "monday.gpx") == 0
    assert len(rows("points.csv")) == 33


def test_several_files_and_options(place: Path, capsys: pytest.CaptureFixture[str]) -> None:
    assert run("village.osm", "monday.gpx", "walk.gpx", "--profile", "foot", "--back", "35", "--gap", "none", "--bbox", "all",
               "--result-crs", "EPSG:25832") == 0
    report = capsys.readouterr().out
    assert "option back: 35: as asked for\n" in report and "option gap: none: as asked for\n" in report
    assert "--bbox" not in report
    assert {row["id"] for row in rows("points.csv")} == {"monday", "walk"}
    assert geopandas.read_file("out/result.gpkg", layer="edges").crs == 25832


def test_columns_of_a_table(place: Path) -> None:
    words = ["village.osm", "fleet.csv", "--id", "plate", "--x", "lon", "--y", "lat", "--time", "when"]
    assert run(*words) == 0
    points = rows("points.csv")
    with open("fleet.csv", newline="") as file:
        given = list(csv.DictReader(file))
    assert [row["id"] for row in points] == [row["plate"] for row in given]
    assert [row["speed"] for row in points] == [row["speed"] for row in given]


def test_local_times(place: Path, capsys: pytest.CaptureFixture[str]) -> None:
    """A logger's table: a date and a time of day apart, in local time. Hours and days are of the same zone."""
    with open("fleet.csv", newline="") as file:
        given = list(csv.DictReader(file))[:10]
    Path("box.csv").write_text("Kennzeichen;Längengrad;Breitengrad;Datum;Uhrzeit\n" + "".join(
        f"{row['plate']};{row['lon']};{row['lat']};06.05.2024;00:00:{5 * at:02}\n" for at, row in enumerate(given)))
    assert run("village.osm", "box.csv", "--timezone", "Europe/Zurich") == 0
    report = capsys.readouterr().out
    assert "warning" not in report and "time from Datum and Uhrzeit" in report
    assert rows("points.csv")[0]["time"] == "2024-05-05T22:00:00Z"
    assert {row["day"] for row in rows("distances.csv")} == {"2024-05-06"}
    assert run("village.osm", "box.csv") == 0
    assert capsys.readouterr().out.startswith("warning: 10 times name no time zone and count as UTC; timezone (--timezone)")


@pytest.mark.filterwarnings("error::UserWarning")
def test_single_positions(place: Path, capsys: pytest.CaptureFixture[str]) -> None:
    """Parcels: each is a vehicle of its own, whose piece of road has no length."""
    Path("parcels.csv").write_text("id,lon,lat\n007,9.43001,54.31002\n7,9.43201,54.31004\n8,,\n")
    assert run("village.osm", "parcels.csv") == 0
    assert "positions: 3, with an edge: 2" in capsys.readouterr().out
    assert [row["edge"] != "" for row in rows("points.csv")] == [True, True, False]
    assert [row["reason"] for row in rows("points.csv")] == ["", "", "no lon"]
    places = geopandas.GeoSeries.from_wkt(["POINT (9.43 54.31)", "POINT EMPTY"])
    empty = geopandas.GeoDataFrame({"id": ["a", "b"]}, geometry=places, crs=4326)
    assert fmm.read_positions(empty).left_out["reason"].tolist() == ["no place"]


@EMPTY
def test_network_as_map(place: Path) -> None:
    fmm.Network.from_osm("village.osm").save("network.csv")
    assert run("network.csv", "monday.gpx") == 0
    assert len(rows("points.csv")) == 33


def test_layer_as_map(place: Path) -> None:
    edges = fmm.Network.from_osm("village.osm").edges
    edges[edges["direction"] == "forward"].reset_index(drop=True)[["name", "geometry"]].to_file("roads.gpkg", driver="GPKG")
    assert run("roads.gpkg", "monday.gpx") == 0
    assert sum(row["edge"] != "" for row in rows("points.csv")) >= 30


def test_positions_elsewhere(place: Path, capsys: pytest.CaptureFixture[str]) -> None:
    """Positions far from the network: the report says so first."""
    text = Path("monday.gpx").read_text().replace('lat="54.31', 'lat="54.37').replace('lon="9.4', 'lon="9.5')
    Path("away.gpx").write_text(text)
    assert run("village.osm", "away.gpx") == 0
    assert capsys.readouterr().out.startswith("warning: 33 of 33 positions have no edge")


def test_earlier_results_are_replaced(done: str) -> None:
    Path("out/notes.txt").write_text("mine")
    assert run("village.osm", "walk.gpx", "--profile", "foot") == 0
    assert {row["id"] for row in rows("points.csv")} == {"walk"}
    assert sorted(os.listdir("out")) == sorted([*FILES, "notes.txt"])


def test_nothing_half_written(done: str, monkeypatch: pytest.MonkeyPatch, capsys: pytest.CaptureFixture[str]) -> None:
    def full(*words: object) -> None:
        raise OSError(28, "No space left on device", "picture.png")
    before = {name: Path("out", name).read_bytes() for name in os.listdir("out")}
    monkeypatch.setattr(_picture, "write_picture", full)
    assert run("village.osm", "walk.gpx", "--profile", "foot") == 1
    assert capsys.readouterr().err == "fmm run: picture.png: No space left on device\n"
    assert {name: Path("out", name).read_bytes() for name in os.listdir("out")} == before
    shutil.rmtree("out")
    assert run("village.osm", "monday.gpx") == 1
    assert not Path("out").exists()


def test_output_that_is_an_input(place: Path, capsys: pytest.CaptureFixture[str]) -> None:
    os.mkdir("out")
    shutil.copy("fleet.csv", "out/points.csv")
    before = Path("out/points.csv").read_bytes()
    assert run("village.osm", "out/points.csv", "--id", "plate", "--x", "lon", "--y", "lat", "--time", "when") == 1
    assert capsys.readouterr().err == "fmm run: out/points.csv: is an input of the same call\n"
    assert Path("out/points.csv").read_bytes() == before and os.listdir("out") == ["points.csv"]
    Path("out/points.csv").unlink()
    os.symlink("../fleet.csv", "out/points.csv")
    assert run("village.osm", "monday.gpx") == 1
    assert "out/points.csv: is a symbolic link" in capsys.readouterr().err


@pytest.mark.parametrize("words, message", [
    (["village.osm", "monday.gpx", "--raduis", "3"], "--raduis is no option; did you mean --radius?"),
    (["village.osm", "monday.gpx", "--radius", "0"], "radius is from 0.01 to 1000 metres, not 0"),
    (["village.osm", "monday.gpx", "--k", "2.5"], "k is a whole number, not 2.5"),
    (["village.osm", "monday.gpx", "--bbox", "9,54"], "9,54 is not west,south,east,north in degrees, or all"),
    (["village.osm", "monday.gpx", "--standing", "0"], "--standing is a number above 0, not 0"),
    (["village.osm", "monday.gpx", "--crs", "61N"], "61 is no UTM zone"),
    (["village.osm", "monday.gpx", "--zone", "Europa/Berlin"], "zone Europa/Berlin is no time zone; write a name such as"),
    (["village.osm", "monday.gpx", "--zone", ""], "is no time zone"),
    (["village.osm", "monday.gpx", "--timezone", "Mars"], "zone Mars is no time zone"),
    (["village.osm", "monday.gpx", "--profile", "boat"], "invalid choice: 'boat'"),
    (["village.osm"], "the following arguments are required: POSITIONS"),
])
def test_wrong_options(place: Path, words: list[str], message: str, capsys: pytest.CaptureFixture[str]) -> None:
    assert run(*words) == 2
    said = capsys.readouterr()
    assert message in said.err and said.err.count("\n") == 1 and said.out == ""
    assert not Path("out").exists()


def cut(path: str, size: int) -> bytes:
    return Path(path).read_bytes()[:size]


GPX = '<?xml version="1.0"?><gpx version="1.1" creator="t"><trk><trkseg>{}</trkseg></trk></gpx>'
TABLE = "vehicle,longitude,latitude,time\n{}\n"
# What is wrong, the file that is made, the words, and a part of the message.
MAPS = [
    ("no file", "no.osm", None, "no.osm: No such file"),
    ("empty", "map.osm", b"", "map.osm"),
    ("cut", "map.osm", lambda: cut("village.osm", 3000), "map.osm"),
    ("not XML of OpenStreetMap", "map.osm", lambda: cut("monday.gpx", 10 ** 6), "map.osm"),
    ("other bytes", "map.osm.pbf", b"\xffother bytes", "map.osm.pbf"),
    ("other bytes", "map.osm.bz2", b"other bytes", "map.osm.bz2"),
    ("no nodes", "map.osm", lambda: b"\n".join(
        line for line in cut("village.osm", 10 ** 6).split(b"\n") if b"<node" not in line), "map.osm"),
    ("no streets", "map.osm", b"<osm version='0.6'><node id='1' lat='54.3' lon='9.4'/></osm>", "map.osm"),
    ("a network that is cut", "net.csv", b"edge,from,to,line\n1,1,2,0 0;9000", "net.csv line 2"),
    ("a table", "net.csv", lambda: cut("fleet.csv", 10 ** 6), "net.csv"),
    ("a layer that is none", "map.gpkg", b"SQLite format 3\0layers", "map.gpkg: cannot be read as a layer"),
    ("no layer", "no.gpkg", None, "no.gpkg: No such file"),
]
POSITIONS = [
    ("no file", "no.gpx", None, "no.gpx: No such file"),
    ("no file of a pattern", "no*.gpx", None, "no*.gpx: no file has such a name"),
    ("empty", "t.gpx", b"", "t.gpx"),
    ("cut", "t.gpx", lambda: cut("monday.gpx", 900), "t.gpx"),
    ("not GPX", "t.gpx", lambda: cut("village.osm", 10 ** 6), "t.gpx"),
    ("waypoints", "t.gpx", b'<gpx><wpt lat="54.3" lon="9.4"/></gpx>', "t.gpx"),
    ("packed", "t.csv", b"\x1f\x8b\x08\x00\x00\x00", "t.csv: is compressed with gzip"),
    ("a spreadsheet", "t.csv", b"PK\3\4sheet", "t.csv: is a ZIP file or a spreadsheet"),
    ("UTF-16", "t.csv", b"\xff\xfev\0e\0h\0", "t.csv: is UTF-16"),
    ("a map", "t.csv", b"\0\0\0\x0d\n\x09OSMHeader\x18", "t.csv: is an OpenStreetMap file, not a table"),
    ("no rows", "t.csv", b"vehicle,longitude,latitude,time\n", "t.csv"),
    ("a stray quote", "t.csv", TABLE.format('7,9.43,"54.31,5').encode(), "t.csv line 2"),
    ("decimal commas", "t.csv", TABLE.format("7,9,43,54,31,5").encode(), "t.csv line 2"),
    ("too few fields", "t.csv", TABLE.format("7,9.43,54.31,5\n7,9.43").encode(), "t.csv line 3"),
    ("no last line end", "t.csv", TABLE.format("7,9.43,54.31,5").encode()[:-1], "t.csv line 2"),
    ("not UTF-8", "t.csv", TABLE.format("stra").encode()[:-1] + b"\337e,9.43,54.31,5\n", "t.csv line 2"),
    ("columns without known names", "t.csv", b"a,b,c,d\n1,2,3,4\n", "t.csv"),
    ("the same file twice", "monday.gpx", None, "monday.gpx"),
]


@pytest.mark.parametrize("what, name, data, message", MAPS, ids=[f"{what}: {name}" for what, name, _, _ in MAPS])
def test_wrong_maps(place: Path, what: str, name: str, data: object, message: str, capsys: pytest.CaptureFixture[str]) -> None:
    if data is not None:
        Path(name).write_bytes(data() if callable(data) else data)  # type: ignore[arg-type]
    refused(capsys, message, name, "monday.gpx")


@pytest.mark.parametrize("what, name, data, message", POSITIONS, ids=[f"{what}: {name}" for what, name, _, _ in POSITIONS])
def test_wrong_positions(place: Path, what: str, name: str, data: object, message: str,
                         capsys: pytest.CaptureFixture[str]) -> None:
    if data is not None:
        Path(name).write_bytes(data() if callable(data) else data)  # type: ignore[arg-type]
    refused(capsys, message, "village.osm", name, *(["./monday.gpx"] if name == "monday.gpx" else []))


def refused(capsys: pytest.CaptureFixture[str], message: str, *words: str) -> None:
    """The call ends with status 1 and one line, and leaves no folder."""
    assert run(*words) == 1
    said = capsys.readouterr()
    assert said.err.startswith("fmm run: ") and message in said.err and said.err.count("\n") == 1, said.err
    assert said.out == "" and not Path("out").exists()


@pytest.mark.parametrize("what, point, reason", [
    ("no longitude", "<trkpt lat='54.3'><time>2024-05-06T08:00:00Z</time></trkpt>", None),
    ("NaN", "<trkpt lat='NaN' lon='9.43'><time>2024-05-06T08:00:00Z</time></trkpt>", None),
    ("no such time", "<trkpt lat='54.31' lon='9.43'><time>6 May</time></trkpt>", None),
])
def test_wrong_points(place: Path, what: str, point: str, reason: None, capsys: pytest.CaptureFixture[str]) -> None:
    """A point that cannot be used is refused with its file, or is in the result with its reason."""
    good = "".join(f"<trkpt lat='54.31' lon='9.43{at}'><time>2024-05-06T08:01:0{at}Z</time></trkpt>" for at in range(5))
    Path("t.gpx").write_text(GPX.format(point + good))
    status = run("village.osm", "t.gpx")
    said = capsys.readouterr()
    if status:
        assert status == 1 and said.err.startswith("fmm run: t.gpx") and said.err.count("\n") == 1
    else:
        first = rows("points.csv")[0]
        assert len(rows("points.csv")) == 6 and first["edge"] == "" and first["reason"] != ""
        assert first["reason"] in said.out


def test_the_network_of_a_result_can_be_made_again(done: str, capsys: pytest.CaptureFixture[str]) -> None:
    """The map of a result has candidates if it gets the network, which is that of the box in the report."""
    found = re.search(r"from (\S+), (\S+) to (\S+), (\S+) degrees was read", done)
    assert found and json.loads(Path("out/result.json").read_text())["network"]["path"] is None
    assert commands.main(["network", "village.osm", "--into", "network.csv", "--bbox", ",".join(found.groups())]) == 0
    capsys.readouterr()
    assert commands.main(["map", "out/result.gpkg", "--into", "map.html"]) == 0
    assert "the network of the match was not saved: give its file as network (--network)" in capsys.readouterr().err
    assert commands.main(["map", "out/result.gpkg", "--into", "map.html", "--network", "network.csv"]) == 0
    assert capsys.readouterr().err == ""


def test_what_to_look_at_is_a_warning(place: Path, capsys: pytest.CaptureFixture[str]) -> None:
    far = pd.DataFrame({"id": ["a"], "lon": [9.6], "lat": [54.4]})
    with pytest.warns(fmm.FmmWarning, match="1 of 1 positions have no edge"):
        fmm.match(fmm.Network.from_osm("village.osm"), far)
    far.to_csv("far.csv", index=False)
    assert run("village.osm", "far.csv", "--bbox", "all") == 0
    said = capsys.readouterr()
    assert said.out.startswith("warning: 1 of 1 positions have no edge") and said.err == ""


def test_front() -> None:
    """./fmm run explains itself in a process of its own; the fixture `made` has its results."""
    said = subprocess.run([*FRONT, "--help"], capture_output=True, text=True, env={**os.environ, "FMM_PYTHON": sys.executable})
    assert said.stdout.startswith("usage: fmm run")


def test_each_option_is_explained() -> None:
    """`fmm run --help` has each option of `fmm.Options`, with a unit and a text."""
    from fmm.commands import run as command
    names = {field.name for field in dataclasses.fields(fmm.Options)}
    assert set(command.TEXTS) == names
    text = command.parser().format_help()
    assert all(f"--{name} " in text for name in names)
