"""Reading positions."""
from __future__ import annotations

import math
import os
import re
from pathlib import Path
from typing import List

import geopandas
import numpy as np
import pandas as pd
import pytest
import shapely.wkb
from hypothesis import given
from hypothesis import strategies as st
from shapely.geometry import LineString, Point

import fmm
from fmm.errors import InputError, MismatchError, OptionError
from fmm.positions import Positions, read_positions

HEADER = "vehicle,longitude,latitude,time"
GPX = '<?xml version="1.0"?>\n<gpx xmlns="http://www.topografix.com/GPX/1/1"><trk><name>Tour</name><trkseg>\n'
END = "</trkseg></trk></gpx>\n"


def table(folder: Path, *rows: str, header: str = HEADER, name: str = "table.csv") -> Path:
    path = folder / name
    path.write_text("\n".join((header, *rows)) + "\n", encoding="utf-8")
    return path


def track(folder: Path, *points: str, name: str = "track.gpx") -> Path:
    path = folder / name
    path.write_text(GPX + "\n".join(points) + END)
    return path


def point(time: str = "", lat: str = "54.3", lon: str = "9.4") -> str:
    return f'<trkpt lat="{lat}" lon="{lon}">{f"<time>{time}</time>" if time else ""}</trkpt>'


def reasons(positions: Positions) -> List[str]:
    return positions.left_out["reason"].tolist()


def refused(text: str, *sources: object, **words: object) -> InputError:
    """The positions are refused with an InputError of one line that has the text."""
    with pytest.raises(InputError, match=re.escape(text)) as fault:
        read_positions(list(sources), **words)  # type: ignore[arg-type]
    assert "\n" not in str(fault.value)
    return fault.value


# ---- tables

def test_a_table_as_it_comes(small: Path) -> None:
    positions = read_positions(small / "fleet.csv")
    frame = positions.frame
    assert list(frame.columns) == ["id", "x", "y", "time", "plate", "when", "speed"]
    assert frame.iloc[1][["id", "x", "y", "time"]].tolist() == ["van, blue", 9.4284258, 54.3131187, 1714978802.0]
    assert frame["speed"].tolist()[:2] == ["29", "56"] and frame.index.name == "row"
    assert positions.crs.to_epsg() == 4326 and not len(positions.left_out)
    assert positions.sources[0].rows == len(frame) == 27 and len(positions.sources[0].sha256) == 64
    assert positions.notes == [f"{small / 'fleet.csv'}: id from plate, x from lon, y from lat, time from when"]


def test_ids_stay_text(tmp_path: Path) -> None:
    ids = ["007", "7", "7.0", " 7", "=1+1", "Käthe", "1e3"]
    rows = [f"{name},9.4,54.3,{number}" for number, name in enumerate(ids)]
    assert read_positions(table(tmp_path, *rows)).frame["id"].tolist() == ids


def test_a_stray_quote_loses_no_rows(tmp_path: Path) -> None:
    refused("table.csv line 2", table(tmp_path, '1,9,54,5,"a', "2,9,54,6,b", "3,9,54,7,c", header=HEADER + ",note"))


def test_decimal_commas(tmp_path: Path) -> None:
    refused("decimal commas?", table(tmp_path, "7,9,43,54,31,5"))
    refused("lon 9,43 is not a number: a decimal comma?", table(tmp_path, '7,"9,43","54,31",5', header="id,lon,lat,time"))


@pytest.mark.parametrize("separator", [";", "\t"])
def test_a_table_as_a_spreadsheet_writes_it(tmp_path: Path, separator: str) -> None:
    rows = ["Kennzeichen;Längengrad;Breitengrad;Zeitpunkt;Tempo", 'HH 7;9,43;54,31;01.12.2026 14:03:22;"12,5"',
            "HH 7;9,44;54,32;1.12.2026 9:03;", "HH 7;9,45;1.054,3;01/12/2026 14:03;"]
    path = tmp_path / "excel.csv"
    path.write_bytes("".join(f"{row}\r\n" for row in rows).replace(";", separator).encode("utf-8-sig"))
    positions = read_positions(path)
    frame = positions.frame
    assert frame["x"].tolist()[:2] == [9.43, 9.44] and frame["y"].tolist()[:2] == [54.31, 54.32]
    assert frame["time"].tolist()[:2] == [1796133802, 1796115780] and frame["Tempo"].tolist() == ["12,5", "", ""]
    assert frame["id"].tolist() == ["HH 7"] * 3 and positions.crs.to_epsg() == 4326
    assert reasons(positions) == ["Breitengrad 1.054,3 is not a number"]
    assert positions.notes == [f"{path}: id from Kennzeichen, x from Längengrad, y from Breitengrad, time from Zeitpunkt"]


def test_a_comma_in_a_quoted_name_separates_nothing(tmp_path: Path) -> None:
    frame = read_positions(table(tmp_path, "7;9,4;54,3;5", header='"id";"lon";"lat";"a, b, c, d, e"'), time="a, b, c, d, e").frame
    assert frame[["id", "x", "y", "time"]].iloc[0].tolist() == ["7", 9.4, 54.3, 5.0]
    refused("a stray quote in the header", table(tmp_path, "7;9,4;54,3;5", header='id;lon;lat;a"b'))
    refused("table.csv line 2: 3 fields, and the header has 4", table(tmp_path, "7;9,4;54,3", header="id;lon;lat;time"))


def test_columns_that_were_not_found_are_named(tmp_path: Path) -> None:
    path = table(tmp_path, "a,9.4,54.3,5", header="car,lon,lat,moment")
    assert read_positions(path).notes == [f"{path}: x from lon, y from lat, no id, no time; its other columns are car,moment"]


def test_the_only_column_of_times_is_that_of_the_time() -> None:
    frame = pd.DataFrame({"id": ["a"], "lon": [9.4], "lat": [54.3], "moment": pd.to_datetime(["2024-05-06 08:00"])})
    assert read_positions(frame).frame["time"].tolist() == [1714982400]
    frame["other"] = frame["moment"]
    assert read_positions(frame).frame["time"].isna().all()


def test_a_table_that_is_cut(tmp_path: Path) -> None:
    path = table(tmp_path, "7,9.43,54.31,5", "7,9.44,54.32,1714978802")
    whole = path.read_bytes()
    for cut in range(1, 24):
        path.write_bytes(whole[:-cut])
        refused("table.csv line 3", path)


@pytest.mark.parametrize("row, reason", [
    ("7,,54.3,5", "no longitude"),
    ("7,nan,54.3,5", "longitude nan is not a number"),
    ("7,inf,54.3,5", "longitude inf is not a number"),
    ("7,1_0,54.3,5", "longitude 1_0 is not a number"),
    ("7,9.4,١,5", "latitude ١ is not a number"),
    ("7,54.3,91,5", "54.3 91 is not a longitude and a latitude in degrees: exchanged?"),
    ("7,190,54.3,5", "190 54.3 is not a longitude and a latitude in degrees"),
    ("7,0,0,5", "longitude 0 and latitude 0: a receiver without a fix"),
    (",9.4,54.3,5", "no id"),
    ("7,9.4,54.3,2024-02-31", "time 2024-02-31 is neither an ISO time nor seconds since 1970: write the date and the time of day "
     "into one column, or call their columns date and time"),
    ("7,9.4,54.3,05/06/2024 10:00", "time 05/06/2024 10:00 is neither an ISO time nor seconds since 1970: is the day or the "
     "month first? Write 2026-12-24 or 24.12.2026"),
    ("7,9.4,54.3,31.04.2024 10:00", "time 31.04.2024 10:00 is neither an ISO time nor seconds since 1970"),
    ("7,9.4,54.3,2024-02-30 10:00", "time 2024-02-30 10:00 is neither an ISO time nor seconds since 1970"),
    ("7,9.4,54.3,2024-02-03T24:59:60+99:99", "time 2024-02-03T24:59:60+99:99 is neither an ISO time nor seconds since 1970"),
    ("7,9.4,54.3,1_0", "time 1_0 is neither an ISO time nor seconds since 1970"),
    ("7,9.4,54.3,-5", "time -5 is neither an ISO time nor seconds since 1970"),
    ("7,9.4,54.3,1714982400123", "time 1714982400123 is not between the years 1970 and 2106: milliseconds in place of seconds?"),
    ("7,9.4,54.3,\x1b[31m5", "time \\x1b[31m5 is neither an ISO time nor seconds since 1970"),
])
def test_a_row_that_cannot_be_used(tmp_path: Path, row: str, reason: str) -> None:
    positions = read_positions(table(tmp_path, "7,9.4,54.3,4", row, "7,9.4,54.3,6"))
    assert len(positions.frame) == 3 and positions.usable.tolist() == [True, False, True]
    out = positions.left_out.iloc[0]
    assert (out["row"], out["line"], out["reason"]) == (1, 3, reason)
    refused(reason.replace("longitude", "longitude"), table(tmp_path, row))


def test_columns_by_name(tmp_path: Path) -> None:
    path = table(tmp_path, "a,b,9.4,54.3,5", header="car,id,lambda,phi,sec")
    frame = read_positions(path, id="car", x="lambda", y="phi", time="sec", crs=4326).frame
    assert frame.iloc[0].to_dict() == {"id": "a", "x": 9.4, "y": 54.3, "time": 5.0, "car": "a", "id_input": "b", "sec": "5"}
    refused("has no column lamda (did you mean lambda?)", path, x="lamda", y="phi", crs=4326)
    refused("name the columns of the place by x and y (--x and --y); its columns are car,id,lambda,phi,sec", path)


def test_without_ids_a_file_is_a_vehicle(tmp_path: Path) -> None:
    (tmp_path / "a").mkdir()
    (tmp_path / "b").mkdir()
    paths = [table(tmp_path / folder, f"9.4,54.3,{second}", header="lon,lat,time") for second, folder in enumerate("ab")]
    assert read_positions(paths[0]).frame["id"].tolist() == ["table"]
    assert read_positions(paths).frame["id"].tolist() == ["a/table", "b/table"]


def test_degrees_and_metres(tmp_path: Path) -> None:
    degrees = table(tmp_path, "7,9.4,54.3,5", header="id,x,y,time")
    refused("the positions look like degrees: give the crs", degrees)
    refused("9.4 54.3 are degrees and not metres of ETRS89 / UTM zone 32N", degrees, crs=25832)
    assert read_positions(degrees, crs="metres").crs is None
    assert read_positions(degrees, crs=4326).crs.to_epsg() == 4326
    metres = table(tmp_path, "7,565000,6018000,5", header="id,x,y,time")
    assert read_positions(metres).crs is None
    assert read_positions(metres, crs="EPSG:25832").crs.to_epsg() == 25832
    refused("565000 6018000 is not a longitude and a latitude in degrees: are these metres?",
            table(tmp_path, "7,565000,6018000,5"))
    refused("centimetres in place of metres?", table(tmp_path, "7,56500000,601800000,5", header="id,x,y,time"))
    with pytest.raises(OptionError, match="crs=32Q is no coordinate reference system"):
        read_positions(metres, crs="32Q")


# ---- tracks

def test_tracks(small: Path) -> None:
    positions = read_positions(str(small / "*.gpx"))
    frame = positions.frame
    assert list(frame.columns) == ["id", "x", "y", "time", "file", "track", "track_name", "segment", "elevation"]
    assert frame.groupby("id").size().to_dict() == {"monday": 33, "walk": 10}
    assert [Path(source.path).name for source in positions.sources] == ["monday.gpx", "walk.gpx"]
    assert frame["track_name"].iloc[0] == "To the mill" and positions.crs.to_epsg() == 4326


def test_points_without_times_are_never_of_1970(tmp_path: Path) -> None:
    untimed = read_positions(track(tmp_path, point(), point()))
    assert untimed.frame["time"].isna().all() and not len(untimed.left_out)
    first = read_positions(track(tmp_path, point(), point("2024-05-06T08:00:00Z"), point("2024-05-06T08:00:01Z")))
    assert math.isnan(first.frame["time"][0])


def test_times_that_do_not_exist_are_named(tmp_path: Path) -> None:
    path = track(tmp_path, point("2024-05-06T08:00:00Z"), point("2024-02-31T08:00:00Z"), point("6 May"))
    assert reasons(read_positions(path)) == ["time 2024-02-31T08:00:00Z is neither an ISO time nor seconds since 1970",
                                             "time 6 May is neither an ISO time nor seconds since 1970"]


def test_times_that_go_back_in_a_track(tmp_path: Path) -> None:
    path = track(tmp_path, point("2080-01-01T00:00:00Z"), *(point(f"2024-05-06T08:00:0{second}Z") for second in "01325"))
    positions = read_positions(path)
    assert reasons(positions) == ["time goes back"] * 2 and positions.left_out["row"].tolist() in ([0, 3], [0, 4])
    assert positions.left_out["line"].tolist()[0] == 3


@pytest.mark.parametrize("text, message", [
    ("", "is empty"),
    ("<osm/>", "is not a GPX file: its root is <osm>, not <gpx>"),
    ("plate,lat\n", "is not a GPX file, or its XML is wrong"),
    (GPX + point(), "is cut, or its XML is wrong"),
    ('<gpx><wpt lat="54.3" lon="9.4"/></gpx>', "has no track points: routes and waypoints are not tracks"),
    (GPX + point(lat="NaN") + END, "no point can be used: lat NaN is not a number"),
    (GPX + '<trkpt lat="54.3"/>' + END, "no point can be used: no lon"),
    (GPX + point(lat="1_0") + END, "no point can be used: lat 1_0 is not a number"),
    ('<!DOCTYPE gpx [<!ENTITY a "aaaaaaaaaa">' + "".join(f'<!ENTITY {b} "{f"&{a};" * 10}">' for a, b in zip("abcdefg", "bcdefgh"))
     + ']><gpx><trk><name>&h;</name></trk></gpx>', "its XML is wrong"),
])
def test_what_is_no_track(tmp_path: Path, text: str, message: str) -> None:
    path = tmp_path / "track.gpx"
    path.write_text(text)
    refused(message, path)


def test_several_tracks_and_segments(tmp_path: Path) -> None:
    path = tmp_path / "tour.gpx"
    path.write_text(GPX + point("2024-05-06T08:00:00Z") + "</trkseg><trkseg>" + point("2024-05-06T08:00:01Z")
                    + "</trkseg></trk><trk><trkseg>" + point("2024-05-06T08:00:00Z") + END)
    positions = read_positions(path)
    assert positions.frame["id"].tolist() == ["tour 1", "tour 1", "tour 2"]
    assert len(set(positions.parts)) == 3


# ---- several sources

def test_the_same_file_twice(tmp_path: Path, small: Path) -> None:
    refused("is given twice", small / "walk.gpx", small / "walk.gpx")
    refused("is given twice, also as", small / "walk.gpx", f"{small}/../small/walk.gpx")
    copy = tmp_path / "copy.gpx"
    copy.write_bytes((small / "walk.gpx").read_bytes())
    refused("has the same bytes as", small / "walk.gpx", copy)


def test_sources_of_one_call(tmp_path: Path, small: Path) -> None:
    plane = table(tmp_path, "a,565000,6018000,5", header="id,x,y,time")
    both = read_positions([small / "fleet.csv", small / "walk.gpx"])
    assert len(both) == 37 and both.frame.index.tolist() == list(range(37))
    with pytest.raises(MismatchError, match="has metres of an unknown projection, and .*fleet.csv has a known one"):
        read_positions([plane, small / "fleet.csv"])
    projected = read_positions(plane, crs=25832)
    mixed = read_positions([small / "fleet.csv", projected_frame(projected)])
    assert mixed.crs.to_epsg() == 4326 and 9 < mixed.frame["x"].iloc[-1] < 11


def projected_frame(positions: Positions) -> geopandas.GeoDataFrame:
    frame = positions.frame
    return geopandas.GeoDataFrame({"id": frame["id"], "time": frame["time"]}, crs=positions.crs,
                                  geometry=geopandas.points_from_xy(frame["x"], frame["y"]))


def test_files_that_are_not_there(tmp_path: Path) -> None:
    refused("No such file or directory", tmp_path / "no.csv")
    refused("no file has such a name", str(tmp_path / "*.gpx"))
    refused("is a folder; name its files", tmp_path)
    path = table(tmp_path, "7,9.4,54.3,5", name="a[1].csv")
    assert len(read_positions(str(path))) == 1


def test_a_name_that_is_not_utf8(tmp_path: Path) -> None:
    path = os.fsencode(tmp_path) + b"/\xff.gpx"
    with open(path, "w") as file:
        file.write(GPX + point("2024-05-06T08:00:00Z") + END)
    positions = read_positions(path)
    assert positions.frame["id"].tolist() == ["\\xff"]
    positions.frame["file"].iloc[0].encode()


# ---- tables in memory and layers

def test_a_dataframe_is_as_its_file(tmp_path: Path, small: Path) -> None:
    ours, columns = read_positions(pd.read_csv(small / "fleet.csv")).frame, ["id", "x", "y", "time"]
    pd.testing.assert_frame_equal(ours[columns], read_positions(small / "fleet.csv").frame[columns])


def test_ids_that_are_numbers() -> None:
    frame = pd.DataFrame({"id": [7.0, None, 8.0], "lon": 9.4, "lat": 54.3, "time": [1, 2, 3]})
    positions = read_positions(frame)
    assert positions.frame["id"].tolist() == ["7", "", "8"] and reasons(positions) == ["no id"]


def test_layers(tmp_path: Path, small: Path) -> None:
    frame = read_positions(small / "fleet.csv").frame
    points = geopandas.GeoDataFrame(frame[["plate", "when"]], geometry=geopandas.points_from_xy(frame["x"], frame["y"]), crs=4326)
    points.to_crs(25832).to_file(tmp_path / "fleet.gpkg", layer="fleet", driver="GPKG")
    read = read_positions(tmp_path / "fleet.gpkg")
    assert read.crs.to_epsg() == 25832 and read.frame["id"].tolist() == frame["id"].tolist()
    assert read.frame["time"].tolist() == frame["time"].tolist()
    points.to_file(tmp_path / "fleet.gpkg", layer="other", driver="GPKG")
    refused("has several layers; name one by layer: fleet, other", tmp_path / "fleet.gpkg")
    assert len(read_positions(tmp_path / "fleet.gpkg", layer="other")) == len(frame)
    points.geometry = [LineString([(9, 54), (9.1, 54)])] * len(points)
    points.to_file(tmp_path / "roads.geojson", driver="GeoJSON")
    refused("has lines or areas, not points", tmp_path / "roads.geojson")
    (tmp_path / "bad.gpkg").write_bytes(b"SQLite format 3\0rubbish")
    refused("bad.gpkg: cannot be read as a layer", tmp_path / "bad.gpkg")


def test_geometries_that_are_no_points() -> None:
    places = [Point(9, 54), None, LineString([(9, 54), (9, 55)]), Point()]
    frame = geopandas.GeoDataFrame({"id": list("abcd")}, crs=4326, geometry=places)
    assert reasons(read_positions(frame)) == ["no place", "the geometry is a LineString, not a point", "no place"]


def test_a_query(tmp_path: Path, small: Path) -> None:
    sqlalchemy = pytest.importorskip("sqlalchemy")
    engine = sqlalchemy.create_engine(f"sqlite:///{tmp_path / 'fleet.db'}")
    pd.read_csv(small / "fleet.csv").to_sql("positions", engine, index=False)
    positions = read_positions(engine, query="SELECT * FROM positions")
    assert positions.frame["id"].tolist() == read_positions(small / "fleet.csv").frame["id"].tolist()
    assert len(read_positions(f"sqlite:///{tmp_path / 'fleet.db'}", query="SELECT * FROM positions LIMIT 3")) == 3
    refused("the query failed", engine, query="SELECT * FROM nothing")
    refused("is no source of positions", engine)


ROWS = st.tuples(st.text("ab7 0,\"=é", min_size=1, max_size=4).filter(str.strip), st.floats(1, 170), st.floats(-80, 80),
                 st.floats(0, 4e9))


@given(st.lists(ROWS, min_size=1, max_size=20))
def test_a_table_of_any_rows(tmp_path_factory: pytest.TempPathFactory, rows: List[tuple]) -> None:
    frame = pd.DataFrame(rows, columns=["id", "lon", "lat", "time"])
    path = tmp_path_factory.mktemp("any") / "any.csv"
    frame["time"] = frame["time"].map(lambda time: f"{time:.6f}")
    frame.to_csv(path, index=False)
    read = read_positions(path).frame
    assert read["id"].tolist() == frame["id"].tolist() and read["x"].tolist() == frame["lon"].tolist()
    assert np.allclose(read["time"], frame["time"].astype(float))


def test_the_public_names() -> None:
    assert fmm.read_positions is read_positions and fmm.Positions is Positions


def test_a_query_with_geometries(tmp_path: Path) -> None:
    sqlalchemy = pytest.importorskip("sqlalchemy")
    engine = sqlalchemy.create_engine(f"sqlite:///{tmp_path / 'places.db'}")
    places = [shapely.wkb.dumps(Point(9.4, 54 + row / 10), hex=True, srid=4326) for row in range(3)]
    pd.DataFrame({"vehicle": ["a", "b", "a"], "time": [1, 2, 3], "geom": places}).to_sql("places", engine, index=False)
    positions = read_positions(engine, query="SELECT * FROM places")
    assert positions.crs.to_epsg() == 4326 and positions.frame["id"].tolist() == ["a", "b", "a"]
    assert positions.frame[["x", "y"]].values.tolist() == [[9.4, 54.0], [9.4, 54.1], [9.4, 54.2]]
