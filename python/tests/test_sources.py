"""The match of a table in memory is that of the same positions in files."""
from __future__ import annotations

import tempfile
from pathlib import Path
from typing import Any, Dict, List, Tuple

import geopandas
import numpy as np
import pandas as pd
from hypothesis import given
from hypothesis import strategies as st
from profiles import slow

from fmm.matches import Matches
from fmm.matching import match
from fmm.network import Network
from fmm.options import Options
from fmm.positions import read_positions

TOP = Path(__file__).resolve().parents[2]
OPTIONS = Options.of(back=20, gap=120, workers=1)
MADE_BY_FILES = {"file", "track", "track_name", "segment", "elevation", "fid"}  # columns that only files have
WEST, SOUTH = 9.43, 54.31  # in the village
MOMENTS = st.lists(st.tuples(st.integers(-2, 12), st.integers(-2, 12), st.sampled_from([0, 1, 5, 30, 200, 0.25])),
                   min_size=1, max_size=12)


@st.composite
def drives(draw: Any) -> pd.DataFrame:
    """Some vehicles, whose rows are in the order of their times, one vehicle after another as files have them."""
    rows: List[Tuple[str, float, float, float]] = []
    for vehicle in draw(st.lists(st.sampled_from(["007", "7", "van, blue", "Ä b"]), min_size=1, max_size=3, unique=True)):
        time = 1_714_982_400.0
        for east, north, later in draw(MOMENTS):
            time += later
            rows.append((vehicle, round(WEST + east * 0.0004, 7), round(SOUTH + north * 0.0003, 7), time))
    return pd.DataFrame(rows, columns=["vehicle", "longitude", "latitude", "time"])


def times_of(frame: pd.DataFrame) -> List[str]:
    whole = pd.to_datetime(np.rint(frame["time"] * 1000).astype(np.int64), unit="ms")
    return [f"{time.isoformat(timespec='milliseconds')}Z" for time in whole]


def as_csv(frame: pd.DataFrame, folder: Path) -> Any:
    frame.assign(time=times_of(frame)).to_csv(folder / "positions.csv", index=False)
    return read_positions(folder / "positions.csv")


def as_gpx(frame: pd.DataFrame, folder: Path) -> Any:
    """A file for each vehicle, whose name is the id."""
    paths = []
    for vehicle, rows in frame.assign(time=times_of(frame)).groupby("vehicle", sort=False):
        points = "".join(f'<trkpt lat="{row.latitude!r}" lon="{row.longitude!r}"><time>{row.time}</time></trkpt>\n'
                         for row in rows.itertuples())
        paths.append(folder / f"{vehicle}.gpx")
        track = f"<trk><name>{vehicle}</name><trkseg>\n{points}</trkseg></trk>"
        paths[-1].write_text(f'<gpx version="1.1">{track}</gpx>\n', encoding="utf-8")
    return read_positions(paths)


def as_layer(frame: pd.DataFrame) -> geopandas.GeoDataFrame:
    places = geopandas.GeoSeries.from_xy(frame["longitude"], frame["latitude"], crs=4326)
    return geopandas.GeoDataFrame({"vehicle": frame["vehicle"], "time": times_of(frame)}, geometry=places.array, crs=4326)


def as_geopackage(frame: pd.DataFrame, folder: Path) -> Any:
    as_layer(frame).to_file(folder / "positions.gpkg", driver="GPKG", layer="positions")
    return read_positions(folder / "positions.gpkg")


def tables(matches: Matches) -> Dict[str, pd.DataFrame]:
    """The tables without the columns that come from the kind of the source."""
    found = {"points": matches.points, "routes": matches.routes, "edges": matches.edges}
    own = MADE_BY_FILES | {"vehicle", "longitude", "latitude", "time_input"}
    return {name: pd.DataFrame(table[[column for column in table if column not in own]]).assign(
        geometry=[place.wkb for place in table.geometry]) for name, table in found.items()}


@slow
@given(frame=drives())
def test_the_match_of_a_table_is_that_of_its_files(frame: pd.DataFrame) -> None:
    network = Network.from_osm(TOP / "recipes" / "small" / "village.osm")
    wanted = match(network, frame, options=OPTIONS)
    expected = tables(wanted)
    assert len(wanted.points) == len(frame)
    with tempfile.TemporaryDirectory() as folder:
        sources = [as_csv(frame, Path(folder)), as_gpx(frame, Path(folder)), as_layer(frame), as_geopackage(frame, Path(folder))]
        for source in sources:
            found = match(network, source, options=OPTIONS)
            assert found.text() == wanted.text()
            mine = tables(found)
            for name, table in expected.items():
                pd.testing.assert_frame_equal(mine[name], table, check_like=True)
