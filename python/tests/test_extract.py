"""A real map: an extract of OpenStreetMap goes through `run`, and GDAL reads the layers again.

tests/setup puts the map, which the source package of osm2pgsql has, into ~/.cache/fmm-tests; FMM_EXTRACT names another place.
"""
from __future__ import annotations

import os
import random
import shutil
import subprocess
from pathlib import Path
from typing import Any, List

import numpy as np
import pandas as pd
import pytest

from fmm import Network, open_matches
from fmm.commands.run import main
from fmm.projection import DEGREES

CACHE = Path(os.environ.get("XDG_CACHE_HOME") or Path.home() / ".cache", "fmm-tests")
EXTRACT = Path(os.environ.get("FMM_EXTRACT") or CACHE / "liechtenstein-2013-08-03.osm.pbf")


@pytest.fixture(scope="module")
def extract() -> Path:
    if not EXTRACT.is_file():
        pytest.skip("the test on a real map, since tests/setup could not get it")
    return EXTRACT


def walk(network: Network, begin: int, metres: float) -> List[int]:
    """Edges (by index) from a begin on that go on along their street where they can, and visit no node twice."""
    lines, names = network.lines, network.table["name"].to_numpy()
    route, length = [begin], 0.0
    visited = {int(lines.from_node[begin]), int(lines.to_node[begin])}
    while length < metres:
        here = route[-1]
        following = [edge for edge in np.flatnonzero(lines.from_node == lines.to_node[here]).tolist()
                     if int(lines.to_node[edge]) not in visited]
        if not following:
            break
        route.append(min(following, key=lambda edge: (names[edge] != names[here], edge)))
        visited.add(int(lines.to_node[route[-1]]))
        length += lines.lengths[route[-1]] / 100
    return route


def positions(network: Network, route: List[int], seed: int) -> np.ndarray:
    """Longitude and latitude of a position each 70 m, with an error of 3 m."""
    rng, lines = random.Random(seed), network.lines
    xy = np.concatenate([lines.xy[lines.first[edge]:lines.first[edge + 1]] for edge in route]).astype(float)
    along = np.concatenate([[0], np.cumsum(np.hypot(*np.diff(xy, axis=0).T))])
    places = np.arange(500, along[-1], 7000)
    x, y = (np.interp(places, along, xy[:, axis]) + [rng.gauss(0, 300) for _ in places] for axis in (0, 1))
    return np.stack(network.projection.to_crs(x, y, DEGREES), axis=1)


def write_gpx(path: Path, places: np.ndarray) -> None:
    times = pd.Timestamp("2013-08-03T08:00:00Z") + pd.to_timedelta(np.arange(len(places)) * 5, unit="s")
    points = "".join(f'<trkpt lon="{x:.7f}" lat="{y:.7f}"><time>{time.isoformat()}</time></trkpt>'
                     for (x, y), time in zip(places.tolist(), times))
    path.write_text(f'<gpx version="1.1"><trk><name>{path.stem}</name><trkseg>{points}</trkseg></trk></gpx>\n')


def layer(path: Path, name: str) -> str:
    return subprocess.run(["ogrinfo", "-so", path, name], check=True, stdout=subprocess.PIPE, text=True).stdout


def test_a_real_map(extract: Path, tmp_path: Path, monkeypatch: pytest.MonkeyPatch, capsys: Any) -> None:
    monkeypatch.chdir(tmp_path)
    network = Network.from_osm(extract)
    assert network.edge_count > 5000 and network.report.size["points"] > 30_000
    names = network.table["name"].to_numpy()
    begins = np.flatnonzero(names == "Landstrasse")[[0, 40, 80]].tolist()
    routes = [walk(network, begin, 4000) for begin in begins]
    tracks = [positions(network, route, seed) for seed, route in enumerate(routes)]
    for number, places in enumerate(tracks):
        write_gpx(tmp_path / f"drive {number}.gpx", places)
    count = sum(map(len, tracks))
    assert count > 80
    assert main([str(extract), *sorted(path.name for path in tmp_path.glob("*.gpx")), "--bbox", "all",
                 "--into", "out", "--no-margins"]) == 0
    assert f"positions: {count}, with an edge: {count} (100.0 %)" in capsys.readouterr().out
    found = open_matches(tmp_path / "out" / "result.gpkg")
    for number, route in enumerate(routes):
        driven = found.edges[found.edges["id"] == f"drive {number}"]
        true = set(network.parts.street[route].tolist())
        assert driven["metres"][driven["edge"].isin(true)].sum() >= 0.98 * driven["metres"].sum()
        assert driven["metres"].sum() == pytest.approx(70 * (len(tracks[number]) - 1), rel=0.03)
    assert (found.points["name"] == "Landstrasse").sum() > 20
    if not shutil.which("ogrinfo"):
        pytest.skip("reading the layers of a real map again, since there is no ogrinfo")
    for name, wanted in (("points", count), ("routes", len(found.routes)), ("edges", len(found.edges)),
                         ("network", network.edge_count), ("stops", len(found.stops()))):
        shown = layer(tmp_path / "out" / "result.gpkg", name)
        assert f"Feature Count: {wanted}\n" in shown and 'ID["EPSG",4326]' in shown, name
