"""fmm positions, as a user calls it."""
from __future__ import annotations

import json
import os
import subprocess
import sys
from pathlib import Path
from typing import Any, Tuple

import forks
import numpy as np
import pandas as pd
import pytest

from fmm._evidence import checksum_of
from fmm._extents import compare_extents
from fmm._tables import read_table
from fmm.network import Network
from fmm.positions import read_positions
from fmm.projection import Projection

LINES = "edge,from,to,line\n1,1,2,52790000 601810000;52860000 601810000\n2,2,3,52860000 601810000;52860000 601850000\n"


@pytest.fixture
def network(tmp_path: Path) -> Network:
    """Two streets where the tracks of the pages are, in UTM 32N."""
    path = tmp_path / "plain.csv"
    path.write_text(LINES)
    Network.open(path, crs=32632).save(tmp_path / "network.csv")
    return Network.open(tmp_path / "network.csv")


TO = ("--network", "network.csv", "--into", "t.csv")


def fmm(folder: Path, *words: object) -> Tuple[int, str, str]:
    """Status, standard output and standard error."""
    done = forks.run(*map(str, words), folder=folder)
    return done.returncode, done.stdout, done.stderr


def test_a_trace_file_and_the_way_back(small: Path, tmp_path: Path, network: Network) -> None:
    table = tmp_path / "fleet.csv"
    table.write_text((small / "fleet.csv").read_text() + "van 3,,9.4,2024-05-06T09:00:02+02:00,5\n")
    status, nothing, out = fmm(tmp_path, "positions", "fleet.csv", small / "walk.gpx", *TO)
    assert (status, nothing) == (0, "")
    assert "rows: 38, sources: 2, positions in the trace file: 37" in out and "not in the trace file: 1 (no lat)" in out
    assert "fleet.csv: id from plate, x from lon, y from lat, time from when\n" in out and "100 % of the positions" in out
    traces, rows = read_table(tmp_path / "t.csv"), read_table(tmp_path / "t.rows.csv")
    assert list(rows.columns) == ["row", "file", "line", "id", "trace", "point", "reason"] and len(rows) == 38
    assert rows.iloc[1][["line", "reason"]].tolist() == ["3", ""]
    assert rows.iloc[27][["line", "trace", "reason"]].tolist() == ["29", "", "no lat"]
    found = rows[rows["trace"] != ""].astype({"trace": int, "point": int}).sort_values(["trace", "point"])
    assert found["trace"].tolist() == traces["trace"].astype(int).tolist()
    frame = read_positions([table, small / "walk.gpx"]).frame
    x, _ = network.projection.to_centimetres(frame["x"].to_numpy(), frame["y"].to_numpy(), 4326)
    assert x[found["row"].astype(int)].tolist() == traces["x"].astype(int).tolist()
    side = json.loads((tmp_path / "t.json").read_text())
    assert side["kind"] == "traces" and side["traces"]["sha256"] == checksum_of(tmp_path / "t.csv") and side["left_out"] == 1
    assert side["network"]["sha256"] == network.checksum and side["projection"]["crs"] == "EPSG:32632"
    assert [source["sha256"] for source in side["sources"]] == [checksum_of(table), checksum_of(small / "walk.gpx")]


def test_suggested_options(small: Path, tmp_path: Path, network: Network) -> None:
    status, _, out = fmm(tmp_path, "positions", small / "fleet.csv", *TO, "--suggest", "--gap", 60)
    assert status == 0 and "options for fmm match: --k " in out and "gap 300:" in out
    assert json.loads((tmp_path / "t.json").read_text())["options"]["gap"] == 60


@pytest.mark.parametrize("words, status, message", [
    (["positions", "no.csv", *TO], 1, "fmm positions: no.csv: No such file or directory\n"),
    (["positions", "fleet.csv", "--network", "no.csv", "--into", "t.csv"], 1, "no.csv: No such file or directory\n"),
    (["positions", "fleet.csv", "--network", "plain.csv", "--into", "t.csv"], 1,
     "plain.csv: its projection is not known, and the positions have one\n"),
    (["positions", "fleet.csv", *TO[:3], "fleet.csv"], 1, "fleet.csv: is an input of the same call\n"),
    (["positions", "fleet.csv", "--network", "network.csv", "--into", "no/t.csv"], 1, "no/t.csv: No such file or directory\n"),
    (["positions", "fleet.csv", "--network", "network.csv", "--into", "t"], 2, "--into is the name of a trace file that ends in"),
    (["positions", "fleet.csv", *TO, "--gap", "x"], 2, "gap is a number from 0 to 4.29497e+09, not 'x'\n"),
    (["positions", "fleet.csv", "--netwrk", "network.csv", "--into", "t.csv"], 2, "--network"),
])
def test_what_is_wrong(small: Path, tmp_path: Path, network: Network, words: Any, status: int, message: str) -> None:
    (tmp_path / "fleet.csv").write_bytes((small / "fleet.csv").read_bytes())
    before = sorted(os.listdir(tmp_path))
    found, out, err = fmm(tmp_path, *words)
    assert (found, out, err.count("\n")) == (status, "", 1) and message in err
    assert sorted(os.listdir(tmp_path)) == before


# ---- the same place

def verdict(network: Network, frame: pd.DataFrame, crs: Any = "metres") -> str:
    return compare_extents(network, read_positions(frame, crs=crs)).verdict


def test_why_boxes_do_not_meet(network: Network, small: Path) -> None:
    frame = read_positions(small / "fleet.csv").frame[["id", "x", "y", "time"]]
    assert verdict(network, frame, 4326) == ""
    exchanged = frame.rename(columns={"x": "y", "y": "x"})
    assert verdict(network, exchanged, 4326) == "longitude and latitude of the positions are exchanged"
    far = verdict(network, frame.assign(x=frame["x"] + 5), 4326)
    assert far.startswith("the positions are at another place: around longitude 14.43") and far.endswith(" km away")
    x, y = (column / 100 for column in Projection.of(32632).to_centimetres(frame["x"].to_numpy(), frame["y"].to_numpy(), 4326))
    metres = frame.assign(x=x, y=y)
    assert verdict(network, metres) == ""
    assert verdict(network, metres.assign(x=y, y=x)) == "the axes of the positions are exchanged: x is east, y is north"
    assert verdict(network, metres.assign(x=x / 1000, y=y / 1000)) == "the positions are in kilometres: give metres"
    assert "another zone or projection" in verdict(network, metres.assign(x=x + 1e6))
    assert verdict(network, frame) == "the positions are degrees: say crs=4326"


def test_centimetres_are_named() -> None:
    class Plane:
        projection = Projection(None)

        class lines:
            xy = np.array([[100_000, 100_000], [200_000, 300_000]])
    frame = pd.DataFrame({"id": "a", "x": [150_000.0], "y": [150_000.0], "time": 1})
    assert verdict(Plane, frame) == "the positions are in centimetres: give metres"  # type: ignore[arg-type]


def test_the_command_says_it_first(small: Path, tmp_path: Path, network: Network) -> None:
    text = (small / "fleet.csv").read_text().replace("plate,lat,lon", "plate,lon,lat")
    (tmp_path / "exchanged.csv").write_text(text)
    status, _, out = fmm(tmp_path, "positions", "exchanged.csv", *TO)
    assert status == 1 and out.startswith("warning: longitude and latitude of the positions are exchanged\n")


def test_hostile_names_and_ids(small: Path, tmp_path: Path, network: Network) -> None:
    name = os.fsencode(tmp_path) + b"/\xff\x1b[31m.csv"
    with open(name, "w") as file:
        file.write('id,lon,lat,time\n"a\x1b[31m,""=1",9.44,54.31,5\n7,9.44,54.31,\x1b]0;x\n007,9.44,54.31,6\n')
    status, nothing, out = fmm(tmp_path, "positions", os.fsdecode(name), *TO)
    assert (status, nothing) == (0, "") and "\x1b" not in out and "\\xff" in out
    rows = read_table(tmp_path / "t.rows.csv")
    number, text = '"Integer64"', '"String"'
    assert (tmp_path / "t.rows.csvt").read_text() == ",".join((number, text, number, text, number, number, text)) + "\n"
    assert rows["id"].tolist() == ['a\\x1b[31m,"=1', "7", "007"]
    assert rows["reason"].tolist() == ["", "time \\x1b]0;x is neither an ISO time nor seconds since 1970", ""]


def test_standard_input(top: Path, small: Path, tmp_path: Path, network: Network) -> None:
    done = subprocess.run([sys.executable, "-m", "fmm", "positions", "-", *TO], cwd=tmp_path, capture_output=True,
                          input=(small / "fleet.csv").read_bytes(), env={**os.environ, "PYTHONPATH": str(top / "python" / "src")})
    assert done.returncode == 0 and b"positions in the trace file: 27" in done.stderr
