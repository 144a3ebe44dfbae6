"""Matches of simulated drives, compared with the truth."""
from __future__ import annotations

import collections
import statistics
from pathlib import Path
from typing import Any, Dict, List, Tuple

import numpy as np
import pandas as pd
import pytest
import simulated

from fmm._summaries import travel_times
from fmm.errors import MismatchError, OptionError
from fmm.matches import Matches
from fmm.matching import match
from fmm.network import Network
from fmm.options import Options

WKB_POINT = np.dtype([("head", "V5"), ("xy", "<f8", 2)])


def network_of(town: simulated.Town, folder: Path) -> Network:
    path = folder / "network.csv"
    path.write_text(town.network_text())
    network = Network.open(path, crs="32N")
    network.table = town.table()
    return network


@pytest.fixture(scope="module")
def fleet(tmp_path_factory: pytest.TempPathFactory) -> Tuple[Matches, simulated.Truth, pd.DataFrame]:
    town, positions, truth = simulated.fleet(7)
    network = network_of(town, tmp_path_factory.mktemp("fleet"))
    return match(network, positions, options=Options.of(back=20, gap=300)), truth, positions


def seconds(times: pd.Series) -> np.ndarray:
    return np.asarray((times - pd.Timestamp(0, tz="UTC")) / pd.Timedelta(seconds=1))


def test_each_row_comes_back_once_in_its_order(fleet: Tuple[Matches, simulated.Truth, pd.DataFrame]) -> None:
    matches, _, positions = fleet
    assert matches.points["id"].tolist() == positions["vehicle"].tolist()
    assert np.allclose(matches.points["x"], positions["x"]) and np.allclose(matches.points["y"], positions["y"])
    assert np.allclose(seconds(matches.points["time"]), positions["time"])
    assert matches.points.index.tolist() == list(range(len(positions)))
    assert (matches.points["reason"] == "").all() and matches.points["edge"].notna().all()
    assert matches.points["distance"].median() < 3
    points = np.frombuffer(b"".join(matches.points.geometry.to_wkb()), WKB_POINT)["xy"]  # other ways take seconds
    away = points - positions[["x", "y"]].to_numpy()
    assert np.allclose(np.hypot(*away.T), matches.points["distance"], atol=0.02)


def test_edges_have_the_times_of_the_truth(fleet: Tuple[Matches, simulated.Truth, pd.DataFrame]) -> None:
    matches, truth, _ = fleet
    drives: Dict[Tuple[str, int], List[Dict[str, Any]]] = collections.defaultdict(list)
    for row in truth.edges:
        drives[row["vehicle"], row["edge"]].append(row)
    whole = matches.edges[matches.edges["whole"]]
    entries = seconds(whole["entry"])
    errors, late, standing = [], [], []
    for entry, (_, row) in zip(entries, whole.iterrows()):
        near = [(abs(entry - other["entry"]), other) for other in drives[row["id"], row["edge"]]]
        if near and min(away for away, _ in near) < 30:
            away, other = min(near, key=lambda pair: pair[0])
            errors.append(abs(other["seconds"] - row["seconds"]))
            late.append(away)
            standing.append((other["stood"], row["standing"]))
    assert len(errors) >= 0.97 * max(len(truth.edges), len(whole))
    assert statistics.median(errors) <= 0.3
    assert statistics.median(late) <= 0.3
    long = [(stood, found) for stood, found in standing if stood > 40]
    assert len(long) >= 15 and statistics.median(abs(stood - found) for stood, found in long) <= 2
    assert np.allclose(whole["metres"], matches.network.streets.lengths[whole["edge"] - 1] / 100)  # type: ignore[union-attr]


def test_travel_times_leave_out_parking(fleet: Tuple[Matches, simulated.Truth, pd.DataFrame]) -> None:
    matches, truth, _ = fleet
    wanted = collections.defaultdict(list)
    for row in truth.edges:
        parked = sum(stop["end"] - stop["begin"] for stop in truth.stops
                     if stop["vehicle"] == row["vehicle"] and stop["end"] - stop["begin"] >= 120
                     and row["entry"] <= stop["begin"] < row["entry"] + row["seconds"])
        day, hour = divmod(row["entry"], 86400)
        wanted[row["edge"], int(hour // 3600)].append(row["seconds"] - parked)
    found = matches.travel_times(by="hour").set_index(["edge", "hour"])
    errors = [abs(found["seconds"][key] - statistics.mean(values)) for key, values in wanted.items() if key in found.index]
    assert len(errors) >= 0.97 * max(len(wanted), len(found))
    assert statistics.median(errors) <= 0.3
    assert found["seconds"].max() < 120
    assert matches.edges["seconds"].max() > 2000
    assert matches.travel_times(standing=None)["seconds"].max() > 150
    assert (found["speed"] < 80).all() and (found["name"] != "").all()


def test_a_vehicle_that_stood_nearly_all_the_time_has_no_travel_time() -> None:
    """As in a roundabout on which it parked: 18 m are no road of 0.1 ms."""
    edges = pd.DataFrame({"edge": 1, "metres": 18.0, "seconds": [272.0, 6.0], "whole": True, "way": "7", "class": "primary",
                          "name": "", "ref": "", "direction": "forward", "maxspeed": np.nan})
    found = travel_times(edges, np.array([271.9999, 0.0]), {})
    assert found["drives"].tolist() == [1] and found["seconds"].tolist() == [6.0]


def test_distances_are_those_driven(fleet: Tuple[Matches, simulated.Truth, pd.DataFrame]) -> None:
    matches, truth, _ = fleet
    found = matches.distances(by=["vehicle", "day"]).set_index(["vehicle", "day"])["metres"]
    assert len(found) == len(truth.metres)
    for row in truth.metres:
        assert found[row["vehicle"], row["day"]] == pytest.approx(row["metres"], rel=0.01)
    assert matches.distances(by=None)["metres"].iloc[0] == pytest.approx(matches.edges["metres"].sum())
    assert set(matches.distances("weekday")["weekday"]) == {"Monday", "Tuesday"}
    with pytest.raises(OptionError, match="did you mean weekday"):
        matches.distances("weekdy")


def test_stops_are_found_on_their_streets(fleet: Tuple[Matches, simulated.Truth, pd.DataFrame]) -> None:
    matches, truth, _ = fleet
    found = matches.stops(seconds=120)
    begins, ends = seconds(found["begin"]), seconds(found["end"])
    wanted = [stop for stop in truth.stops if stop["end"] - stop["begin"] >= 120]
    good = street = 0
    for stop in wanted:
        near = np.flatnonzero((found["id"] == stop["vehicle"]).to_numpy() & (abs(begins - stop["begin"]) <= 2)
                              & (abs(ends - stop["end"]) <= 2))
        good += len(near) == 1
        street += len(near) == 1 and found["name"].iloc[near[0]] == stop["street"]
    assert good >= 0.95 * len(wanted)
    assert street >= 0.95 * good
    assert len(found) <= 1.05 * len(wanted) + 1
    assert found["seconds"].min() >= 120 and found["seconds"].max() > 2300
    assert (found["positions"] >= found["seconds"] / 2).all()


def test_a_match_in_degrees_and_one_in_metres_give_the_same_roads(tmp_path: Path) -> None:
    town, positions, _ = simulated.fleet(7)
    positions = positions[positions["vehicle"].isin(["42", "007"])].iloc[:3000].reset_index(drop=True)
    network = network_of(town, tmp_path)
    metres = match(network, positions, options=Options.of(back=20))
    longitude, latitude = network.projection.to_crs(100 * positions["x"], 100 * positions["y"], "EPSG:4326")
    degrees = match(network, positions.drop(columns=["x", "y"]).assign(longitude=longitude, latitude=latitude),
                    options=Options.of(back=20))
    assert (degrees.points["edge"] == metres.points["edge"]).all()
    assert degrees.points.crs.to_epsg() == 4326
    assert degrees.points.geometry.x.between(9, 10).all()
    assert np.allclose(degrees.routes["metres"], metres.routes["metres"], atol=0.05)
    plain = Network.open(network.path)
    with pytest.raises(MismatchError, match="EPSG:4326.*not known"):
        match(plain, positions.drop(columns=["x", "y"]).assign(longitude=longitude, latitude=latitude), options=Options())


def test_a_permutation_of_the_rows_changes_nothing(tmp_path: Path) -> None:
    town, positions, _ = simulated.fleet(7)
    positions = positions.iloc[:4000].reset_index(drop=True)
    network = network_of(town, tmp_path)
    order = np.random.RandomState(1).permutation(len(positions))
    first = match(network, positions, options=Options.of(back=20, thin=15)).points
    second = match(network, positions.iloc[order].reset_index(drop=True), options=Options.of(back=20, thin=15)).points
    for name in ("id", "time", "edge", "offset", "distance", "piece", "point", "reason"):
        assert first[name].iloc[order].array.equals(second[name].array), name


def test_thinned_rows_have_their_place_on_the_route(fleet: Tuple[Matches, simulated.Truth, pd.DataFrame]) -> None:
    matches, _, positions = fleet
    all_rows = matches.points
    thinned = match(matches.network, positions, options=Options.of(back=20, gap=300, thin=20)).points
    assert thinned["point"].isna().sum() > 0.3 * len(thinned)
    assert (thinned["reason"] == "").all() and thinned["edge"].notna().all()
    assert (thinned["edge"] == all_rows["edge"]).mean() > 0.95
    same = (thinned["edge"] == all_rows["edge"]).to_numpy()
    assert np.median(abs(thinned["offset"] - all_rows["offset"])[same]) < 4
    assert thinned["distance"].median() < 5


def test_positions_without_an_edge_and_without_times(tmp_path: Path) -> None:
    network = network_of(simulated.fleet(7)[0], tmp_path)
    far = pd.DataFrame({"id": ["a"] * 3, "x": [1e5, 1e5, 1e5], "y": [1e5, 1e5, 1e5 + 1], "colour": ["r", "g", "b"],
                        "edge": [7, 8, 9]})
    matches = match(network, far, options=Options())
    assert matches.report.text.startswith("warning: 3 of 3 positions have no edge: do the network and the positions")
    assert matches.report.left_out == {"no edge within 100 m": 3}
    assert matches.points["reason"].tolist() == ["no edge within 100 m"] * 3
    assert matches.points["colour"].tolist() == ["r", "g", "b"] and matches.points["edge_input"].tolist() == [7, 8, 9]
    assert len(matches.routes) == len(matches.edges) == len(matches.stops()) == len(matches.travel_times("hour")) == 0
    edge = network.lines.xy[:2] / 100
    near = pd.DataFrame({"id": ["a", "a"], "x": edge[:, 0], "y": edge[:, 1]})
    untimed = match(network, near, options=Options())
    assert untimed.edges["seconds"].isna().all() and untimed.edges["entry"].isna().all() and untimed.edges["speed"].isna().all()
    assert untimed.routes["begin"].isna().all() and untimed.points["time"].isna().all()
    assert untimed.distances(by=["vehicle", "day"])["metres"].sum() > 50
