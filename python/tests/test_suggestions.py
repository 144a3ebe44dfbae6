"""Options from the data. The drives of these tests are on a grid of streets, with errors of known size."""
from __future__ import annotations

import functools
import subprocess
from pathlib import Path
from typing import List, Tuple

import numpy as np
import pandas as pd
import pytest

import fmm
from fmm._noise import Motion, moving_noise, residual_noise, standing_noise
from fmm._programs import program
from fmm._traces import write_traces
from fmm.network import Network
from fmm.positions import Positions, read_positions
from fmm.suggestions import suggest

SIDE, BLOCK = 12, 160.0
ERRORS = [(0.0, 3.0), (3.0, 0.0), (0.0, 10.0), (9.0, 4.0), (18.0, 8.0)]  # standard deviations that wander and that jump


def drive(rng: np.random.Generator, seconds: int) -> np.ndarray:
    """The true places of a vehicle, one a second: along streets, with stops before some crossings."""
    places: List[np.ndarray] = []
    here, way = rng.integers(2, SIDE - 2, 2), np.array([1, 0])
    while len(places) < seconds:
        for turn in rng.permutation(4):
            new = np.array([[1, 0], [0, 1], [-1, 0], [0, -1]][turn])
            if (new != -way).any() and ((here + new) >= 0).all() and ((here + new) < SIDE).all():
                way = new
                break
        for along in np.arange(0, BLOCK, rng.uniform(8, 13)):
            places.append(BLOCK * here + along * way)
        here = here + way
        if rng.random() < 0.3:
            places += [BLOCK * here] * int(rng.integers(10, 60))
    return np.array(places[:seconds])


def error(rng: np.random.Generator, count: int, wanders: float, jumps: float) -> np.ndarray:
    found = [rng.normal(0, wanders, 2).tolist()]
    for x, y in rng.normal(0, 0.312 * wanders, (count - 1, 2)).tolist():
        found.append([0.95 * found[-1][0] + x, 0.95 * found[-1][1] + y])
    return np.array(found) + rng.normal(0, 1, (count, 2)) * jumps


@functools.lru_cache(maxsize=None)
def driven_places(seed: int, wanders: float, jumps: float) -> List[Tuple[np.ndarray, np.ndarray]]:
    """The true and the measured places of 12 vehicles, one a second."""
    rng, found = np.random.default_rng(seed), []
    for _ in range(12):
        places = drive(rng, 900)
        found.append((places, places + error(rng, 900, wanders, jumps)))
    return found


def fleet(seed: int, wanders: float, jumps: float, step: int = 1) -> pd.DataFrame:
    rows = []
    for name, (_, measured) in enumerate(driven_places(seed, wanders, jumps)):
        x, y = measured[::step].T
        rows.append(pd.DataFrame({"id": f"v{name}", "x": x, "y": y, "time": np.arange(0, 900, step)}))
    return pd.concat(rows, ignore_index=True)


def motion_of(frame: pd.DataFrame) -> Motion:
    return Motion(frame["x"].to_numpy(), frame["y"].to_numpy(), frame["time"].to_numpy(dtype=float), pd.factorize(frame["id"])[0])


@pytest.fixture(scope="module")
def network(tmp_path_factory: pytest.TempPathFactory) -> Network:
    """The grid of streets, each of them two edges."""
    lines = ["edge,from,to,line"]
    for row in range(SIDE):
        for column in range(SIDE):
            for other in ((row + 1, column), (row, column + 1)):
                if max(other) < SIDE:
                    ends = (row, column), other
                    for (a, b), (c, d) in (ends, ends[::-1]):
                        line = f"{16000 * a} {16000 * b};{16000 * c} {16000 * d}"
                        lines.append(f"{len(lines)},{SIDE * a + b},{SIDE * c + d},{line}")
    path = tmp_path_factory.mktemp("grid") / "network.csv"
    path.write_text("\n".join(lines) + "\n")
    return Network.open(path)


@pytest.mark.parametrize("seed", range(4))
@pytest.mark.parametrize("wanders, jumps", ERRORS)
def test_the_error_without_a_network(wanders: float, jumps: float, seed: int) -> None:
    motion = motion_of(fleet(seed, wanders, jumps))
    found = moving_noise(standing_noise(motion, 1), residual_noise(motion, 1))
    assert found is not None and 0.5 < found / np.hypot(wanders, jumps) < 1.6


@pytest.mark.parametrize("step", [1, 5, 60])
@pytest.mark.parametrize("wanders, jumps", ERRORS)
def test_the_error_beside_the_nearest_edges(network: Network, wanders: float, jumps: float, step: int) -> None:
    suggestion = suggest(read_positions(fleet(1, wanders, jumps, step), crs="metres"), network)
    assert 0.7 < suggestion.noise / np.hypot(wanders, jumps) < 1.35


def test_what_the_data_show() -> None:
    suggestion = suggest(read_positions(fleet(1, 3, 1), crs="metres"))
    options = suggestion.options
    assert suggestion.interval == 1 and suggestion.pauses == 0
    assert suggestion.speed == pytest.approx(10, abs=2.5)
    assert options.gap == 300 and 10 <= (options.thin or 0) <= 30 and options.back >= 10
    assert set(suggestion.reasons) == {"k", "sigma", "beta", "thin", "back", "bound", "radius", "gap", "fastest"}
    assert suggestion.text.count("\n") == len(suggestion.reasons)


@pytest.mark.parametrize("step", [1, 2, 5, 10, 15])
def test_the_speed_of_vehicles_that_move(step: int) -> None:
    speed = suggest(read_positions(fleet(1, 3, 1, step), crs="metres")).speed
    assert speed == pytest.approx(9, abs=3)


def test_pauses_and_slow_sampling() -> None:
    frame = fleet(1, 3, 1, step=60)
    frame.loc[(frame["id"] == "v1") & (frame["time"] > 400), "time"] += 3600
    suggestion = suggest(read_positions(frame, crs="metres"))
    assert (suggestion.interval, suggestion.pauses, suggestion.options.gap) == (60, 1, 300)
    assert "1 pause" in suggestion.reasons["gap"]
    frame["time"] *= 5
    assert suggest(read_positions(frame, crs="metres")).options.gap == 1500


def test_degrees_are_as_metres() -> None:
    frame = fleet(2, 4, 2)
    metres = suggest(read_positions(frame, crs="metres"))
    degrees = frame.assign(lon=frame["x"] / 111_320 / np.cos(np.radians(54.3)) + 9, lat=54.3 + frame["y"] / 110_540)
    found = suggest(read_positions(degrees.drop(columns=["x", "y"])))
    assert found.noise == pytest.approx(metres.noise, rel=0.03)
    assert found.options.thin == pytest.approx(metres.options.thin, abs=1)


@pytest.mark.parametrize("rows", [
    [("a", 5, 5, 10)], [("a", 5, 5, None)], [("a", 5, 5, None), ("a", 900, 5, None)], [("a", 5, 5, 10)] * 3,
    [("a", 5, 5, 10), ("b", 5, 5, 10)], [("a", 5 * n, 5, 0) for n in range(50)]])
def test_data_that_show_nothing(rows: List[tuple]) -> None:
    suggestion = suggest(positions_of(rows))
    assert suggestion.noise == 5 and "do not show" in suggestion.reasons["sigma"]


def positions_of(rows: List[tuple]) -> Positions:
    return read_positions(pd.DataFrame(rows, columns=["id", "x", "y", "time"]), crs="metres")


def test_positions_off_the_network(network: Network) -> None:
    frame = fleet(1, 3, 1)
    frame["x"] += 500_000
    assert suggest(read_positions(frame, crs="metres"), network).noise == pytest.approx(3, abs=2)


def driven(network: Network, frame: pd.DataFrame, folder: Path) -> Tuple[float, int]:
    """The length of all routes in metres, and the number of pieces, with the suggested options."""
    positions = read_positions(frame, crs="metres")
    options = suggest(positions, network).options
    traces = write_traces(positions, network, options, folder)
    words = [str(program(False)), "match", str(network.path), str(traces.path), *options.arguments()]
    text = subprocess.run(words, stdout=subprocess.PIPE, text=True, check=True).stdout
    lengths = dict(zip(network.lines.ids.tolist(), (network.lines.lengths / 100).tolist()))
    pieces = [line.split()[6:] for line in text.splitlines() if line.startswith("piece")]
    return sum(lengths[int(edge)] for route in pieces for edge in route), len(pieces)


@pytest.mark.parametrize("step", [1, 5, 15])
@pytest.mark.parametrize("wanders, jumps", ERRORS)
def test_no_road_that_nobody_drove(network: Network, tmp_path: Path, wanders: float, jumps: float, step: int) -> None:
    frame = fleet(3, wanders, jumps, step)
    true = sum(float(np.hypot(*np.diff(places, axis=0).T).sum()) for places, _ in driven_places(3, wanders, jumps))
    length, pieces = driven(network, frame, tmp_path)
    assert pieces <= 14 and length == pytest.approx(true, rel=0.06)  # whole edges count at both ends of a drive


@pytest.mark.parametrize("wanders, jumps", [(3.0, 0.0), (5.0, 0.5), (5.0, 2.0), (10.0, 0.0), (10.0, 4.0)])
def test_a_stop_on_a_long_street_is_no_drive_to_its_end(tmp_path: Path, wanders: float, jumps: float) -> None:
    """An error that wanders moves a standing vehicle by more than `thin` now and then. Where vehicles may turn round only far
    away, a position that seems to move back would lead there."""
    path = tmp_path / "road.csv"
    path.write_text("edge,from,to,line\n1,1,2,0 0;600000 0\n2,2,1,600000 0;0 0\n")
    rng, rows, true = np.random.default_rng(7), [], 0.0
    for vehicle in range(12):
        along = np.arange(1000.0, 5000.0, 12.0)
        along = np.concatenate([along[:150], np.full(200, along[150]), along[150:]])
        places = np.stack([along, np.full(len(along), 2.0)], axis=1) + error(rng, len(along), wanders, jumps)
        rows += [(f"v{vehicle}", x, y, second) for second, (x, y) in enumerate(places.tolist())]
        true += along[-1] - along[0]
    frame = pd.DataFrame(rows, columns=["id", "x", "y", "time"])
    matches = fmm.match(Network.open(path), read_positions(frame, crs="metres"))
    assert matches.report.metres == pytest.approx(true, rel=0.02)


def test_the_public_names() -> None:
    assert fmm.suggest is suggest


def test_a_depot_beside_the_roads(network: Network) -> None:
    frame = fleet(1, 3, 1)
    rng = np.random.default_rng(5)
    depot = pd.DataFrame({"id": "v0", "x": 400 + rng.normal(0, 2, 20_000), "y": 400 + rng.normal(0, 2, 20_000),
                          "time": np.arange(20_000) + 5000})
    both = pd.concat([frame, depot], ignore_index=True)
    assert suggest(read_positions(both, crs="metres"), network).noise == pytest.approx(3.2, abs=1)


def test_vehicles_on_fields(network: Network) -> None:
    frame = fleet(1, 1, 1)
    suggestion = suggest(read_positions(frame.assign(x=frame["x"] + 70, y=frame["y"] + 75), crs="metres"), network)
    assert suggestion.noise < 10 and "many may be missing" in suggestion.reasons["sigma"]
