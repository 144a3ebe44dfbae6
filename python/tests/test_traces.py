"""From positions to a trace file and back."""
from __future__ import annotations

from pathlib import Path
from typing import Any, List, Optional

import numpy as np
import pandas as pd
import pytest
from hypothesis import given
from hypothesis import strategies as st

from fmm._noise import Motion
from fmm._thinning import jumps, thinned
from fmm._traces import LONGEST, Traces, write_traces
from fmm.options import Options
from fmm.positions import Positions, read_positions
from fmm.projection import Projection


class Network:
    projection = Projection(None)


def positions_of(rows: List[tuple], **columns: Any) -> Positions:
    return read_positions(pd.DataFrame(rows, columns=["id", "x", "y", "time"]).assign(**columns), crs="metres")


def traces_of(positions: Positions, folder: Path, **options: Any) -> Traces:
    return write_traces(positions, Network, Options(**options), folder)


def accounted(positions: Positions, traces: Traces) -> None:
    """Each row is in the file once, or has a reason."""
    rows = np.concatenate([traces.row, traces.reasons.index.to_numpy(dtype=np.int64)])
    assert sorted(rows.tolist()) == list(range(len(positions)))
    assert (traces.reasons != "").all()


def file_rows(traces: Traces) -> List[str]:
    return traces.path.read_text().splitlines()


def test_a_trace_file(tmp_path: Path) -> None:
    positions = positions_of([("b", 3, 4, 10), ("a", 1.234, -2, 7.9), ("b", 1, 2, 5), ("a", 5, 6, 1000)])
    traces = traces_of(positions, tmp_path, gap=300)
    assert file_rows(traces) == ["trace,x,y,time", "1,123,-200,7", "2,500,600,1000", "3,100,200,5", "3,300,400,10"]
    assert traces.trace.tolist() == [1, 2, 3, 3] and traces.row.tolist() == [1, 3, 2, 0]
    assert traces.drives.reset_index().values.tolist() == [[1, "a", 7.9, 7.9, 1], [2, "a", 1000, 1000, 1], [3, "b", 5, 10, 2]]
    accounted(positions, traces)


def test_a_gap_is_longer_than_gap(tmp_path: Path) -> None:
    positions = positions_of([("a", n, 0, time) for n, time in enumerate((0, 300, 600.5, 900.5))])
    assert traces_of(positions, tmp_path, gap=300).trace.tolist() == [1, 1, 2, 2]
    assert traces_of(positions, tmp_path).trace.tolist() == [1, 1, 1, 1]


def test_rows_that_cannot_be_used_have_their_reason(tmp_path: Path) -> None:
    positions = positions_of([("a", 1, 2, 3), ("a", None, 2, 4), ("", 1, 2, 5), ("a", 1, 3, "yesterday"), ("a", 1, 9, None),
                              ("a", 2, 2, 9)])
    traces = traces_of(positions, tmp_path)
    assert traces.reasons.to_dict() == {1: "no x", 2: "no id", 4: "no time",
                                        3: "time yesterday is neither an ISO time nor seconds since 1970"}
    accounted(positions, traces)


def test_drives_without_times(tmp_path: Path) -> None:
    positions = positions_of([("a", 9, 2, None), ("a", 1, 2, None), ("b", 1, 2, 3)])
    traces = traces_of(positions, tmp_path)
    assert file_rows(traces) == ["trace,x,y", "1,900,200", "1,100,200", "2,100,200"]
    assert traces.notes == ["1 drive has no times: a", "the trace file has no times, since some drives have none"]
    assert np.isnan(traces.drives["begin"][1])
    few = traces_of(positions_of([("a", 9, 2, None), ("a", 1, 2, None), ("a", 4, 2, 5)]), tmp_path)
    assert few.row.tolist() == [0, 1, 2] and few.notes[0].startswith("1 drive has times in less than half of the rows")


def test_rows_that_come_twice(tmp_path: Path) -> None:
    positions = positions_of([("a", 1, 2, 3), ("a", 1, 2, 4), ("a", 1, 2, 3), ("b", 1, 2, 3)])
    traces = traces_of(positions, tmp_path)
    assert traces.row.tolist() == [0, 1, 3] and traces.reasons.to_dict() == {2: "repeated"}
    assert traces.between.values.tolist() == [[2, 1, 0]]
    accounted(positions, traces)


def test_now_and_two_hours_ago_in_turn(tmp_path: Path) -> None:
    rows = [("a", 10 * n, 7000 * (n % 2), n + 7200 * (n % 2)) for n in range(2000)]
    assert traces_of(positions_of(rows), tmp_path, gap=300).drives["positions"].tolist() == [1000, 1000]


def test_one_id_at_two_places_at_once(tmp_path: Path) -> None:
    here = pd.DataFrame({"id": "a", "x": np.arange(50.) * 10, "y": 0., "time": np.arange(50) * 2})
    there = here.assign(x=here["x"] + 90_000, time=here["time"] + 1)
    both = read_positions([here, there], crs="metres")
    traces = traces_of(both, tmp_path)
    assert traces.drives["positions"].tolist() == [50, 50] and "each file is a vehicle of its own" in traces.notes[0]
    one = read_positions(pd.concat([here, there]), crs="metres")
    assert "two vehicles with one id, or wrong times?" in traces_of(one, tmp_path).notes[0]
    apart = read_positions([here[::2], here[1::2]], crs="metres")
    assert traces_of(apart, tmp_path).drives["positions"].tolist() == [50]


def test_a_trace_has_at_most_as_many_positions_as_the_program_takes(tmp_path: Path) -> None:
    count = LONGEST + 5
    frame = pd.DataFrame({"id": "a", "x": np.arange(count) % 1000 * 100., "y": 0., "time": np.arange(count)})
    traces = traces_of(read_positions(frame, crs="metres"), tmp_path)
    assert traces.drives["positions"].tolist() == [LONGEST, 5]


def test_places_that_the_projection_does_not_have(tmp_path: Path) -> None:
    class Zone:
        projection = Projection.of(25832)
    positions = read_positions(pd.DataFrame({"id": "a", "lon": [9.4, -170.6, 9.41], "lat": [54.3, 0, 54.3], "time": 5}))
    traces = write_traces(positions, Zone, Options(), tmp_path)
    assert traces.row.tolist() == [0, 2] and traces.reasons.to_dict() == {1: "too far from the area of the network's projection"}


def test_thinning(tmp_path: Path) -> None:
    xs = [0, 3, 8, 11, 12, 25, 24]
    positions = positions_of([("a", x, 0, n) for n, x in enumerate(xs)])
    traces = traces_of(positions, tmp_path, thin=10)
    assert traces.row.tolist() == [0, 3, 5, 6]
    assert traces.reasons.to_dict() == {1: "thinned", 2: "thinned", 4: "thinned"}
    assert traces.between.values.tolist() == [[1, 1, 0], [2, 1, 0], [4, 1, 1]]
    assert traces.drives.loc[1, ["begin", "end", "positions"]].tolist() == [0, 6, 4]


STEPS = st.lists(st.tuples(st.integers(-50, 50), st.integers(-50, 50), st.booleans()), min_size=1, max_size=40)


@given(STEPS, st.integers(0, 60))
def test_what_thinning_keeps(steps: List[tuple], step: int) -> None:
    x, y = np.cumsum([[a, b] for a, b, _ in steps], axis=0).T
    drives = np.cumsum([new for _, _, new in steps])
    kept = thinned(x, y, drives, step)
    for drive in np.unique(drives):
        places = np.flatnonzero(drives == drive)
        assert kept[places[0]] and kept[places[-1]]
        last: Optional[int] = None
        for place in places[:-1]:
            far = last is None or np.hypot(x[place] - x[last], y[place] - y[last]) >= step
            assert kept[place] == far
            last = place if far else last


ROWS = st.lists(st.tuples(st.sampled_from(["a", "b", "7", "007"]), st.integers(-10**6, 10**6), st.integers(-999, 999),
                          st.one_of(st.none(), st.integers(0, 2000))), min_size=1, max_size=40)


@given(ROWS, st.sampled_from([None, 0, 5, 300]), st.sampled_from([None, 5, 500]))
def test_each_row_is_in_the_file_or_has_a_reason(tmp_path_factory: pytest.TempPathFactory, rows: List[tuple],
                                                 gap: Optional[float], thin: Optional[float]) -> None:
    positions = positions_of(rows)
    traces = traces_of(positions, tmp_path_factory.mktemp("rows"), gap=gap, thin=thin)
    accounted(positions, traces)
    frame = positions.frame
    assert (frame["id"].to_numpy()[traces.row] == traces.drives["id"].reindex(traces.trace).to_numpy()).all()
    assert traces.drives["positions"].sum() == len(traces.row)
    for trace, times in pd.Series(frame["time"].to_numpy()[traces.row]).groupby(traces.trace):
        assert (np.diff(times) >= 0).all() or times.isna().any()
    told = traces.between.groupby(["trace", "point"]).size() if len(traces.between) else pd.Series(dtype=int)
    assert all(0 <= point < traces.drives["positions"][trace] for trace, point in told.index)


@given(ROWS, st.randoms())
def test_the_order_of_rows_changes_nothing(tmp_path_factory: pytest.TempPathFactory, rows: List[tuple], random: Any) -> None:
    rows = [(name, x, y, 7 * number) for number, (name, x, y, _) in enumerate(rows)]
    mixed = list(rows)
    random.shuffle(mixed)
    folder = tmp_path_factory.mktemp("order")
    texts = [traces_of(positions_of(order), folder, gap=50, thin=100).path.read_bytes() for order in (rows, mixed)]
    assert texts[0] == texts[1]


def jumps_of(xs: List[float], fastest: float = 50) -> List[int]:
    x = np.array(xs, dtype=float)
    return np.flatnonzero(jumps(Motion(x, 0 * x, np.arange(len(x)) * 1.0, np.zeros(len(x))), fastest, 10)).tolist()


def test_jumps() -> None:
    road = [20.0 * n for n in range(12)]
    assert jumps_of(road) == []
    for places in ([4], [4, 5], [4, 5, 6], [0], [11], [3, 8], [0, 5, 11]):
        assert jumps_of([x + 900 * (n in places) for n, x in enumerate(road)]) == places
    assert jumps_of([x + 900 * (n == 4) - 700 * (n == 5) for n, x in enumerate(road)]) == [4, 5]
    assert jumps_of([x + 900 * (n >= 6) for n, x in enumerate(road)]) == []  # seen again at another place
    assert jumps_of([500.0 * n for n in range(12)]) == []  # an aeroplane
    assert jumps_of([5, 4000]) == []


def test_jumps_have_their_reason(tmp_path: Path) -> None:
    rows = [("a", 20 * n + 900 * (n == 4), 0, n) for n in range(9)] + [("b", 900 * n, 0, None) for n in range(3)]
    positions = positions_of(rows)
    traces = traces_of(positions, tmp_path, fastest=50, sigma=2)
    assert traces.reasons.to_dict() == {4: "a jump: reached and left faster than 180 km/h"}
    accounted(positions, traces)
    assert traces_of(positions, tmp_path).reasons.to_dict() == {}


@given(st.lists(st.tuples(st.integers(0, 3000), st.integers(0, 3), st.booleans()), max_size=30))
def test_no_drive_is_lost_to_jumps(steps: List[tuple]) -> None:
    x = np.array([place for place, _, _ in steps], dtype=float)
    time = np.cumsum([seconds for _, seconds, _ in steps]) if steps else np.zeros(0)
    drives = np.cumsum([new for _, _, new in steps]) if steps else np.zeros(0)
    found = jumps(Motion(x, 0 * x, time.astype(float), drives), 70, 50)
    assert set(drives[~found]) == set(drives)
