"""Where vehicles stood, in simulated drives."""
from __future__ import annotations

import numpy as np
import pandas as pd
import pytest
import simulated

from fmm._stop_times import StepError, Track
from fmm._stops import Standing, overlaps, standing


def track_of(positions: pd.DataFrame, noise: float = 2.0) -> tuple[Track, pd.Index]:
    codes, names = pd.factorize(positions["vehicle"], sort=True)
    order = np.lexsort((positions["time"], codes))
    x, y, time = (positions[name].to_numpy()[order] for name in ("x", "y", "time"))
    return Track(codes[order], time, x, y, noise), names


@pytest.mark.parametrize("interval, silent", [(1, False), (2, False), (5, False), (15, False), (60, False), (2, True)])
def test_stops_are_found_within_an_interval(interval: int, silent: bool) -> None:
    good = count = found = parked = 0
    for seed in (7, 8, 9):
        _, positions, truth = simulated.fleet(seed, interval, silent)
        track, names = track_of(positions)
        stood = standing(track, 120)
        who = names[track.vehicle[stood.first]]
        for stop in truth.stops:
            if stop["end"] - stop["begin"] >= 120:
                near = (who == stop["vehicle"]) & (abs(stood.begin - stop["begin"]) <= interval)
                good += int((near & (abs(stood.end - stop["end"]) <= interval)).sum() == 1)
                count += 1
                parked += stop["end"] - stop["begin"] > 2300
        found += len(stood.begin)
    assert good >= 0.97 * count
    assert found <= 1.01 * count
    assert parked >= 10


def test_a_moving_vehicle_does_not_stand() -> None:
    time = np.arange(0, 3600, 2.0)
    zeros = np.zeros(len(time), np.int64)
    stood = standing(Track(zeros, time, 0.5 * time, 0 * time, 2.0), 120)
    assert len(stood.begin) == 0
    assert len(standing(Track(zeros[:0], time[:0], time[:0], time[:0], 2.0), 120).begin) == 0


def test_a_vehicle_that_is_off_overnight_stands_until_it_is_seen_elsewhere() -> None:
    drive = np.concatenate((np.arange(0, 600, 10.0), np.full(40, 590.0)))
    time = np.arange(len(drive)) * 5.0
    twice = np.concatenate((time, time + 50_000))
    x = np.concatenate((drive, drive + 20_000))
    stood = standing(Track(np.zeros(len(x), np.int64), twice, x, 0 * x, 1.0), 120)
    assert len(stood.begin) == 2
    assert stood.end[0] == time[-1] and stood.end[1] == twice[-1]
    same = standing(Track(np.zeros(len(x), np.int64), twice, np.concatenate((drive, drive[::-1])), 0 * x, 1.0), 120)
    assert len(same.begin) == 1 and same.end[0] - same.begin[0] > 49_000


@pytest.mark.parametrize("interval", [1, 2, 5])
def test_waiting_at_the_next_crossing_is_no_part_of_a_stop(interval: int) -> None:
    rng = np.random.RandomState(interval)
    time = np.arange(0, 600.0, interval)
    way = np.array([[0, -2000], [200, 0], [400, 0], [404, 15], [430, 15], [600, 1715]])
    x = np.interp(time, way[:, 0], way[:, 1]) + rng.normal(0, 0.7, len(time))
    for turned in (1, -1):
        track = Track(np.zeros(len(time), np.int64), np.sort(turned * time), x[::turned], rng.normal(0, 0.7, len(time)), 1.0)
        stood = standing(track, 120)
        begin, end = (200, 400) if turned > 0 else (-400, -200)
        assert len(stood.begin) == 1
        assert abs(stood.begin[0] - begin) <= 3 + interval and abs(stood.end[0] - end) <= 3 + interval


def test_errors_of_steps_become_independent() -> None:
    rng = np.random.RandomState(2)
    walk = np.cumsum(rng.normal(0, 0.4, (300, 13)), axis=1) + rng.normal(0, 1.5, (300, 13))
    step = np.diff(walk, axis=1)
    error = StepError.of(step)
    assert error.variance == pytest.approx(0.4 ** 2 + 2 * 1.5 ** 2, rel=0.1)
    assert error.shared == pytest.approx(-1.5 ** 2, rel=0.15)
    scale, by = error.factors(12)
    free = np.zeros((300, 13))
    for k in range(12):
        free[:, k + 1] = (step[:, k] - by[k] * free[:, k]) / scale[k]
    assert np.var(free[:, 1:]) == pytest.approx(1, rel=0.1)
    assert abs(np.mean(free[:, 2:] * free[:, 1:-1])) < 0.1


def test_overlaps_are_those_of_each_interval() -> None:
    rng = np.random.RandomState(1)
    cuts = np.sort(rng.uniform(0, 1000, 21))
    begin, end, of = np.tile(cuts[:-1], 2), np.tile(cuts[1:], 2), np.repeat([0, 1], 20)
    vehicle = np.array([0, 0, 1])
    stood = Standing(np.zeros(3, int), np.zeros(3, int), np.array([100.0, 500, 0]), np.array([300.0, 600, 2000]))
    found = overlaps(begin, end, of, stood, vehicle)
    wanted = [sum(max(0, min(high, stood.end[at]) - max(low, stood.begin[at])) for at in range(3) if vehicle[at] == one)
              for low, high, one in zip(begin, end, of)]
    np.testing.assert_allclose(found, wanted, atol=1e-6)
