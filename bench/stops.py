#!/usr/bin/env python3
"""stops.py [SEED ..]: how many stops of simulated drives are found, with begin and end within one sampling interval.

Prints a row for each sampling: the stops of two minutes and more, the share that is found, the worst share of a town, the stops
that are found and are none, and how far begins and ends are off in the median. Each seed is a town with sixteen drives; by
default 200 to 211. The seeds 100 to 111 served to choose the constants of the detection, and 7 to 9 are those of python/tests.
"""
import sys
from pathlib import Path

import numpy as np
import pandas as pd

TOP = Path(__file__).resolve().parent.parent
sys.path[:0] = [str(TOP / "python/src"), str(TOP / "python/tests")]

import simulated  # noqa: E402

from fmm._stops import standing  # noqa: E402
from fmm._stop_times import Track  # noqa: E402

SETTINGS = ((1, False), (1, True), (2, False), (2, True), (5, False), (15, False), (30, False), (60, False))
SECONDS, NOISE = 120, 2.0


def track_of(positions):
    """The positions sorted by vehicle and time, and the names of the vehicles."""
    codes, names = pd.factorize(positions["vehicle"], sort=True)
    order = np.lexsort((positions["time"], codes))
    x, y, time = (positions[name].to_numpy()[order] for name in ("x", "y", "time"))
    return Track(codes[order], time, x, y, NOISE), names


def town(seed, interval, silent):
    """The stops of a town, how many of them are found, how many are found that are none, and the errors of begins and ends."""
    _, positions, truth = simulated.fleet(seed, interval, silent)
    track, names = track_of(positions)
    stood = standing(track, SECONDS)
    who, count, good, true, errors = names[track.vehicle[stood.first]], 0, 0, np.zeros(len(stood.first), bool), []
    for stop in truth.stops:
        meets = (who == stop["vehicle"]) & (stood.begin < stop["end"]) & (stood.end > stop["begin"])
        true |= meets
        if stop["end"] - stop["begin"] >= SECONDS:
            off = np.stack((stood.begin - stop["begin"], stood.end - stop["end"]))[:, meets]
            count, good = count + 1, good + int((np.abs(off) <= interval).all(axis=0).sum() == 1)
            errors += np.abs(off).T.tolist()
    return count, good, int((~true).sum()), errors


def main(seeds):
    print(f"{'a position each':20} {'stops':>6} {'found':>8} {'worst town':>10} {'false':>6} {'begin':>7} {'end':>7}")
    for interval, silent in SETTINGS:
        towns = [town(seed, interval, silent) for seed in seeds]
        count, good, false = (sum(one[place] for one in towns) for place in range(3))
        worst = min(one[1] / one[0] for one in towns)
        begin, end = np.median([error for one in towns for error in one[3]], axis=0)
        name = f"{interval} s{', none while parked' if silent else ''}"
        shares = f"{100 * good / count:6.1f} % {100 * worst:8.1f} %"
        print(f"{name:20} {count:6} {shares} {false:6} {begin:5.2f} s {end:5.2f} s", flush=True)


if __name__ == "__main__":
    main([int(word) for word in sys.argv[1:]] or range(200, 212))
