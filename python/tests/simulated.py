"""A small fleet in a small town, and the truth about its drives: the same at each call with the same seed.

A vehicle drives over the streets at 5 to 14 m/s, waits before some crossings for 4 to 30 s, parks at the roadside a few times for
3 to 40 minutes, and sends a position each `interval` seconds. The error of a position wanders: 2 m, of which half a metre is new
in each position.
"""
from __future__ import annotations

import calendar
import collections
import functools
import hashlib
import itertools
import math
import os
import random
import sys
import tempfile
import zipfile
from contextlib import suppress
from dataclasses import dataclass, field
from pathlib import Path
from typing import Any, Dict, List, NamedTuple, Tuple

import numpy as np
import pandas as pd

SIDE, EAST, NORTH = 6, 528_000.0, 6_018_000.0
DAYS = (calendar.timegm((2024, 5, 6, 6, 48, 0)), calendar.timegm((2024, 5, 7, 6, 48, 0)))
VEHICLES = ("HH-AB 12", "van, blue", "tram 4", "bike 7", "HH-XY 9", "42", "007", "7")
STEP = 0.1  # seconds
PARKED = (180, 420, 900, 2400, 2400)  # seconds
LASTS = 5400  # seconds
CACHE = Path(os.environ.get("XDG_CACHE_HOME") or Path.home() / ".cache", "fmm-tests", "drives")
KEPT = 6  # files of 22 MB, of a seed each

Place = Tuple[float, float]


class Edge(NamedTuple):
    begin: Tuple[int, int]
    end: Tuple[int, int]
    line: List[Place]
    length: float
    street: str


class Town:
    """Streets in rows and columns, in metres."""

    def __init__(self, rng: random.Random) -> None:
        self.edges: List[Edge] = []
        self.leaving: Dict[Tuple[int, int], List[int]] = collections.defaultdict(list)
        at = {(r, c): (EAST + 190 * c + rng.uniform(-20, 20), NORTH + 170 * r + rng.uniform(-20, 20))
              for r in range(SIDE) for c in range(SIDE)}
        for (r, c), (x, y) in at.items():
            for other, street in (((r, c + 1), f"Row {r} Street"), ((r + 1, c), f"Column {c}, upper")):
                if other not in at:
                    continue
                bend = rng.uniform(-8, 8)
                middle = (x + at[other][0]) / 2 + bend, (y + at[other][1]) / 2 - bend
                line = [(round(a, 2), round(b, 2)) for a, b in ((x, y), middle, at[other])]
                self.add((r, c), other, line, street)
                self.add(other, (r, c), line[::-1], street)

    def add(self, begin: Tuple[int, int], end: Tuple[int, int], line: List[Place], street: str) -> None:
        length = sum(math.dist(p, q) for p, q in zip(line, line[1:]))
        self.leaving[begin].append(len(self.edges))
        self.edges.append(Edge(begin, end, line, length, street))

    def places(self, edges: np.ndarray, along: np.ndarray) -> np.ndarray:
        """The places so far along these edges, whose lines have a bend each."""
        begin, bend, end = np.array([edge.line for edge in self.edges])[edges].transpose(1, 0, 2)
        first, second = (np.hypot(*(to - of).T) for of, to in ((begin, bend), (bend, end)))
        before = np.minimum(along / first, 1)[:, None]
        after = np.clip((along - first) / second, 0, 1)[:, None]
        return begin + before * (bend - begin) + after * (end - bend)

    def network_text(self) -> str:
        """The network file; edges have ids from 1."""
        rows = ["edge,from,to,line"]
        for number, ((r, c), (r2, c2), line, _, _) in enumerate(self.edges, 1):
            points = ";".join(f"{round(100 * x)} {round(100 * y)}" for x, y in line)
            rows.append(f"{number},{100 * r + c},{100 * r2 + c2},{points}")
        return "\n".join(rows) + "\n"

    def table(self) -> pd.DataFrame:
        """What is known of each edge, as `Network.table` has it."""
        count = len(self.edges)
        return pd.DataFrame({
            "direction": ["forward" if number % 2 == 0 else "backward" for number in range(count)],
            "way": [str(500 + number // 2) for number in range(count)], "class": ["residential"] * count,
            "name": [edge.street for edge in self.edges], "ref": [""] * count, "maxspeed": [50.0] * count,
            "oneway": [False] * count})


@dataclass
class Truth:
    """Whole edges (vehicle, edge, entry, seconds, stood), metres (vehicle, day, metres), stops (vehicle, begin, end, street)."""

    edges: List[Dict[str, Any]] = field(default_factory=list)
    metres: List[Dict[str, Any]] = field(default_factory=list)
    stops: List[Dict[str, Any]] = field(default_factory=list)


@dataclass
class Drive:
    """Where a vehicle is at some times: its edge, the metres along it, and whether it stands."""

    time: np.ndarray
    edge: np.ndarray
    along: np.ndarray
    stands: np.ndarray


def drive(rng: random.Random, town: Town, slow: float) -> Drive:
    """A drive, each STEP seconds."""
    edges, places, stood = [], [], []
    edge, along, speed = rng.randrange(len(town.edges)), 30.0, 0.0
    parkings = iter(rng.sample(PARKED, 2))
    parks_at, parks_for = rng.uniform(0.2, 0.35) * LASTS, next(parkings)
    stops, parks = rng.random() < 0.3, False
    length, usual = town.edges[edge].length, (7 + 7 * (edge * 37 % 11) / 11) / slow
    while len(edges) < LASTS / STEP:
        edges.append(edge)
        places.append(along)
        stood.append(False)
        if not parks and parks_at < STEP * len(edges) and 25 < along < length - 60:
            parks, goal = True, along + 35 + rng.uniform(0, 20)
        target = usual
        if stops or parks:
            left = (goal if parks else length - 4) - along
            if left < 0.5:
                rest = round((parks_for if parks else rng.uniform(4, 30)) / STEP)
                edges += rest * [edge]
                places += rest * [along]
                stood += rest * [True]
                speed = 0.0
                if parks:
                    parks, parks_at, parks_for = False, STEP * len(edges) + 0.2 * LASTS, next(parkings, 300)
                else:
                    stops = False
            if stops or parks:
                target = min(target, math.sqrt(2 * 1.5 * max(left, 0.1)))
        speed = min(max(speed - 3 * STEP, target), speed + 1.5 * STEP)
        along += speed * STEP
        if along >= length:
            along -= length
            end, begin = town.edges[edge].end, town.edges[edge].begin
            edge = rng.choice([e for e in town.leaving[end] if town.edges[e].end != begin])
            length, usual = town.edges[edge].length, (7 + 7 * (edge * 37 % 11) / 11) / slow
            stops = rng.random() < 0.3
    count = round(LASTS / STEP)
    return Drive(STEP * np.arange(count), *(np.array(values[:count]) for values in (edges, places, stood)))


@functools.lru_cache(maxsize=None)
def driven(seed: int) -> Tuple[Town, List[Tuple[str, float, Drive]]]:
    """The town, and the drives of all vehicles, each with its vehicle and its begin. They are the same for each interval."""
    rng = random.Random(seed)
    town = Town(rng)
    starts = [(vehicle, begin + 97 * number, 1 + 0.2 * (number % 3)) for begin in DAYS for number, vehicle in enumerate(VEHICLES)]
    key = hashlib.sha256(Path(__file__).read_bytes() + f"{sys.version} {seed}".encode()).hexdigest()
    path = CACHE / f"{key[:32]}.npz"
    drives = kept(path)
    if len(drives) != len(starts):
        drives = [drive(rng, town, slow) for _, _, slow in starts]
        keep(path, drives)
    return town, [(vehicle, begin, one) for (vehicle, begin, _), one in zip(starts, drives)]


def kept(path: Path) -> List[Drive]:
    """The drives that a file keeps, or none. To simulate them takes a second."""
    with suppress(OSError, ValueError, KeyError, EOFError, zipfile.BadZipFile), np.load(path) as found:
        return [Drive(*values) for values in zip(*(found[name] for name in Drive.__annotations__))]
    return []


def keep(path: Path, drives: List[Drive]) -> None:
    """Keeps drives for the next run of the tests, if there is place for them. Files of earlier sources go."""
    with suppress(OSError):
        CACHE.mkdir(parents=True, exist_ok=True)
        with tempfile.NamedTemporaryFile(dir=CACHE, suffix=".part") as part:
            np.savez(part, **{name: np.stack([getattr(one, name) for one in drives]) for name in Drive.__annotations__})
            part.flush()
            path.unlink(missing_ok=True)
            os.link(part.name, path)
        for old in sorted(CACHE.glob("*.npz"), key=lambda one: one.stat().st_mtime, reverse=True)[KEPT:]:
            old.unlink(missing_ok=True)


@functools.lru_cache(maxsize=1)
def made(seed: int, interval: int, silent: bool) -> Tuple[Town, pd.DataFrame, Truth]:
    town, drives = driven(seed)
    errors, truth = np.random.RandomState(seed), Truth()
    tables = []
    for vehicle, start, one in drives:
        found = follow(errors, town, one, interval, silent)
        tables.append(found.assign(vehicle=vehicle, time=found["time"] + start))
        add_truth(truth, town, one, vehicle, start, found["time"].iloc[-1])
    positions = pd.concat(tables).sort_values("time", kind="stable", ignore_index=True)
    return town, positions[["vehicle", "x", "y", "time"]], truth


def fleet(seed: int = 7, interval: int = 2, silent: bool = False) -> Tuple[Town, pd.DataFrame, Truth]:
    """The town, the positions (vehicle, x, y in metres, time; all vehicles mixed) and the truth. With `silent` a parked vehicle
    sends nothing."""
    town, positions, truth = made(seed, interval, silent)
    return town, positions.copy(), truth


def follow(errors: np.random.RandomState, town: Town, one: Drive, interval: int, silent: bool) -> pd.DataFrame:
    """The positions of a drive: seconds, x and y."""
    at = np.arange(0, len(one.time), round(interval / STEP))
    share = 0.975 ** interval
    step = 2 * math.sqrt(1 - share * share)
    news = errors.normal(0, step, (2, len(at))).tolist()
    wander = np.array([list(itertools.accumulate(new, lambda error, more: share * error + more)) for new in news]).T
    xy = town.places(one.edge[at], one.along[at]) + wander + errors.normal(0, 0.5, (len(at), 2))
    found = pd.DataFrame({"time": np.rint(one.time[at]).astype(int), "x": xy[:, 0], "y": xy[:, 1]})
    moved = np.maximum.accumulate(np.where(one.stands[at], 0, at))
    return found[STEP * (at - moved) <= 20] if silent else found


def add_truth(truth: Truth, town: Town, one: Drive, vehicle: str, start: float, last: float) -> None:
    """What is true of a drive until its last position."""
    time = one.time.tolist()
    changes = np.flatnonzero(np.diff(np.concatenate(([0], one.stands.astype(int), [0]))))
    for first, after in zip(changes[::2].tolist(), changes[1::2].tolist()):
        if time[first] < last:
            edge = int(one.edge[first])
            truth.stops.append({"vehicle": vehicle, "begin": start + time[first], "end": start + min(time[after - 1], last),
                                "street": town.edges[edge].street, "edge": edge + 1})
    entries = [0, *(np.flatnonzero(np.diff(one.edge)) + 1).tolist()]
    for first, after in zip(entries[1:], entries[2:]):
        if time[after] <= last:
            truth.edges.append({"vehicle": vehicle, "edge": int(one.edge[first]) + 1, "entry": start + time[first],
                                "seconds": time[after] - time[first], "stood": STEP * int(one.stands[first:after].sum())})
    lengths = np.array([edge.length for edge in town.edges])
    gone = float(lengths[one.edge[entries[:-1]]].sum()) + float(one.along[-1] - one.along[0])
    day = "2024-05-06" if start < DAYS[1] else "2024-05-07"
    truth.metres.append({"vehicle": vehicle, "day": day, "metres": gone})
