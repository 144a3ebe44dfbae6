#!/usr/bin/env python3
"""tables.py [--positions N]: what the tables of a match cost.

Vehicles drive over a grid of streets, a position each 5 s with an error of 3 m. Prints the processor seconds and the most memory
of the Python package: of the match, without the program, which is a process of its own, and of making points, routes and edges.
Needs the libraries of the package.
"""
import argparse
import resource
import sys
import tempfile
import time
from pathlib import Path

import numpy as np
import pandas as pd

sys.path.insert(0, str(Path(__file__).resolve().parents[1] / "python" / "src"))
import fmm  # noqa: E402

SIDE, BLOCK = 100, 150.0  # crossings in a row, metres
OF_A_VEHICLE, STEP = 1000, 50.0  # positions, metres between two
WAYS = np.array([[1, 0], [0, 1], [-1, 0], [0, -1]])


def network(folder):
    """A grid of two-way streets."""
    at = np.stack(np.meshgrid(np.arange(SIDE), np.arange(SIDE), indexing="ij"), axis=-1).reshape(-1, 2)
    ends = [(a, a + way) for a in at for way in WAYS if ((a + way >= 0) & (a + way < SIDE)).all()]
    lines = []
    for number, (a, b) in enumerate(ends, 1):
        line = ";".join(f"{int(100 * BLOCK * x)} {int(100 * BLOCK * y)}" for x, y in (a, b))
        lines.append(f"{number},{a[0] * SIDE + a[1]},{b[0] * SIDE + b[1]},{line}")
    path = Path(folder) / "network.csv"
    path.write_text("\n".join(["edge,from,to,line", *lines]) + "\n")
    return fmm.Network.open(path)


def drives(rng, vehicles):
    """The places of vehicles that turn at random, but not round: float64[vehicles, OF_A_VEHICLE, 2]."""
    blocks = int(OF_A_VEHICLE * STEP / BLOCK) + 2
    here, way = rng.integers(0, SIDE, (vehicles, 2)), rng.integers(0, 4, vehicles)
    crossings = [here]
    for _ in range(blocks):
        turns = np.argsort(rng.random((vehicles, 3)), axis=1) - 1
        options = (way[:, None] + np.concatenate([turns, np.full((vehicles, 1), 2)], axis=1)) % 4
        there = here[:, None] + WAYS[options]
        first = ((there >= 0) & (there < SIDE)).all(axis=2).argmax(axis=1)
        way, here = options[np.arange(vehicles), first], there[np.arange(vehicles), first]
        crossings.append(here)
    places = BLOCK * np.stack(crossings, axis=1)
    along = np.arange(OF_A_VEHICLE) * STEP / BLOCK
    before, share = along.astype(int), (along % 1)[:, None]
    return places[:, before] * (1 - share) + places[:, before + 1] * share


def positions_of(vehicles):
    """The measured positions, as a table."""
    rng = np.random.default_rng(5)
    places = drives(rng, vehicles)
    places += rng.normal(0, 3, places.shape)
    return fmm.read_positions(pd.DataFrame({
        "id": np.repeat([f"van {number}" for number in range(vehicles)], OF_A_VEHICLE),
        "x": places[..., 0].ravel(), "y": places[..., 1].ravel(),
        "time": np.tile(1_700_000_000 + 5 * np.arange(OF_A_VEHICLE), vehicles)}), crs="metres")


def main():
    parser = argparse.ArgumentParser(description=__doc__)
    parser.add_argument("--positions", type=int, default=1_000_000)
    vehicles = max(1, parser.parse_args().positions // OF_A_VEHICLE)
    with tempfile.TemporaryDirectory() as folder:
        roads, positions = network(folder), positions_of(vehicles)
        before, begin = memory(), time.process_time()
        found = fmm.match(roads, positions, options=fmm.Options.of(back=20, gap=300))
        print(f"match   {time.process_time() - begin:6.1f} s", flush=True)
        begin = time.process_time()
        rows = [len(getattr(found, name)) for name in ("points", "routes", "edges")]
    print(f"tables  {time.process_time() - begin:6.1f} s for {rows[0]:,} points, {rows[1]:,} routes and {rows[2]:,} edges")
    print(f"memory  {memory() - before:,} MB more than before the match")


def memory():
    """The most megabytes of this process so far."""
    return resource.getrusage(resource.RUSAGE_SELF).ru_maxrss >> 10


if __name__ == "__main__":
    main()
