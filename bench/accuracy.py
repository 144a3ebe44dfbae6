#!/usr/bin/env python3
"""accuracy.py PROGRAM [--drives N] [--steps S,..] [--noises NOISES] [--options WORDS ..] [--outliers SHARE] [--tidy COMMAND]
[--paths] [--seed N]: how well FMM finds the roads of simulated drives, by sampling, noise and options.

Vehicles drive for half an hour each over the country of the benchmarks, without its paths unless --paths is given. They are
measured each S seconds, with an error that wanders and one that jumps. A line says for some options how much road is wrong: the
length of the edges that were driven and not found, and of those that were found and not driven, in percent of the length that
was driven. Whole edges count, also at the two ends of a drive. `too far` is how much longer the found edges are than the driven
ones. `breaks` are the pieces above one a drive. WORDS are options of FMM, all of one try in one word; `suggested` stands for what
the Python package suggests for these positions, and needs its libraries. NOISES are among good, usual and poor, or the standard
deviations WANDER/JUMP in metres. SHARE of the positions lie anywhere within a kilometre. COMMAND gets the name of the trace file
as its last word and writes another one, which is matched in its place.
"""
import argparse
import collections
import os
import random
import shlex
import subprocess
import sys
import tempfile
from pathlib import Path

import country

NOISES = {"good": (2, 0.5), "usual": (4, 2), "poor": (12, 5)}  # metres of the error that wanders and of the one that jumps
OPTIONS = ("", "--back 1000", "--back 2000", "--back 5000", "--back 5000 --sigma 3000", "--beta 5000", "suggested")


def measured(rng, drive, wander, jump, outliers):
    x_error = y_error = 0.0
    for x, y, _ in drive:
        if outliers and rng.random() < outliers:
            yield x + rng.uniform(-1000, 1000), y + rng.uniform(-1000, 1000)
            continue
        x_error = 0.95 * x_error + rng.gauss(0, 0.31 * wander)
        y_error = 0.95 * y_error + rng.gauss(0, 0.31 * wander)
        yield x + x_error + rng.gauss(0, jump), y + y_error + rng.gauss(0, jump)


def write_traces(path, places, step):
    with open(path, "w") as f:
        f.write("trace,x,y,time\n")
        for trace, points in enumerate(places):
            f.writelines(f"{trace},{round(100 * x)},{round(100 * y)},{second}\n"
                         for second, (x, y) in enumerate(points) if second % step == 0)


def run_starts(items):
    return [item for place, item in enumerate(items) if place == 0 or item != items[place - 1]]


def found_edges(text):
    """The edges of each trace, and the count of pieces."""
    edges, pieces = collections.defaultdict(list), 0
    for line in text.splitlines():
        words = line.split()
        if words[0] == "trace":
            trace = int(words[1])
        elif words[0] == "piece":
            route = [int(word) - 1 for word in words[6:]]
            here = edges[trace]
            here += route[1:] if here[-1:] == route[:1] else route
            pieces += 1
    return edges, pieces


def suggested(network, places, step, folder):
    """The trace file and the options that the Python package makes of the positions. Trace n + 1 is drive n."""
    sys.path.insert(0, str(Path(__file__).resolve().parents[1] / "python" / "src"))
    import pandas
    import fmm
    from fmm._traces import write_traces
    rows = [(f"{drive:09}", x, y, second) for drive, points in enumerate(places)
            for second, (x, y) in enumerate(points) if second % step == 0]
    positions = fmm.read_positions(pandas.DataFrame(rows, columns=["id", "x", "y", "time"]), crs="metres")
    network = fmm.Network.open(network)
    options = fmm.suggest(positions, network).options
    traces = write_traces(positions, network, options, Path(folder))
    with open(traces.path) as f:  # as the others, from 0
        rows = [line.split(",", 1) for line in f.read().splitlines()]
    with open(traces.path, "w") as f:
        f.writelines(f"{trace if number == 0 else int(trace) - 1},{rest}\n" for number, (trace, rest) in enumerate(rows))
    return str(traces.path), options.arguments()


def wrong_share(driven, found, lengths):
    """The length that is wrong, and how much longer the found edges are than the driven ones, in percent."""
    wrong = right = length = 0.0
    for trace, edges in enumerate(driven):
        true, told = collections.Counter(edges), collections.Counter(found.get(trace, []))
        wrong += sum(count * lengths[e] for e, count in ((true - told) + (told - true)).items())
        right += sum(count * lengths[e] for e, count in true.items())
        length += sum(count * lengths[e] for e, count in told.items())
    return 100 * wrong / right, 100 * (length / right - 1)


def main():
    parser = argparse.ArgumentParser()
    parser.add_argument("program")
    parser.add_argument("--drives", type=int, default=60)
    parser.add_argument("--steps", default="1,5,15,60")
    parser.add_argument("--paths", action="store_true")
    parser.add_argument("--seed", type=int, default=5)
    parser.add_argument("--options", nargs="+", default=OPTIONS)
    parser.add_argument("--noises", default="good,usual,poor")
    parser.add_argument("--outliers", type=float, default=0)
    parser.add_argument("--tidy", default="")
    args = parser.parse_args()
    rng = random.Random(args.seed)
    roads, nodes = country.build(rng, paths=args.paths)
    drivers = country.Drivers(roads, nodes, 40)
    lengths = [so_far[-1] for so_far in drivers.lengths]
    drives = [list(drivers.drive(1800)) for _ in range(args.drives)]
    with tempfile.TemporaryDirectory() as folder:
        network, traces = os.path.join(folder, "network.csv"), os.path.join(folder, "traces.csv")
        roads.write(network)
        for noise in args.noises.split(","):
            wander, jump = NOISES[noise] if noise in NOISES else map(float, noise.split("/"))
            places = [list(measured(rng, drive, wander, jump, args.outliers)) for drive in drives]
            for step in map(int, args.steps.split(",")):
                driven = [run_starts([edge for _, _, edge in drive[:(len(drive) - 1) // step * step + 1]])
                          for drive in drives]
                write_traces(traces, places, step)
                if args.tidy:
                    text = subprocess.run(shlex.split(args.tidy) + [traces], stdout=subprocess.PIPE, check=True).stdout
                    with open(traces, "wb") as f:
                        f.write(text)
                for options in args.options:
                    file, words = traces, options.split()
                    if options == "suggested":
                        file, words = suggested(network, places, step, folder)
                    text = subprocess.run(shlex.split(args.program) + ["match", network, file] + words,
                                          stdout=subprocess.PIPE, text=True, check=True).stdout
                    found, pieces = found_edges(text)
                    wrong, too_far = wrong_share(driven, found, lengths)
                    print(f"{noise:6} {step:2} s {options or 'default':25} {wrong:6.2f} % wrong, {too_far:6.2f} % too far, "
                          f"{pieces - len(drives)} breaks", flush=True)


if __name__ == "__main__":
    main()
