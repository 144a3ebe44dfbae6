#!/usr/bin/env python3
"""make_inputs.py FOLDER [--large]: writes the inputs of the benchmarks, the same at each run.

  town-net.csv, town-traces.csv         a square grid of 100 x 100 nodes, and 2,000 traces of 20 points
  city-net.csv, city-traces.csv         about 50,000 nodes and 140,000 edges (curved lines of 3 to 6 points, one-way streets,
                                        a river with nine bridges), and 2,000 traces of 200 points with times and noise
  city-small-traces.csv                 the first 200 of these traces
  city-small-stream.csv                 the points of these 200 traces as they come in one stream, those of each trace in their order
  city-points.csv                       the points of the city's traces, each as a trace of its own
  city-sparse-traces.csv                200 traces of 200 points in the city, one a minute, 1,500 m apart in the median
  country-net.csv, country-traces.csv   16,907 nodes and 55,465 edges (towns, villages, winding roads, motorways with ramps), 200
                                        traces of 900 points, one a second, and 400 of 45 points, one a minute
  long-net.csv, long-traces.csv         one edge of 1,000,000 points, and 20 traces of 100 points beside it
  ids-half.csv, ids-whole.csv           50,000, and 100,000, traces of one point beside one of the two roads
  roads-net.csv                         two roads of 1,000 km, 4 m apart, that never meet
  roads-half.csv, roads-whole.csv       a trace of 50,000 points between them, and one of 100,000

With --large it writes only these two, for a program with large limits:

  large-net.csv, large-traces.csv       271,168 nodes and 888,896 edges (sixteen copies of the country in a square, joined by
                                        roads), and 1,600,000 points: 4,160 traces in one country each, 208 across several
"""
import math
import os
import random
import sys

import countries
import country


class Draw:
    """A linear congruential generator."""

    def __init__(self, seed):
        self.state = seed

    def below(self, m):
        self.state = (self.state * 6364136223846793005 + 1442695040888963407) % 2 ** 64
        return (self.state >> 33) % m


# ---- the town

EAST, NORTH, WEST, SOUTH = (0, 1), (1, 0), (0, -1), (-1, 0)


def town_network(path, side):
    with open(path, "w") as f:
        f.write("edge,from,to,line\n")
        edge = 0
        for r in range(side):
            for c in range(side):
                for r2, c2 in ((r, c + 1), (r + 1, c)):
                    if r2 >= side or c2 >= side:
                        continue
                    for (ra, ca), (rb, cb) in (((r, c), (r2, c2)), ((r2, c2), (r, c))):
                        f.write(f"{edge},{ra * side + ca},{rb * side + cb},"
                                f"{10000 * ca} {10000 * ra};{10000 * cb} {10000 * rb}\n")
                        edge += 1


def town_traces(path, side, count, seed):
    draw = Draw(seed)
    with open(path, "w") as f:
        f.write("trace,x,y\n")
        for trace in range(count):
            r, c = draw.below(side), draw.below(side)
            for _ in range(10):
                dr, dc = (EAST, NORTH, WEST, SOUTH)[draw.below(4)]
                if not (0 <= r + dr < side and 0 <= c + dc < side):
                    dr, dc = -dr, -dc
                for along in (2500, 7500):
                    x = 10000 * c + along * dc + draw.below(2001) - 1000
                    y = 10000 * r + along * dr + draw.below(2001) - 1000
                    f.write(f"{trace},{x},{y}\n")
                r, c = r + dr, c + dc


# ---- the city

class City:
    """Nodes on a bent grid in metres, edges as (from, to, line in cm), and the edges that leave each node."""

    def __init__(self, rng, side):
        self.rng, self.side = rng, side
        gaps_x = [rng.choice((70, 90, 100, 110, 130, 180)) for _ in range(side)]
        gaps_y = [rng.choice((70, 90, 100, 110, 130, 180)) for _ in range(side)]
        xs, ys = [0.0], [0.0]
        for gap in gaps_x[1:]:
            xs.append(xs[-1] + gap)
        for gap in gaps_y[1:]:
            ys.append(ys[-1] + gap)
        self.at = {}
        for r in range(side):
            for c in range(side):
                self.at[r, c] = (xs[c] + rng.uniform(-15, 15), ys[r] + rng.uniform(-15, 15))
        self.middle = xs[side // 2]
        self.edges, self.leaving = [], {}
        self.add_edges(self.streets())

    def river(self, y):
        return self.middle + 900 * math.sin(y / 2500.0) + 250 * math.sin(y / 700.0)

    def streets(self):
        bridges = set(self.rng.sample(range(self.side), 9))
        streets = []
        for r in range(self.side):
            for c in range(self.side):
                for r2, c2 in ((r, c + 1), (r + 1, c)):
                    if (r2, c2) not in self.at:
                        continue
                    (ax, ay), (bx, by) = self.at[r, c], self.at[r2, c2]
                    crosses = (ax < self.river(ay)) != (bx < self.river(by))
                    if crosses:
                        if not (r == r2 and r in bridges):
                            continue
                    elif self.rng.random() < 0.20:
                        continue
                    streets.append(((r, c), (r2, c2), crosses))
        return streets

    def line(self, a, b):
        (ax, ay), (bx, by) = self.at[a], self.at[b]
        inner = self.rng.randint(1, 4)
        length = math.hypot(bx - ax, by - ay)
        ux, uy = (bx - ax) / length, (by - ay) / length
        bow = self.rng.uniform(-0.12, 0.12) * length
        line = [(round(100 * ax), round(100 * ay))]
        for i in range(1, inner + 1):
            share = i / (inner + 1)
            off = bow * math.sin(math.pi * share) + self.rng.uniform(-2, 2)
            line.append((round(100 * (ax + share * length * ux - off * uy)),
                         round(100 * (ay + share * length * uy + off * ux))))
        return line + [(round(100 * bx), round(100 * by))]

    def add_edges(self, streets):
        for a, b, bridge in streets:
            line = self.line(a, b)
            both_ways = bridge or self.rng.random() < 0.76
            ways = [(a, b, line)] if both_ways or self.rng.random() < 0.5 else [(b, a, line[::-1])]
            if both_ways:
                ways.append((b, a, line[::-1]))
            for p, q, way in ways:
                self.edges.append((p, q, way))
                self.leaving.setdefault(p, []).append(len(self.edges) - 1)

    def write(self, path):
        with open(path, "w") as f:
            f.write("edge,from,to,line\n")
            for edge, (p, q, line) in enumerate(self.edges):
                points = ";".join(f"{x} {y}" for x, y in line)
                f.write(f"{edge + 1000},{p[0] * self.side + p[1]},{q[0] * self.side + q[1]},{points}\n")


class Driver:
    """Drives from goal to goal, and never to a node that no edge leaves."""

    def __init__(self, city):
        self.rng, self.edges = city.rng, city.edges
        ways = city.leaving
        for _ in range(5):
            ways = {p: [e for e in es if self.edges[e][1] in ways] for p, es in ways.items()}
            ways = {p: es for p, es in ways.items() if es}
        self.ways, self.nodes = ways, sorted(ways)

    def next_edge(self, node, before, goal):
        def badness(e):
            q = self.edges[e][1]
            return (abs(q[0] - goal[0]) + abs(q[1] - goal[1]) + self.rng.random() * 2
                    + (1.5 if q == before else 0))
        return min(self.ways[node], key=badness)

    def trace(self, number, count):
        rng = self.rng
        step = rng.choice((1, 2, 5, 5, 10, 15, 30))
        noise = rng.uniform(5, 20) * 100 / 1.5
        speed = rng.uniform(8, 16) * 100
        node, before = rng.choice(self.nodes), None
        goal = rng.choice(self.nodes)
        rows, along, total = [], 0.0, 0.0
        while len(rows) < count:
            while along >= total:
                along -= total
                if abs(node[0] - goal[0]) + abs(node[1] - goal[1]) < 4:
                    goal = rng.choice(self.nodes)
                before, node, line = self.edges[self.next_edge(node, before, goal)]
                lengths = [math.hypot(q[0] - p[0], q[1] - p[1]) for p, q in zip(line, line[1:])]
                total = sum(lengths)
            left, segment = along, 0
            while segment < len(lengths) - 1 and left > lengths[segment]:
                left -= lengths[segment]
                segment += 1
            (ax, ay), (bx, by) = line[segment], line[segment + 1]
            share = min(1.0, left / lengths[segment])
            x = round(ax + (bx - ax) * share + rng.gauss(0, noise))
            y = round(ay + (by - ay) * share + rng.gauss(0, noise))
            rows.append(f"{number},{x},{y},{len(rows) * step}\n")
            along += speed * step
        return rows


def sparse_trace(city, number, count):
    """A position a minute: by nodes some 1,500 m apart, in a direction that turns slowly, and back into the city at its borders."""
    rng, side = city.rng, city.side
    noise = rng.uniform(5, 20) * 100 / 1.5
    row, column, heading = rng.uniform(0, side - 1), rng.uniform(0, side - 1), rng.uniform(0, 2 * math.pi)
    rows = []
    for minute in range(count):
        x, y = city.at[round(row), round(column)]
        rows.append(f"{number},{round(100 * x + rng.gauss(0, noise))},{round(100 * y + rng.gauss(0, noise))},{60 * minute}\n")
        heading += rng.gauss(0, 0.3)
        ahead = rng.uniform(9, 18)
        if not (0 <= row + ahead * math.sin(heading) <= side - 1 and 0 <= column + ahead * math.cos(heading) <= side - 1):
            heading = math.atan2(side / 2 - row, side / 2 - column)
        row, column = row + ahead * math.sin(heading), column + ahead * math.cos(heading)
    return rows


def city(folder, side=224, count=2000, length=200, seed=7):
    town = City(random.Random(seed), side)
    town.write(os.path.join(folder, "city-net.csv"))
    driver = Driver(town)
    with open(os.path.join(folder, "city-traces.csv"), "w") as f, \
            open(os.path.join(folder, "city-small-traces.csv"), "w") as small, \
            open(os.path.join(folder, "city-points.csv"), "w") as points:
        f.write("trace,x,y,time\n")
        small.write("trace,x,y,time\n")
        points.write("trace,x,y\n")
        number = 0
        first = []
        for trace in range(count):
            rows = driver.trace(trace, length)
            f.writelines(rows)
            if trace < count // 10:
                small.writelines(rows)
                first.append(rows)
            for row in rows:
                _, x, y, _ = row.split(",")
                points.write(f"{number},{x},{y}\n")
                number += 1
    interleave(os.path.join(folder, "city-small-stream.csv"), first, random.Random(seed))
    with open(os.path.join(folder, "city-sparse-traces.csv"), "w") as f:
        f.write("trace,x,y,time\n")
        for trace in range(count // 10):
            f.writelines(sparse_trace(town, trace, length))


def interleave(path, traces, rng):
    """The rows of these traces in one stream, those of each trace in their order."""
    turns = [trace for trace, rows in enumerate(traces) for _ in rows]
    rng.shuffle(turns)
    rest = [iter(rows) for rows in traces]
    with open(path, "w") as f:
        f.write("trace,x,y,time\n")
        f.writelines(next(rest[trace]) for trace in turns)


def many_ids(folder):
    for name, count in (("ids-half.csv", 50_000), ("ids-whole.csv", 100_000)):
        with open(os.path.join(folder, name), "w") as f:
            f.write("trace,x,y\n")
            f.writelines(f"{i},{i},200\n" for i in range(count))


# ---- the long edge

def long_edge(folder, points=1_000_000):
    def place(i):
        return 60 * i, round(20000 * math.sin(i / 400))

    with open(os.path.join(folder, "long-net.csv"), "w") as f:
        f.write("edge,from,to,line\n1,1,2,")
        f.write(";".join("%d %d" % place(i) for i in range(points)) + "\n")
    draw = Draw(3)
    with open(os.path.join(folder, "long-traces.csv"), "w") as f:
        f.write("trace,x,y\n")
        for trace in range(20):
            start = draw.below(points - 5000)
            for step in range(100):
                x, y = place(start + 50 * step)
                f.write(f"{trace},{x + draw.below(4001) - 2000},{y + draw.below(4001) - 2000}\n")


def two_roads(folder):
    with open(os.path.join(folder, "roads-net.csv"), "w") as f:
        f.write("edge,from,to,line\n1,1,2,0 0;100000000 0\n2,3,4,0 400;100000000 400\n")
    for name, count in (("roads-half.csv", 50_000), ("roads-whole.csv", 100_000)):
        with open(os.path.join(folder, name), "w") as f:
            f.write("trace,x,y\n")
            f.writelines(f"1,{1000 * i + 500},200\n" for i in range(count))


def main():
    folder = sys.argv[1]
    os.makedirs(folder, exist_ok=True)
    if sys.argv[2:] == ["--large"]:
        countries.write_large(folder)
        return
    town_network(os.path.join(folder, "town-net.csv"), 100)
    town_traces(os.path.join(folder, "town-traces.csv"), 100, 2000, 1)
    city(folder)
    country.write_country(folder)
    two_roads(folder)
    many_ids(folder)
    long_edge(folder)


if __name__ == "__main__":
    main()
