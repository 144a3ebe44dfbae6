"""The country of the benchmarks: villages and towns of short streets, winding roads between them, two motorways of two
carriageways with ramps, and drives on all of them. Lengths are metres here; the files have centimetres."""
import bisect
import heapq
import math
import os
import random

SIDE = 50_000.0
STREET, ROAD, RAMP, MOTORWAY = 9.0, 22.0, 14.0, 31.0  # usual speeds, in metres a second


class Roads:
    """Nodes with their places, and edges as (from, to, line, speed)."""

    def __init__(self, rng):
        self.rng, self.at, self.edges = rng, [], []

    def node(self, x, y):
        self.at.append((x, y))
        return len(self.at) - 1

    def add(self, a, b, line, speed, both_ways=True):
        self.edges.append((a, b, line, speed))
        if both_ways:
            self.edges.append((b, a, line[::-1], speed))

    def winding(self, a, b, step, bow):
        """A curved line from node a to node b with a point about each `step`."""
        (ax, ay), (bx, by) = self.at[a], self.at[b]
        length = math.hypot(bx - ax, by - ay)
        count = max(1, round(length / step))
        waves = [(n, length * self.rng.uniform(-bow, bow) / n) for n in (1, 2, 3, 7)]
        line = []
        for i in range(count + 1):
            share = i / count
            off = sum(high * math.sin(math.pi * n * share) for n, high in waves)
            line.append((ax + share * (bx - ax) - off * (by - ay) / length,
                         ay + share * (by - ay) + off * (bx - ax) / length))
        return line

    def beside(self, line, off):
        """A line that leaves the given one at its first point, keeps `off` to its left, and comes back at its last."""
        moved = [line[0]]
        for (ax, ay), (bx, by) in zip(line, line[1:]):
            length = math.hypot(bx - ax, by - ay)
            moved.append(((ax + bx) / 2 - off * (by - ay) / length, (ay + by) / 2 + off * (bx - ax) / length))
        return moved + [line[-1]]

    def write(self, path):
        with open(path, "w") as f:
            f.write("edge,from,to,line\n")
            write_records(f, self.edges, 1)


def write_records(file, edges, first):
    """The records of edges, whose ids count from the first."""
    for number, (a, b, line, _) in enumerate(edges, first):
        file.write(f"{number},{a},{b}," + ";".join(f"{round(100 * x)} {round(100 * y)}" for x, y in line) + "\n")


# ---- the network

def village(roads, middle, radius, paths):
    """A bent grid of streets, some of them one-way, some, if `paths`, with a path beside them; the nodes."""
    rng = roads.rng
    gap, turn = rng.uniform(65, 110), rng.uniform(0, math.pi)
    reach = int(radius / gap)
    places = {}
    for r in range(-reach, reach + 1):
        for c in range(-reach, reach + 1):
            if math.hypot(r, c) <= reach + 0.3:
                u, v = gap * c + rng.uniform(-15, 15), gap * r + rng.uniform(-15, 15)
                places[r, c] = roads.node(middle[0] + u * math.cos(turn) - v * math.sin(turn),
                                          middle[1] + u * math.sin(turn) + v * math.cos(turn))
    for (r, c), a in places.items():
        for b in (places.get((r, c + 1)), places.get((r + 1, c))):
            if b is None or rng.random() < 0.18:
                continue
            line = roads.winding(a, b, 17, 0.08)
            one_way = rng.random() < 0.1
            roads.add(a, b, line, STREET, not one_way)
            if rng.random() < 0.15 and paths:
                roads.add(a, b, roads.beside(line, 5), STREET)
    return list(places.values())


def nearest(roads, nodes, place):
    return min(nodes, key=lambda n: math.dist(roads.at[n], place))


def country_road(roads, a, b):
    """A winding road between two nodes, with a track to nowhere at each of its junctions."""
    line = roads.winding(a, b, 22, 0.07)
    parts = max(1, len(line) // roads.rng.choice((30, 50, 80, 160)))
    cuts = [i * (len(line) - 1) // parts for i in range(parts + 1)]
    nodes = [a] + [roads.node(*line[i]) for i in cuts[1:-1]] + [b]
    for (p, i), (q, j) in zip(zip(nodes, cuts), zip(nodes[1:], cuts[1:])):
        roads.add(p, q, line[i:j + 1], ROAD)
    for p in nodes[1:-1]:
        angle, far = roads.rng.uniform(0, 2 * math.pi), roads.rng.uniform(150, 700)
        end = roads.node(roads.at[p][0] + far * math.cos(angle), roads.at[p][1] + far * math.sin(angle))
        roads.add(p, end, roads.winding(p, end, 25, 0.1), STREET)


def motorway(roads, nodes, middle):
    """Two carriageways 24 m apart along x, with a junction each 7 km or so, joined to the nearest of the nodes."""
    def place(x, off):
        slope = math.cos(x / 9000) / 3 + 0.32 * math.cos(x / 2500)
        return x - off * slope / math.hypot(1, slope), middle(x) + off / math.hypot(1, slope)

    def part(p, q, x, end, off):
        count = max(1, round(abs(end - x) / 35))
        line = [place(x + i * (end - x) / count, off) for i in range(count + 1)]
        roads.add(p, q, line, MOTORWAY, False)

    junctions, x = [], 4000.0
    while x < SIDE - 4000:
        junctions.append(x)
        x += roads.rng.uniform(5000, 9000)
    for off, way in ((-12, 1), (12, -1)):
        before = None
        for x in junctions[::way]:
            leave, enter = x - 500 * way, x + 500 * way
            out, back = roads.node(*place(leave, off)), roads.node(*place(enter, off))
            if before is not None:
                part(before[0], out, before[1], leave, off)
            part(out, back, leave, enter, off)
            join = roads.node(*place(x + 60 * way, off * 12))
            roads.add(out, join, roads.winding(out, join, 20, 0.15), RAMP, False)
            roads.add(join, back, roads.winding(join, back, 20, 0.15), RAMP, False)
            country_road(roads, join, nearest(roads, nodes, roads.at[join]))
            before = back, enter


def build(rng, paths=True):
    roads = Roads(rng)
    middles = []
    while len(middles) < 150:
        place = rng.uniform(3000, SIDE - 3000), rng.uniform(3000, SIDE - 3000)
        if all(math.dist(place, other) > 2200 for other in middles):
            middles.append(place)
    villages = [village(roads, m, rng.uniform(800, 1400) if i < 24 else rng.uniform(180, 420), paths)
                for i, m in enumerate(middles)]
    for i, a in enumerate(middles):
        for j, b in enumerate(middles[:i]):
            half = ((a[0] + b[0]) / 2, (a[1] + b[1]) / 2)
            alone = all(math.dist(half, c) >= math.dist(a, b) / 2 for c in middles if c not in (a, b))
            if math.dist(a, b) < 12_000 and alone:
                country_road(roads, nearest(roads, villages[i], b), nearest(roads, villages[j], a))
    nodes = [n for v in villages for n in v]
    for low in (0.3, 0.7):
        motorway(roads, nodes, lambda x: low * SIDE + 3000 * math.sin(x / 9000) + 800 * math.sin(x / 2500))
    return roads, nodes


# ---- the drives

def lengths_of(edges):
    """For each edge how far each of its points is from its start."""
    lengths = []
    for _, _, line, _ in edges:
        so_far = [0.0]
        for p, q in zip(line, line[1:]):
            so_far.append(so_far[-1] + math.dist(p, q))
        lengths.append(so_far)
    return lengths


class Drivers:
    """Drive from one goal to the next by the quickest way, and stop now and then at a crossing."""

    def __init__(self, roads, nodes, goals):
        self.rng, self.edges = roads.rng, roads.edges
        self.lengths = lengths_of(self.edges)
        self.set_goals(self.rng.sample(nodes, goals), nodes, self.edges_to())

    def edges_to(self):
        """For each node the edges that lead to it: number, node where it begins, usual seconds."""
        edges_to = {}
        for number, ((a, b, _, speed), so_far) in enumerate(zip(self.edges, self.lengths)):
            edges_to.setdefault(b, []).append((number, a, so_far[-1] / speed))
        return edges_to

    def set_goals(self, goals, nodes, edges_to):
        self.goals = [(g, self.ways_to(g, edges_to)) for g in goals]
        self.starts = [n for n in nodes if n in self.goals[0][1]]

    def ways_to(self, goal, edges_to):
        """The edge by which the quickest way to the goal leaves each node."""
        ways, done, heap = {}, set(), [(0.0, goal, -1)]
        while heap:
            seconds, node, edge = heapq.heappop(heap)
            if node in done:
                continue
            done.add(node)
            ways[node] = edge
            for number, start, more in edges_to.get(node, ()):
                heapq.heappush(heap, (seconds + more, start, number))
        return ways

    def drive(self, seconds):
        """The place of the vehicle at each second, and the edge on which it is."""
        rng = self.rng
        node, (goal, ways) = rng.choice(self.starts), rng.choice(self.goals)
        along = total = stand = 0.0
        for _ in range(seconds):
            while along >= total:
                while node == goal or node not in ways:
                    goal, ways = rng.choice(self.goals)
                edge = ways[node]
                along -= total
                _, node, line, speed = self.edges[edge]
                so_far = self.lengths[edge]
                total = so_far[-1]
                if speed == STREET and rng.random() < 0.06:
                    stand = rng.randint(5, 40)
            segment = min(bisect.bisect_right(so_far, along), len(so_far) - 1)
            share = (along - so_far[segment - 1]) / (so_far[segment] - so_far[segment - 1])
            (ax, ay), (bx, by) = line[segment - 1], line[segment]
            yield ax + (bx - ax) * share, ay + (by - ay) * share, edge
            if stand > 0:
                stand -= 1
            else:
                along += speed * rng.uniform(0.8, 1.1)

    def trace(self, number, count, step):
        """Rows of `count` points, one each `step` seconds, with an error that wanders and one that jumps."""
        rng = self.rng
        wide, x_error, y_error = rng.uniform(2, 6), 0.0, 0.0
        for second, (x, y, _) in enumerate(self.drive(count * step)):
            x_error = 0.95 * x_error + rng.gauss(0, 0.31 * wide)
            y_error = 0.95 * y_error + rng.gauss(0, 0.31 * wide)
            if second % step == 0:
                yield (f"{number},{round(100 * (x + x_error + rng.gauss(0, 1)))},"
                       f"{round(100 * (y + y_error + rng.gauss(0, 1)))},{second}\n")


def write_country(folder, seed=11):
    roads, nodes = build(random.Random(seed))
    roads.write(os.path.join(folder, "country-net.csv"))
    drivers = Drivers(roads, nodes, 40)
    with open(os.path.join(folder, "country-traces.csv"), "w") as f:
        f.write("trace,x,y,time\n")
        for number in range(600):
            count, step = (900, 1) if number % 3 == 0 else (45, 60)
            f.writelines(drivers.trace(number, count, step))
