"""The large map of the benchmarks: sixteen copies of the country in a square, joined by roads, and drives on it.

The copy in the south-west is the country itself: the same places and ids. Copy c has the ids of the country plus c times their
number. Lengths are metres here; the files have centimetres.
"""
import os
import random

from country import SIDE, Drivers, Roads, build, country_road, lengths_of, nearest, write_records

ROW = 4  # countries in a row
JOINS = (0.15, 0.5, 0.85)  # where roads join two neighbours, in parts of their border
AT_HOME = ((90, 900, 1), (170, 45, 60))  # for each country: traces, positions of each, seconds between them
ACROSS = ((20, 7_200, 1), (188, 200, 60))  # traces that drive from country to country


class Countries:
    """Behaves as a list of edges, as `Roads.edges` is: those of the copies, then those of the joining roads."""

    def __init__(self, country, nodes):
        self.country, self.rng = country, country.rng
        self.joins = Roads(self.rng)
        self.joins.at = [self.moved(copy, place) for copy in range(ROW * ROW) for place in country.at]
        self.nodes = [[copy * len(country.at) + node for node in nodes] for copy in range(ROW * ROW)]
        for copy in range(ROW * ROW):
            if copy % ROW + 1 < ROW:
                self.join(copy, copy + 1)
            if copy + ROW < ROW * ROW:
                self.join(copy, copy + ROW)

    def moved(self, copy, place):
        return place[0] + SIDE * (copy % ROW), place[1] + SIDE * (copy // ROW)

    def join(self, one, other):
        for part in JOINS:
            border = (SIDE, SIDE * part) if other == one + 1 else (SIDE * part, SIDE)
            ends = [nearest(self.joins, self.nodes[copy], self.moved(one, border)) for copy in (one, other)]
            country_road(self.joins, *ends)

    def of_copy(self, copy, edge):
        a, b, line, speed = edge
        first = copy * len(self.country.at)
        return first + a, first + b, [self.moved(copy, place) for place in line], speed

    def __getitem__(self, number):
        copy, edge = divmod(number, len(self.country.edges))
        if copy < ROW * ROW:
            return self.of_copy(copy, self.country.edges[edge])
        return self.joins.edges[number - ROW * ROW * len(self.country.edges)]

    def write(self, path):
        count = len(self.country.edges)
        with open(path, "w") as f:
            f.write("edge,from,to,line\n")
            for copy in range(ROW * ROW):
                write_records(f, (self.of_copy(copy, edge) for edge in self.country.edges), 1 + copy * count)
            write_records(f, self.joins.edges, 1 + ROW * ROW * count)


class Lengths:
    """The lengths of the edges of all countries: those of a copy are those of the country."""

    def __init__(self, countries, lengths):
        self.lengths, self.joins = lengths, lengths_of(countries.joins.edges)

    def __getitem__(self, number):
        copy, edge = divmod(number, len(self.lengths))
        return self.lengths[edge] if copy < ROW * ROW else self.joins[number - ROW * ROW * len(self.lengths)]


class Residents(Drivers):
    """Drive in one country. A goal from which no other goal can be reached is left out, so that drives never end early."""

    def set_goals(self, goals, nodes, edges_to):
        super().set_goals(goals, nodes, edges_to)
        before = []
        while len(before) != len(self.goals):
            before = self.goals
            self.goals = [(goal, ways) for goal, ways in before
                          if any(goal in others for other, others in before if other != goal)]
        most = max((ways for _, ways in self.goals), key=len)
        self.starts = [node for node in nodes if node in most]


class Travellers(Residents):
    """Drive from country to country; each has one goal."""

    def __init__(self, countries, residents):
        self.rng, self.edges = countries.rng, countries
        self.lengths = Lengths(countries, residents.lengths)
        count = len(countries.country.at)
        goals = [copy * count + self.rng.choice(residents.starts) for copy in range(ROW * ROW)]
        starts = [copy * count + node for copy in range(ROW * ROW) for node in residents.starts]
        self.set_goals(goals, starts, self.edges_to_all(countries, residents))

    def edges_to_all(self, countries, residents):
        country, edges_to = countries.country, {}
        of_one, count, many = residents.edges_to(), len(country.at), len(country.edges)
        for copy in range(ROW * ROW):
            for node, edges in of_one.items():
                edges_to[copy * count + node] = [(copy * many + edge, copy * count + start, seconds)
                                                 for edge, start, seconds in edges]
        for place, (a, b, _, speed) in enumerate(countries.joins.edges):
            edge = ROW * ROW * many + place
            edges_to.setdefault(b, []).append((edge, a, self.lengths[edge][-1] / speed))
        return edges_to


def moved_rows(rows, copy):
    """Rows of a trace in the country, moved to a copy."""
    right, up = (round(100 * SIDE) * part for part in (copy % ROW, copy // ROW))
    for row in rows:
        trace, x, y, time = row.split(",")
        yield f"{trace},{int(x) + right},{int(y) + up},{time}"


def traces(residents, travellers):
    """All traces, the countries in turn, and now and then one that drives across."""
    home = [kind[1:] for kind in AT_HOME for _ in range(kind[0])]
    across = [kind[1:] for kind in ACROSS for _ in range(kind[0])]
    residents.rng.shuffle(home)
    residents.rng.shuffle(across)
    number = 0
    for turn, kind in enumerate(home):
        for copy in range(ROW * ROW):
            yield moved_rows(residents.trace(number, *kind), copy)
            number += 1
        while len(across) * len(home) > (len(home) - turn - 1) * sum(kind[0] for kind in ACROSS):
            yield travellers.trace(number, *across.pop())
            number += 1


def write_large(folder, seed=11):
    country, nodes = build(random.Random(seed))
    countries = Countries(country, nodes)
    countries.write(os.path.join(folder, "large-net.csv"))
    residents = Residents(country, nodes, 40)
    with open(os.path.join(folder, "large-traces.csv"), "w") as f:
        f.write("trace,x,y,time\n")
        for rows in traces(residents, Travellers(countries, residents)):
            f.writelines(rows)
