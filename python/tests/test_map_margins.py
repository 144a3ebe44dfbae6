"""Margins: compared with all sequences of small networks, one by one."""
from __future__ import annotations

import itertools
import math
from pathlib import Path
from typing import Any, Dict, List, Optional, Tuple

import numpy as np
import pytest
from hypothesis import HealthCheck, given, settings, strategies as st

from fmm.errors import InputError, MismatchError
from fmm.map import proving, sequences
from fmm.map.certificates import read_certificate
from fmm.map.proving import Prover, TraceFile, batches, prove_words
from fmm.network import Network
from fmm.options import Options

Place = Tuple[int, int]
Candidate = Tuple[int, int, int]  # d2, edge, offset
Edge = Tuple[int, int, List[Place]]


def straight(p: Place, q: Place) -> int:
    return math.isqrt((p[0] - q[0]) ** 2 + (p[1] - q[1]) ** 2)


def length_of(line: List[Place]) -> int:
    return sum(straight(p, q) for p, q in zip(line, line[1:]))


def snap(line: List[Place], p: Place) -> Tuple[int, int]:
    found, so_far = [], 0
    for number, ((ax, ay), (bx, by)) in enumerate(zip(line, line[1:])):
        n = (bx - ax) ** 2 + (by - ay) ** 2
        t = min(max((p[0] - ax) * (bx - ax) + (p[1] - ay) * (by - ay), 0), n)
        d2 = (ax + (bx - ax) * t // n - p[0]) ** 2 + (ay + (by - ay) * t // n - p[1]) ** 2
        found.append((d2, number, so_far + straight((ax, ay), (bx, by)) * t // n))
        so_far += straight((ax, ay), (bx, by))
    d2, _, offset = min(found)
    return d2, offset


class Brute:
    """The definitions, word by word."""

    def __init__(self, edges: List[Edge], k: int, radius: int, sigma: int, beta: int, bound: int, back: int) -> None:
        self.edges, self.k, self.radius, self.sigma, self.beta = edges, k, radius, sigma, beta
        self.bound, self.back, self.near = bound, back, 3

    def candidates(self, p: Place) -> List[Candidate]:
        snaps = [(*snap(edge[2], p), number) for number, edge in enumerate(self.edges)]
        near = sorted((d2, number, offset) for d2, offset, number in snaps if d2 <= self.radius ** 2)
        return near[:self.k]

    def walk(self, begin: int, end: int) -> Optional[Tuple[int, List[int]]]:
        """The least walk by (length, edges from the last to the first)."""
        best: Dict[int, Tuple[int, List[int]]] = {begin: (0, [])}
        changed = True
        while changed:
            changed = False
            for number, (a, b, line) in enumerate(self.edges):
                if a in best:
                    way = best[a][0] + length_of(line), [number, *best[a][1]]
                    if way[0] <= self.bound and (b not in best or way < best[b]):
                        best[b], changed = way, True
        return best.get(end)

    def route(self, one: Candidate, other: Candidate) -> Optional[Tuple[int, List[int]]]:
        """Length and the edges between."""
        if one[1] == other[1] and one[2] <= other[2] + self.back:
            return max(other[2] - one[2], 0), []
        walk = self.walk(self.edges[one[1]][1], self.edges[other[1]][0])
        if walk is None:
            return None
        return length_of(self.edges[one[1]][2]) - one[2] + walk[0] + other[2], walk[1]

    def cost(self, places: List[Place], sequence: Tuple[Candidate, ...]) -> Optional[int]:
        total = sum(one[0] * 1000 // (2 * self.sigma ** 2) for one in sequence)
        for p, q, one, other in zip(places, places[1:], sequence, sequence[1:]):
            way = self.route(one, other)
            if way is None:
                return None
            total += abs(way[0] - straight(p, q)) * 1000 // self.beta
        return total

    def pieces(self, places: List[Place]) -> List[Tuple[int, int]]:
        found: List[Tuple[int, int]] = []
        reached: List[Candidate] = []
        for at, place in enumerate(places):
            here = self.candidates(place)
            on = [one for one in here if any(self.route(before, one) for before in reached)]
            if on:
                found[-1] = found[-1][0], at
            elif here:
                found.append((at, at))
            reached = on or here
        return found

    def solve(self, places: List[Place]) -> List[Dict[str, Any]]:
        """For each position the totals through each candidate and the margin."""
        out: List[Dict[str, Any]] = [{"totals": [], "margin": None} for _ in places]
        for first, last in self.pieces(places):
            some = places[first:last + 1]
            layers = [self.candidates(place) for place in some]
            costs = {ranks: self.cost(some, tuple(layer[rank] for layer, rank in zip(layers, ranks)))
                     for ranks in itertools.product(*(range(len(layer)) for layer in layers))}
            known = {ranks: cost for ranks, cost in costs.items() if cost is not None}
            best = min(known, key=lambda ranks: (known[ranks], ranks[::-1]))
            for at, layer in enumerate(layers):
                totals = [min((cost for ranks, cost in known.items() if ranks[at] == rank), default=-1)
                          for rank in range(len(layer))]
                road = self.road([layer[rank] for layer, rank in zip(layers, best)], at)
                others = [total for one, total in zip(layer, totals) if total >= 0 and not self.on(road, one, layers, best, at)]
                out[first + at] = {"totals": totals, "chosen": best[at],
                                   "margin": min(others) - known[best] if others else None}
        return out

    def road(self, chosen: List[Candidate], at: int) -> List[int]:
        """The edges from the position before to the position after, and three more on both sides."""
        edges, places = [chosen[0][1]], [0]
        for one, other in zip(chosen, chosen[1:]):
            way = self.route(one, other)
            assert way is not None
            direct = one[1] == other[1] and one[2] <= other[2] + self.back
            edges += [] if direct else [*reversed(way[1]), other[1]]
            places.append(len(edges) - 1)
        return edges[max(places[max(at - 1, 0)] - self.near, 0):places[min(at + 1, len(chosen) - 1)] + self.near + 1]

    def on(self, road: List[int], one: Candidate, layers: List[List[Candidate]], best: Tuple[int, ...], at: int) -> bool:
        if one[1] in road:
            return True
        chosen = layers[at][best[at]]
        a, b = self.edges[one[1]][:2], self.edges[chosen[1]][:2]
        meets = bool(set(a) & set(b)) and a != b[::-1]
        away = math.dist(self.place(one), self.place(chosen))
        return at in (0, len(layers) - 1) and len(layers) > 1 and meets and away < self.sigma

    def place(self, one: Candidate) -> Tuple[float, float]:
        line, left = self.edges[one[1]][2], one[2]
        for p, q in zip(line, line[1:]):
            step = straight(p, q)
            if left <= step:
                return p[0] + (q[0] - p[0]) * left / step, p[1] + (q[1] - p[1]) * left / step
            left -= step
        raise AssertionError


@st.composite
def cases(draw: Any) -> Tuple[List[Edge], List[List[Place]], Dict[str, int]]:
    place = st.tuples(st.integers(-60, 60), st.integers(-60, 60)).map(lambda p: (100 * p[0], 100 * p[1]))
    nodes = draw(st.lists(place, min_size=2, max_size=5, unique=True))
    pairs = draw(st.lists(st.tuples(st.sampled_from(range(len(nodes))), st.sampled_from(range(len(nodes)))).filter(
        lambda pair: pair[0] != pair[1]), min_size=1, max_size=8))
    edges: List[Edge] = []
    for a, b in pairs:
        middle = draw(st.none() | place.filter(lambda p: p not in (nodes[a], nodes[b])))
        line = [nodes[a], nodes[b]] if middle is None else [nodes[a], middle, nodes[b]]
        edges.append((a, b, line))
        if draw(st.booleans()):
            edges.append((b, a, line[::-1]))
    near = st.tuples(st.integers(-7000, 7000), st.integers(-7000, 7000))
    traces = draw(st.lists(st.lists(near, min_size=1, max_size=4), min_size=1, max_size=3))
    options = {"k": draw(st.integers(1, 4)), "radius": draw(st.sampled_from([500, 3000, 8000])),
               "sigma": draw(st.sampled_from([300, 1000])), "beta": draw(st.sampled_from([200, 1000, 5000])),
               "bound": draw(st.sampled_from([0, 5000, 30000])), "back": draw(st.sampled_from([0, 2000]))}
    return edges, traces, options


def network_of(edges: List[Edge], folder: Path) -> Network:
    rows = [f"{number + 10},{a},{b},{';'.join(f'{x} {y}' for x, y in line)}" for number, (a, b, line) in enumerate(edges)]
    path = folder / "network.csv"
    path.write_text("edge,from,to,line\n" + "\n".join(rows) + "\n")
    return Network.open(path)


def traces_of(traces: List[List[Place]]) -> TraceFile:
    number = np.repeat(np.arange(len(traces)), [len(trace) for trace in traces])
    x, y = np.array([place for trace in traces for place in trace], np.int64).T
    return TraceFile(number, x, y, None)


@settings(suppress_health_check=list(HealthCheck))
@given(cases(), st.sampled_from([0, 1, 3]))
def test_margins_are_those_of_all_sequences(tmp_path_factory: Any, case: Tuple[Any, Any, Dict[str, int]], near: int) -> None:
    edges, traces, words = case
    network = network_of(edges, tmp_path_factory.mktemp("margins"))
    options = Options.of(**{name: value / (1 if name == "k" else 100) for name, value in words.items()})
    with pytest.MonkeyPatch.context() as patch:
        patch.setattr(sequences, "NEAR", near)
        found = Prover(network, options, options.arguments()).sequences(traces_of(traces))
    brute = Brute(edges, **words)
    brute.near = near
    wanted = [one for trace in traces for one in brute.solve(trace)]
    first = found.candidates.first
    for at, one in enumerate(wanted):
        some = slice(first[at], first[at + 1])
        assert found.total[some].tolist() == one["totals"]
        assert found.chosen[at] == (first[at] + one["chosen"] if one["totals"] else -1)
        margin = None if np.isnan(found.margin[at]) else found.margin[at]
        assert margin == one["margin"]
    places = [place for trace in traces for place in trace]
    near = [candidate for place in places for candidate in brute.candidates(place)]
    assert list(zip(found.candidates.d2, found.candidates.edge, found.candidates.offset)) == near


def test_batches_change_nothing(top: Path, monkeypatch: pytest.MonkeyPatch) -> None:
    network = Network.open(top / "examples" / "network.csv")
    table = np.loadtxt(top / "examples" / "traces.csv", np.int64, delimiter=",", skiprows=1)
    trace = np.cumsum(np.append(0, np.diff(table[:, 0]) != 0))
    file = TraceFile(trace, table[:, 1], table[:, 2], table[:, 3])
    words = ["--gap", "120"]
    whole = Prover(network, Options.of(gap=120), words).sequences(file)
    monkeypatch.setattr(proving, "AT_ONCE", 5)
    parts = Prover(network, Options.of(gap=120), words).sequences(file)
    assert len(batches(trace)) > 2
    for name in ("chosen", "emission", "before", "transition", "total", "another"):
        assert np.array_equal(getattr(whole, name), getattr(parts, name)), name
    assert np.array_equal(whole.margin, parts.margin, equal_nan=True)
    assert np.array_equal(whole.candidates.first, parts.candidates.first)
    # positions 0 to 2 of trace 8 cost 297 (README), and no other road costs less than 10 times as much
    assert whole.total[whole.chosen[6]] == 297 and whole.margin[6] > 2700


def test_another_match_is_refused(top: Path) -> None:
    """A certificate of other options does not fit."""
    network = Network.open(top / "examples" / "network.csv")
    table = np.loadtxt(top / "examples" / "traces.csv", np.int64, delimiter=",", skiprows=1)
    file = TraceFile(table[:, 0], table[:, 1], table[:, 2], table[:, 3])
    with pytest.raises(MismatchError):
        Prover(network, Options.of(sigma=11), ["--gap", "120"]).sequences(file)
    with pytest.raises(MismatchError):
        Prover(network, Options.of(radius=50), ["--gap", "120"]).sequences(file)
    with pytest.raises(MismatchError):
        Prover(network, Options.of(beta=11), ["--gap", "120"]).sequences(file)


@pytest.mark.parametrize("text", [b"", b"fmm-certificate 1 k 8\n", b"fmm-certificate 1 k 8\ntrace 1\nend 1\n",
                                  b"fmm-certificate 1 k 8\ncertified traces 1 rows 0\n", b"trace 1\n"])
def test_a_cut_certificate_is_refused(text: bytes) -> None:
    with pytest.raises(InputError, match="certificate"):
        read_certificate(text)


def test_words_of_prove() -> None:
    assert prove_words(["--k", "4", "--table", "t.txt", "--table=u", "--gap=3"]) == ["--k", "4", "--gap=3"]
