"""Places on edges, compared with plain computations edge by edge."""
from __future__ import annotations

import bisect
from pathlib import Path
from typing import List, Tuple

import numpy as np
import pytest
from hypothesis import HealthCheck, given, settings, strategies as st

from fmm._lines import EdgeLines
from fmm._match_text import read_match
from fmm._places import Places, rising

TOP = Path(__file__).resolve().parents[2]


def lines_of(polylines: List[List[Tuple[int, int]]]) -> EdgeLines:
    nodes = np.arange(len(polylines))
    return EdgeLines(10 + 3 * nodes[::-1], np.append(0, np.cumsum([len(line) for line in polylines])),
                     np.array([point for line in polylines for point in line], np.int64), nodes, nodes + 1)


def snap(line: List[Tuple[int, int]], so_far: List[int], part: int, x: int, y: int) -> Tuple[int, int]:
    (ax, ay), (bx, by) = line[part:part + 2]
    dx, dy = bx - ax, by - ay
    square = dx * dx + dy * dy
    along = min(max((x - ax) * dx + (y - ay) * dy, 0), square)
    d2 = (ax + dx * along // square - x) ** 2 + (ay + dy * along // square - y) ** 2
    return d2, so_far[part] + (so_far[part + 1] - so_far[part]) * along // square


def far_numbers(most: int) -> st.SearchStrategy[int]:
    return st.one_of(st.integers(-300, 300), st.integers(-most, most))


POINTS = st.tuples(far_numbers(10 ** 7), far_numbers(10 ** 7))
POLYLINES = st.lists(st.lists(POINTS, min_size=2, max_size=5).filter(lambda line: all(p != q for p, q in zip(line, line[1:]))),
                     min_size=1, max_size=4)


@given(POLYLINES, st.data())
def test_snaps_are_those_of_each_edge(polylines: List[List[Tuple[int, int]]], data: st.DataObject) -> None:
    lines = lines_of(polylines)
    places = Places(lines)
    edge = data.draw(st.integers(0, len(polylines) - 1))
    x, y = data.draw(POINTS)
    line, so_far = polylines[edge], lines.so_far[lines.first[edge]:lines.first[edge + 1]].tolist()
    snaps = [snap(line, so_far, part, x, y) for part in range(len(line) - 1)]
    assert places.nearest(edge, x, y) == min(snaps)

    def check(d2: int, offset: int) -> bool:
        one = [np.array([value]) for value in (edge, offset, d2, x, y)]
        return bool(places.snaps(*one)[0])

    for d2, offset in snaps:
        assert check(d2, offset)
        assert not check(d2 + 1, offset)
        assert not check(d2, offset + 1) or (d2, offset + 1) in snaps


@given(POLYLINES, st.data())
def test_driven_parts_are_cut_from_the_lines(polylines: List[List[Tuple[int, int]]], data: st.DataObject) -> None:
    lines = lines_of(polylines)
    places = Places(lines)
    edges = np.array(data.draw(st.lists(st.integers(0, len(polylines) - 1), min_size=1, max_size=4)))
    ends = [sorted(data.draw(st.lists(st.integers(0, int(places.length[edge])), min_size=2, max_size=2))) for edge in edges]
    begin, end = np.array(ends).T
    driven = places.driven(edges, begin, end)
    offsets, xy, known = driven.first, driven.places, driven.point >= 0
    assert (lines.xy[driven.point[known]] == xy[known]).all()
    assert not known[(xy % 1 != 0).any(axis=1)].any()
    for number, edge in enumerate(edges.tolist()):
        so_far = lines.so_far[lines.first[edge]:lines.first[edge + 1]].tolist()
        inner = [polylines[edge][at] for at in range(len(so_far)) if begin[number] < so_far[at] < end[number]]
        found = xy[offsets[number]:offsets[number + 1]].tolist()
        first, last = (place_of(polylines[edge], so_far, int(ends[number])) for ends in (begin, end))
        wanted = [first, *inner, last]
        wanted = [wanted[0]] + [q for p, q in zip(wanted, wanted[1:]) if p != q]
        np.testing.assert_allclose(found, wanted, rtol=0, atol=1e-6)


def place_of(line: List[Tuple[int, int]], so_far: List[int], offset: int) -> Tuple[float, float]:
    part = min(max(bisect.bisect_right(so_far, offset) - 1, 0), len(line) - 2)
    share = (offset - so_far[part]) / (so_far[part + 1] - so_far[part])
    (ax, ay), (bx, by) = line[part:part + 2]
    return ax + share * (bx - ax), ay + share * (by - ay)


@given(st.lists(st.lists(st.integers(-50, 50), min_size=1, max_size=12), min_size=1, max_size=4))
@settings(suppress_health_check=[HealthCheck.too_slow])
def test_rising_values_are_those_of_pooled_neighbours(groups: List[List[int]]) -> None:
    values = np.array([value for group in groups for value in group])
    of = np.repeat(np.arange(len(groups)), [len(group) for group in groups])
    found = rising(values, of)
    wanted: List[float] = []
    for group in groups:
        pools: List[Tuple[float, int]] = []
        for value in group:
            pool = (float(value), 1)
            while pools and pools[-1][0] > pool[0]:
                mean, count = pools.pop()
                pool = ((pool[0] * pool[1] + mean * count) / (pool[1] + count), pool[1] + count)
            pools.append(pool)
        wanted += [mean for mean, count in pools for _ in range(count)]
    np.testing.assert_allclose(found, wanted, rtol=0, atol=1e-9)


def example_lines() -> EdgeLines:
    rows = [row.split(",") for row in (TOP / "examples/network.csv").read_text().splitlines()[1:]]
    lines = lines_of([[(int(x), int(y)) for x, y in (point.split() for point in row[3].split(";"))] for row in rows])
    lines.ids = np.array([int(row[0]) for row in rows])
    return lines


def test_the_match_of_the_example_snaps() -> None:
    places, text = Places(example_lines()), read_match(TOP / "examples/match.txt")
    xy = np.array([[int(field) for field in row.split(",")[1:3]]
                   for row in (TOP / "examples/traces.csv").read_text().splitlines()[1:]])
    on = np.flatnonzero(text.edge >= 0)
    edge = places.lines.position_of(text.edge[on])
    assert places.snaps(edge, text.offset[on], text.d2[on], xy[on, 0], xy[on, 1]).all()
    assert not places.snaps(edge, text.offset[on], text.d2[on], xy[on, 0], xy[on, 1] + 40).any()
    distance = np.hypot(*(places.at(edge, text.offset[on]) - xy[on]).T)
    assert distance == pytest.approx(np.sqrt(text.d2[on]), abs=1)
