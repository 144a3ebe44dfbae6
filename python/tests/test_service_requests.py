"""What the service reads and writes, without a network connection."""
from __future__ import annotations

import time
from typing import Any

import numpy as np
import pytest
from hypothesis import given
from hypothesis import strategies as st
from services import grid
from shapely.geometry import LineString

from fmm._match_text import read_match
from fmm._places import Places
from fmm.errors import ProgramError
from fmm.service import polylines, texts
from fmm.service.frames import packed, taken
from fmm.service.lines import drives_text
from fmm.service.metrics import Metrics
from fmm.service.nearest import Nearest
from fmm.service.program import Lost, far_place, follow_text
from fmm.service.refusals import Refused
from fmm.service.requests import match_request, nearest_request, places_of
from fmm.service.simplified import simplified

PLACES = st.lists(st.tuples(st.integers(-18_000_000, 18_000_000), st.integers(-9_000_000, 9_000_000)), min_size=1, max_size=30)


@given(PLACES, st.sampled_from([5, 6]))
def test_polylines_lead_back(whole: list[tuple[int, int]], digits: int) -> None:
    places = np.array(whole) / 10.0 ** digits
    assert np.array_equal(np.rint(polylines.decode(polylines.encode(places, digits), digits) * 10 ** digits), whole)


def test_the_example_of_the_polyline_format() -> None:
    places = np.array([[-120.2, 38.5], [-120.95, 40.7], [-126.453, 43.252]])
    assert polylines.encode(places) == "_p~iF~ps|U_ulLnnqC_mqNvxq`@"


@given(st.text(max_size=20))
def test_other_polylines_are_refused_or_read(text: str) -> None:
    try:
        assert polylines.decode(text).ndim == 2
    except ValueError:
        pass


@given(st.text(alphabet="0123456789.,;-+eE polyine()6%", max_size=60))
def test_coordinates_are_places_or_refused(text: str) -> None:
    try:
        places = places_of(text, 5)
    except Refused as fault:
        assert fault.code in ("InvalidQuery", "InvalidValue", "TooBig")
    else:
        assert 0 <= len(places) <= 5 and np.isfinite(places).all() and (np.abs(places) <= [180, 90]).all()


NAMES = ["timestamps", "radiuses", "geometries", "overview", "annotations", "gaps", "tidy", "steps", "skip_waypoints", "x"]


@given(st.dictionaries(st.sampled_from(NAMES), st.text(alphabet="0123456789.;,truefalsignoc", max_size=12), max_size=4))
def test_options_are_read_or_refused(options: dict[str, str]) -> None:
    query = "&".join(f"{name}={value}" for name, value in options.items())
    try:
        request = match_request("9,54;9.1,54", query, 10)
    except Refused as fault:
        assert fault.code in ("InvalidQuery", "InvalidValue", "InvalidOptions") and str(fault)
    else:
        assert len(request.times) == 2


def test_a_long_number_is_read_in_linear_time() -> None:
    began = time.monotonic()
    with pytest.raises(Refused):
        places_of("1" * 60_000 + "x", 10_000)
    with pytest.raises(Refused):
        places_of("9,54;" * 9_000 + "x", 10_000)
    assert time.monotonic() - began < 5


@pytest.mark.parametrize("query, code", [
    ("number=101", "InvalidValue"), ("number=-1", "InvalidValue"), ("radiuses=x", "InvalidValue"),
    ("bearings=0,10", "InvalidOptions"), ("k=3", "InvalidOptions")])
def test_requests_for_edges(query: str, code: str) -> None:
    with pytest.raises(Refused) as fault:
        nearest_request("9,54", query)
    assert fault.value.code == code


def test_the_nearest_edges_are_those_of_all() -> None:
    places = Places(grid(4).lines)
    index = Nearest(places)
    draw = np.random.default_rng(3)
    for _ in range(20):
        place = (draw.integers(-60_000, 90_000, 2) + [50_000_000, 600_000_000]).astype(np.int64)
        every = sorted((*places.nearest(edge, int(place[0]), int(place[1])), edge) for edge in range(len(places.lines)))
        found = index.edges(place, 5)
        assert [round((100 * metres) ** 2) for _, _, metres in found] == [d2 for d2, _, _ in every[:5]]
        assert [edge for edge, _, _ in found] == [edge for _, _, edge in sorted(every, key=lambda e: (e[0], e[2]))[:5]]
        near = [edge for edge, _, metres in index.edges(place, 100, 150.0)]
        assert near == [edge for d2, _, edge in sorted(every, key=lambda e: (e[0], e[2])) if d2 <= 15_000 ** 2]


def test_a_far_place_is_far_from_all_roads() -> None:
    for corner in ((0, 0), (999_999_999, 0), (-999_999_999, 5), (10 ** 9, 10 ** 9)):
        xy = np.array([[0, 0], corner])
        far = far_place(xy, 100_000)
        assert (np.abs(np.array(far)) <= 10 ** 9).all()
        low, high = xy.min(axis=0), xy.max(axis=0)
        assert (np.maximum(low - far, 0) + np.maximum(np.array(far) - high, 0)).max() > 100_000
    with pytest.raises(ProgramError):
        far_place(np.array([[-10 ** 9, -10 ** 9], [10 ** 9, 10 ** 9]]), 100)


STREAMS = b"""1 fix 4
1 none 4
7 trace 7
7 fix 0
7 at 0 edge 5 offset 1 d2 2
7 fix 1
7 piece 0 0 cost 3 route 5
7 none 1
"""


def test_lines_of_streams_become_a_follow_text() -> None:
    text = follow_text(STREAMS, 7, 1, 3)
    assert text == b"trace 3\nfix 0\nat 0 edge 5 offset 1 d2 2\nfinish\npiece 0 0 cost 3 route 5\nend 3\n"
    assert read_match(text + b"total traces 1 points 1 pieces 1\n").edge.tolist() == [5]


@given(st.lists(st.tuples(st.booleans(), st.integers(0, 3)), min_size=1, max_size=12), st.integers(1, 30), st.data())
def test_both_readers_of_a_drive_agree(positions: list[tuple[bool, int]], drive: int, data: st.DataObject) -> None:
    lines, run = [f"trace {drive}", "fix 0"], -1
    for number, (found, edge) in enumerate(positions):
        if found:
            run = number if run < 0 else run
            lines += [f"at {number} edge {edge} offset {7 * number} d2 {number ** 2}"]
        else:
            lines += [f"none {number}"]
        lines += [f"fix {number + 1}"]
        if found and (number + 1 == len(positions) or not positions[number + 1][0]):
            route = [positions[run][1], 9, edge]
            lines += [f"piece {run} {number} cost {11 * number} route {' '.join(map(str, route))}"]
            run = -1
    got = "".join(f"{drive} {line}\n" for line in [*lines, f"none {len(positions)}"]).encode()
    text = drives_text(b"0 none 3\n" + got, drive, np.array([len(positions)]))
    assert text.edge.tolist() == [edge if found else -1 for found, edge in positions]
    whole = read_match(follow_text(got, drive, len(positions), 1) + b"total traces 1 points %d pieces %d\n" %
                       (len(positions), len(text.cost)))
    for name in ("edge", "offset", "d2", "first", "last", "cost", "route_first", "route", "trace_of", "piece_trace"):
        assert np.array_equal(getattr(text, name), getattr(whole, name)), name
    line = data.draw(st.sampled_from(got.split(b"\n")[:-1]))
    for wrong in (got.replace(line + b"\n", b"", 1), got.replace(line, b"x" + line, 1), got.replace(line, line + b" x", 1)):
        with pytest.raises(Lost):
            drives_text(wrong, drive, np.array([len(positions)]))


@pytest.mark.parametrize("wrong", [
    STREAMS.replace(b"7 trace 7\n", b""), STREAMS.replace(b"7 fix 1\n", b""), STREAMS.replace(b"7 none 1\n", b""),
    STREAMS.replace(b"7 piece", b"8 piece"), STREAMS[:-1], b""])
def test_other_lines_are_no_answer(wrong: bytes) -> None:
    with pytest.raises(Lost):
        follow_text(wrong, 7, 1, 3)
    with pytest.raises(Lost):
        drives_text(wrong, 7, np.array([1]))


def test_metrics_have_the_format_of_prometheus() -> None:
    metrics = Metrics()
    metrics.request("match", 200, 0.02)
    metrics.request("match", 503, 0.0)
    lines = metrics.text([("fmm_workers", "gauge", "Workers.", 2)]).splitlines()
    assert 'fmm_requests_total{endpoint="match",status="503"} 1' in lines and 'fmm_request_seconds_bucket{le="0.01"} 1' in lines
    samples: dict[str, Any] = {}
    for line in lines:
        if not line.startswith("#"):
            name, _, value = line.rpartition(" ")
            samples[name] = float(value)
    assert samples["fmm_request_seconds_count"] == samples['fmm_request_seconds_bucket{le="+Inf"}'] == 2


@given(st.lists(st.integers(-2 ** 40, 2 ** 40), min_size=1, max_size=30), st.sampled_from([2, 3, 6, 7]))
def test_rows_have_the_numbers_that_python_writes(values: list[int], digits: int) -> None:
    numbers = np.array(values)
    rows = texts.rows_of(len(values), b"<", texts.signed(numbers), b" ", texts.decimal(numbers, digits), b" ",
                         texts.whole(np.abs(numbers)), b">\n")
    assert texts.text_of(rows) == "".join(
        f"<{value} {'-' * (value < 0)}{abs(value) // 10 ** digits}.{abs(value) % 10 ** digits:0{digits}} {abs(value)}>\n"
        for value in values).encode()
    assert texts.text_of(rows[1:]).count(b"\n") == len(values) - 1


@given(st.lists(PLACES, min_size=1, max_size=5))
def test_polylines_of_several_lines_are_those_of_each(lines: list[list[tuple[int, int]]]) -> None:
    each = [np.array(line) / 1e5 for line in lines]
    first = np.cumsum([0, *map(len, each)])
    assert polylines.encode_all(np.concatenate(each), first) == [polylines.encode(line) for line in each]


def test_several_lines_are_simplified_as_each_alone() -> None:
    draw = np.random.default_rng(4)
    lines = [np.cumsum(draw.normal(0, 1, (count, 2)), axis=0) for count in (2, 40, 3, 90)] + [np.zeros((2, 2))]
    first = np.cumsum([0, *map(len, lines)])
    kept = simplified(np.concatenate(lines), first)
    for line, begin, end in zip(lines, first, first[1:]):
        alone = np.asarray(LineString(line).simplify(1, preserve_topology=False).coords)
        assert np.array_equal(line[kept[begin:end]], alone)
        assert np.array_equal(simplified(line, np.array([0, len(line)])), kept[begin:end])


@given(st.lists(st.lists(st.integers(-1, 4), max_size=6), min_size=2, max_size=4), st.data())
def test_lines_of_several_drives_are_those_of_each(drives: list[list[int]], data: st.DataObject) -> None:
    parts = []
    for drive, edges in enumerate(drives, 11):
        lines = [f"trace {drive}", "fix 0"]
        for number, edge in enumerate(edges):
            lines += [f"none {number}"] if edge < 0 else [f"at {number} edge {edge} offset 5 d2 6"]
            lines += [f"fix {number + 1}"] + ([f"piece {number} {number} cost 7 route {edge}"] if edge >= 0 else [])
        parts.append("".join(f"{drive} {line}\n" for line in [*lines, f"none {len(edges)}"]).encode() + b"0 fix 8\n0 none 8\n")
    counts = np.array(list(map(len, drives)))
    text = drives_text(b"".join(parts), 11, counts)
    assert text.edge.tolist() == [edge for edges in drives for edge in edges]
    assert text.trace_of.tolist() == [number for number, edges in enumerate(drives) for _ in edges]
    begin = 0
    for number, (part, edges) in enumerate(zip(parts, drives)):
        alone, own = drives_text(part, 11 + number, counts[number:number + 1]), text.piece_trace == number
        assert np.array_equal(alone.first, text.first[own]) and np.array_equal(alone.cost, text.cost[own])
        assert alone.edge.tolist() == text.edge[begin:begin + len(edges)].tolist()
        begin += len(edges)
    first, second = data.draw(st.permutations(range(len(parts))))[:2]
    parts[first], parts[second] = parts[second], parts[first]
    with pytest.raises(Lost):
        drives_text(b"".join(parts), 11, counts)


def test_messages_arrive_whole_in_whatever_blocks() -> None:
    whole = b"".join(packed({"number": number}, b"x" * size) for number, size in enumerate((0, 5, 70_000)))
    for size in (1, 7, 1000, len(whole)):
        got, found = bytearray(), []
        for begin in range(0, len(whole), size):
            got += whole[begin:begin + size]
            found += taken(got)
        assert [head["number"] for head, _ in found] == [0, 1, 2] and [len(body) for _, body in found] == [0, 5, 70_000]
        assert not got
