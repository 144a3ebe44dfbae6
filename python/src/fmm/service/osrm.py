"""Answers of /match/v1 and /nearest/v1 as OSRM gives them, with the edges and costs of FMM besides.

Requests that wait together are matched together: each step is one call of numpy, pyproj or GEOS for all their drives.
"""
from __future__ import annotations

import json
from typing import Any, Dict, List, Optional, Union

import numpy as np

from .._ragged import offsets_of, rows_of
from .._thinning import thinned
from ..options import Options, centimetres
from . import texts
from .drives import Drives, Lines, Roads, confidence, drives_of, leg_metres, lines_of
from .matcher import Matcher
from .nearest import Nearest
from .polylines import encode_all
from .refusals import Refused
from .requests import MatchOptions, MatchRequest, NearestRequest
from .texts import Column, decimal, text_of, whole

TIDY = 1000  # centimetres: with tidy=true a position is matched only if it moved so far
PIXELS = 1000  # of the map for which a line is simplified
Answer = Union[bytes, Refused]


def match(matcher: Matcher, roads: Roads, requests: List[MatchRequest], until: float) -> List[Answer]:
    """The answers to requests with the same options, as JSON. Refused with NoMatch: no position has a road."""
    options, first = requests[0].options, offsets_of(np.array([len(request.places) for request in requests]))
    drive = rows_of(np.diff(first))
    plane = roads.plane(np.concatenate([request.places for request in requests]))
    times = np.concatenate([request.times for request in requests])
    kept = np.flatnonzero(~np.isnan(plane[:, 0]))
    if options.tidy:
        kept = kept[thinned(plane[kept, 0], plane[kept, 1], drive[kept], TIDY)]
    rows = np.column_stack([plane[kept].astype(np.int64), times[kept] if options.splits_gaps else np.zeros(len(kept), np.int64)])
    text = matcher.match(rows, np.bincount(drive[kept], minlength=len(requests)), options.sigma, until)
    drives = drives_of(roads, text, centimetres(matcher.options.back))
    lines = shown(drives, roads, options)
    degrees = roads.degrees(np.concatenate([drives.snapped, lines.ends.reshape(-1, 2)]))
    snapped, ends = degrees[:len(drives.snapped)], degrees[len(drives.snapped):].reshape(-1, 2, 2)
    found = matchings(drives, options, times[kept], geometries(lines, ends, roads, options))
    pieces = offsets_of(np.bincount(text.piece_trace, minlength=len(requests)))
    points = None
    if options.has_tracepoints:
        points = tracepoints(roads, drives, snapped, kept[drives.along.position], first[-1])
    return [answer(found[begin:end], None if points is None else points[here:there]) if begin < end else no_match(matcher.options)
            for begin, end, here, there in zip(pieces, pieces[1:], first, first[1:])]


def answer(found: List[bytes], points: Optional[np.ndarray]) -> bytes:
    """The JSON of one drive. `points` is the rows of its tracepoints."""
    parts = [b'{"code":"Ok","matchings":[', b",".join(found), b"]"]
    if points is not None:
        parts += [b',"tracepoints":[', text_of(points)[:-1], b"]"]
    return b"".join([*parts, b"}"])


def no_match(options: Options) -> Refused:
    return Refused("NoMatch", f"no position is within {options.radius:g} m of a road")


def matchings(drives: Drives, options: MatchOptions, times: np.ndarray, lines: List[str]) -> List[bytes]:
    """One matching for each piece. `lines` has the geometry of each, and is empty if none was asked for."""
    text, along = drives.text, drives.along
    metres, seconds = leg_metres(along), np.diff(times[along.position])
    rows = legs(metres, seconds, options)
    cost, bounds, route, begins = text.cost.tolist(), along.first.tolist(), text.route.tolist(), text.route_first.tolist()
    found = []
    for piece, (begin, end) in enumerate(zip(bounds, bounds[1:])):
        duration = f"{seconds[begin:end - 1].sum()}.0" if options.has_times else "null"
        about = (f'{{"confidence":{round(confidence(cost[piece], end - begin), 6)},'
                 f'"distance":{round(float(metres[begin:end - 1].sum()), 2)},"duration":{duration},'
                 f'"weight_name":"cost","weight":{cost[piece]},"legs":[')
        edges = ",".join(map(str, route[begins[piece]:begins[piece + 1]]))
        geometry = f',"geometry":{lines[piece]}' if lines else ""
        found.append(b"".join([about.encode(), text_of(rows[begin:end - 1])[:-1], f'],"edges":[{edges}]{geometry}}}'.encode()]))
    return found


def legs(metres: np.ndarray, seconds: np.ndarray, options: MatchOptions) -> np.ndarray:
    """The ways from each matched position to the next, as rows. Those from one piece to another mean nothing."""
    hundredths, seconds = hundredths_of(metres), np.maximum(seconds, 0)
    distance: List[Column] = [decimal(hundredths, 2)]
    duration: List[Column] = [whole(seconds), b".0"] if options.has_times else [b"null"]
    columns: List[Column] = [b'{"distance":', *distance, b',"duration":', *duration, b',"summary":"","steps":[]']
    if options.annotations:
        speed = speeds(metres, seconds) if options.has_times else [b"null"]
        values = {"distance": distance, "duration": duration, "speed": speed}
        for number, name in enumerate(options.annotations):
            columns += [b"," if number else b',"annotation":{', f'"{name}":['.encode()] + values[name] + [b"]"]
        columns.append(b"}")
    return texts.rows_of(len(metres), *columns, b"},")


def speeds(metres: np.ndarray, seconds: np.ndarray) -> List[Column]:
    """The metres a second of each leg; null for one without a duration."""
    moves = seconds > 0
    null = np.where(moves, 0, texts.words_of([b"null"])[0, 0]).astype(np.uint32)
    speed = decimal(hundredths_of(metres / np.maximum(seconds, 1)), 2)
    return [[null, *(np.where(moves, word, texts.NOTHING) for word in speed)]]


def hundredths_of(values: np.ndarray) -> np.ndarray:
    return np.rint(100 * values).astype(np.int64)


def shown(drives: Drives, roads: Roads, options: MatchOptions) -> Lines:
    """The driven lines with the points that were asked for; none if they were not asked for."""
    if options.overview == "false":
        return Lines(np.zeros((0, 2, 2)), np.zeros(0, np.int64), np.zeros(1, np.int64))
    lines = lines_of(roads.places, drives.along)
    if options.overview == "full" or not len(lines.points):
        return lines
    places, first = lines.all(lines.ends, roads.places.lines.xy)
    extent = np.maximum.reduceat(places, first[:-1]) - np.minimum.reduceat(places, first[:-1])
    from .simplified import simplified  # a worker has it already
    pixel = np.maximum(extent.max(axis=1), 1) / PIXELS
    return lines.thinned(simplified(places / pixel.repeat(np.diff(first))[:, None], first)[lines.inner])


def geometries(lines: Lines, ends: np.ndarray, roads: Roads, options: MatchOptions) -> List[str]:
    """The lines in the form that was asked for. `ends` is their ends in degrees."""
    places, first = lines.all(ends, roads.points)
    if options.geometries != "geojson":
        digits = 6 if options.geometries == "polyline6" else 5
        return [json.dumps(text) for text in encode_all(places, first, digits)]
    x, y = np.rint(1e7 * places.T).astype(np.int64)
    rows = texts.rows_of(len(places), b"[", decimal(x, 7), b",", decimal(y, 7), b"],")
    coordinates = [text_of(rows[begin:end])[:-1].decode() for begin, end in zip(first, first[1:])]
    return [f'{{"type":"LineString","coordinates":[{text}]}}' for text in coordinates]


def tracepoints(roads: Roads, drives: Drives, snapped: np.ndarray, found: np.ndarray, count: int) -> np.ndarray:
    """What became of each of `count` coordinates, as rows; null for one without a road. `found` has those with a road, and
    `snapped` their places in degrees."""
    along, text = drives.along, drives.text
    x, y = np.rint(1e7 * snapped.T).astype(np.int64)
    name = roads.json_names[roads.name[drives.edge]].T
    edge = text.edge[along.position]
    matching = along.piece - offsets_of(np.bincount(text.piece_trace))[text.piece_trace[along.piece]]
    waypoint = np.arange(len(along.piece)) - along.first[along.piece]
    rows = texts.rows_of(
        len(found), b'{"location":[', decimal(x, 7), b",", decimal(y, 7), b'],"name":', list(name), b',"distance":',
        decimal(hundredths_of(drives.away), 2), b',"matchings_index":', whole(matching), b',"waypoint_index":', whole(waypoint),
        b',"edge":', whole(edge), b"},")
    if len(found) == count:
        return rows
    every = np.zeros((count, rows.shape[1]), np.uint32)
    every[:, :2] = texts.words_of([b"null,"])
    every[found] = rows
    return every


def nearest(index: Nearest, roads: Roads, request: NearestRequest) -> Dict[str, Any]:
    """The answer to a request for the nearest edges. Refused with NoSegment: there is none within the radius."""
    plane = roads.plane(request.place[None])
    found = [] if np.isnan(plane).any() else index.edges(plane[0].astype(np.int64), request.number, request.radius)
    if not found:
        raise Refused("NoSegment", "there is no road near this place")
    edges = np.array([edge for edge, _, _ in found])
    offsets = np.array([offset for _, offset, _ in found])
    places = roads.degrees(roads.places.at(edges, offsets)).tolist()
    ids = roads.network.lines.ids[edges].tolist()
    return {"code": "Ok", "waypoints": [
        {"location": place, "name": roads.names[edge], "distance": round(metres, 2), "edge": number, "offset": offset / 100}
        for place, (edge, offset, metres), number in zip(places, found, ids)]}
