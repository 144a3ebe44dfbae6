"""Lines without the points that a map would not show."""
from __future__ import annotations

import struct

import numpy as np
from shapely import wkb

HEAD = struct.Struct("<BII")  # of a geometry in WKB: the order of bytes, the kind, the count of what follows
LINES, LINE = 0x80000005, 0x80000002  # kinds of geometries with three coordinates


def simplified(places: np.ndarray, first: np.ndarray) -> np.ndarray:
    """Which points are left if each line may differ by 1. The points of line i are places[first[i]:first[i + 1]].

    GEOS simplifies all lines by one call. Their third coordinate is the number of the point, and says which are left.
    """
    points, bounds = np.column_stack([places, np.arange(len(places))]), first.tolist()
    parts = [HEAD.pack(1, LINE, end - begin) + points[begin:end].tobytes() for begin, end in zip(bounds, bounds[1:])]
    lines = wkb.loads(HEAD.pack(1, LINES, len(parts)) + b"".join(parts)).simplify(1, preserve_topology=False)
    found, at = wkb.dumps(lines), HEAD.size * (lines.geom_type != "LineString")
    kept = np.zeros(len(places), bool)
    while at < len(found):
        count = HEAD.unpack_from(found, at)[2]
        kept[np.frombuffer(found, np.float64, 3 * count, at + HEAD.size)[2::3].astype(np.int64)] = True
        at += HEAD.size + 24 * count
    return kept
