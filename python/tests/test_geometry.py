"""Geometries made from arrays."""
from __future__ import annotations

import gc

import numpy as np
from shapely import wkt
from shapely.geometry import LineString, Point

from fmm._geometry import lines, points


def test_points_are_those_of_shapely() -> None:
    xy = np.array([[1.5, -2.25], [np.nan, 3], [4, 5]])
    found = points(xy, "EPSG:32632")
    assert [geometry and geometry.wkb for geometry in found] == [Point(1.5, -2.25).wkb, None, Point(4, 5).wkb]
    assert found.crs.to_epsg() == 32632
    assert found[0].distance(found[2]) == Point(1.5, -2.25).distance(Point(4, 5))


def test_lines_are_those_of_shapely() -> None:
    xy = np.random.RandomState(1).normal(size=(11, 2))
    offsets = np.array([0, 2, 2, 3, 8, 11])
    found = lines(offsets, xy, None)
    del offsets
    gc.collect()
    for geometry, (begin, end) in zip(found, [(0, 2), (2, 2), (2, 3), (3, 8), (8, 11)]):
        wanted = LineString(xy[begin:end].tolist()) if end - begin > 1 else wkt.loads("LINESTRING EMPTY")
        assert geometry.geom_type == "LineString"
        assert geometry.wkt == wanted.wkt
        assert geometry.is_empty == wanted.is_empty
    xy[:] = 0  # the geometries have copies
    assert found[3].length > 1
    assert found[3].buffer(0.1).contains(found[3])


def test_no_rows() -> None:
    assert len(points(np.zeros((0, 2)), None)) == 0
    assert len(lines(np.zeros(1, np.int64), np.zeros((0, 2)), None)) == 0
