"""Projections to whole centimetres and back."""
from __future__ import annotations

import numpy as np
import pyproj
import pytest
from hypothesis import given
from hypothesis import strategies as some
from profiles import slow

from fmm.errors import OptionError
from fmm.projection import DEGREES, MANY, NOWHERE, Projection, extent_of, transformed, transformer


def test_a_city_gets_its_zone() -> None:
    plane = Projection.fitting(9.42, 54.30, 9.45, 54.33)
    assert (plane.name, plane.text) == ("EPSG:32632 (UTM 32N)", "EPSG:32632")
    x, y = plane.to_centimetres([9.43], [54.31], 4326)
    assert (x[0], y[0]) == (52797639, 601809857)  # as projected by Krueger's series
    assert Projection.fitting(18.3, -34.1, 18.6, -33.8).name == "EPSG:32734 (UTM 34S)"
    assert Projection.fitting(36, -1, 37, 1).name == "EPSG:32637 (UTM 37N)"  # across the equator, within 10,000 km


@pytest.mark.parametrize("extent, kind, error", [
    ((5.5, 47, 15.1, 55.1), "transverse Mercator", 0.001),
    ((-125, 24, -66, 50), "Lambert conformal conic", 0.015),
    ((100, -5, 140, 5), "Mercator", 0.003),
    ((177, -20, -178, -15), "transverse Mercator", 0.001),
])
def test_wide_extents_get_a_fitting_plane(extent: tuple, kind: str, error: float) -> None:
    plane = Projection.fitting(*extent)
    assert kind in plane.name and plane.scale_error(extent) < error
    again = Projection.of(plane.text)
    assert again.matches(plane) and again.name == plane.name and hash(again) == hash(plane)
    assert not plane.matches(Projection.of("32N")) and plane.matches(Projection(None))


@slow
@given(west=some.floats(-180, 179), south=some.floats(-80, 79), width=some.floats(0.01, 20), height=some.floats(0.01, 20))
def test_places_come_back_and_lengths_are_right(west: float, south: float, width: float, height: float) -> None:
    east, north = (west + width + 180) % 360 - 180, min(south + height, 85.0)
    plane = Projection.fitting(west, south, east, north)
    longitude = (west + width * np.array([0, 0.3, 1]) + 180) % 360 - 180
    latitude = south + (north - south) * np.array([1, 0.5, 0])
    x, y = plane.to_centimetres(longitude, latitude, 4326)
    assert (x != NOWHERE).all() and (np.abs(y) <= 10**9).all()
    back, up = plane.to_crs(x, y, 4326)
    geod = pyproj.Geod(ellps="WGS84")
    assert geod.inv(longitude, latitude, back, up)[2] == pytest.approx([0, 0, 0], abs=0.02)
    step_x, step_y = plane.to_centimetres(longitude, latitude - 0.001, 4326)
    true = geod.inv(longitude, latitude, longitude, latitude - 0.001)[2]
    error = plane.scale_error((west, south - 0.001, east, north)) + 2e-4
    assert np.hypot(step_x - x, step_y - y) / 100 == pytest.approx(true, rel=error)


def test_places_without_coordinates_are_marked() -> None:
    x, y = Projection.of("32N").to_centimetres([9, np.nan, 9, 400, 9], [54, 54, np.inf, 5, 95], 4326)
    assert (x != NOWHERE).tolist() == (y != NOWHERE).tolist() == [True, False, False, False, False]
    x, y = Projection(None).to_centimetres([1.234, 1.1e7], [-5, 0], None)
    assert x.tolist() == [123, NOWHERE] and y.tolist() == [-500, NOWHERE]


@pytest.mark.parametrize("text, message", [
    ("EPSG:4326", "is no plane in metres"), ("nonsense", "nonsense is no projection"), ("61N", "61 is no UTM zone"),
    ("EPSG:2263", "is in US survey foot, not in metres"),
])
def test_what_is_no_plane_in_metres_is_refused(text: str, message: str) -> None:
    with pytest.raises(OptionError, match=message):
        Projection.of(text)


def test_extents_that_do_not_exist_are_refused() -> None:
    for extent in ((500000.0, 6e6, 500001.0, 6e6), (1.0, 3.0, 2.0, 1.0), (float("nan"), 0.0, 1.0, 1.0)):
        with pytest.raises(OptionError, match="is no extent in degrees"):
            Projection.fitting(*extent)


def test_the_extent_goes_the_shorter_way_round() -> None:
    assert extent_of([179, -179, 178.5, np.nan], [1, 2, 3, 99]) == (178.5, 1, -179, 3)
    assert extent_of([-100, 2, 1], [1, 2, 3]) == (-100, 1, 2, 3)


def test_a_plane_of_unknown_place() -> None:
    plane = Projection(None)
    assert plane.text is None and np.isnan(plane.scale_error((0, 0, 1, 1)))
    assert [v.tolist() for v in plane.to_crs(np.array([150]), np.array([-20]), None)] == [[1.5], [-0.2]]
    with pytest.raises(OptionError, match="no known projection"):
        plane.to_crs(np.array([1]), np.array([1]), 4326)


def test_many_places_are_transformed_as_few_are() -> None:
    draw = np.random.default_rng(1)
    x, y = draw.uniform(4e5, 6e5, MANY + 3), draw.uniform(5e6, 6e6, MANY + 3)
    transform = transformer(pyproj.CRS.from_epsg(32632), DEGREES)
    assert np.array_equal(transformed(transform, x, y), transform.transform(x, y))
