"""Projections: from any CRS to whole centimetres of a plane in metres, and back."""
from __future__ import annotations

import functools
import math
import os
import re
import warnings
from concurrent.futures import ThreadPoolExecutor
from dataclasses import dataclass
from typing import Iterator, Optional, Union

import numpy as np
import pyproj
from pyproj.crs import coordinate_operation as conversions
from pyproj.exceptions import CRSError, ProjError

from .errors import OptionError, shown

DEGREES = pyproj.CRS.from_epsg(4326)
FARTHEST = 1_000_000_000  # centimetres: the range of the proved programs
NOWHERE = int(np.iinfo(np.int64).min)
UTM_ERROR = 0.001  # UTM has 0.0004 in the middle of a zone and 0.001 at its borders on the equator
MANY, THREADS = 100_000, 4  # places from which on threads are worth their start, and how many there are at most
OWN_ERROR = 0.0025  # the projection of the data themselves is kept if no length is wrong by more

Extent = tuple[float, float, float, float]
Places = Union[np.ndarray, list[float]]


@dataclass(frozen=True)
class Projection:
    """A plane in metres. `crs` is None for network files without a side file: a plane at an unknown place."""

    crs: Optional[pyproj.CRS]

    @classmethod
    def of(cls, text: Union[str, int, pyproj.CRS, "Projection"]) -> Projection:
        """From an EPSG code, a UTM zone such as `32N`, WKT, a PROJ string or a CRS. Refuses CRSs that are not in metres."""
        if isinstance(text, Projection):
            return text
        zone = re.fullmatch(r"(?:UTM ?)?([0-9]{1,2})([NS])", text.strip().upper()) if isinstance(text, str) else None
        if zone:
            return cls(utm(int(zone[1]), zone[2] == "S"))
        try:
            crs = pyproj.CRS.from_user_input(text)
        except CRSError:
            raise OptionError(f"{shown(text)} is no projection: give an EPSG code (EPSG:32632) or a UTM zone (32N)") from None
        if not crs.is_projected:
            raise OptionError(f"{crs_name(crs)} is no plane in metres: give a projected CRS (EPSG:32632) or a UTM zone (32N)")
        units = {axis.unit_name for axis in crs.axis_info[:2]}
        if units != {"metre"}:
            raise OptionError(f"{crs_name(crs)} is in {' and '.join(sorted(units))}, not in metres")
        return cls(crs)

    @classmethod
    def fitting(cls, west: float, south: float, east: float, north: float) -> Projection:
        """A conformal projection for an extent in degrees of WGS 84: the UTM zone of its middle, if no length is wrong by
        more than a thousandth there, else the best of four projections that are centred on the extent. An extent across
        the meridian of 180 degrees has west > east. Refused with OptionError: no extent on the Earth, or one so wide that
        places are farther than 10,000 km from the origin."""
        if not (all(map(math.isfinite, (west, south, east, north))) and -90 <= south <= north <= 90 and abs(west) <= 360):
            raise OptionError(f"{west:g}, {south:g}, {east:g}, {north:g} is no extent in degrees: west, south, east, north")
        extent = (west, south, east + 360 if east < west else east, north)
        middle = (extent[0] + extent[2]) / 2
        if abs(south) <= 84 and abs(north) <= 84 and extent[2] - west <= 60:
            zone = cls(utm(int((middle + 180) % 360 // 6) % 60 + 1, north < 0))
            if zone.scale_error(extent) <= UTM_ERROR:
                return zone
        found = [plane for plane in centred(extent) if plane.takes(extent)]
        if not found:
            raise OptionError(f"{west:g}, {south:g}, {east:g}, {north:g} is too wide for one plane; cut the data into parts")
        return min(found, key=lambda plane: plane.scale_error(extent))

    @classmethod
    def own_or_fitting(cls, crs: pyproj.CRS, extent: Extent) -> Projection:
        """The CRS of the data, if it is a plane in metres in which no length of the extent is wrong by more than 0.25 %; else
        one that fits."""
        try:
            own = cls.of(crs)
        except OptionError:  # degrees or feet
            return cls.fitting(*extent)
        return own if own.scale_error(extent) <= OWN_ERROR else cls.fitting(*extent)

    def to_centimetres(self, x: Places, y: Places, crs: object) -> tuple[np.ndarray, np.ndarray]:
        """Whole centimetres (int64) of places in any CRS, x to the east or longitude first. With `crs` None the places are
        metres of this plane. Both coordinates of a place that this plane does not take are NOWHERE: those that are not
        finite, outside the projection, or farther than the 10,000 km that the proved programs take."""
        x, y = np.asarray(x, np.float64), np.asarray(y, np.float64)
        if crs is not None and self.crs is not None:
            known = pyproj.CRS.from_user_input(crs)
            good = np.isfinite(x) & np.isfinite(y)
            if known.is_geographic:
                good &= (np.abs(x) <= 360) & (np.abs(y) <= 90)
            places = np.where(good, x, 0), np.where(good, y, 0)
            x, y = transformer(known, self.crs).transform(*places)
            x, y = np.where(good, x, np.nan), np.where(good, y, np.nan)
        with np.errstate(invalid="ignore"):
            x, y = np.rint(100 * x), np.rint(100 * y)
            good = (np.abs(x) <= FARTHEST) & (np.abs(y) <= FARTHEST)
            x, y = np.where(good, x, 0).astype(np.int64), np.where(good, y, 0).astype(np.int64)
        return np.where(good, x, NOWHERE), np.where(good, y, NOWHERE)

    def to_crs(self, x_cm: np.ndarray, y_cm: np.ndarray, crs: object) -> tuple[np.ndarray, np.ndarray]:
        """Places in another CRS, x to the east or longitude first. With `crs` None, metres of this plane."""
        x, y = np.asarray(x_cm, np.float64) / 100, np.asarray(y_cm, np.float64) / 100
        if crs is None:
            return x, y
        if self.crs is None:
            raise OptionError("the network has no known projection, so its places have no CRS; give the CRS when it is opened")
        return transformed(transformer(self.crs, pyproj.CRS.from_user_input(crs)), x, y)

    def scale_error(self, bounds: Extent) -> float:
        """The greatest relative error of a short length in an extent (west, south, east, north in degrees). NaN if unknown,
        infinite where the projection has no value."""
        if self.crs is None:
            return math.nan
        low, high = scales(self.crs, bounds)
        return max(abs(high - 1), abs(1 - low))

    def takes(self, bounds: Extent) -> bool:
        """Whether all places of an extent in degrees have coordinates."""
        x, y = self.to_centimetres(*grid(bounds), DEGREES)
        return bool((x != NOWHERE).all())

    @property
    def name(self) -> str:
        """Such as `EPSG:32632 (UTM 32N)`."""
        return "a plane of unknown place" if self.crs is None else crs_name(self.crs)

    @property
    def text(self) -> Optional[str]:
        """What `of` makes this projection of again: an EPSG code if there is an equal one, else WKT."""
        if self.crs is None:
            return None
        code = self.crs.to_epsg(100)
        return f"EPSG:{code}" if code and pyproj.CRS.from_epsg(code) == self.crs else self.crs.to_wkt()

    def matches(self, other: Projection) -> bool:
        """Whether coordinates of the two are the same places. An unknown place matches every projection."""
        return self.crs is None or other.crs is None or self.crs == other.crs


def crs_name(crs: pyproj.CRS) -> str:
    """The name of any CRS for messages, with its EPSG code if it has one."""
    code = crs.to_epsg(100)
    if not code:
        return crs.name
    zone = re.fullmatch(r"WGS 84 / UTM zone ([0-9]+[NS])", crs.name)
    return f"EPSG:{code} ({'UTM ' + zone[1] if zone else crs.name})"


def utm(zone: int, south: bool) -> pyproj.CRS:
    if not 1 <= zone <= 60:
        raise OptionError(f"{zone} is no UTM zone: a zone is a number from 1 to 60 with N or S, such as 32N")
    return pyproj.CRS.from_epsg((32700 if south else 32600) + zone)


def extent_of(longitudes: Places, latitudes: Places) -> Extent:
    """The least extent of places in degrees; it goes across the meridian of 180 degrees (west > east) if that is shorter.
    Places that are not finite are left out; there has to be one that is."""
    x, y = np.asarray(longitudes, np.float64), np.asarray(latitudes, np.float64)
    good = np.isfinite(x) & np.isfinite(y)
    x, y = x[good], y[good]
    west, east = float(x.min()), float(x.max())
    if east - west > 180:
        degrees = np.concatenate([np.floor(x % 360), np.ceil(x % 360)])  # whole degrees suffice for a gap
        inner = np.unique(degrees)
        gaps = np.diff(np.append(inner, inner[0] + 360))
        begin = inner[(int(gaps.argmax()) + 1) % len(inner)]
        turned = (x - begin) % 360
        if turned.max() < east - west:
            west, east = ((float(v) + begin + 180) % 360 - 180 for v in (turned.min(), turned.max()))
    return west, float(y.min()), east, float(y.max())


def grid(bounds: Extent, steps: int = 15) -> tuple[np.ndarray, np.ndarray]:
    west, south, east, north = bounds
    x, y = np.meshgrid(np.linspace(west, east + 360 if east < west else east, steps), np.linspace(south, north, steps))
    return x.ravel(), y.ravel()


def scales(crs: pyproj.CRS, bounds: Extent) -> tuple[float, float]:
    """The least and the greatest scale of lengths in an extent."""
    x, y = grid(bounds)
    with warnings.catch_warnings():
        warnings.simplefilter("ignore")
        factors = pyproj.Proj(crs).get_factors((x + 180) % 360 - 180, y, errcheck=False)
    low, high = np.asarray(factors.tissot_semiminor), np.asarray(factors.tissot_semimajor)
    good = np.isfinite(low) & np.isfinite(high) & (low > 0)
    return (float(low.min()), float(high.max())) if good.all() else (0.0, math.inf)


def centred(extent: Extent) -> Iterator[Projection]:
    """Conformal projections that are centred on an extent, with a scale that is wrong by as much above 1 as below."""
    west, south, east, north = extent
    x, y = ((west + east) / 2 + 180) % 360 - 180, (south + north) / 2
    kinds = (
        ("transverse Mercator", lambda k: conversions.TransverseMercatorConversion(y, x, 0, 0, k)),
        ("Lambert conformal conic", lambda k: conversions.LambertConformalConic1SPConversion(y, x, 0, 0, k)),
        ("Mercator", lambda k: conversions.MercatorAConversion(0, x, 0, 0, k)),
        ("stereographic", lambda k: conversions.StereographicConversion(y, x, 0, 0, k)),
    )
    for kind, conversion in kinds:
        try:
            low, high = scales(named(kind, x, y, conversion(1.0)), extent)
            if 0 < low and high < math.inf:
                yield Projection(named(kind, x, y, conversion(round(2 / (low + high), 9))))
        except (CRSError, ProjError):
            continue  # this kind has no projection for such an extent


def named(kind: str, x: float, y: float, conversion: object) -> pyproj.CRS:
    place = f"{abs(y):.6g} {'S' if y < 0 else 'N'} {abs(x):.6g} {'W' if x < 0 else 'E'}"
    return pyproj.crs.ProjectedCRS(conversion, f"WGS 84 / {kind} of {place}", geodetic_crs=DEGREES)


@functools.lru_cache(32)
def transformer(source: pyproj.CRS, target: pyproj.CRS) -> pyproj.Transformer:
    return pyproj.Transformer.from_crs(source, target, always_xy=True)


def transformed(transform: pyproj.Transformer, x: np.ndarray, y: np.ndarray) -> tuple[np.ndarray, np.ndarray]:
    """Places in another CRS, by several threads if there are many: PROJ runs without Python's lock."""
    if x.ndim != 1 or len(x) < MANY:
        return transform.transform(x, y)
    threads = min(os.cpu_count() or 1, THREADS)
    with ThreadPoolExecutor(threads) as pool:
        parts = list(pool.map(transform.transform, np.array_split(x, threads), np.array_split(y, threads)))
    return np.concatenate([part[0] for part in parts]), np.concatenate([part[1] for part in parts])
