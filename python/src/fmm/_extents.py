"""Whether positions and a network lie at the same place, and the likely reason if not."""
from __future__ import annotations

from typing import Any, NamedTuple, Optional, Tuple

import numpy as np
import pyproj

from .errors import InputError
from .positions import Positions
from .projection import DEGREES, NOWHERE

NEAR = 1_000.0  # metres around the network's box that belong to it
EARTH = pyproj.Geod(ellps="WGS84")


class Box(NamedTuple):
    """An extent in metres."""

    west: float
    south: float
    east: float
    north: float

    def text(self) -> str:
        return f"x {self.west:.0f} to {self.east:.0f}, y {self.south:.0f} to {self.north:.0f}"


class Extents(NamedTuple):
    """The boxes of a network and of positions, in metres of the network's projection.

    share    of the positions that lie in the network's box, or within a kilometre of it
    verdict  the likely reason why hardly any position does, "" if they do
    """

    network: Box
    positions: Box
    share: float
    verdict: str

    @property
    def text(self) -> str:
        """Three lines or four: the boxes, the share, the verdict."""
        share = f"{100 * self.share:.0f} % of the positions are in the box of the network\n"
        verdict = f"{self.verdict}\n" if self.verdict else ""
        return f"network:   {self.network.text()} (metres)\npositions: {self.positions.text()} (metres)\n{share}{verdict}"


def compare_extents(network: Any, positions: Positions) -> Extents:
    """Compares the usable positions with the lines of a network. The verdict is not empty if less than a tenth is near."""
    xy = network.lines.xy
    if not len(xy):
        raise InputError("the network has no edges")
    (west, south), (east, north) = xy.min(axis=0) / 100, xy.max(axis=0) / 100
    box = Box(float(west), float(south), float(east), float(north))
    usable = positions.usable
    x, y = positions.frame["x"].to_numpy()[usable], positions.frame["y"].to_numpy()[usable]
    here_x, here_y = metres(network, positions.crs, x, y)
    share = inside(box, here_x, here_y)
    verdict = "" if share >= 0.1 else reason(network, positions.crs, box, x, y)
    return Extents(box, box_of(here_x, here_y), share, verdict)


def metres(network: Any, crs: Optional[pyproj.CRS], x: np.ndarray, y: np.ndarray) -> Tuple[np.ndarray, np.ndarray]:
    """Places in metres of the network's projection, NaN where it has none."""
    x_cm, y_cm = network.projection.to_centimetres(x, y, crs)
    gone = (x_cm == NOWHERE) | (y_cm == NOWHERE)
    return np.where(gone, np.nan, x_cm / 100), np.where(gone, np.nan, y_cm / 100)


def box_of(x: np.ndarray, y: np.ndarray) -> Box:
    known = ~(np.isnan(x) | np.isnan(y))
    if not known.any():
        return Box(np.nan, np.nan, np.nan, np.nan)
    return Box(float(x[known].min()), float(y[known].min()), float(x[known].max()), float(y[known].max()))


def inside(box: Box, x: np.ndarray, y: np.ndarray) -> float:
    """The share of places in the box or near it."""
    with np.errstate(invalid="ignore"):
        good = (x >= box.west - NEAR) & (x <= box.east + NEAR) & (y >= box.south - NEAR) & (y <= box.north + NEAR)
    return float(good.mean()) if len(good) else 0.0


def reason(network: Any, crs: Optional[pyproj.CRS], box: Box, x: np.ndarray, y: np.ndarray) -> str:
    """Why positions are elsewhere: the first of some usual mistakes that would bring half of them to the network."""
    if crs is not None and crs.is_geographic:
        with np.errstate(invalid="ignore"):
            if inside(box, *metres(network, crs, y, x)) > 0.5:
                return "longitude and latitude of the positions are exchanged"
        return f"the positions are at another place: {away(network, box, x, y)}"
    for what, factor in (("in centimetres: give metres", 0.01), ("in kilometres: give metres", 1000.0)):
        if inside(box, *metres(network, crs, x * factor, y * factor)) > 0.5:
            return f"the positions are {what}"
    if inside(box, *metres(network, crs, y, x)) > 0.5:
        return "the axes of the positions are exchanged: x is east, y is north"
    if crs is None and network.projection.crs is not None and inside(box, *metres(network, DEGREES, x, y)) > 0.5:
        return "the positions are degrees: say crs=4326"
    return "the positions are in another zone or projection, or at another place: say their crs"


def away(network: Any, box: Box, x: np.ndarray, y: np.ndarray) -> str:
    """Where the middles of both are, and how far from each other."""
    middle = np.array([50 * (box.west + box.east)]), np.array([50 * (box.south + box.north)])
    lon, lat = network.projection.to_crs(*middle, DEGREES)
    here = float(np.median(x)), float(np.median(y))
    there = float(lon[0]), float(lat[0])
    far = EARTH.inv(*here, *there)[2] / 1000
    return (f"around longitude {here[0]:.4f}, latitude {here[1]:.4f}; the network is around {there[0]:.4f}, {there[1]:.4f}, "
            f"{far:.0f} km away")
