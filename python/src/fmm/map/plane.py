"""Coordinates of a page: whole centimetres of Web Mercator, or of the network's plane if its place is unknown."""
from __future__ import annotations

from typing import Any, Optional

import numpy as np
import pyproj

from ..projection import transformer

MERCATOR = 3857
FARTHEST = 2_100_000_000  # centimetres: Web Mercator reaches 2,003,750,834, and int32 a little farther
NOWHERE = -2_147_483_648  # both coordinates of a place that the page cannot show


class Plane:
    """Turns coordinates of any CRS into those of the page."""

    def __init__(self, known: bool) -> None:
        """`known`: the places have a CRS. Otherwise they are metres of one plane."""
        self.crs: Optional[pyproj.CRS] = pyproj.CRS.from_epsg(MERCATOR) if known else None

    def places(self, xy: np.ndarray, crs: Any) -> np.ndarray:
        """int64[n, 2]. `crs` is that of the places, None for metres of the plane."""
        x, y = (np.asarray(values, np.float64) for values in (xy[:, 0], xy[:, 1]))
        if self.crs is not None and crs is not None:
            good = np.isfinite(x) & np.isfinite(y)
            x, y = transformer(pyproj.CRS.from_user_input(crs), self.crs).transform(np.where(good, x, 0), np.where(good, y, 0))
            x, y = np.where(good, x, np.nan), np.where(good, y, np.nan)
        with np.errstate(invalid="ignore"):
            out = np.rint(100 * np.stack([x, y], axis=1))
            good = (np.abs(out) <= FARTHEST).all(axis=1)
        return np.where(good[:, None], np.where(good[:, None], out, 0).astype(np.int64), NOWHERE)
