"""What every reader of positions returns."""
from __future__ import annotations

from dataclasses import dataclass, field
from typing import Any, List, Optional

import numpy as np
import pandas as pd
import pyproj

OURS = ("id", "x", "y", "time")


@dataclass(frozen=True)
class Wanted:
    """What the caller says of the columns. None: to be guessed from usual names."""

    id: Optional[str] = None
    x: Optional[str] = None
    y: Optional[str] = None
    time: Optional[str] = None
    crs: Optional[pyproj.CRS] = None
    plane: bool = False  # metres of the network's own projection, whatever they look like
    layer: Optional[str] = None
    zone: Optional[str] = None  # of times that name none


@dataclass
class Rows:
    """The rows of one source in its order.

    `frame` has the columns id (text), x, y, time and the source's own. `faults` has for each row why it cannot be used, or "".
    `lines` is the line of each row, or -1. Rows of one id with different `parts` are never joined, such as the segments of a
    track. `unzoned` times name no time zone, and none was given for them.
    """

    name: str
    frame: pd.DataFrame
    faults: np.ndarray
    lines: np.ndarray
    parts: np.ndarray
    crs: Optional[pyproj.CRS]
    notes: List[str] = field(default_factory=list)
    unzoned: int = 0


def own_name(name: Any) -> str:
    """The name under which a column of the source is kept."""
    return f"{name}_input" if str(name) in OURS else str(name)


def first_fault(faults: np.ndarray, more: np.ndarray) -> np.ndarray:
    """The first of two faults of each row."""
    return np.where(faults == "", more, faults)
