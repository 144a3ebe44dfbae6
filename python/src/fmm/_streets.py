"""Streets between nodes, and the directed edges that they become."""
from __future__ import annotations

from dataclasses import dataclass

import numpy as np
import pandas as pd

from ._lines import EdgeLines, gathered
from ._network_sides import COLUMNS
from ._ragged import offsets_of
from .errors import InputError
from .projection import FARTHEST

LONGEST = 100_000_000  # centimetres of an edge


@dataclass
class Streets:
    """Street s leads from node begin[s] to node end[s] along xy[first[s]:first[s + 1]] in whole cm, and is open forward,
    backward or both. `about` has a row for each street with at least the columns way, class, name, ref, maxspeed (km/h, NaN for
    none); `maxspeed_backward` replaces maxspeed in the backward direction."""

    begin: np.ndarray
    end: np.ndarray
    first: np.ndarray
    xy: np.ndarray
    forward: np.ndarray
    backward: np.ndarray
    about: pd.DataFrame


def without_repeats(xy: np.ndarray, first: np.ndarray) -> tuple[np.ndarray, np.ndarray]:
    """Lines without points that equal the one before. A line within one centimetre gets a second point 1 cm to the east,
    since an edge has at least two points."""
    same = np.zeros(len(xy), bool)
    same[1:] = (xy[1:] == xy[:-1]).all(axis=1)
    same[first[:-1]] = False
    count = np.diff(first) - np.add.reduceat(same, first[:-1]) if len(first) > 1 else np.diff(first)
    kept = xy[~same]
    starts = offsets_of(count)
    points = np.flatnonzero(count == 1)
    if len(points):
        kept = np.insert(kept, starts[points] + 1, kept[starts[points]] + [1, 0], axis=0)
        count[points] += 1
        starts = offsets_of(count)
    return kept, starts


def edges_of(streets: Streets, path: str) -> tuple[EdgeLines, pd.DataFrame]:
    """The directed edges of the streets, with ids from 1, and their table (the columns of `about`, direction, oneway).

    The edges of a street follow each other, forward before backward. Refused with InputError: an edge that is longer than the
    proved programs take.
    """
    xy, first = without_repeats(streets.xy, streets.first)
    street = np.repeat(np.arange(len(streets.begin)), streets.forward.astype(int) + streets.backward)
    second = np.zeros(len(street), bool)
    second[1:] = street[1:] == street[:-1]
    backward = second | ~streets.forward[street]
    points, starts = gathered(xy, first, street)
    count = np.diff(starts)
    points = points[np.where(np.repeat(backward, count), reversed_ranges(starts), np.arange(len(points)))]
    begin, end = streets.begin[street], streets.end[street]
    begin, end = np.where(backward, end, begin), np.where(backward, begin, end)
    lines = EdgeLines(np.arange(1, len(street) + 1), starts, points, begin, end)
    table = streets.about.iloc[street].reset_index(drop=True)
    if "maxspeed_backward" in table:
        table["maxspeed"] = np.where(backward, table.pop("maxspeed_backward"), table["maxspeed"])
    table.insert(0, "direction", np.where(backward, "backward", "forward"))
    table["oneway"] = (streets.forward != streets.backward)[street]
    check(lines, table, path)
    return lines, table[[*COLUMNS, *(name for name in table if name not in COLUMNS)]]


def reversed_ranges(first: np.ndarray) -> np.ndarray:
    """For each line, the indices of its points from the last to the first."""
    count = np.diff(first)
    return np.repeat(first[:-1] + first[1:] - 1, count) - np.arange(first[-1])


def check(lines: EdgeLines, table: pd.DataFrame, path: str) -> None:
    if not len(lines):
        return
    too_long = np.flatnonzero(lines.lengths > LONGEST)
    if len(too_long):
        raise InputError(f"way {table['way'].iloc[too_long[0]]}: an edge of more than 1,000 km", path)
    if np.abs(lines.xy).max() > FARTHEST:
        raise InputError("a place is farther than 10,000 km from the origin of the projection", path)
