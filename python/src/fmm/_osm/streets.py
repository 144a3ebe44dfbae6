"""Splits the ways of OpenStreetMap at the nodes that they share."""
from __future__ import annotations

from dataclasses import dataclass
from typing import Optional

import numpy as np
import pandas as pd

from .._ragged import offsets_of, spread
from .._streets import Streets
from ..errors import InputError
from ..projection import DEGREES, NOWHERE, Extent, Projection, extent_of
from .profiles import speed_of
from .reading import Ways


@dataclass
class Nodes:
    """Nodes by ascending id: their degrees, and whether they are in the file, valid and in the box."""

    ids: np.ndarray
    x: np.ndarray
    y: np.ndarray
    known: np.ndarray


def in_file(ways: Ways, nodes: Nodes) -> np.ndarray:
    """Which of the nodes along the ways have a place."""
    return nodes.known[np.searchsorted(nodes.ids, ways.refs)]


def in_box(ways: Ways, nodes: Nodes, box: Extent) -> np.ndarray:
    """Which of the nodes along the ways have a place, and are in a box or next to a node in it."""
    west, south, east, north = box
    inside = nodes.known & (nodes.y >= south) & (nodes.y <= north)
    inside &= (nodes.x >= west) & (nodes.x <= east) if west <= east else (nodes.x >= west) | (nodes.x <= east)
    at = np.searchsorted(nodes.ids, ways.refs)
    way = np.repeat(np.arange(len(ways.ids)), np.diff(ways.first))
    near = inside[at]
    found = near.copy()
    together = way[1:] == way[:-1]
    found[1:] |= near[:-1] & together
    found[:-1] |= near[1:] & together
    return found & nodes.known[at]


def split(ways: Ways, nodes: Nodes, kept: np.ndarray, projection: Projection, path: str) -> Streets:
    """The streets between crossings, dead ends and nodes along the ways that are not kept."""
    at = np.searchsorted(nodes.ids, ways.refs)
    way = np.repeat(np.arange(len(ways.ids)), np.diff(ways.first))
    broken = np.cumsum(~kept)  # the parts of a way before and after a node that is not kept differ in this
    at, way, broken = at[kept], way[kept], broken[kept]
    again = np.zeros(len(at), bool)
    again[1:] = (at[1:] == at[:-1]) & (way[1:] == way[:-1]) & (broken[1:] == broken[:-1])
    at, way, broken = at[~again], way[~again], broken[~again]
    run = np.ones(len(at) + 1, bool)
    run[1:-1] = (way[1:] != way[:-1]) | (broken[1:] != broken[:-1])
    uses = np.bincount(at, minlength=len(nodes.ids))
    cut = run[:-1] | run[1:] | (uses[at] > 1)
    # an end of one run may be an inner node of another: then it is used twice, and so is a crossing
    starts = np.flatnonzero(cut & ~run[1:])
    cuts = np.flatnonzero(cut)
    ends = cuts[np.searchsorted(cuts, starts) + 1]
    count = ends - starts + 1
    first, inner = offsets_of(count), spread(starts, count)
    xy = projected(nodes, at[inner], projection, path)
    of = way[starts]
    return Streets(nodes.ids[at[starts]], nodes.ids[at[ends]], first, xy, ways.forward[of], ways.backward[of], about(ways, of))


def projected(nodes: Nodes, at: np.ndarray, projection: Projection, path: str) -> np.ndarray:
    used = np.unique(at)
    x, y = projection.to_centimetres(nodes.x[used], nodes.y[used], DEGREES)
    if (x == NOWHERE).any():
        lost = used[int((x == NOWHERE).argmax())]
        there = f"{nodes.x[lost]:.7f} {nodes.y[lost]:.7f}"
        raise InputError(f"node {nodes.ids[lost]} at {there} has no place in {projection.name}", path)
    place = np.searchsorted(used, at)
    return np.column_stack([x[place], y[place]])


def about(ways: Ways, of: np.ndarray) -> pd.DataFrame:
    """What the edges of some ways tell: the columns of a network's table."""
    texts = {name: np.array(ways.tags[name], dtype=object)[of] for name in ("class", "name", "ref")}
    speeds = {name: speeds_of(ways.tags[name])[of] for name in ("maxspeed", "maxspeed_backward")}
    return pd.DataFrame({"way": ways.ids[of].astype(str).astype(object), **texts, **speeds})


def speeds_of(texts: list[str]) -> np.ndarray:
    known = {text: speed_of(text) for text in set(texts)}
    return np.array([np.nan if known[text] is None else known[text] for text in texts], dtype=np.float64)


def unread_speeds(ways: Ways) -> list[str]:
    """The values of maxspeed that could not be read, each as often as it occurs."""
    known: dict[str, Optional[float]] = {text: speed_of(text) for text in set(ways.tags.get("maxspeed", []))}
    return [text for text in ways.tags.get("maxspeed", []) if known[text] is None]


def bounds(ways: Ways, nodes: Nodes, kept: np.ndarray) -> Extent:
    """The extent of the nodes that are kept."""
    used = np.searchsorted(nodes.ids, np.unique(ways.refs[kept]))
    return extent_of(nodes.x[used], nodes.y[used])
