"""A picture of matches by matplotlib: the streets, the driven roads, and the measured positions."""
from __future__ import annotations

from typing import TYPE_CHECKING, Any

import numpy as np

from . import _geometry
from .errors import PathText
from .projection import Extent, Projection

if TYPE_CHECKING:
    from .matches import Matches

MOST_NAMES = 12  # vehicles that get a colour of their own in the legend
WIDTH, MARGIN = 10.0, 0.05  # inches, and a part of the extent
STREET, DOT = "#c9c9c9", "#202020"


def write_picture(matches: Matches, path: PathText) -> None:
    """Writes a picture as PNG, or as the ending of the path says. Vehicles have their own ids in the legend."""
    import matplotlib
    matplotlib.use("Agg")
    from matplotlib.figure import Figure
    routes, points = in_plane(matches, matches.routes), in_plane(matches, matches.points)
    bounds = extent(routes, points)
    height = WIDTH * (bounds[3] - bounds[1]) / (bounds[2] - bounds[0])
    figure = Figure(figsize=(WIDTH, min(max(height, WIDTH / 4), 2 * WIDTH)), dpi=100)
    axes = figure.add_axes((0, 0, 1, 1))
    axes.set_aspect("equal")
    axes.axis("off")
    draw(matches, axes, routes, bounds)
    figure.savefig(path, metadata={"Software": None} if str(path).endswith(".png") else None)


def draw(matches: Matches, axes: Any, routes: Any, bounds: Extent) -> None:
    """Draws the matches in the plane of the network, in metres."""
    from matplotlib.collections import LineCollection
    if matches.network is not None:
        axes.add_collection(LineCollection(lines_within(matches, bounds), colors=STREET, linewidths=1.2))
    colours = matplotlib_colours()
    driven = with_places(routes)
    ids = list(dict.fromkeys(driven["id"]))
    for number, name in enumerate(ids):
        lines = [np.asarray(line.coords) for line in driven.geometry[driven["id"] == name]]
        label = str(name) if number < MOST_NAMES else None
        axes.add_collection(LineCollection(lines, colors=colours[number % len(colours)], linewidths=3.5, alpha=0.7, label=label,
                                           capstyle="round"))
    measured = measured_places(matches)
    axes.plot(measured[:, 0], measured[:, 1], ".", color=DOT, markersize=3)
    axes.set_xlim(bounds[0], bounds[2])
    axes.set_ylim(bounds[1], bounds[3])
    if ids:
        more = f" and {len(ids) - MOST_NAMES} more" if len(ids) > MOST_NAMES else ""
        axes.legend(loc="upper left", fontsize=9, title=f"{len(ids)} vehicles{more}" if more else None, framealpha=0.9)


def matplotlib_colours() -> list[Any]:
    import matplotlib
    return list(matplotlib.colormaps["tab10"].colors)


def plane_of(matches: Matches) -> Projection:
    return matches.network.projection if matches.network is not None else Projection(None)


def in_plane(matches: Matches, frame: Any) -> Any:
    """A table with its geometries in the plane of the network."""
    crs = plane_of(matches).crs
    return frame if crs is None or frame.crs is None or frame.crs == crs else frame.to_crs(crs)


def measured_places(matches: Matches) -> np.ndarray:
    """The measured places of the positions in metres of the plane, without those that have none."""
    points = matches.points
    x, y = points["x"].to_numpy(float), points["y"].to_numpy(float)
    good = np.isfinite(x) & np.isfinite(y)
    crs = matches.solution.positions.crs if matches.solution is not None else points.crs
    right, up = plane_of(matches).to_centimetres(x[good], y[good], crs)
    places = np.stack((right, up), axis=1) / 100
    return places[np.abs(places).max(axis=1, initial=0) < 1e8]


def with_places(frame: Any) -> Any:
    """The rows that have a place."""
    return frame[_geometry.there(frame.geometry)]


def extent(routes: Any, points: Any) -> Extent:
    """What the picture shows: the driven roads, or without any the positions, and a margin."""
    found = with_places(routes)
    frame = found if len(found) else with_places(points)
    west, south, east, north = frame.total_bounds if len(frame) else (0, 0, 1, 1)
    margin = MARGIN * max(east - west, north - south, 1000.0)
    return west - margin, south - margin, east + margin, north + margin


def lines_within(matches: Matches, bounds: Extent) -> list[np.ndarray]:
    """The lines of the edges with a point in the extent, in metres."""
    assert matches.network is not None
    lines = matches.network.lines
    xy = lines.xy / 100
    inside = (xy[:, 0] >= bounds[0]) & (xy[:, 0] <= bounds[2]) & (xy[:, 1] >= bounds[1]) & (xy[:, 1] <= bounds[3])
    counts = np.diff(lines.first)
    edge = np.repeat(np.arange(len(counts)), counts)
    return [xy[lines.first[at]:lines.first[at + 1]] for at in np.unique(edge[inside])]
