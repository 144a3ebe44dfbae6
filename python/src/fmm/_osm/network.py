"""From an OpenStreetMap file to the parts of a Network."""
from __future__ import annotations

from collections import Counter
from typing import Any, Optional

import numpy as np
import pandas as pd

from .._evidence import checksum_of
from .._lines import EdgeLines, Parts
from .._network_report import EXAMPLES, LeftOut, NetworkReport
from .._ragged import offsets_of
from .._streets import edges_of
from ..errors import InputError, OptionError, PathText
from ..projection import Extent, Projection
from .profiles import Profile, profile_of
from .reading import Source, Ways, opened, read_places, read_ways
from .restrictions import restrict
from .streets import Nodes, bounds, in_box, in_file, split, unread_speeds
from .turns import Turn, read_turns


def read(path: PathText, profile: Any, bbox: Optional[Extent], crs: Any, restrictions: bool,
         ) -> tuple[EdgeLines, pd.DataFrame, Projection, NetworkReport, Parts]:
    """See Network.from_osm."""
    rules = profile_of(profile)
    name = rules.name if isinstance(rules, Profile) else getattr(rules, "__name__", "own rules")
    chosen = None if crs is None else Projection.of(crs)
    if bbox is not None and not (len(bbox) == 4 and all(abs(v) <= 180 for v in bbox) and -90 <= bbox[1] <= bbox[3] <= 90):
        raise OptionError("bbox is west, south, east, north in degrees")
    report = NetworkReport()
    with opened(path) as source:
        ways = read_ways(source, rules)
        if not len(ways.ids):
            raise InputError(f"has no streets of the profile {name}" + deleted_hint(ways), path)
        ids = np.unique(ways.refs)
        nodes = Nodes(ids, *read_places(source, ids))
        vehicles = rules.vehicles if isinstance(rules, Profile) else ("motorcar", "motor_vehicle", "vehicle")
        turns = read_turns(source, vehicles) if restrictions and vehicles else []
        report_ways(report, ways, nodes, source)
    if not nodes.known.any():
        raise InputError("has ways and not their nodes: export the nodes of the ways too", path)
    kept = in_file(ways, nodes) if bbox is None else in_box(ways, nodes, bbox)
    if not kept.any():
        raise InputError("has no streets in the box", path)
    projection = chosen or Projection.fitting(*bounds(ways, nodes, kept))
    streets = split(ways, nodes, kept, projection, source.path)
    del ways, nodes, kept, ids
    if not len(streets.begin):
        raise InputError("has no street with two nodes that the file has", path)
    lines, table = edges_of(streets, source.path)
    del streets
    if bbox is not None:
        turns = inside(turns, table)
    lines, table, parts = keep_turns(lines, table, turns, report)
    report.source = {"path": source.path, "sha256": checksum_of(path), "profile": name, "bbox": bbox and list(bbox)}
    return lines, table, projection, report, parts


def deleted_hint(ways: Ways) -> str:
    return f"; {len(ways.deleted)} ways are marked as deleted" if ways.deleted else ""


def inside(turns: list[Turn], table: pd.DataFrame) -> list[Turn]:
    """The restrictions with a way in the box."""
    ways = set(table["way"])
    return [turn for turn in turns if any(str(way) in ways for way in turn.origins + turn.targets)]


def report_ways(report: NetworkReport, ways: Ways, nodes: Nodes, source: Source) -> None:
    """Counts and names what the file has and the network will lack."""
    report.leave_out("ways", "marked as deleted", ways.deleted)
    deleted = np.isin(nodes.ids, np.fromiter(source.deleted.node, np.int64, len(source.deleted.node)))
    report.leave_out("nodes", "marked as deleted; their ways are cut there", nodes.ids[deleted])
    report.leave_out("nodes", "the file lacks their places; their ways are cut there", nodes.ids[~nodes.known & ~deleted])
    at = np.searchsorted(nodes.ids, ways.refs)
    missing = offsets_of(~nodes.known[at])
    lacking, count = missing[ways.first[1:]] - missing[ways.first[:-1]], np.diff(ways.first)
    report.leave_out("ways", "fewer than two of their nodes have places", ways.ids[count - lacking < 2])
    report.leave_out("parts of ways", "some of their nodes have no places", ways.ids[(lacking > 0) & (count - lacking >= 2)])
    if ways.others:
        report.note(f"{ways.others} ways with the tag highway are not open to the profile")
    speeds = Counter(unread_speeds(ways))
    if speeds:
        examples = [text for text, _ in speeds.most_common(EXAMPLES)]
        report.left_out.append(LeftOut("speeds", "maxspeed cannot be read", sum(speeds.values()), examples))


def keep_turns(lines: EdgeLines, table: pd.DataFrame, turns: list[Turn],
               report: NetworkReport) -> tuple[EdgeLines, pd.DataFrame, Parts]:
    if not turns:
        return lines, table, Parts.whole(lines)
    lines, origin, parts, report.used, report.unused = restrict(lines, table["way"].astype(np.int64).to_numpy(), turns)
    return lines, table.iloc[origin].reset_index(drop=True), parts
