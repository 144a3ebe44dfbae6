"""OpenStreetMap XML, read as a network."""
from __future__ import annotations

import copy
from collections import Counter
from dataclasses import dataclass, field
from pathlib import Path
from xml.sax.saxutils import quoteattr

import numpy as np

from fmm.errors import FmmError
from fmm.network import Network

from . import common
from .common import AS_CLEAN, NAMED, Draw, hold, refusal

SIZE = 3
NAMES = ["High Street", "a, b", 'the "old" road', "line\nbreak", "\r", "=1+1", "ä", ""]
BAD_IDS = ["-1", "1,7", "x", "", "0", "1_0", "9" * 20, " 1", "1.0", "٣"]
BAD_DEGREES = ["91", "nan", "1e308", "", "54,3", "x", "1_0", "inf", "-90.1"]
RETURNS = {"\r": "&#13;"}
MARKS = ['action="delete"', "action='delete'", 'visible="false"', 'action = "delete"']
BYTE_FAULTS = [common.cut, common.cut_anywhere, common.marked, common.with_carriage_returns, common.packed,
               common.inserted(b"\0", "NUL"), common.inserted(b"\xff", "a byte that is not UTF-8")]
Segment = tuple[str, int, int, int, int]  # a way and two of its places


@dataclass
class Thing:
    """A node or a way. `more` are further attributes."""

    kind: str
    id: str
    place: tuple[str, str] = ("", "")
    refs: list[str] = field(default_factory=list)
    tags: dict[str, str] = field(default_factory=dict)
    more: str = ""

    @property
    def text(self) -> str:
        """The element."""
        if self.kind == "node":
            return f'<node id="{self.id}" lat="{self.place[1]}" lon="{self.place[0]}" {self.more}/>\n'
        inner = "".join(f'<nd ref="{ref}"/>' for ref in self.refs)
        inner += "".join(f"<tag k={quoteattr(key)} v={quoteattr(value, RETURNS)}/>" for key, value in self.tags.items())
        return f'<way id="{self.id}" {self.more}>{inner}</way>\n'


def make_things(draw: Draw) -> list[Thing]:
    """A grid of streets, each over three crossings."""
    nodes = [Thing("node", str(1 + 10 * row + column), (f"{9.43 + 0.001 * column:.7f}", f"{54.31 + 0.001 * row:.7f}"))
             for row in range(SIZE) for column in range(SIZE)]
    ways = [[1 + 10 * row + column for column in range(SIZE)] for row in range(SIZE)]
    ways += [[1 + 10 * row + column for row in range(SIZE)] for column in range(SIZE)]
    streets = [Thing("way", str(101 + number), refs=[str(ref) for ref in refs],
                     tags={"highway": "residential", "name": draw.one(NAMES), "oneway": draw.one(["no", "yes", "-1"])})
               for number, refs in enumerate(ways)]
    return nodes + streets


def add_fault(draw: Draw, things: list[Thing]) -> None:
    at = draw.below(len(things))
    thing, what = things[at], draw.below(8)
    if what == 0:
        things.insert(draw.below(len(things) + 1), copy.deepcopy(thing))
    elif what == 1:
        again = copy.deepcopy(thing)
        again.place, again.refs = ("9.44", "54.32"), again.refs[:2]
        things.insert(draw.below(len(things) + 1), again)
    elif what == 2:
        thing.more = draw.one(MARKS)
    elif what == 3:
        things.pop(at)
    elif what == 4:
        thing.id = draw.one(BAD_IDS)
    elif what == 5:
        if thing.kind == "node":
            values = list(thing.place)
            values[draw.below(2)] = draw.one(BAD_DEGREES)
            thing.place = values[0], values[1]
        elif thing.refs:
            thing.refs[draw.below(len(thing.refs))] = draw.one([*BAD_IDS, "99"])
    elif what == 6 and thing.kind == "way":
        thing.refs = draw.one([thing.refs[:1], [], [*thing.refs[:1], *thing.refs], thing.refs[::-1], thing.refs + thing.refs[:1]])
    else:
        things.insert(draw.below(len(things)), things.pop(at))
    draw.say(f"fault {what}: {thing.text.strip()}")


class Maps:
    """A map with one to three faults. Each street that the clean map has is there, or refused, or named."""

    def __init__(self, room: Path) -> None:
        self.room = room

    def case(self, draw: Draw) -> str:
        """See Kind."""
        things = make_things(draw)
        clean = copy.deepcopy(things)
        byte_faults = []
        for _ in range(1 + draw.below(3)):
            if draw.coin(8):
                byte_faults.append(draw.one(BYTE_FAULTS))
            else:
                add_fault(draw, things)
        data = ("<?xml version='1.0' encoding='UTF-8'?>\n<osm version='0.6'>\n" + "".join(thing.text for thing in things)
                + "</osm>\n").encode()
        for fault in byte_faults:
            data = fault(draw, data)
        path = self.room / "map.osm"
        path.write_bytes(data)
        try:
            network = Network.from_osm(path, crs="32N", restrictions=draw.coin())
        except FmmError as fault:
            return refusal(fault, "map.osm")
        if draw.coin(8):
            network = self.saved(network)
        return judge(network, clean, things)

    def saved(self, network: Network) -> Network:
        """The network as it is after a way through its files."""
        saved = network.save(self.room / "network.csv")
        again = Network.open(saved)
        hold((again.lines.xy == network.lines.xy).all() and (again.table["way"] == network.table["way"]).all()
             and again.projection.matches(network.projection), "the network that was saved is another one")
        return again


def segments_of(things: list[Thing]) -> Counter[Segment]:
    """The stretches between neighbouring nodes of each way, in both directions, as the text says."""
    nodes = {thing.id: thing for thing in things if thing.kind == "node"}
    found: Counter[Segment] = Counter()
    for way in (thing for thing in things if thing.kind == "way"):
        places = [tuple(round(float(value) * 1e7) for value in nodes[ref].place) for ref in way.refs]
        for a, b in zip(places, places[1:]):
            if a != b:
                found[(way.id, *a, *b)] += way.tags["oneway"] != "-1"  # type: ignore[index]
                found[(way.id, *b, *a)] += way.tags["oneway"] != "yes"  # type: ignore[index]
    return +found


def segments_in(network: Network) -> Counter[Segment]:
    """The same of a network: its points go back to degrees."""
    lines = network.lines
    x, y = network.projection.to_crs(lines.xy[:, 0], lines.xy[:, 1], 4326)
    places = np.column_stack([x, y])
    found: Counter[Segment] = Counter()
    for way, first, last in zip(network.table["way"], lines.first, lines.first[1:]):
        for a, b in zip(places[first:last], places[first + 1:last]):
            found[(way, *snapped(a), *snapped(b))] += 1  # type: ignore[index]
    return found


def snapped(place: np.ndarray) -> list[int]:
    """The place on the grid of the map, if it is on it."""
    values = []
    for value in place:
        near = round(value, 3)
        values.append(round((near if abs(near - value) < 5e-7 else value) * 1e7))
    return values


def judge(network: Network, clean: list[Thing], things: list[Thing]) -> str:
    """Each stretch of the clean map is in the network once, or its way or one of its nodes was changed or is named."""
    wanted, found = segments_of(clean), segments_in(network)
    hold(not found or max(found.values()) == 1, "a stretch comes twice")
    touched = {thing.id for thing in clean if thing.text not in {other.text for other in things}}
    touched |= {thing.id for thing in things if thing.text not in {other.text for other in clean}}
    about = str(network.report)
    ends = {tuple(round(float(value) * 1e7) for value in thing.place): thing.id for thing in clean if thing.kind == "node"}
    named = False
    for segment in set(wanted) - set(found):
        nodes = {ends[segment[1:3]], ends[segment[3:5]]}
        words = {segment[0], *nodes}
        gone = segment[0] in touched and not any(thing.id == segment[0] for thing in things)
        hold(gone or words & touched or any(f"{word}" in about for word in words), f"a stretch is lost: {segment}")
        missing = nodes - {thing.id for thing in things if thing.kind == "node" and not thing.more}
        ways = [thing for thing in things if thing.kind == "way" and thing.id == segment[0] and not thing.more]
        if missing and any(set(way.refs) >= nodes for way in ways):
            hold(any(node in about for node in missing), f"nodes {sorted(missing)} are missing and not named: {about}")
            named = True
    for segment in set(found) - set(wanted):
        hold(segment[0] in touched or any(end in touched for end in nodes_at(things, segment)), f"a stretch is new: {segment}")
    deleted = [thing for thing in things if thing.more]
    for thing in deleted:
        hold("deleted" in about or thing.kind == "node", f"{thing.text.strip()} is kept: {about}")
        hold(thing.kind == "node" or not any(segment[0] == thing.id for segment in found), f"{thing.text.strip()} is kept")
    return NAMED if named or deleted else AS_CLEAN


def nodes_at(things: list[Thing], segment: Segment) -> list[str]:
    """The nodes with a place of this stretch."""
    places = {segment[1:3], segment[3:5]}
    found = []
    for thing in things:
        try:
            if thing.kind == "node" and tuple(round(float(value) * 1e7) for value in thing.place) in places:
                found.append(thing.id)
        except (ValueError, OverflowError):
            continue
    return found
