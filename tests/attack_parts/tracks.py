"""GPX files, read and written as a trace file."""
from __future__ import annotations

from collections.abc import Callable
from dataclasses import dataclass
from pathlib import Path
from typing import Optional

import numpy as np

from fmm._traces import write_traces
from fmm.errors import FmmError
from fmm.options import Options
from fmm.positions import read_positions

from . import common
from .common import Draw, hold, refusal
from .tables import BAD_NUMBERS, BAD_TIMES, START, Network, Row, centimetres, judge

BEGIN = ["<?xml version='1.0' encoding='UTF-8'?>", "<gpx xmlns='http://www.topografix.com/GPX/1/1' version='1.1'>",
         "<trk><name>a &amp; b&#10;c</name><trkseg>"]
END = ["</trkseg></trk>", "</gpx>"]
ROOTS = ["<osm>", "<kml>", "", "<gpx xmlns='http://www.topografix.com/GPX/1/1'><gpx>", "<!DOCTYPE gpx [<!ENTITY a 'b'>]>"]
BAD_XML = [text for text in BAD_NUMBERS if text.isprintable()]


@dataclass
class Point:
    """A track point on a line of its own. `said` is as in Row."""

    longitude: str
    latitude: str
    time: Optional[str]
    said: Optional[tuple[str, int, int, Optional[int]]]
    more: str = ""
    tag: str = "trkpt"
    is_touched: bool = False

    @property
    def line(self) -> str:
        """The line of the file."""
        time = "" if self.time is None else f"<time>{self.time}</time>"
        return f'<{self.tag} lat="{self.latitude}" lon="{self.longitude}">{time}{self.more}</{self.tag}>'


def make_points(draw: Draw, count: int) -> list[Point]:
    points = []
    for number in range(count):
        longitude, latitude = f"{9.43 + number * 1e-4:.7f}", f"{54.31 + draw.below(100) * 1e-6:.7f}"
        second = START + 5 * number
        said = ("track", *centimetres(float(longitude), float(latitude)), second)
        points.append(Point(longitude, latitude, str(np.datetime64(second, "s")) + "Z", said))
    return points


def bad_place(draw: Draw, point: Point) -> None:
    value = draw.one([*(text for text in BAD_XML if text != "9."), "91", "-181"])
    if draw.coin():
        point.latitude, point.said = value, None
    elif value != "91":
        point.longitude, point.said = value, None


def bad_time(draw: Draw, point: Point) -> None:
    point.time, point.said = draw.one([text for text in BAD_TIMES if text.isprintable()]), None


def no_time(draw: Draw, point: Point) -> None:
    """A track without times may be matched by the order of its points."""
    point.time = draw.one([None, "", " "])
    point.said = point.said and (*point.said[:3], None)


def earlier(draw: Draw, point: Point) -> None:
    """A time that goes back: the fewest points are left out for it, which may be others."""
    second = START - 100 + draw.below(90)
    point.time = str(np.datetime64(second, "s")) + "Z"
    point.said = point.said and (*point.said[:3], second)


def two_times(draw: Draw, point: Point) -> None:
    point.more, point.said = "<time>2024-05-06T11:00:00Z</time>", None


def other_tag(draw: Draw, point: Point) -> None:
    """A point that is none of a track is no row."""
    point.tag = draw.one(["wpt", "rtept", "trkptx"])


def extension(draw: Draw, point: Point) -> None:
    """Values of extensions are not those of the point."""
    point.more = draw.one(["<extensions><time>2024-05-06T11:00:00Z</time></extensions>", "<ele>1_0</ele>", "<ele/>",
                           "<trkpt lat='1' lon='2'/>", "<name>x&#13;</name>", "<!-- <trkpt lat='1' lon='2'/> -->"])


def broken_xml(draw: Draw, point: Point) -> None:
    point.more, point.said = draw.one(["<", "&", "&nbsp;", "</trkseg>", "<time>", "\x01", "<![CDATA["]), None


Fault = Callable[[Draw, Point], None]
POINT_FAULTS: list[Fault] = [*2 * [bad_place, bad_time, no_time], earlier, two_times, other_tag, extension, broken_xml]
BYTE_FAULTS = [common.cut, common.cut_anywhere, common.cut_anywhere, common.marked, common.with_carriage_returns, common.packed,
               common.inserted(b"\0", "NUL"), common.inserted(b"\xff", "a byte that is not UTF-8"), common.changed_byte,
               common.dropped_byte]


class Tracks:
    """A track with one to three faults."""

    def __init__(self, room: Path) -> None:
        self.room = room

    def case(self, draw: Draw) -> str:
        """See Kind."""
        points, begin, byte_faults = make_points(draw, 2 + draw.below(8)), list(BEGIN), []
        for _ in range(1 + draw.below(3)):
            what = draw.below(10)
            if what < 7:
                fault, point = draw.one(POINT_FAULTS), draw.one(points)
                if not point.is_touched:
                    point.is_touched = True
                    fault(draw, point)
                    draw.say(f"{fault.__name__}: {point.line!r}")
            elif what < 8:
                points.insert(draw.below(len(points) + 1), draw.one(points))
                draw.say("a point twice")
            elif what < 9:
                byte_faults.append(draw.one(BYTE_FAULTS))
            elif draw.coin(3):
                begin[1] = draw.one(ROOTS)
                draw.say(f"root {begin[1]}")
        lines = [*begin, *(point.line for point in points), *END]
        data = "".join(line + "\n" for line in lines).encode()
        for byte_fault in byte_faults:
            data = byte_fault(draw, data)
        (self.room / "track.gpx").write_bytes(data)
        return self.read(points, len(begin), {0} if byte_faults else set())

    def read(self, points: list[Point], before: int, changed: set[int]) -> str:
        try:
            positions = read_positions(self.room / "track.gpx")
            traces = write_traces(positions, Network(), Options(), self.room)
        except FmmError as fault:
            return refusal(fault, "track.gpx")
        rows = {number: Row([point.line], point.said) for number, point in enumerate(points, before + 1) if point.tag == "trkpt"}
        if changed:  # a byte more or less: the points that expat finds are counted, and what they say may be another thing
            changed = set(rows)
            hold(len(positions) in (len(rows) - 1, len(rows)), "more than one point is lost")
            rows = {line: Row([], None) for line in positions.origin["line"].tolist()}
            changed = set(rows)
        return judge(positions, traces, rows, changed)
