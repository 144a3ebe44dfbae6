"""Positions from GPX files.

The XML is read by expat and not by gpxpy, which reads `1_0` as 10 and a time that does not exist as none, without a word.
"""
from __future__ import annotations

from bisect import bisect_right
from pathlib import Path
from typing import Any, Dict, List, Optional, Tuple
from xml.parsers import expat

import numpy as np
import pandas as pd

from .._text_files import PACKED
from ..errors import InputError, PathText, shown
from .frames import DEGREES, place_faults
from .numbers import coordinates
from .rows import Rows, first_fault
from .times import read_times


class TrackReader:
    """Collects the track points of a file. Only `trkpt` in `trkseg` in `trk` in `gpx` is read, whatever the namespace."""

    def __init__(self) -> None:
        self.path: List[str] = []
        self.text: List[str] = []
        self.track = self.segment = 0
        self.names: Dict[int, str] = {}
        self.points: List[Tuple[int, int, int, str, str]] = []  # line, track, segment, longitude, latitude
        self.times: List[str] = []
        self.elevations: List[str] = []
        self.parser = expat.ParserCreate(namespace_separator=" ")
        self.parser.buffer_text = True
        self.parser.StartElementHandler = self.start
        self.parser.EndElementHandler = self.end
        self.parser.CharacterDataHandler = self.text.append

    def start(self, tag: str, about: Dict[str, str]) -> None:
        name = tag.rpartition(" ")[2]
        if not self.path and name != "gpx":
            raise ValueError(f"is not a GPX file: its root is <{shown(name)}>, not <gpx>")
        self.path.append(name)
        self.text.clear()
        if name == "trk":
            self.track, self.segment = self.track + 1, 0
        elif name == "trkseg":
            self.segment += 1
        elif self.path == ["gpx", "trk", "trkseg", "trkpt"]:
            place = about.get("lon", ""), about.get("lat", "")
            self.points.append((self.parser.CurrentLineNumber, self.track, self.segment, *place))
            self.times.append("")
            self.elevations.append("")

    def end(self, tag: str) -> None:
        path = self.path
        if len(path) == 5 and path[3] == "trkpt":
            if path[4] == "time":
                self.times[-1] = " ".join([self.times[-1], "".join(self.text)]).strip()  # two times are none
            elif path[4] == "ele":
                self.elevations[-1] = "".join(self.text)
        elif path == ["gpx", "trk", "name"]:
            self.names[self.track] = "".join(self.text).strip()
        path.pop()
        self.text.clear()


def read_gpx(path: PathText, name: str, stem: str, zone: Optional[str] = None) -> Rows:
    """The track points of a file. The id is `stem`, the name of the file, with the number of the track if there are several.

    Own columns: file, track, track_name, segment, elevation. Segments are never joined. GPX has times in UTC; `zone` is that of a
    receiver that writes others, without a zone.
    """
    reader = parsed(path, name)
    if not reader.points:
        raise InputError("has no track points: routes and waypoints are not tracks", name)
    points = pd.DataFrame(reader.points, columns=["line", "track", "segment", "longitude", "latitude"])
    x, x_faults = coordinates(points["longitude"], "lon")
    y, y_faults = coordinates(points["latitude"], "lat")
    times, time_faults, _ = read_times(np.array(reader.times, dtype=object), zone=zone)
    faults = first_fault(first_fault(x_faults, y_faults), place_faults(x, y, DEGREES))
    faults = first_fault(faults, time_faults)
    lines = points["line"].to_numpy(dtype=np.int64)
    if not (faults == "").any():
        raise InputError(f"no point can be used: {faults[0]}", name, int(lines[0]))
    tracks = points["track"].to_numpy()
    several = len(np.unique(tracks)) > 1
    wrong = ~(np.isfinite(x) & np.isfinite(y))
    frame = pd.DataFrame({
        "id": np.array([f"{stem} {track}" if several else stem for track in tracks.tolist()], dtype=object),
        "x": np.where(wrong, np.nan, x), "y": np.where(wrong, np.nan, y), "time": times,
        "file": np.full(len(points), name, dtype=object), "track": tracks,
        "track_name": np.array([reader.names.get(track, "") for track in tracks.tolist()], dtype=object),
        "segment": points["segment"].to_numpy(),
        "elevation": coordinates(np.array(reader.elevations, dtype=object), "ele")[0]})
    parts = 1_000_000 * tracks.astype(np.int64) + points["segment"].to_numpy(dtype=np.int64)
    return without_returns(Rows(name, frame, faults, lines, parts, DEGREES))


def parsed(path: PathText, name: str) -> TrackReader:
    """Reads the file. An InputError says whether it is cut or no GPX file."""
    reader = TrackReader()
    try:
        with Path(path).open("rb") as file:
            head = file.read(16)
            if not head:
                raise InputError("is empty", name)
            for begin, what in PACKED:
                if head.startswith(begin) and begin not in (b"<?xml", b"\xff\xfe", b"\xfe\xff"):
                    raise InputError(f"is {what.format(name)}", name)
            file.seek(0)
            reader.parser.ParseFile(file)
    except OSError as fault:
        raise InputError(fault.strerror or fault, name) from None
    except (ValueError, LookupError) as fault:  # the latter for an encoding that does not exist
        raise InputError(fault, name) from None
    except expat.ExpatError as fault:
        raise InputError(f"{xml_fault(fault)}: {expat.errors.messages.get(fault.code, fault)}", name, fault.lineno) from None
    return reader


def xml_fault(fault: Any) -> str:
    cut = (expat.errors.codes[expat.errors.XML_ERROR_NO_ELEMENTS], expat.errors.codes[expat.errors.XML_ERROR_UNCLOSED_TOKEN],
           expat.errors.codes[expat.errors.XML_ERROR_UNCLOSED_CDATA_SECTION])
    return "is cut, or its XML is wrong" if fault.code in cut else "is not a GPX file, or its XML is wrong"


def without_returns(rows: Rows) -> Rows:
    """Leaves points out whose time goes back within their segment, as few as possible: a track is in the order of the drive."""
    times = rows.frame["time"].to_numpy()
    usable = (rows.faults == "") & ~np.isnan(times)
    for part in np.unique(rows.parts):
        places = np.flatnonzero(usable & (rows.parts == part))
        for place in places[~longest_rise(times[places])]:
            rows.faults[place] = "time goes back"
    return rows


def longest_rise(times: np.ndarray) -> np.ndarray:
    """Which times belong to a longest sequence that never falls."""
    if len(times) < 2 or (times[1:] >= times[:-1]).all():
        return np.ones(len(times), dtype=bool)
    tails: List[float] = []
    tail_places: List[int] = []
    before = np.full(len(times), -1)
    for place, time in enumerate(times.tolist()):
        rank = bisect_right(tails, time)
        before[place] = tail_places[rank - 1] if rank else -1
        tails[rank:rank + 1], tail_places[rank:rank + 1] = [time], [place]
    kept = np.zeros(len(times), dtype=bool)
    last = tail_places[-1]
    while last >= 0:
        kept[last] = True
        last = int(before[last])
    return kept
