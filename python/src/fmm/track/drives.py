"""The open drives of a fleet, and what the lines of `streams` say of them."""
from __future__ import annotations

from collections import deque
from collections.abc import Iterable, Sequence
from dataclasses import dataclass, field
from datetime import datetime, timezone
from typing import Any, Optional, Union

from .journal import Row
from .roads import Label, Streets

Object = dict[str, Any]


@dataclass
class Drive:
    """A drive that is open.

    rows       the positions that are not settled
    settled    how many positions are
    delivered  how many of them were delivered before this process began
    closing    the number of the row far from all roads that ended the drive
    begin      the time of the first position
    anchor     the last settled position, if it has a road that may go on, and its label
    labels     of the open piece
    lines      of the closed pieces, in degrees
    """

    number: int
    vehicle: str
    delivered: int = 0
    rows: deque[Row] = field(default_factory=deque)
    settled: int = 0
    closing: Optional[int] = None
    begin: float = 0.0
    end: float = 0.0
    anchor: Optional[tuple[Row, Label]] = None
    labels: list[Label] = field(default_factory=list)
    lines: list[list[list[float]]] = field(default_factory=list)
    metres: float = 0.0

    def add(self, row: Row) -> None:
        """Takes a position."""
        self.rows.append(row)


@dataclass
class Found:
    """An object to deliver: the drive it is about, and how many positions the drive had if it ends the drive."""

    number: int
    content: Object
    count: Optional[int] = None


@dataclass
class Settled:
    """A settled position, before its place is known in degrees."""

    vehicle: str
    row: Row
    label: Optional[Label]
    speed: Optional[float]


def time_text(seconds: float) -> str:
    """An ISO time in UTC, with decimals only if it has some."""
    time = datetime.fromtimestamp(round(seconds, 3), timezone.utc)
    return time.isoformat(timespec="milliseconds" if time.microsecond else "seconds").replace("+00:00", "Z")


class Drives:
    """All open drives, by number, and the objects that the lines of `streams` make of them."""

    def __init__(self, streets: Streets) -> None:
        self.streets = streets
        self.open: dict[int, Drive] = {}

    def read(self, lines: Iterable[bytes]) -> list[Found]:
        """The objects that lines bring about, in their order; without positions that were delivered before."""
        found: list[Union[Found, Settled]] = []
        for line in lines:
            number, _, rest = line.partition(b" ")
            word, _, rest = rest.partition(b" ")
            drive = self.open.get(int(number))
            if drive is None and word in (b"finish", b"end"):
                continue  # a row far from all roads has ended it before
            assert drive is not None
            if word == b"at" or word == b"none":
                self._settle(drive, rest if word == b"at" else None, found)
            elif word == b"piece":
                self._close(drive, rest)
            elif word == b"end":
                found.append(self._end(drive))
        return self._placed(found)

    def _settle(self, drive: Drive, words: Optional[bytes], found: list[Union[Found, Settled]]) -> None:
        if drive.closing is not None and drive.settled == drive.closing:
            found.append(self._end(drive))
            return
        row = drive.rows.popleft()
        label: Optional[Label] = None
        speed = None
        if words is not None:
            parts = words.split(b" ")
            label = int(parts[2]), int(parts[4])
            if drive.anchor is not None:
                speed = self.speed(drive.anchor, (row, label))
            drive.labels.append(label)
        drive.anchor = None if label is None else (row, label)
        if drive.settled >= drive.delivered:
            found.append(Settled(drive.vehicle, row, label, speed))
        drive.begin = row.time if not drive.settled else drive.begin
        drive.end = row.time
        drive.settled += 1

    def speed(self, before: tuple[Row, Label], after: tuple[Row, Label]) -> Optional[float]:
        """Kilometres an hour between two positions; None if no time passed."""
        seconds = after[0].time - before[0].time
        return None if seconds <= 0 else round(3.6 * self.streets.metres(before[1], after[1]) / seconds, 1)

    def _close(self, drive: Drive, words: bytes) -> None:
        route = [int(edge) for edge in words.split(b" ")[5:]]
        metres, line = self.streets.driven(drive.labels, route)
        drive.metres += metres
        drive.lines.append(line)
        drive.labels, drive.anchor = [], None

    def _end(self, drive: Drive) -> Found:
        """Ends a drive. Rows that are left belong to the next drive of this number."""
        content = {"kind": "drive", "vehicle": drive.vehicle, "drive": drive.number, "begin": time_text(drive.begin),
                   "end": time_text(drive.end), "seconds": round(drive.end - drive.begin, 3), "metres": round(drive.metres, 2),
                   "positions": drive.settled, "route": {"type": "MultiLineString", "coordinates": drive.lines}}
        if drive.rows and drive.closing is None:
            self.open[drive.number] = Drive(drive.number, drive.vehicle, rows=drive.rows)
        else:
            del self.open[drive.number]
        return Found(drive.number, content, drive.settled)

    def _placed(self, found: Sequence[Union[Found, Settled]]) -> list[Found]:
        """The objects, with the places of all settled positions looked up at once."""
        settled = [one for one in found if isinstance(one, Settled)]
        objects = iter(self.positions(settled))
        return [Found(one.row.number, next(objects)) if isinstance(one, Settled) else one for one in found]

    def positions(self, settled: Sequence[Settled], kind: str = "position") -> list[Object]:
        """The objects of positions. One without a road has its measured place."""
        names, snapped = self.streets.at([one.label for one in settled if one.label is not None])
        measured = self.streets.measured([(one.row.x, one.row.y) for one in settled if one.label is None])
        on, off, out = iter(zip(names, snapped)), iter(measured), []
        for one in settled:
            name, place = ("", next(off)) if one.label is None else next(on)
            out.append({"kind": kind, "vehicle": one.vehicle, "drive": one.row.number, "time": time_text(one.row.time),
                        "longitude": place[0], "latitude": place[1], "edge": None if one.label is None else one.label[0],
                        "street": name, "speed": one.speed})
        return out
