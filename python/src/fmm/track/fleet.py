"""The drives of a fleet, followed by a program that is replaced when it has ended or is too large."""
from __future__ import annotations

from collections import OrderedDict
from collections.abc import Callable, Iterator, Sequence
from dataclasses import dataclass
from itertools import islice
from typing import Optional

from ..errors import ProgramError
from ..feed.intake import Intake
from ..feed.ordering import Position
from ..service.kept import Lost
from .drives import Drive, Drives, Found
from .journal import Journal, Row
from .roads import Streets
from .streams import Streams

AT_ONCE = 2000  # rows that are followed again at a time
TRIES = 3  # programs that may end one after the other
MEGABYTE = 1 << 20


@dataclass(frozen=True)
class Ends:
    """When drives end: after `gap` seconds without a position. With `idle` the program ends them, by its option of this name.
    A program of more than `memory` megabytes is replaced."""

    gap: float
    idle: Optional[int]
    memory: int


@dataclass
class Heard:
    """When the last position of a drive was taken: the greatest time of all rows then, and the clock."""

    newest: float
    clock: float


class Fleet:
    """Follows drives. The rows have to be in the journal, and committed, before they are taken."""

    def __init__(self, start: Callable[[], Streams], streets: Streets, journal: Journal, intake: Intake, ends: Ends) -> None:
        self.start, self.journal, self.intake, self.ends = start, journal, intake, ends
        self.drives = Drives(streets)
        self.heard: OrderedDict[int, Heard] = OrderedDict()  # of open drives, the one that was not heard for the longest first
        self.number_of: dict[str, int] = {}
        self.newest = 0.0
        self.streams = start()
        self.restored = 0  # how often the open drives were followed again

    def take(self, numbered: Sequence[tuple[int, Position]], rows: Sequence[Row]) -> Iterator[list[Found]]:
        """The objects that rows bring about, some rows at a time."""
        restored = self.restored
        for first in range(0, len(rows), AT_ONCE):
            yield self._take(numbered[first:first + AT_ONCE], rows[first:first + AT_ONCE])
            if self.restored != restored:
                return  # all rows of the journal were followed then, the later ones of these too

    def _take(self, numbered: Sequence[tuple[int, Position]], rows: Sequence[Row]) -> list[Found]:
        now = self.intake.clock.now()
        text: list[str] = []
        for (number, position), row in zip(numbered, rows):
            old = self.number_of.get(position.vehicle)
            if old is not None and old != number:
                text += self._closing(old)
            self._add(row, position.vehicle, now)
            text.append(row.text())
        return self._follow(text) if text else []

    def end_silent(self) -> list[Found]:
        """Ends the drives that were silent for too long, by the times of all rows or by the clock."""
        if self.ends.idle is not None:
            return []
        text: list[str] = []
        now = self.intake.clock.now()
        for number, heard in list(islice(self.heard.items(), AT_ONCE)):
            if self.newest - heard.newest <= self.ends.gap and now - heard.clock <= self.ends.gap:
                break
            self.intake.end(self.drives.open[number].vehicle, number)
            text += self._closing(number)
        return self._follow(text) if text else []

    def finish(self) -> list[Found]:
        """Ends all drives."""
        for number in self.heard:
            self.intake.end(self.drives.open[number].vehicle, number)
        found: list[Found] = []
        for last_try in (*[False] * (TRIES - 1), True):
            try:
                return found + self.drives.read(self.streams.finish())
            except Lost as fault:
                self._lost(fault, last_try)
                found = self.restore()
        raise AssertionError

    def restore(self) -> list[Found]:
        """Starts a program and follows the open drives again. Returns the objects that were not delivered before."""
        for last_try in (*[False] * (TRIES - 1), True):
            try:
                return self._restored()
            except Lost as fault:
                self._lost(fault, last_try)
        raise AssertionError

    def renew(self) -> list[Found]:
        """Replaces a program that is too large, if most of it is about drives that have ended."""
        open_rows = sum(drive.settled + len(drive.rows) for drive in self.drives.open.values())
        if 2 * open_rows > self.streams.rows or self.streams.memory < self.ends.memory * MEGABYTE:
            return []
        return self.restore()

    def _restored(self) -> list[Found]:
        self.restored += 1
        self.streams.close()
        self.streams = self.start()
        self.drives.open.clear()
        self.heard.clear()
        self.number_of.clear()
        vehicles, now = self.journal.vehicles(), self.intake.clock.now()
        found: list[Found] = []
        rows = self.journal.rows()
        while some := list(islice(rows, AT_ONCE)):
            for row in some:
                vehicle = vehicles[row.number]
                self._add(row, vehicle, now).delivered = self.journal.delivered(row.number)
            found += self.drives.read(self.streams.take([row.text() for row in some], int(some[-1].time)))
        old = [number for number, drive in self.drives.open.items() if self.number_of[drive.vehicle] != number]
        text = [line for number in old for line in self._closing(number)]
        if text:
            found += self.drives.read(self.streams.take(text, int(self.newest)))
        return found

    def _add(self, row: Row, vehicle: str, now: float) -> Drive:
        drive = self.drives.open.get(row.number)
        if drive is None:
            drive = self.drives.open[row.number] = Drive(row.number, vehicle)
        drive.add(row)
        self.number_of[vehicle] = row.number
        self.newest = max(self.newest, row.time)
        self.heard[row.number] = Heard(self.newest, now)
        self.heard.move_to_end(row.number)
        return drive

    def _closing(self, number: int) -> list[str]:
        """The row that ends a drive; none if the program ends drives itself."""
        self.heard.pop(number, None)
        drive = self.drives.open.get(number)
        if self.ends.idle is not None or drive is None or drive.closing is not None:
            return []
        drive.closing = drive.settled + len(drive.rows)
        return [f"{number},{self.streams.far[0]},{self.streams.far[1]},{int(self.newest)}\n"]

    def _follow(self, text: Sequence[str]) -> list[Found]:
        try:
            found = self.drives.read(self.streams.take(text, int(self.newest)))
        except Lost as fault:
            self._lost(fault, False)
            found = self.restore()
        for one in found:
            if one.count is not None:
                vehicle = one.content["vehicle"]
                if self.number_of.get(vehicle) == one.number and one.number not in self.drives.open:
                    del self.number_of[vehicle]
                    self.heard.pop(one.number, None)
                    if self.ends.idle is not None:
                        self.intake.end(vehicle, one.number)
        return found

    def _lost(self, fault: Exception, is_last: bool) -> None:
        if is_last:
            raise ProgramError(1, f"fmm streams ends again and again: {fault}")
        self.intake.notices.say(f"fmm streams ended, and begins again: {fault}")

    def drive_of(self, vehicle: str) -> Optional[Drive]:
        """The open drive of a vehicle."""
        number = self.number_of.get(vehicle)
        return None if number is None else self.drives.open.get(number)

    def close(self) -> None:
        """Ends the program. Open drives stay in the journal."""
        self.streams.close()
