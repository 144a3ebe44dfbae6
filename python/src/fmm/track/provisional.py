"""Provisional places of the newest positions: the match of the positions that are not settled."""
from __future__ import annotations

import time
from collections.abc import Callable, Iterable
from dataclasses import dataclass
from typing import Optional

import numpy as np

from ..feed.notices import Notices
from ..feed.ordering import Waiting
from ..service.program import DRIVES, NO_ROWS, Late, Lost, Program, follow_text
from .drives import Object, Settled
from .fleet import MEGABYTE, Fleet
from .journal import Row
from .roads import Label

TAIL = 100  # positions that are matched at most, the newest ones
PATIENCE = 2.0  # seconds for an answer
PAUSE = 5.0  # seconds before a program is started again
MEMORY = 256 * MEGABYTE  # of a program


@dataclass(frozen=True)
class Tail:
    """The last settled position of a vehicle and those after it, and the drive that they belong to, if it has begun."""

    vehicle: str
    number: Optional[int]
    rows: list[Row]


class Provisional:
    """Matches the tails of vehicles by a program that is kept running, the vehicle that waits longest first."""

    def __init__(self, start: Callable[[], Program], fleet: Fleet, waiting: Waiting, notices: Notices) -> None:
        self.start, self.fleet, self.waiting, self.notices = start, fleet, waiting, notices
        self.asked: dict[str, None] = {}
        self.program: Optional[Program] = None
        self.next: Optional[Program] = None
        self.start_at = 0.0

    def note(self, vehicles: Iterable[str]) -> None:
        """Notes vehicles that have a new position. One that waits already keeps its turn."""
        for vehicle in sorted(vehicles):
            self.asked.setdefault(vehicle)

    def is_waiting(self) -> bool:
        """Whether there is something to match now."""
        return bool(self.asked) and self.program is not None

    def work(self, seconds: float) -> list[Object]:
        """The objects of as many vehicles as this time allows."""
        until = time.monotonic() + seconds
        self._exchange()
        found: list[Object] = []
        while self.asked and self.program is not None and time.monotonic() < until:
            vehicle = next(iter(self.asked))
            del self.asked[vehicle]
            tail = self.tail(vehicle)
            answer = tail and self._match(tail)
            if answer:
                found.append(answer)
        return found

    def tail(self, vehicle: str) -> Optional[Tail]:
        """The positions of a vehicle that are matched; None if its newest position is settled."""
        drive = self.fleet.drive_of(vehicle)
        rows: list[Row] = []
        if drive is not None and drive.closing is None:
            rows = [*([drive.anchor[0]] if drive.anchor else []), *drive.rows]
        waiting = [Row(0, position.time, position.x, position.y) for position in self.waiting.of_vehicle.get(vehicle, [])]
        if not waiting and (drive is None or not drive.rows):
            return None
        rows = [*rows, *waiting][-TAIL:]
        number = drive.number if drive is not None and rows[0].number else None
        for at in range(len(rows) - 1, 0, -1):
            if rows[at].time - rows[at - 1].time > self.fleet.ends.gap:
                return Tail(vehicle, None if rows[at].number == 0 else number, rows[at:])
        return Tail(vehicle, number, rows)

    def _match(self, tail: Tail) -> Optional[Object]:
        program = self.program
        assert program is not None
        try:
            drive = program.ask(np.array([(row.x, row.y, int(row.time)) for row in tail.rows], np.int64))
            got = program.answer(time.monotonic() + PATIENCE)
            before, label = last_labels(follow_text(got, drive, len(tail.rows), 1))
        except (Late, Lost) as fault:
            self.notices.say(f"the program for provisional positions is replaced: {fault or 'it took too long'}")
            program.close()
            self.program = None
            return None
        if program.drives >= DRIVES or program.memory.all >= MEMORY:
            self._begin()
        newest, speed = tail.rows[-1], None
        if before is not None and label is not None:
            speed = self.fleet.drives.speed((tail.rows[-2], before), (newest, label))
        settled = Settled(tail.vehicle, newest, label, speed)
        found = self.fleet.drives.positions([settled], "provisional")[0]
        return {**found, "drive": tail.number}

    def _begin(self) -> None:
        """Starts the next program, if none is starting."""
        now = time.monotonic()
        if self.next is None and now >= self.start_at:
            self.start_at = now + PAUSE
            self.next = self.start()
            self.next.ask(NO_ROWS)

    def _exchange(self) -> None:
        """Takes the next program when it has loaded the network."""
        if self.program is None:
            self._begin()
        if self.next is None or not self.next.is_answered():
            return
        following, self.next = self.next, None
        try:
            following.answer(time.monotonic() + PATIENCE)
        except (Late, Lost) as fault:
            following.close()
            self.notices.say(f"the program for provisional positions does not start: {fault}")
            return
        if self.program is not None:
            self.program.close()
        self.program = following

    def close(self) -> None:
        """Ends the programs."""
        for program in (self.program, self.next):
            if program is not None:
                program.close()


def last_labels(text: bytes) -> tuple[Optional[Label], Optional[Label]]:
    """The labels of the last two positions of a follow text; that of the one before the last only if one piece has both."""
    before: Optional[Label] = None
    last: Optional[Label] = None
    is_closed = False
    for line in text.split(b"\n"):
        words = line.split(b" ")
        if words[0] == b"at":
            before, last = None if is_closed else last, (int(words[3]), int(words[5]))
            is_closed = False
        elif words[0] == b"none":
            before, last = None, None
        elif words[0] == b"piece":
            is_closed = True
    return before, last
