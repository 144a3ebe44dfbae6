"""The run of `track`: from payloads to objects."""
from __future__ import annotations

import contextlib
import time
from collections.abc import Sequence
from typing import Optional

from ..feed.intake import Intake
from ..feed.ordering import Position
from ..feed.sources import Payload, Source
from .drives import Found
from .fleet import Fleet
from .journal import Journal
from .provisional import Provisional
from .sinks import Sinks, Stop, Unwritten

BUSY = 200  # payloads at once from which on provisional positions have to wait
BUDGET = 0.02  # seconds for provisional positions between two looks at the source
SOON = 0.001
IDLE = 1.0
DELIVERED = 1000  # objects that are delivered at a time
RENEWAL = 60.0  # seconds between looks at the memory of the program


class Tracker:
    """Runs a source through an intake, a fleet and its sinks, until the source ends or the stop is set.

    A payload is acknowledged when the state has its position. The journal in the state has all positions of open drives, so
    nothing is lost if the process is killed.
    """

    def __init__(self, source: Source, fleet: Fleet, sinks: Sinks, provisional: Optional[Provisional], stop: Stop) -> None:
        self.source, self.fleet, self.sinks, self.provisional, self.stop = source, fleet, sinks, provisional, stop
        self.intake: Intake = fleet.intake
        self.journal: Journal = fleet.journal
        self.positions, self.drives = 0, 0
        self.renewal = time.monotonic() + RENEWAL

    def run(self) -> Optional[str]:
        """Returns what did not take everything before the run had to end, or None."""
        try:
            self._deliver(self.fleet.restore())
            if self.provisional:
                self.provisional.note(self.intake.waiting.of_vehicle)
            while not self.stop.is_set:
                payloads = self.source.receive(self._until())
                if payloads is None:
                    self._end()
                    break
                self._take(payloads)
            self.intake.state.commit()
        except Unwritten as fault:
            return str(fault)
        return None

    def close(self) -> None:
        """Leaves the source, and ends the programs."""
        with contextlib.ExitStack() as closing:
            for part in (self.provisional, self.fleet, self.source):
                if part:
                    closing.callback(part.close)

    def _until(self) -> float:
        """Until when to wait for payloads."""
        now = time.monotonic()
        if self.provisional and self.provisional.is_waiting():
            return now + SOON
        return now + min(IDLE, max(SOON, self.intake.waiting.next_due() - self.intake.clock.now()))

    def _take(self, payloads: Sequence[Payload]) -> None:
        vehicles = self.intake.take(payloads)
        self._follow(self.intake.waiting.due(vehicles, self.intake.clock.now()), bool(payloads))
        self._deliver(self.fleet.end_silent())
        if time.monotonic() > self.renewal:
            self._deliver(self.fleet.renew())
            self.renewal = time.monotonic() + RENEWAL
        if self.provisional:
            self.provisional.note(vehicles)
            if len(payloads) < BUSY:
                self.sinks.offer(self.provisional.work(BUDGET))

    def _follow(self, positions: Sequence[Position], is_changed: bool) -> None:
        """Commits what came, acknowledges it, and follows the positions that are due."""
        numbered = self.intake.numbered(positions)
        rows = self.journal.add(numbered)
        if numbered or is_changed:
            self.intake.state.commit()
        else:
            self.intake.state.check_file()
        self.source.acknowledge()
        for found in self.fleet.take(numbered, rows):
            self._deliver(found)

    def _deliver(self, found: Sequence[Found]) -> None:
        """Writes objects. The journal notes them in the commit that notes them as outgoing."""
        for first in range(0, len(found), DELIVERED):
            some = found[first:first + DELIVERED]
            for one in some:
                if one.count is not None:
                    self.journal.end(one.number, one.count)
                    self.drives += 1
            for number, count in _runs(some):
                self.journal.deliver(number, count)
            self.positions += sum(one.count is None for one in some)
            self.sinks.write([one.content for one in some])

    def _end(self) -> None:
        """Follows what waits, and ends all drives."""
        self._follow(self.intake.waiting.all(), True)
        self._deliver(self.fleet.finish())


def _runs(found: Sequence[Found]) -> list[tuple[int, int]]:
    """How many positions of each drive are among some objects; those that come before the end of their drive do not count."""
    counts: dict[int, int] = {}
    for one in found:
        if one.count is None:
            counts[one.number] = counts.get(one.number, 0) + 1
        else:
            counts.pop(one.number, None)
    return list(counts.items())
