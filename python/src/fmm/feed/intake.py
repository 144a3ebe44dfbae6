"""The work of a feed: from payloads to rows, and what is left out."""
from __future__ import annotations

import time
from collections.abc import Callable, Iterable, Sequence
from dataclasses import dataclass
from typing import Optional, Union

from ..errors import FmmError
from .notices import Notices
from .ordering import Position, Waiting
from .outlet import RowFile, RowStream
from .reports import HeaderMissing, Reader, Refused, Report
from .sources import Payload, Source
from .state import State, Vehicle

FARTHEST = 1_000_000_000  # cm
MOST_POSITIONS = 100_000  # of a trace
SMALLEST_STEP = 1e-6  # seconds
CLOSING = 4_000_000_001  # the first number of the traces that close fragments
Place = tuple[int, int]  # whole centimetres
Placing = Callable[[Sequence[float], Sequence[float]], Sequence[Optional[Place]]]
Timing = Callable[[Sequence[Optional[str]]], Sequence[tuple[Optional[float], str]]]


@dataclass(frozen=True)
class Rules:
    """How positions become drives: seconds of `gap` that end one, positions of a drive at `most`, seconds that a position may
    come late (`wait`) or be ahead of the clock (`ahead`), and whether each position is followed by a closing row."""

    gap: float = 600.0
    most: int = MOST_POSITIONS
    wait: float = 5.0
    ahead: float = 300.0
    close: bool = False


@dataclass(frozen=True)
class Reading:
    """How payloads are read: reports out of payloads, places in whole centimetres (None for one that FMM does not take), and
    times in seconds since 1970 (None for that of arrival) with what is wrong with them."""

    reader: Reader
    placing: Placing
    timing: Timing


class Clock:
    """Times of arrival in seconds since 1970. They always rise: a step back of the system's clock is said once and bridged."""

    def __init__(self, notices: Notices, now: Callable[[], float] = time.time) -> None:
        self.notices, self.system, self.last, self.is_behind = notices, now, 0.0, False

    def now(self) -> float:
        """The time of arrival."""
        now = self.system()
        if now < self.last - 1 and not self.is_behind:
            self.notices.say(f"the clock stepped back by {self.last - now:.0f} s; times of arrival stay until it catches up")
        self.is_behind = now < self.last - 1
        self.last = max(self.last + SMALLEST_STEP, now)
        return self.last


class Intake:
    """Takes payloads and writes rows. `positions` and `left_out` count them."""

    def __init__(self, reading: Reading, state: State, rules: Rules, notices: Notices) -> None:
        self.reader, self.placing, self.timing = reading.reader, reading.placing, reading.timing
        self.state, self.rules, self.notices = state, rules, notices
        self.clock = Clock(notices)
        self.waiting = Waiting(rules.wait)
        self.positions, self.left_out = 0, 0
        self.number = state.last_number()
        self.closed = state.count("closing rows")
        for position in state.waiting():
            self.waiting.add(position)

    def take(self, payloads: Iterable[Payload]) -> set[str]:
        """Takes payloads. Returns the vehicles whose positions wait now; the others are named as left out."""
        reports = [(payload, report) for payload in payloads for report in self._reports(payload)]
        if not reports:
            return set()
        places = self.placing([report.x for _, report in reports], [report.y for _, report in reports])
        times = self.timing([report.time for _, report in reports])
        taken = []
        for (payload, report), place, (time_of_it, fault) in zip(reports, places, times):
            try:
                if fault:
                    raise Refused(fault)
                taken.append(self._position(report.vehicle, place, time_of_it))
            except Refused as why:
                self._leave_out(payload, why)
        self.state.add_waiting(taken)
        return {position.vehicle for position in taken}

    def _reports(self, payload: Payload) -> Iterable[Report]:
        """The report of a payload, if it has one."""
        try:
            if payload.fault:
                raise Refused(payload.fault)
            report = self.reader.report(payload.data, payload.vehicle)
            return [] if report is None else [report]
        except HeaderMissing as fault:
            raise FmmError(str(fault)) from None
        except Refused as fault:
            self._leave_out(payload, fault)
            return []

    def _leave_out(self, payload: Payload, fault: Refused) -> None:
        self.left_out += 1
        self.notices.say(f"{payload.origin} is left out: {fault}")

    def _position(self, name: str, place: Optional[Place], time_of_it: Optional[float]) -> Position:
        """Lets a position wait. Refused if it comes again, is too late or too early, or has no place that FMM takes."""
        now = self.clock.now()
        at = now if time_of_it is None else time_of_it
        if place is None:
            raise Refused("farther away than fmm takes")
        if at > now + self.rules.ahead:
            raise Refused(f"its time is {at - now:.0f} s ahead of the clock; see --ahead")
        known = self.state.vehicle(name)
        if self.waiting.has(name, at) or known is not None and known.time == at:
            raise Refused("the same vehicle and time came before")
        newest = max(known.time if known else at, self.waiting.newest(name) - self.rules.wait)
        if at < newest:
            raise Refused(f"{newest - at:.0f} s too old to be put in order after the other positions of its vehicle")
        position = Position(at, name, *place, now)
        self.waiting.add(position)
        return position

    def numbered(self, positions: Sequence[Position]) -> list[tuple[int, Position]]:
        """Positions that are due with the numbers of their drives, each vehicle's by rising time. The state notes them."""
        self.state.drop_waiting(positions)
        self.positions += len(positions)
        return [(self._number(position), position) for position in positions]

    def rows(self, positions: Sequence[Position]) -> bytes:
        """The rows of positions that are due, each vehicle's by rising time. The state notes them."""
        rows = []
        for number, position in self.numbered(positions):
            second = int(position.time)
            rows.append(f"{number},{position.x},{position.y},{second}\n")
            if self.rules.close:
                rows.append(f"{CLOSING + self.closed // MOST_POSITIONS},{-FARTHEST},{-FARTHEST},{second}\n")
                self.closed += 1
        if self.rules.close:
            self.state.set("closing rows", self.closed)
        return "".join(rows).encode()

    def end(self, vehicle: str, number: int) -> None:
        """Lets the next position of a vehicle begin a new drive, if its drive is still the one of this number."""
        known = self.state.vehicle(vehicle)
        if known is not None and known.number == number:
            self.state.keep(vehicle, Vehicle(number, known.time, MOST_POSITIONS))

    def _number(self, position: Position) -> int:
        """The number of the drive that a position belongs to."""
        vehicle = self.state.vehicle(position.vehicle)
        if vehicle is None or position.time - vehicle.time > self.rules.gap or vehicle.positions >= self.rules.most:
            self.number += 1
            if self.number >= CLOSING:
                raise FmmError("the numbers of drives are used up: begin a new state")
            vehicle = Vehicle(self.number, position.time, 0)
            self.state.begin_drive(self.number, position.vehicle, position.time)
        self.state.keep(position.vehicle, Vehicle(vehicle.number, position.time, vehicle.positions + 1))
        return vehicle.number


class Feed:
    """Runs a source through an intake into an outlet until the source ends or `stop` is called."""

    def __init__(self, source: Source, intake: Intake, outlet: Union[RowFile, RowStream]) -> None:
        self.source, self.intake, self.outlet = source, intake, outlet
        self.is_stopped = False

    def stop(self) -> None:
        """Ends the run after the payloads that are at hand. What waits is written."""
        self.is_stopped = True

    def run(self) -> None:
        """Takes payloads as they come, and writes rows as they are due."""
        waiting = self.intake.waiting
        while not self.is_stopped:
            until = time.monotonic() + max(0.0, waiting.next_due() - self.intake.clock.now())
            payloads = self.source.receive(min(until, time.monotonic() + 1.0))
            if payloads is None:
                break
            vehicles = self.intake.take(payloads)
            self._write(waiting.due(vehicles, self.intake.clock.now()), bool(payloads))
        self._write(waiting.all(), True)
        self.intake.state.commit()

    def _write(self, positions: Sequence[Position], is_changed: bool) -> None:
        """Commits what came, acknowledges it, and writes the rows that are due."""
        if positions:
            self.outlet.write(self.intake.rows(positions))
            self.outlet.written()
        elif is_changed:
            self.intake.state.commit()
        else:
            self.intake.state.check_file()
        self.source.acknowledge()
