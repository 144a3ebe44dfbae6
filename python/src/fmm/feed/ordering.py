"""Puts the reports of each vehicle in the order of their times."""
from __future__ import annotations

import bisect
import heapq
from dataclasses import dataclass, field


@dataclass(frozen=True, order=True)
class Position:
    """A position of a vehicle: its time in seconds since 1970, its place in whole centimetres, and when it arrived."""

    time: float
    vehicle: str = field(compare=False)
    x: int = field(compare=False)
    y: int = field(compare=False)
    arrived: float = field(compare=False)


class Waiting:
    """Positions that wait for earlier ones of their vehicle.

    A position is due when its vehicle has sent one that is `wait` seconds newer, or `wait` seconds after it arrived. All earlier
    positions of the vehicle are due with it.
    """

    def __init__(self, wait: float) -> None:
        self.wait = wait
        self.of_vehicle: dict[str, list[Position]] = {}
        self.dues: list[tuple[float, float, str]] = []  # when a position is due at the latest, its time, its vehicle
        self.count = 0

    def has(self, vehicle: str, time: float) -> bool:
        """Whether a position of this vehicle and time waits."""
        held = self.of_vehicle.get(vehicle, [])
        place = bisect.bisect_left(held, _at(time))
        return place < len(held) and held[place].time == time

    def newest(self, vehicle: str) -> float:
        """The time of the newest position of a vehicle that waits; minus infinity if none does."""
        held = self.of_vehicle.get(vehicle)
        return held[-1].time if held else float("-inf")

    def add(self, position: Position) -> None:
        """Takes a position whose vehicle and time are not among those that wait."""
        bisect.insort(self.of_vehicle.setdefault(position.vehicle, []), position)
        heapq.heappush(self.dues, (position.arrived + self.wait, position.time, position.vehicle))
        self.count += 1

    def next_due(self) -> float:
        """When the next position is due at the latest; infinity if none waits."""
        return self.dues[0][0] if self.count else float("inf")

    def due(self, vehicles: set[str], now: float) -> list[Position]:
        """Takes out the positions that are due now, in the order of their times.

        `vehicles` are those that got positions since the last call.
        """
        found: list[Position] = []
        for vehicle in sorted(vehicles):
            held = self.of_vehicle.get(vehicle)
            if held:
                found += self._take(vehicle, held[-1].time - self.wait)
        while self.dues and self.dues[0][0] <= now:
            _, time, vehicle = heapq.heappop(self.dues)
            found += self._take(vehicle, time)
        return sorted(found)

    def all(self) -> list[Position]:
        """Takes out all positions, in the order of their times."""
        found = [position for vehicle in list(self.of_vehicle) for position in self._take(vehicle, float("inf"))]
        self.dues = []
        return sorted(found)

    def _take(self, vehicle: str, until: float) -> list[Position]:
        """Takes out the positions of a vehicle up to a time."""
        held = self.of_vehicle.get(vehicle, [])
        count = bisect.bisect_right(held, _at(until))
        if not count:
            return []
        taken = held[:count]
        del held[:count]
        if not held:
            del self.of_vehicle[vehicle]
        self.count -= count
        return taken


def _at(time: float) -> Position:
    """A position to compare others with, by its time."""
    return Position(time, "", 0, 0, 0.0)
