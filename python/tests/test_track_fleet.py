"""The drives of a fleet over programs that end at bad moments."""
from __future__ import annotations

import os
from collections.abc import Iterator, Sequence
from pathlib import Path
from typing import Any

import pytest

from fmm.errors import ProgramError
from fmm.feed.intake import Intake, Reading, Rules
from fmm.feed.notices import Notices
from fmm.feed.ordering import Position
from fmm.feed.state import State
from fmm.service.kept import Lost
from fmm.track import fleet as module
from fmm.track.drives import Found
from fmm.track.fleet import Ends, Fleet
from fmm.track.journal import Journal


class Streets:
    """Streets that are far from all positions."""

    def at(self, labels: Sequence[Any]) -> tuple[list[Any], list[Any]]:
        return [], []

    def measured(self, places: Sequence[tuple[int, int]]) -> list[list[float]]:
        return [[x / 100, y / 100] for x, y in places]


class Streams:
    """A program that finds no road for any position, settles each at once, and ends when `ends` says so."""

    def __init__(self, ends: Iterator[bool]) -> None:
        self.ends, self.open, self.far, self.memory, self.rows = ends, {}, (0, 0), 0, 0  # type: ignore[var-annotated]

    def take(self, rows: Sequence[str], second: int) -> list[bytes]:
        if next(self.ends):
            raise Lost("killed")
        lines = []
        for row in rows:
            number = int(row.split(",")[0])
            self.open[number] = self.open.get(number, 0) + 1
            lines.append(b"%d none %d" % (number, self.open[number] - 1))
        return lines

    def finish(self) -> list[bytes]:
        if next(self.ends):
            raise Lost("killed")
        return [b"%d end %d" % (number, number) for number in self.open]

    def close(self) -> None:
        """Has nothing to close."""


@pytest.fixture
def state(tmp_path: Path) -> Iterator[State]:
    made = State(tmp_path / "state.db")
    yield made
    made.close()


def fleet_of(state: State, ends: Sequence[bool]) -> Fleet:
    """A fleet whose programs end at these calls, and at no later ones."""
    def calls() -> Iterator[bool]:
        yield from ends
        while True:
            yield False

    reading: Any = Reading(None, None, None)  # type: ignore[arg-type]
    intake = Intake(reading, state, Rules(), Notices("fmm track", os.open(os.devnull, os.O_WRONLY)))
    moments, streets = calls(), Streets()
    start: Any = lambda: Streams(moments)  # noqa: E731
    return Fleet(start, streets, Journal(state), intake, Ends(600.0, None, 1000))  # type: ignore[arg-type]


def times_of(found: Sequence[Found]) -> list[str]:
    return [one.content["time"] for one in found if one.count is None]


def taken(fleet: Fleet, count: int) -> list[Found]:
    """What so many positions of a vehicle bring about, as a tracker takes them."""
    numbered = fleet.intake.numbered([Position(float(at), "van 7", at, 0, 0.0) for at in range(count)])
    rows = fleet.journal.add(numbered)
    return [one for found in fleet.take(numbered, rows) for one in found]


@pytest.mark.parametrize("ends", [[], [True], [False, True], [False, False, True]])
def test_a_program_that_ends_in_a_burst_doubles_nothing(state: State, monkeypatch: pytest.MonkeyPatch, ends: list[bool]) -> None:
    """A burst is followed some rows at a time. The next program follows all of it."""
    monkeypatch.setattr(module, "AT_ONCE", 10)
    fleet = fleet_of(state, ends)
    numbered = fleet.intake.numbered([Position(float(at), "van 7", at, 0, 0.0) for at in range(25)])
    rows = fleet.journal.add(numbered)
    times = []
    for found in fleet.take(numbered, rows):
        times += times_of(found)
        fleet.journal.deliver(1, len(times_of(found)))
    assert len(times) == len(set(times)) == 25
    assert fleet.drives.open[1].settled == 25


@pytest.mark.parametrize("losses", [1, 2])
def test_a_program_that_ends_at_the_end_doubles_nothing(state: State, losses: int) -> None:
    """The objects of the positions have not been delivered yet."""
    fleet = fleet_of(state, [True, *[False, True] * (losses - 1)])
    numbered = fleet.intake.numbered([Position(float(at), "van 7", at, 0, 0.0) for at in range(3)])
    fleet.journal.add(numbered)
    found = fleet.finish()
    assert times_of(found) == ["1970-01-01T00:00:00Z", "1970-01-01T00:00:01Z", "1970-01-01T00:00:02Z"]
    assert [one.count for one in found if one.count is not None] == [3]


def test_a_program_that_always_ends_is_an_error(state: State) -> None:
    fleet = fleet_of(state, [False, *[True, False] * 50])
    assert len(times_of(taken(fleet, 2))) == 2
    with pytest.raises(ProgramError, match="ends again and again"):
        fleet.finish()
