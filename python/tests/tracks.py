"""Runs `fmm track` for the tests: a fleet on a grid of streets, as a user runs it, and in forks of this process."""
from __future__ import annotations

import json
import os
import signal
import subprocess
import sys
import time
from collections.abc import Sequence
from dataclasses import dataclass
from pathlib import Path
from typing import Any, Optional

import fmm.commands.track  # noqa: F401  so that a fork has all modules
import fmm.feed.broker  # noqa: F401
import fmm.track.parts  # noqa: F401
import numpy as np
from services import drives, grid

from fmm import Network, _programs, commands
from fmm._match_text import MatchText, read_match

BEGIN = 1_700_000_000
TOP = Path(__file__).resolve().parents[2]
Row = tuple[str, float, float, int]  # vehicle, x and y in metres, time
Object = dict[str, Any]


@dataclass
class Fleet:
    """A saved network, and the positions of its vehicles in the order of time."""

    network: Network
    rows: list[Row]

    def lines(self, first: int = 0, last: Optional[int] = None) -> list[str]:
        """The positions as rows for `--format rows --crs metres`."""
        return [f"{vehicle},{x:.2f},{y:.2f},{time}\n" for vehicle, x, y, time in self.rows[first:last]]

    def matched(self, folder: Path) -> dict[str, MatchText]:
        """What `fmm match` says of each vehicle's positions, matched from one file."""
        names = sorted({row[0] for row in self.rows})
        number = {name: number for number, name in enumerate(names, 1)}
        lines = [f"{number[vehicle]},{round(100 * x)},{round(100 * y)},{time}\n"
                 for vehicle, x, y, time in sorted(self.rows, key=lambda row: number[row[0]])]
        (folder / "same.csv").write_text("trace,x,y,time\n" + "".join(lines))
        words = [str(TOP / "fmm"), "match", str(self.network.path), str(folder / "same.csv"), "--back", "2000"]
        text = subprocess.run(words, check=True, capture_output=True).stdout.split(b"trace ")[1:]
        total = text[-1].rpartition(b"total ")[2]
        assert total
        text[-1] = text[-1].rpartition(b"total ")[0]
        found = {}
        for name, part in zip(names, text):
            points = part.count(b"\nat ") + part.count(b"\nnone ")
            pieces = part.count(b"\npiece ")
            found[name] = read_match(b"trace " + part + f"total traces 1 points {points} pieces {pieces}\n".encode(), "a match")
        return found


def fleet(folder: Path, vehicles: int, seed: int = 3, far: float = 0.02, step: int = 7) -> Fleet:
    """Vehicles that drive over a grid, one position each `step` seconds, some far from all streets."""
    network = grid()
    network.save(folder / "network.csv")
    rows = [(f"van {number}", float(x), float(y), BEGIN + step * at + number % step)
            for number, places in enumerate(drives(vehicles, seed, far=far)) for at, (x, y) in enumerate(places.tolist())]
    return Fleet(network, sorted(rows, key=lambda row: row[3]))


class Run:
    """`fmm track` in a fork, with a pipe as its input and its output in a file."""

    def __init__(self, network: Path, folder: Path, *words: str, out: Optional[int] = None, metres: bool = True) -> None:
        _programs.program(False)  # so that a fork need not ask for it
        self.said, self.path = folder / "said.txt", folder / "out.txt"
        read, self.input = os.pipe()
        form = ["--format", "rows", "--crs", "metres"] if metres else []
        self.pid = os.fork()
        if self.pid == 0:
            status = 99
            signal.signal(signal.SIGINT, signal.default_int_handler)  # ignored if a shell runs the tests in the background
            try:
                os.close(self.input)
                os.dup2(read, 0)
                os.dup2(os.open(self.path, os.O_WRONLY | os.O_CREAT | os.O_APPEND) if out is None else out, 1)
                os.dup2(os.open(self.said, os.O_WRONLY | os.O_CREAT | os.O_APPEND), 2)
                sys.stdout, sys.stderr = open(1, "w", closefd=False), open(2, "w", closefd=False)
                os.closerange(3, 256)
                status = commands.main(["track", str(network), "--state", str(folder / "track.db"), *form, *words])
            finally:
                os._exit(status)
        os.close(read)
        self.status: Optional[int] = None

    def give(self, lines: Sequence[str]) -> None:
        """Writes rows to its input."""
        data = memoryview("".join(lines).encode())
        while data:
            data = data[os.write(self.input, data):]

    def objects(self) -> list[Object]:
        """What it has written."""
        return read_objects(self.path)

    def wait_for(self, count: int, kind: str = "position") -> list[Object]:
        """Waits for so many objects of a kind."""
        end = time.monotonic() + 90
        while True:
            found = [one for one in self.objects() if one["kind"] == kind]
            if len(found) >= count:
                return found
            assert time.monotonic() < end and self.is_running(), self.said.read_text()
            time.sleep(0.02)

    def is_running(self) -> bool:
        """Whether it has not ended."""
        if self.status is None:
            pid, status = os.waitpid(self.pid, os.WNOHANG)
            self.status = os.waitstatus_to_exitcode(status) if pid else None
        return self.status is None

    def close(self) -> None:
        """Ends the input."""
        if self.input >= 0:
            os.close(self.input)
        self.input = -1

    def end(self, number: Optional[int] = None) -> int:
        """Ends the input, or sends a signal, and waits for the end."""
        if number is None:
            self.close()
        elif self.is_running():
            os.kill(self.pid, number)
        end = time.monotonic() + 120
        while self.is_running():
            assert time.monotonic() < end, self.said.read_text()
            time.sleep(0.01)
        self.close()
        assert self.status is not None
        return self.status


def read_objects(path: Path) -> list[Object]:
    """The whole lines of a file."""
    text = path.read_text() if path.exists() else ""
    return [json.loads(line) for line in text[:text.rfind("\n") + 1].splitlines()]


def of_kind(objects: Sequence[Object], kind: str) -> list[Object]:
    return [one for one in objects if one["kind"] == kind]


def assert_once_and_as_matched(objects: Sequence[Object], made: Fleet, folder: Path) -> None:
    """Each position of a fleet is settled exactly once, and on the edge that the match of the same rows as a file has."""
    positions = of_kind(objects, "position")
    keys = [(one["vehicle"], one["time"]) for one in positions]
    assert len(keys) == len(set(keys)) == len(made.rows)
    text = made.matched(folder)
    for vehicle, match in text.items():
        mine = sorted((one for one in positions if one["vehicle"] == vehicle), key=lambda one: one["time"])
        assert [one["edge"] for one in mine] == [None if edge < 0 else edge for edge in match.edge.tolist()], vehicle
        drive = [one for one in of_kind(objects, "drive") if one["vehicle"] == vehicle]
        assert [one["positions"] for one in drive] == [len(mine)]
        assert len(drive[0]["route"]["coordinates"]) == len(match.cost)
        assert (np.diff(match.position_first) == len(mine)).all()
