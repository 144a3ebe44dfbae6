"""A proved program that keeps a network loaded and matches one drive after another.

The program is `fmm streams` (`fmm_large streams` for large networks) with pipes as its input and output. `streams` writes the
lines of a position when a position of another vehicle follows, and ends no vehicle before its input ends. So each drive has an
id of its own and is followed by two rows far from all roads: one of the same id, which closes its last piece, and one of another
id, which closes the fragment. Without the marks of the far row, the lines of the drive are the follow text of its trace, which
has the labels, pieces and routes of `match`.
"""
from __future__ import annotations

from pathlib import Path
from typing import Sequence

import numpy as np

from .._ragged import offsets_of
from ..errors import ProgramError
from .kept import KeptProgram, Late, Lost
from .texts import rows_of, signed, text_of, whole

HEADER = b"trace,x,y,time\n"
CORNER = 1_000_000_000  # centimetres: the range of the proved programs
DRIVES = 50_000  # of one process: less than the positions of an id, since the closing vehicle has one for each drive
NO_ROWS = np.zeros((0, 3), np.int64)
__all__ = ["Late", "Lost", "Program", "far_place", "follow_text"]


def far_place(xy: np.ndarray, radius: int) -> tuple[int, int]:
    """A place that is farther than `radius` from all points' extent, in centimetres. ProgramError: there is none."""
    low, high = xy.min(axis=0), xy.max(axis=0)
    if high[0] < CORNER - radius:
        return CORNER, 0
    if low[0] > radius - CORNER:
        return -CORNER, 0
    if high[1] < CORNER - radius:
        return 0, CORNER
    if low[1] > radius - CORNER:
        return 0, -CORNER
    raise ProgramError(1, "the network fills the whole range of coordinates, so no place is far from all roads")


class Program:
    """Matches one drive after another."""

    def __init__(self, path: Path, network: Path, words: Sequence[str], far: tuple[int, int]) -> None:
        self.far = far
        self.drives = 0
        self.is_closed = False
        self._kept = KeptProgram(path, network, words)
        self._kept.give(HEADER)
        self.memory, self.child = self._kept.memory, self._kept.child

    def ask(self, rows: np.ndarray) -> int:
        """Hands over a drive, int64[n, 3] of x, y and time; returns its id. `answer` has to be called before the next drive."""
        return self.ask_all(rows, np.array([len(rows)]))

    def ask_all(self, rows: np.ndarray, counts: np.ndarray) -> int:
        """Hands over drives of so many rows each; returns the id of the first one. The others have the ids that follow."""
        first, self.drives, self._rows = self.drives + 1, self.drives + len(counts), int(counts[-1])
        begins = offsets_of(counts + 2)  # the closing rows of a drive come after its own
        given = np.empty((begins[-1], 4), np.int64)
        given[:, 0] = np.arange(first, self.drives + 1).repeat(counts + 2)
        given[begins[1:] - 1, 0] = 0
        is_own = np.ones(len(given), bool)
        is_own[begins[1:] - 1] = is_own[begins[1:] - 2] = False
        given[is_own, 1:] = rows
        given[~is_own, 1:] = *self.far, 0
        name, x, y, time = given.T
        table = rows_of(len(given), whole(name), b",", signed(x), b",", signed(y), b",", whole(time), b"\n")
        self._kept.give(text_of(table))
        return first

    def answer(self, until: float) -> bytes:
        """The lines of the drives, after those that are left of closing the one before. `until` is a time of time.monotonic.

        Late: the time has passed; the program is then of no use. Lost: the program has ended.
        """
        ending = f"\n{self.drives} none {self._rows}\n".encode()
        return self._kept.answer(lambda got: got.endswith(ending), until)

    def is_answered(self) -> bool:
        """Whether there is something to read, without waiting."""
        return self._kept.is_answering()

    def close(self) -> None:
        """Ends the program. What it was asked is lost."""
        self._kept.close()
        self.is_closed = True


def follow_text(got: bytes, drive: int, count: int, name: int) -> bytes:
    """The follow text of trace `name` from the lines that streams wrote for a drive of `count` positions and its closing row.

    Lost: they are not such lines.
    """
    begin = got.find(f"{drive} trace {drive}\n".encode())
    body = b"\n" + got[begin:]
    text = body.replace(f"\n{drive} ".encode(), b"\n")
    head, tail = f"\ntrace {drive}\n".encode(), f"none {count}\n".encode()
    closing = text.rfind(f"\nfix {count}\n".encode())
    lines = body.count(b"\n") - 1
    whole = text.startswith(head) and text.endswith(tail) and len(body) - len(text) == lines * (len(str(drive)) + 1)
    if begin < 0 or closing < 0 or not whole:
        raise Lost("the program wrote something else than the lines of a drive")
    last = text[closing + 1:-len(tail)].partition(b"\n")[2]
    return b"".join([f"trace {name}\n".encode(), text[len(head):closing + 1], b"finish\n", last, f"end {name}\n".encode()])
