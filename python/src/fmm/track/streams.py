"""`fmm streams`, which is kept running: it takes rows and gives back the lines that they settle."""
from __future__ import annotations

from collections.abc import Sequence
from pathlib import Path

from ..feed.intake import CLOSING, MOST_POSITIONS
from ..service.kept import KeptProgram
from ..service.program import HEADER

SECOND = 100_000_000  # from the numbers of the first of two closing traces to those of the second


class Streams:
    """One process. `rows` counts what it was given, since it keeps all of it in memory."""

    def __init__(self, program: Path, network: Path, words: Sequence[str], far: tuple[int, int]) -> None:
        self.far, self.rows, self.batches = far, 0, 0
        self._kept = KeptProgram(program, network, words, has_session=True)
        self._kept.give(HEADER)

    def take(self, rows: Sequence[str], second: int) -> list[bytes]:
        """Hands over rows and returns all lines of the program up to the last of these rows. `second` is a time among them.
        Lost: the program has ended.

        `streams` writes the lines of a fragment when a row of another trace follows. So two rows far from all roads, of traces
        of their own, follow the rows. The lines of the first one are the last that are awaited.
        """
        closing = CLOSING + self.batches // MOST_POSITIONS
        far = f"{self.far[0]},{self.far[1]},{second}\n"
        self._kept.give("".join([*rows, f"{closing},{far}", f"{closing + SECOND},{far}"]).encode())
        self.rows += len(rows) + 2
        self.batches += 1
        mark = f"{closing} none ".encode()
        return positions_of(self._kept.answer(lambda got: last_line_begins(got, mark)).split(b"\n")[:-1])

    def finish(self) -> list[bytes]:
        """Ends the input. Returns the lines that are left, without the last one with the totals. Lost: the program failed."""
        if not self.rows:
            return []  # it was not even given a header
        return positions_of(self._kept.finish().split(b"\n")[:-2])

    @property
    def memory(self) -> int:
        """Bytes of memory that the program has, 0 if it has ended."""
        return self._kept.memory.all

    def close(self) -> None:
        """Ends the program. What it has not said is lost."""
        self._kept.close()


def last_line_begins(text: bytearray, mark: bytes) -> bool:
    """Whether the last line is whole and begins with the mark."""
    return text.endswith(b"\n") and text.startswith(mark, text.rfind(b"\n", 0, -1) + 1)


def positions_of(lines: Sequence[bytes]) -> list[bytes]:
    """The lines of traces that do not close fragments."""
    return [line for line in lines if int(line.partition(b" ")[0]) < CLOSING]
