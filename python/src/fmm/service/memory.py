"""The memory of a process. It is looked at ten times a second at most: each look takes as long as a tenth of a match."""
from __future__ import annotations

import os
import time
from pathlib import Path
from typing import Tuple

PAGE = os.sysconf("SC_PAGE_SIZE")
PAUSE = 0.1  # seconds


class Memory:
    """What a process had at the last look. `process` is its id, or `self`."""

    def __init__(self, process: object) -> None:
        self._path = Path(f"/proc/{process}/statm")
        self._due = 0.0
        self._pages = (0, 0)

    @property
    def all(self) -> int:
        """Bytes in memory, 0 if the process has ended."""
        return self._look()[0] * PAGE

    @property
    def own(self) -> int:
        """Bytes that no other process shares, those that are not in memory included."""
        return self._look()[1] * PAGE

    def _look(self) -> Tuple[int, int]:
        now = time.monotonic()
        if now >= self._due:
            self._due = now + PAUSE
            try:
                size, resident, shared = map(int, self._path.read_text().split()[:3])
                self._pages = resident, size - shared
            except (OSError, ValueError):
                self._pages = 0, 0
        return self._pages
