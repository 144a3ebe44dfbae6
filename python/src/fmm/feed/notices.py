"""Messages on standard error that never stop or hold up a feed."""
from __future__ import annotations

import os
import select

from ..errors import one_line

LONGEST = 500  # characters of a message; pipes take a line of this length at once


class Notices:
    """Writes lines to a file descriptor if it takes them at once. `lost` counts those that it did not take."""

    def __init__(self, name: str, descriptor: int = 2) -> None:
        self.name, self.descriptor, self.lost = name, descriptor, 0

    def say(self, text: str) -> None:
        """Writes a line, or counts it as lost if standard error is full, closed or not read."""
        line = f"{self.name}: {one_line(text)[:LONGEST]}\n".encode("utf-8", "backslashreplace")
        try:
            if select.select([], [self.descriptor], [], 0)[1]:
                os.write(self.descriptor, line)
                return
        except (OSError, ValueError):
            pass
        self.lost += 1

    def summary(self, text: str) -> None:
        """Writes the last line, with the number of lines that were lost."""
        self.say(text + (f", messages that standard error did not take: {self.lost}" if self.lost else ""))
