"""Where the payloads of a feed come from, other than a broker: standard input."""
from __future__ import annotations

import os
import select
import time
from collections.abc import Sequence
from dataclasses import dataclass
from typing import Optional, Protocol

from ..errors import InputError
from .reports import LONGEST_PAYLOAD

CHUNK = 65_536


@dataclass(frozen=True)
class Payload:
    """What came: its bytes, where it came from (for messages), the id of the vehicle if the bytes may lack it, and why it cannot
    be used, if that is known."""

    data: bytes
    origin: str
    vehicle: Optional[str] = None
    fault: Optional[str] = None


class Source(Protocol):
    """Gives payloads. Those that were given are acknowledged once the state has them."""

    def receive(self, until: float) -> Optional[Sequence[Payload]]:
        """The payloads that have come; none after `until` (as of time.monotonic), None at the end of the input."""

    def acknowledge(self) -> None:
        """Acknowledges all payloads that were given."""

    def close(self) -> None:
        """Ends the connection."""


class Lines:
    """The lines of a descriptor. A line that is too long is given cut, so that the reader refuses it."""

    def __init__(self, descriptor: int = 0) -> None:
        self.descriptor, self.rest, self.count, self.is_over = descriptor, b"", 0, False

    def receive(self, until: float) -> Optional[Sequence[Payload]]:
        """The lines that have come; none after `until`, None at the end of the input."""
        if self.is_over:
            return None
        timeout = None if until == float("inf") else max(0.0, until - time.monotonic())
        if not select.select([self.descriptor], [], [], timeout)[0]:
            return []
        try:
            chunk = os.read(self.descriptor, CHUNK)
        except OSError as fault:
            raise InputError(fault.strerror or fault, "standard input") from None
        if not chunk:
            self.is_over = True
            return [self._payload(self.rest, "the input ends in the middle of the line")] if self.rest else []
        *lines, self.rest = (self.rest + chunk).split(b"\n")
        self.rest = self.rest[:LONGEST_PAYLOAD + 1]
        return [self._payload(line) for line in lines]

    def _payload(self, line: bytes, fault: Optional[str] = None) -> Payload:
        self.count += 1
        return Payload(line, f"line {self.count}", fault=fault)

    def acknowledge(self) -> None:
        """Nothing is acknowledged to whoever writes the input."""

    def close(self) -> None:
        """Leaves the input open."""
