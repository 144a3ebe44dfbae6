"""Requests that are refused, with OSRM's codes."""
from __future__ import annotations

from ..errors import one_line


class Refused(Exception):
    """A request that gets no match. `code` is one of OSRM's, `status` that of HTTP."""

    def __init__(self, code: str, message: str, status: int = 400) -> None:
        self.code, self.status = code, status
        super().__init__(one_line(message))


def late(seconds: float) -> Refused:
    """A request that takes too long."""
    return Refused("Timeout", f"the match takes more than {seconds:g} s; send fewer positions", 504)


def wrong(name: str, message: str) -> Refused:
    """A parameter with a wrong value."""
    return Refused("InvalidValue", f"{name}: {message}")


def foreign(name: str, why: str) -> Refused:
    """A parameter that OSRM has and FMM does not."""
    return Refused("InvalidOptions", f"{name} is not supported: {why}")
