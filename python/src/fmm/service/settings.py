"""What the service was started with."""
from __future__ import annotations

from dataclasses import dataclass, field

from ..options import Options

MEGABYTE = 1 << 20


@dataclass(frozen=True)
class Limits:
    """Bounds on what a request can take.

    positions  most positions of a request
    size       most bytes of the body of a request
    seconds    a request that takes longer is given up, and its worker is replaced
    waiting    most requests that wait for a worker; further ones are refused with status 503
    memory     a program of more megabytes is replaced after its request
    """

    positions: int = 10_000
    size: int = 16 * MEGABYTE
    seconds: float = 30.0
    waiting: int = 64
    memory: int = 2048


@dataclass(frozen=True)
class Settings:
    """The options of all matches, how many workers there are, the limits, whose pages may read answers ("": none), and whether
    standard input has what `track` writes."""

    options: Options = field(default_factory=lambda: Options(gap=300.0))
    processes: int = 2
    limits: Limits = field(default_factory=Limits)
    origin: str = ""
    live: bool = False
