"""The options of a match, in metres and seconds."""
from __future__ import annotations

import math
import os
from dataclasses import dataclass, fields, replace
from typing import Any, Dict, List, Optional, Tuple

from .errors import OptionError

ENGINES = ("local", "slurm", "dask")  # that match in groups
FASTEST = 70.0  # metres a second: no road vehicle drives faster
# The least and the greatest value of each option, in the unit of the field.
RANGES: Dict[str, Tuple[float, float]] = {
    "k": (1, 32),
    "radius": (0.01, 1_000),
    "sigma": (0.01, 1_000),
    "beta": (0.01, 10_000),
    "bound": (0, 100_000),
    "back": (0, 1_000),
    "gap": (0, 4_294_967_295),
    "workers": (1, 64),
    "thin": (0, 10_000),
    "fastest": (1, 1_000),
}
WHOLE = ("k", "workers")
NONE = ("gap", "workers", "thin", "fastest")  # None switches these off, or leaves them to the package


@dataclass(frozen=True)
class Options:
    """How positions are matched.

    k        the most candidates of a position
    radius   greatest distance of a candidate from its position, in metres
    sigma    distance from the road that costs 500, in metres
    beta     detour of a route that costs 1,000, in metres
    bound    longest route from the end of one edge to the start of the next, in metres
    back     how far a position may move back on its edge and count as standing still, in metres
    gap      a drive ends before a position that comes more than this many seconds later; None: never
    workers  threads of the program; None: all processors
    thin     a position is matched only if it is at least this many metres from the last one that was matched; None: all are.
             The first and the last position of a drive always are
    fastest  metres a second; a position that a vehicle reached and left faster is a jump and is not matched. So much more is
             allowed as five times sigma. None: there are no jumps
    """

    k: int = 8
    radius: float = 100.0
    sigma: float = 10.0
    beta: float = 10.0
    bound: float = 3000.0
    back: float = 0.0
    gap: Optional[float] = None
    workers: Optional[int] = None
    thin: Optional[float] = None
    fastest: Optional[float] = None

    def __post_init__(self) -> None:
        for field in fields(self):
            object.__setattr__(self, field.name, checked(field.name, getattr(self, field.name)))

    @classmethod
    def of(cls, **words: Any) -> Options:
        """Options by name; the others have their default. An unknown name is an OptionError with a similar name."""
        return cls().but(**words)

    def but(self, **words: Any) -> Options:
        """These options with some others in place of them."""
        names = [field.name for field in fields(self)]
        for word in words:
            if word not in names:
                raise OptionError.unknown(word, names)
        return replace(self, **words)

    def arguments(self) -> List[str]:
        """The words for the program, in centimetres.

        `gap` is not among them: the traces of a trace file are split there already, by the times of all positions, while the
        program knows only those of the positions that thinning leaves. `thin` and `fastest` are not options of the program.
        """
        words = ["--k", str(self.k)]
        for name in ("radius", "sigma", "beta", "bound", "back"):
            words += [f"--{name}", str(centimetres(getattr(self, name)))]
        return words + ["--workers", str(self.workers or min(64, os.cpu_count() or 1))]


def centimetres(metres: float) -> int:
    """Metres in whole centimetres; halves go up."""
    return math.floor(100 * metres + 0.5)


def checked(name: str, value: Any) -> Any:
    """The value of an option as an int or a float; an OptionError if it is no number or out of its range."""
    if value is None and name in NONE:
        return None
    least, most = RANGES[name]
    try:
        number = float(value)
    except (TypeError, ValueError):
        raise OptionError(f"{name} is a number from {least:g} to {most:g}, not {value!r}") from None
    if isinstance(value, (bool, bytes)) or isinstance(value, str) and "_" in value:
        raise OptionError(f"{name} is a number from {least:g} to {most:g}, not {value!r}")
    if not least <= number <= most:
        raise OptionError(f"{name} is from {least:g} to {most:g}{unit(name)}, not {value}")
    if name in WHOLE:
        if number != int(number):
            raise OptionError(f"{name} is a whole number, not {value}")
        return int(number)
    return number


def unit(name: str) -> str:
    """The unit of an option after a blank, or nothing."""
    return "" if name in WHOLE else " seconds" if name == "gap" else " metres a second" if name == "fastest" else " metres"
