"""Options from the data: what the positions show of their sampling, their error and their pauses."""
from __future__ import annotations

from dataclasses import dataclass
from typing import Any, Dict, NamedTuple, Optional, Tuple

import numpy as np

from ._noise import Motion, interval_of, moving_noise, noise_beside, residual_noise, speed_of, standing_noise
from ._traces import Plan
from .options import FASTEST, Options
from .positions import Positions

USUAL_NOISE = 5.0  # metres of a usual receiver, where the data show nothing
LEAST_NOISE = 1.0
OFF_ROAD = 4.0  # times the error that motion shows: what is farther from the roads is not an error of the receiver
GAP = 300.0  # seconds
MANY = 16  # candidates: at a junction of five streets ten edges are about as near as the true one
BETA = 0.08  # see suggest
BACK = 1.5  # times thin: an error that moves a standing vehicle so far that it counts seldom moves it much farther


@dataclass(frozen=True)
class Suggestion:
    """Suggested options, and why.

    options   to be given to `match`
    reasons   for each option that was chosen from the data a sentence
    interval  usual seconds from one position to the next, None without times
    noise     standard deviation of the error of x and of y, in metres
    speed     usual speed of moving vehicles, in metres a second, None without times
    pauses    how many times between two positions of a vehicle are longer than `options.gap`
    """

    options: Options
    reasons: Dict[str, str]
    interval: Optional[float]
    noise: float
    speed: Optional[float]
    pauses: int

    @property
    def text(self) -> str:
        """All of it, one line for each option."""
        return "".join(f"{name} {getattr(self.options, name):g}: {reason}\n" for name, reason in self.reasons.items())


def suggest(positions: Positions, network: Any = None) -> Suggestion:
    """Suggests options for positions.

    With a `network` the error is measured by the distances from the nearest edges, otherwise by what standing vehicles and smooth
    motion show of it. `sigma` is this error. `thin` is a multiple of it: less is not told from standing. `back` is more than
    `thin`, or a matched position that an error moves back would lead to the end of its street and back. `beta` grows with the
    cube root of the error and of the squared distance between matched positions; this law and its factor were found on simulated
    drives (bench/README.md), where half and twice of it hardly differ. Takes about as long as writing the trace file.
    """
    motion, beside = measured(positions, network)
    interval = interval_of(motion)
    noise, source = noise_of(motion, interval, beside)
    gap = None if interval is None else max(GAP, 5 * interval)
    drives = motion.drive
    motion = motion.parted(gap)
    pauses = int((np.diff(motion.drive) != 0).sum() - (np.diff(drives) != 0).sum())
    sigma = max(noise, LEAST_NOISE)
    thin = thin_of(motion, sigma, None if interval is None else residual_noise(motion, interval))
    step, longest = motion.steps(thin)
    beta = clamp(BETA * (sigma * step * step) ** (1 / 3), 0.1, 100)
    options = Options(k=MANY, radius=float(round(clamp(5 * sigma, 100, 1000))), sigma=round(sigma, 2), beta=round(beta, 2),
                      bound=100.0 * round(clamp(2 * longest + 1000, 3000, 50_000) / 100), gap=gap, thin=thin,
                      back=float(round(BACK * thin)), fastest=None if interval is None else FASTEST)
    speed = None if interval is None else speed_of(motion, interval)
    reasons = reasons_of(options, Shown(source, step, longest, interval, pauses))
    return Suggestion(options, reasons, interval, noise, speed, pauses)


def clamp(value: float, least: float, most: float) -> float:
    return min(max(value, least), most)


def thin_of(motion: Motion, sigma: float, residual: Optional[float]) -> float:
    """How far a position should have moved.

    Farther for an error that changes from one position to the next (`residual`): the more often it is drawn, the farther is its
    greatest value. Positions that are far apart anyway are only thinned where vehicles stand.
    """
    far = clamp(3.3 * sigma + 1.7 * min(residual or 0, sigma), 10, 100)
    step, _ = motion.steps(2 * sigma)
    return float(round(far if step < 2 * far else clamp(2 * sigma, 10, 100)))


def measured(positions: Positions, network: Any) -> Tuple[Motion, Optional[float]]:
    """The positions in metres, sorted, and the error that the nearest edges show."""
    plan = Plan(positions)
    if network is None:
        plan.x, plan.y = metres_of(positions, plan.row)
    else:
        plan.project(network.projection)
    plan.drop_untimed()
    plan.sort()
    if network is None:
        return Motion(plan.x, plan.y, plan.time, plan.keys()), None
    motion = Motion(plan.x / 100, plan.y / 100, plan.time, plan.keys())
    return motion, noise_beside(network, motion)


def metres_of(positions: Positions, rows: np.ndarray) -> Tuple[np.ndarray, np.ndarray]:
    """Metres in which near positions have the right distances."""
    x, y = positions.frame["x"].to_numpy()[rows], positions.frame["y"].to_numpy()[rows]
    if positions.crs is not None and positions.crs.is_geographic:
        return 111_320 * x * np.cos(np.radians(y)), 110_540 * y
    return x, y


def noise_of(motion: Motion, interval: Optional[float], beside: Optional[float]) -> Tuple[float, str]:
    """The error of a coordinate in metres, and what shows it."""
    stands = None if interval is None else standing_noise(motion, interval)
    found = None if interval is None else moving_noise(stands, residual_noise(motion, interval))
    what = "smooth motion shows" if stands is None else "standing vehicles and smooth motion show"
    if beside is not None and (found is None or beside < OFF_ROAD * found):
        return beside, f"positions are {beside:.1f} m (standard deviation) beside the nearest roads"
    if beside is not None and found is not None:
        return OFF_ROAD * found, f"{what} an error of {found:.1f} m, and the roads are {beside:.1f} m away: many may be missing"
    if found is not None:
        return found, f"{what} an error of {found:.1f} m (standard deviation)"
    return USUAL_NOISE, f"the positions do not show their error, so the usual {USUAL_NOISE:g} m are taken"


class Shown(NamedTuple):
    """What positions show: of their error in words, the usual and the longest distance of matched ones, their interval, and
    pauses."""

    source: str
    step: float
    longest: float
    interval: Optional[float]
    pauses: int


def reasons_of(options: Options, shown: Shown) -> Dict[str, str]:
    """A sentence for each option."""
    source, step, longest, interval, pauses = shown
    reasons = {
        "sigma": source,
        "thin": f"a movement of less than {options.thin:g} m may be the error; such positions get their places afterwards",
        "beta": f"matched positions are usually {step:.0f} m apart; a usual detour is a small part of that",
        "back": "one and a half times thin: so far an error may seem to move a vehicle back",
        "bound": f"the longest step is {longest:.0f} m, and a route may be twice as long",
        "radius": "five times the error, and at least 100 m",
        "k": "at a junction of five streets ten edges are about as near as the true one",
    }
    if interval is not None:
        reasons["fastest"] = f"no road vehicle drives faster than {3.6 * FASTEST:.0f} km/h"
        reasons["gap"] = (f"positions come each {interval:g} s; {pauses} pauses are longer" if pauses else
                          f"positions come each {interval:g} s, and no pause is longer")
    return reasons
