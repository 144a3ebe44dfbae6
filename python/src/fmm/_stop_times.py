"""When a vehicle came to stand: the time at which braking fits best to its measured positions.

Time turned round, the same finds when it set off.
"""
from __future__ import annotations

from dataclasses import dataclass
from typing import Tuple

import numpy as np

BRAKES = 1.5  # m/s2, of braking and of setting off
LONGEST = 14.0  # seconds that braking takes at most
LAG, SLOW, FAST, FAR = 6.0, 3.0, 20.0, 20.0  # seconds, m/s, m/s, metres
SOONEST = 5.0  # seconds in which a vehicle that stood without sending is seen again, once it drives
SOON = np.array([0.5, 1, 1.5, 2, 3, 4, 6])  # seconds after a position, which matter before a long time without positions
BEFORE, AFTER, STEPS = 8, 12, 8  # positions around the begin of standing, and tried times between two positions
FITTED = 6  # steps of braking, at most
OTHER = 7.0  # what a step of a vehicle that neither brakes nor stands costs; a step of one that stands costs 1 in the mean
LEAST_STEP = 0.5  # metres, of the error of a step
NORMAL = 0.6745  # the median of the absolute value of a normal variable
AT_ONCE = 4096


@dataclass
class Track:
    """Timed positions, sorted by vehicle and time. A vehicle is a number; x and y are metres."""

    vehicle: np.ndarray
    time: np.ndarray
    x: np.ndarray
    y: np.ndarray
    noise: float  # the standard error of x and of y

    def turned(self) -> Track:
        """The same positions as they would be if time ran backwards."""
        return Track(self.vehicle[::-1], -self.time[::-1], self.x[::-1], self.y[::-1], self.noise)

    def interval(self) -> float:
        """The median time from one position to the next, in seconds; 0 without any."""
        steps = np.diff(self.time)[np.diff(self.vehicle) == 0]
        return float(np.median(steps)) if len(steps) else 0.0

    def speed(self) -> float:
        """How fast vehicles drive that do not crawl, in m/s: nine of ten steps are slower."""
        time = np.diff(self.time)
        good = (np.diff(self.vehicle) == 0) & (time > 0)
        speeds = np.hypot(np.diff(self.x)[good], np.diff(self.y)[good]) / time[good]
        return float(np.clip(np.quantile(speeds[speeds > SLOW], 0.9), SLOW, FAST)) if (speeds > SLOW).any() else SLOW


@dataclass
class StepError:
    """The error of the steps of a vehicle that stands: its variance, and the covariance of two steps that follow each other,
    which is negative since each position ends one step and begins the next."""

    variance: float
    shared: float

    @classmethod
    def of(cls, step: np.ndarray) -> StepError:
        """From steps while vehicles stand, a row for each stretch; 0 is no step."""
        single, pairs = step[step != 0], (step[:, 1:] + step[:, :-1])[(step[:, 1:] != 0) & (step[:, :-1] != 0)]
        one, two = ((np.median(np.abs(some)) / NORMAL) ** 2 if len(some) else 0.0 for some in (single, pairs))
        variance = max(LEAST_STEP ** 2, float(one))
        return cls(variance, float(np.clip(two / 2 - variance, -0.45 * variance, 0)) if len(pairs) else 0.0)

    def factors(self, count: int) -> Tuple[np.ndarray, np.ndarray]:
        """What makes errors in a row independent: y[k] = (error[k] - by[k] * y[k - 1]) / scale[k]."""
        scale, by = np.empty(count), np.zeros(count)
        for k in range(count):
            by[k] = self.shared / scale[k - 1] if k else 0.0
            scale[k] = np.sqrt(self.variance - by[k] ** 2)
        return scale, by


@dataclass
class Steps:
    """The positions around the begin of each stretch of standing: their times, the steps between them towards the place of
    standing (0 where there is none), and the standard errors of steps over a long time without positions (0 for other steps)."""

    at: np.ndarray
    step: np.ndarray
    apart: np.ndarray


@dataclass
class Manner:
    """How vehicles come to stand: the speed from which they brake and the one at which they are at rest, in m/s; and how many
    seconds positions are apart."""

    speed: float
    creep: float
    interval: float

    def metres(self, seconds: np.ndarray) -> np.ndarray:
        """How far a vehicle is from its place so many seconds before it stands."""
        brakes = np.minimum(seconds, (self.speed - self.creep) / BRAKES)
        return (BRAKES / 2 * brakes + self.creep) * brakes + self.speed * (seconds - brakes)

    def seconds(self, metres: np.ndarray) -> np.ndarray:
        """How long before it stands a vehicle is so far from its place."""
        longest = (self.speed - self.creep) / BRAKES
        brakes = (np.sqrt(self.creep ** 2 + 2 * BRAKES * np.maximum(metres, 0)) - self.creep) / BRAKES
        return np.where(brakes < longest, brakes, longest + (metres - self.metres(np.array(longest))) / self.speed)


def begins_of(track: Track, first: np.ndarray, last: np.ndarray, creep: float) -> np.ndarray:
    """When each stretch of standing from position `first` to `last` begins. A vehicle that is slower than `creep` stands."""
    out = track.time[first].astype(np.float64)
    manner = Manner(track.speed(), creep, track.interval())
    for begin in range(0, len(first), AT_ONCE):
        some = slice(begin, begin + AT_ONCE)
        out[some] = _begins(track, first[some], last[some], manner)
    return out


def _begins(track: Track, first: np.ndarray, last: np.ndarray, manner: Manner) -> np.ndarray:
    near = first[:, None] + np.arange(-BEFORE, AFTER + 1)
    inside = np.clip(near, 0, last[:, None])
    inside = np.where(track.vehicle[inside] == track.vehicle[first][:, None], inside, first[:, None])
    known = inside == near
    late = np.minimum(first + AFTER // 2, last)
    place_x, place_y = _middle(track.x, late, last), _middle(track.y, late, last)
    comes_from = inside[np.arange(len(first)), BEFORE - _lag(track.time, first)]
    from_x, from_y = place_x - track.x[comes_from], place_y - track.y[comes_from]
    away = np.hypot(from_x, from_y)
    unit_x, unit_y = from_x / np.maximum(away, 1e-9), from_y / np.maximum(away, 1e-9)
    gone = track.x[inside] * unit_x[:, None] + track.y[inside] * unit_y[:, None]
    at, both = track.time[inside].astype(np.float64), known[:, 1:] & known[:, :-1]
    apart = np.where(np.diff(at, axis=1) > _long(manner.interval), np.sqrt(2) * track.noise, 0)
    steps = Steps(at, np.where(both, np.diff(gone, axis=1), 0), apart)
    arrives = known[:, BEFORE - 1] & (away > 2 * track.noise) & ~_comes_from_afar(track, first, manner.interval)
    return np.where(arrives, _best_begin(steps, manner), track.time[first])


def _best_begin(steps: Steps, manner: Manner) -> np.ndarray:
    """The time from which on a vehicle stands: the steps before it fit to braking, those after it are errors."""
    at = steps.at
    best, least = at[:, BEFORE].copy(), np.full(len(at), np.inf)
    share, rows = np.arange(STEPS) / STEPS, np.arange(len(at))
    before, after = (int(np.clip(np.ceil(reach / max(manner.interval, 0.1)), 1, most)) for reach, most in ((6, 3), (8, 8)))
    costs = _Costs(steps, manner)
    for number in range(BEFORE - before, BEFORE + after):
        length = (at[:, number + 1] - at[:, number])[:, None]
        fitting = np.minimum(manner.seconds(steps.step[:, number])[:, None], length)
        tried = at[:, number][:, None] + np.concatenate((share * length, np.minimum(SOON, length), fitting), axis=1)
        cost = costs.of(number, tried)
        choice = cost.argmin(axis=1)
        better = cost[rows, choice] < least
        least = np.where(better, cost[rows, choice], least)
        best = np.where(better, tried[rows, choice], best)
    return best


class _Costs:
    """What begins of standing cost. The steps are taken from the last one backwards, so that those of standing come first."""

    def __init__(self, steps: Steps, manner: Manner) -> None:
        self.steps, self.manner = steps, manner
        count = steps.step.shape[1]
        scale, self.by = (values[::-1] for values in StepError.of(steps.step[:, BEFORE + AFTER // 2:]).factors(count))
        self.scale = np.where(steps.apart > 0, steps.apart, scale)
        self.free = np.zeros((len(steps.at), count + 1))  # the errors of standing, made independent
        for number in range(count - 1, -1, -1):
            error = steps.step[:, number] - self.by[number] * self.free[:, number + 1]
            self.free[:, number] = error / self.scale[:, number]
        self.stood = np.cumsum(self.free[:, ::-1] ** 2, axis=1)[:, ::-1]

    def of(self, number: int, tried: np.ndarray) -> np.ndarray:
        """The cost of each tried time between the positions `number` and the next one. As many steps before it as fit best are
        those of braking."""
        steps, free, cost = self.steps, self.free[:, number + 1][:, None], self.stood[:, number + 1][:, None]
        since = np.maximum(tried - steps.at[:, number + 1][:, None], 0)
        least, left = np.full(tried.shape, np.inf), self.manner.metres(since)
        for moving in range(number, max(number - FITTED, -1), -1):
            if since.min(initial=np.inf) > LONGEST:
                break
            since, nearer = tried - steps.at[:, moving][:, None], left
            left = self.manner.metres(since)
            error = steps.step[:, moving][:, None] - (left - nearer) - self.by[moving] * free
            free = error / self.scale[:, moving][:, None]
            cost = cost + free * free
            least = np.minimum(least, cost + OTHER * moving)
        return least


def _lag(time: np.ndarray, first: np.ndarray) -> np.ndarray:
    """How many positions before it show from where a vehicle comes: one to three, as many as come in six seconds."""
    before = np.maximum(first - 3, 0)
    each = np.maximum(time[first] - time[before], 1e-3) / 3
    return np.clip(np.ceil(LAG / each), 1, 3).astype(np.int64)


def _comes_from_afar(track: Track, first: np.ndarray, usual: float) -> np.ndarray:
    """Whether nothing is known of how a vehicle came: not seen for long, and farther away than it gets before it is seen."""
    before = np.maximum(first - 1, 0)
    away = np.hypot(track.x[first] - track.x[before], track.y[first] - track.y[before])
    return (track.time[first] - track.time[before] > _long(usual)) & (away > FAST * min(usual, SOONEST) + FAR)


def _long(usual: float) -> float:
    """Positions that are more seconds apart are those before and after a time without positions."""
    return 4 * usual + 10


def _middle(values: np.ndarray, first: np.ndarray, last: np.ndarray) -> np.ndarray:
    """The median of up to six values from each first one on."""
    places = np.minimum(first[:, None] + np.arange(6), last[:, None])
    return np.median(values[places], axis=1)
