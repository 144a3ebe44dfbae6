"""Requests as OSRM's service takes them: /match/v1/{profile}/{coordinates}?options and /nearest/v1/.."""
from __future__ import annotations

import math
import re
from dataclasses import dataclass
from typing import Dict, List, Optional
from urllib.parse import parse_qsl

import numpy as np

from . import polylines
from .refusals import Refused, foreign, wrong

NUMBER = re.compile(r"[+-]?(?:\d+(?:\.\d*)?|\.\d+)(?:[eE][+-]?\d{1,3})?", re.ASCII)
PAIR = rf"{NUMBER.pattern},{NUMBER.pattern}"
PAIRS = re.compile(rf"{PAIR}(?:;{PAIR})*", re.ASCII)
PLAIN = b"0123456789.+-"  # what numbers without exponents have
WHOLE = re.compile(r"\d{1,12}", re.ASCII)
POLYLINE = re.compile(r"polyline(6?)\((.*)\)", re.DOTALL)
# Names of a network's profile in OSRM's world.
PROFILES = {"car": {"car", "driving", "driving-traffic", "auto"}, "main": {"car", "driving", "driving-traffic", "auto"},
            "bicycle": {"bicycle", "bike", "cycling", "cycle"}, "foot": {"foot", "walking", "walk", "pedestrian"}}
ANNOTATIONS = ("duration", "distance", "speed")
# What FMM does not mean, with the values that ask for nothing.
NO_HINTS = "a place is found again by its coordinates"
FOREIGN = {
    "steps": (("false",), "FMM gives no turn instructions"),
    "hints": (("",), NO_HINTS),
    "generate_hints": (("false",), NO_HINTS),
    "bearings": (("",), "directions come from the positions that follow each other"),
    "approaches": (("", "unrestricted"), "a position may be on either side of a road"),
    "exclude": (("",), "make a network without these roads"),
    "snapping": (("default", "any"), "all edges of the network are used"),
    "waypoints": (("",), "each position that is matched is a waypoint"),
}


@dataclass(frozen=True)
class MatchOptions:
    """What a request asks for. Requests with the same options are matched together."""

    has_times: bool = False
    sigma: Optional[float] = None  # metres; None: that of the service
    geometries: str = "polyline"
    overview: str = "simplified"
    annotations: tuple[str, ...] = ()
    splits_gaps: bool = True
    tidy: bool = False
    has_tracepoints: bool = True


@dataclass(frozen=True)
class MatchRequest:
    """A drive. `times` is seconds from the first position, 0 if the request has none."""

    places: np.ndarray  # float64[n, 2]: longitude, latitude
    times: np.ndarray  # int64[n]
    options: MatchOptions


@dataclass(frozen=True)
class NearestRequest:
    """A place. `radius` is in metres."""

    place: np.ndarray  # float64[2]
    number: int = 1
    radius: float = math.inf


def options_of(query: str) -> Dict[str, str]:
    """The options of a query, each at most once."""
    found: Dict[str, str] = {}
    for name, value in parse_qsl(query, keep_blank_values=True, max_num_fields=100):
        if name in found:
            raise Refused("InvalidQuery", f"{name[:40]} is given twice")
        found[name] = value
    return found


def places_of(text: str, most: int) -> np.ndarray:
    """The coordinates of a path."""
    text = text[:-5] if text.endswith(".json") else text
    encoded = POLYLINE.fullmatch(text)
    if encoded:
        try:
            places = polylines.decode(encoded[2], 6 if encoded[1] else 5)
        except ValueError:
            raise Refused("InvalidQuery", "the coordinates are no polyline") from None
    else:
        if text.count(";") >= most:
            raise too_many(most)
        places = numbers_of(text).reshape(-1, 2)
    return checked(places, most)


def numbers_of(text: str) -> np.ndarray:
    """The numbers of pairs. A text without exponents is read at once, which is faster than the pattern."""
    flat, count = text.replace(";", ","), text.count(";")
    if text.encode("ascii", "replace").translate(None, PLAIN) == b",;" * count + b",":
        try:
            numbers = np.fromstring(flat, np.float64, sep=",")
        except (ValueError, DeprecationWarning):  # depends on the version of numpy and on the filter of warnings
            numbers = np.zeros(0)
        if len(numbers) == 2 * count + 2:
            return numbers
    if not PAIRS.fullmatch(text):
        raise wrong_pair(text.split(";"))
    return np.array(list(map(float, flat.split(","))))


def wrong_pair(pairs: List[str]) -> Refused:
    """Names the first coordinate that is none."""
    number = next(number for number, pair in enumerate(pairs) if not re.fullmatch(PAIR, pair, re.ASCII))
    return Refused("InvalidQuery", f"coordinate {number} is {pairs[number][:40]!r}, not longitude,latitude")


def checked(places: np.ndarray, most: int) -> np.ndarray:
    if len(places) > most:
        raise too_many(most)
    good = (np.abs(places[:, 0]) <= 180) & (np.abs(places[:, 1]) <= 90)
    if not good.all():
        number = int(np.argmin(good))
        raise wrong("coordinates", f"coordinate {number} is not within 180 degrees of longitude and 90 of latitude")
    return places


def too_many(most: int) -> Refused:
    return Refused("TooBig", f"there are more than {most} coordinates")


def check_profile(given: str, known: str) -> None:
    """Refuses a profile that names another kind of traffic than that of the network. `known` is "" if that is unknown."""
    of = {name for name, words in PROFILES.items() if given in words}
    if of and known in PROFILES and known not in of:
        raise Refused("InvalidOptions", f"profile {given}: this service has a network for the profile {known}")
    if not re.fullmatch(r"[A-Za-z0-9_.-]{1,40}", given):
        raise Refused("InvalidOptions", "the profile is a word of letters, digits, _, . and -")


def refuse_foreign(options: Dict[str, str], known: set[str]) -> None:
    """Refuses options that FMM does not mean, and unknown ones."""
    for name, value in options.items():
        if name in FOREIGN:
            harmless, why = FOREIGN[name]
            if any(part not in harmless for part in value.split(";")):
                raise foreign(name, why)
        elif name not in known:
            raise Refused("InvalidOptions", f"{name[:40]!r} is no option; known: {', '.join(sorted(known))}")


def match_request(coordinates: str, query: str, most: int) -> MatchRequest:
    """A request for a match. Refused: what is wrong, and what FMM does not mean."""
    options = options_of(query)
    refuse_foreign(options, {"timestamps", "radiuses", "geometries", "overview", "annotations", "gaps", "tidy", "skip_waypoints"})
    places = places_of(coordinates, most)
    if len(places) < 2:
        raise Refused("InvalidOptions", "a match needs two coordinates or more")
    times = timestamps_of(options.get("timestamps", ""), len(places))
    return MatchRequest(places, np.zeros(len(places), np.int64) if times is None else times - times[0], MatchOptions(
        times is not None, sigma_of(options.get("radiuses", ""), len(places)),
        one_of(options, "geometries", ("polyline", "polyline6", "geojson")),
        one_of(options, "overview", ("simplified", "full", "false")), annotations_of(options.get("annotations", "false")),
        one_of(options, "gaps", ("split", "ignore")) == "split", one_of(options, "tidy", ("false", "true")) == "true",
        one_of(options, "skip_waypoints", ("false", "true")) == "false"))


def one_of(options: Dict[str, str], name: str, values: tuple[str, ...]) -> str:
    """The value of an option; the first of `values` is its default."""
    value = options.get(name, values[0])
    if value not in values:
        raise wrong(name, f"is one of {', '.join(values)}, not {value[:40]!r}")
    return value


def timestamps_of(text: str, count: int) -> Optional[np.ndarray]:
    if not text:
        return None
    words = text.split(";")
    if len(words) != count:
        raise Refused("InvalidOptions", f"timestamps: there are {len(words)} for {count} coordinates")
    if not all(map(WHOLE.fullmatch, words)):
        raise wrong("timestamps", "each is a whole number of seconds since 1970")
    times = np.array([int(word) for word in words], np.int64)
    if (np.diff(times) < 0).any():
        raise wrong("timestamps", "they do not rise")
    if times[-1] - times[0] >= 2 ** 32:
        raise wrong("timestamps", "they span more than 136 years")
    return times


def sigma_of(text: str, count: int) -> Optional[float]:
    """OSRM's radiuses are the accuracy of each position. FMM has one accuracy for a drive, its option sigma."""
    words = text.split(";")
    given = {word for word in words if word}
    if not given:
        return None
    if len(words) != count:
        raise Refused("InvalidOptions", f"radiuses: there are {len(words)} for {count} coordinates")
    if len(given) > 1 or "" in words or not NUMBER.fullmatch(words[0]):
        raise foreign("radiuses", "FMM has one accuracy for a drive, so give the same number of metres for each coordinate")
    sigma = float(words[0])
    if not 0.01 <= sigma <= 1000:
        raise wrong("radiuses", "from 0.01 to 1000 metres")
    return sigma


def annotations_of(text: str) -> tuple[str, ...]:
    if text == "false":
        return ()
    words = text.split(",")
    for word in words:
        if word not in ANNOTATIONS:
            raise foreign(f"annotations={word[:40]}", f"name some of {', '.join(ANNOTATIONS)}, separated by commas")
    return tuple(words)


def nearest_request(coordinates: str, query: str) -> NearestRequest:
    """A request for the nearest edges."""
    options = options_of(query)
    refuse_foreign(options, {"number", "radiuses"})
    places = places_of(coordinates, 1)
    number, radius = options.get("number", "1"), options.get("radiuses", "") or "unlimited"
    if not WHOLE.fullmatch(number) or not 1 <= int(number) <= 100:
        raise wrong("number", "from 1 to 100")
    if radius != "unlimited" and not (NUMBER.fullmatch(radius) and float(radius) >= 0):
        raise wrong("radiuses", "a number of metres or unlimited")
    return NearestRequest(places[0], int(number), math.inf if radius == "unlimited" else float(radius))
