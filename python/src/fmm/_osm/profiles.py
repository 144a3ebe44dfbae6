"""Which ways of OpenStreetMap a profile keeps, and in which directions they are open."""
from __future__ import annotations

import re
from dataclasses import dataclass
from typing import Callable, Mapping, Optional, Union

from ..errors import OptionError

Tags = Mapping[str, str]
Directions = tuple[bool, bool]  # open in the direction of the nodes, and against it
Rules = Callable[[Tags], Optional[Directions]]

LINKED = ("motorway", "trunk", "primary", "secondary", "tertiary")
MAIN = frozenset(LINKED) | {f"{name}_link" for name in LINKED}
CARS = MAIN | {"unclassified", "residential", "living_street", "service", "road"}
PATHS = frozenset({"pedestrian", "track", "path", "cycleway", "footway", "bridleway", "steps"})
FAST = frozenset({"motorway", "motorway_link"})
CLOSED = frozenset({"no", "agricultural", "forestry", "emergency", "military"})
ROUND = frozenset({"roundabout", "circular"})


@dataclass(frozen=True)
class Profile:
    """Rules for ways with the tag `highway`.

    `classes` are the values of `highway` that are open. Those of `designated` are open only if the first key of `access` says
    so. `access` are the keys of access rights from the special to the general: the first that a way has decides. `oneway`
    are the keys of one-way rules likewise. With `directed` False, every way is open in both directions. `vehicles` are the
    words for this traffic in the key and in the exceptions of turn restrictions; without them none holds.
    """

    name: str
    classes: frozenset[str]
    access: tuple[str, ...]
    designated: frozenset[str] = frozenset()
    oneway: tuple[str, ...] = ("oneway",)
    directed: bool = True
    vehicles: tuple[str, ...] = ()

    def __call__(self, tags: Tags) -> Optional[Directions]:
        """The directions in which a way is open; None if it is no street of this profile."""
        if tags.get("area") == "yes" or not self.is_open(tags, tags.get("highway", "")):
            return None
        forward, backward = self.directions(tags) if self.directed else (True, True)
        forward &= self.access_of(tags, ":forward") not in CLOSED
        backward &= self.access_of(tags, ":backward") not in CLOSED
        return (forward, backward) if forward or backward else None

    def is_open(self, tags: Tags, road: str) -> bool:
        right = self.access_of(tags)
        if road in self.designated:
            return right in ("yes", "designated", "permissive")
        return road in self.classes and right not in CLOSED

    def access_of(self, tags: Tags, suffix: str = "") -> Optional[str]:
        return next((tags[key + suffix] for key in self.access if key + suffix in tags), None)

    def directions(self, tags: Tags) -> Directions:
        rule = next((tags[key] for key in self.oneway if key in tags), None)
        if rule in ("-1", "reverse"):
            return False, True
        if rule in ("yes", "true", "1"):
            return True, False
        if rule in ("no", "false", "0"):
            return True, True
        return True, not (tags.get("junction") in ROUND or tags["highway"] == "motorway")


@dataclass(frozen=True)
class Bicycles(Profile):
    """The rules for bicycles, with lanes against a one-way street."""

    def directions(self, tags: Tags) -> Directions:
        forward, backward = super().directions(tags)
        if "oneway:bicycle" not in tags:
            lanes = [tags.get(key, "") for key in ("cycleway", "cycleway:left", "cycleway:right", "cycleway:both")]
            against = [tags.get(f"cycleway:{side}:oneway", "") for side in ("left", "right", "both")]
            if any(lane.startswith("opposite") for lane in lanes) or {"no", "-1"} & set(against):
                return True, True
        return forward, backward


CAR = ("motorcar", "motor_vehicle", "vehicle")
CAR_ONEWAY = ("oneway:motorcar", "oneway:motor_vehicle", "oneway")
PROFILES: dict[str, Profile] = {profile.name: profile for profile in (
    Profile("car", CARS, (*CAR, "access"), PATHS, CAR_ONEWAY, vehicles=CAR),
    Profile("main", MAIN, (*CAR, "access"), oneway=CAR_ONEWAY, vehicles=CAR),
    Bicycles("bicycle", (CARS | {"cycleway", "path", "track"}) - FAST - {"trunk", "trunk_link"}, ("bicycle", "vehicle", "access"),
             frozenset({"trunk", "trunk_link", "footway", "pedestrian", "bridleway"}), ("oneway:bicycle", "oneway"),
             vehicles=("bicycle", "vehicle")),
    Profile("foot", (CARS | PATHS | {"corridor", "platform"}) - FAST - {"bridleway"}, ("foot", "access"),
            frozenset({"bridleway"}), directed=False),
)}


def profile_of(profile: Union[str, Profile, Rules]) -> Union[Profile, Rules]:
    """A profile by its name; a function of the tags is its own profile."""
    if isinstance(profile, str):
        if profile not in PROFILES:
            raise OptionError.unknown(profile, PROFILES, "profile")
        return PROFILES[profile]
    if not callable(profile):
        raise OptionError(f"a profile is {', '.join(PROFILES)}, or a function of the tags of a way, not {type(profile).__name__}")
    return profile


# Speeds in km/h that countries set for kinds of roads. Codes of other countries count as unread.
COUNTRIES = {
    "AT:urban": 50.0, "AT:rural": 100.0, "AT:trunk": 100.0, "AT:motorway": 130.0, "CH:urban": 50.0, "CH:rural": 80.0,
    "CH:trunk": 100.0, "CH:motorway": 120.0, "DE:urban": 50.0, "DE:rural": 100.0, "DE:living_street": 7.0, "FR:urban": 50.0,
    "FR:rural": 80.0, "FR:motorway": 130.0, "IT:urban": 50.0, "IT:rural": 90.0, "IT:trunk": 110.0, "IT:motorway": 130.0,
}
WALKING = 6.0
MILE = 1.609344
NO_LIMIT = ("", "none", "DE:motorway")
SPEED = re.compile(r"([0-9]{1,3}(?:\.[0-9]+)?) ?(km/h|kmh|kph|mph)?")
ZONE = re.compile(r"[A-Z]{2}:(?:zone:?|bicycle_road:?)?([0-9]{2,3})")


def speed_of(text: str) -> Optional[float]:
    """Kilometres an hour of a value of `maxspeed`: NaN if there is no limit, None if the text cannot be read."""
    text = text.strip()
    if text in NO_LIMIT:
        return float("nan")
    found = SPEED.fullmatch(text)
    if found and float(found[1]) > 0:
        return round(float(found[1]) * (MILE if found[2] == "mph" else 1.0), 1)
    zone = ZONE.fullmatch(text)
    if zone:
        return float(zone[1])
    return WALKING if text == "walk" else COUNTRIES.get(text)
