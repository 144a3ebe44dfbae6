"""Places and times of reports, a batch at a time."""
from __future__ import annotations

from collections.abc import Sequence
from pathlib import Path
from typing import Optional

import numpy as np

from .._reading.times import read_times
from .._reading.zones import checked_zone
from ..errors import FmmError
from ..projection import NOWHERE, Projection
from .intake import Place, Placing, Timing
from .notices import Notices
from .reports import NUMBER
from .state import State


def placing_of(network: Optional[Path], crs: Optional[str]) -> Placing:
    """Projects places to whole centimetres of a network. `crs` is that of the places; `metres` are metres of the network."""
    return placing_on(projection_of(network, crs), crs)


def projection_of(network: Optional[Path], crs: Optional[str]) -> Projection:
    """The projection of a network, which has to be known unless the positions are in its metres."""
    projection = Projection(None)
    if network is not None:
        from ..network import Network
        projection = Network.open(network).projection
    if projection.crs is None and crs != "metres":
        raise FmmError(f"{network} has no side file with its projection; give --crs metres if the positions are in its metres")
    return projection


def keep_projection(state: State, projection: Projection) -> None:
    """Refuses a state whose positions are in another projection. That of a new network may be another one by its extent."""
    known = state.get("projection")
    if known is not None and projection.crs is not None and not Projection.of(known).matches(projection):
        raise FmmError(f"{state.path} has positions in {Projection.of(known).name}, and the network is in {projection.name}: "
                       "begin a new state, or make the network with --crs")
    if known is None and projection.crs is not None:
        state.set("projection", projection.text)


def placing_on(projection: Projection, crs: Optional[str]) -> Placing:
    """Projects places to whole centimetres of a projection that is known, or of metres."""
    known = None if crs == "metres" else crs or "EPSG:4326"

    def places(x: Sequence[float], y: Sequence[float]) -> list[Optional[Place]]:
        with np.errstate(over="ignore"):
            found = projection.to_centimetres(np.array(x), np.array(y), known)
        return [None if place[0] == NOWHERE else place for place in zip(found[0].tolist(), found[1].tolist())]

    return places


def timing_of(milliseconds: bool, zone: Optional[str], notices: Notices) -> Timing:
    """Reads times: ISO texts or seconds since 1970, or milliseconds if so wanted. Texts that name no zone are in `zone`, or in
    UTC, which is said once."""
    known = zone and checked_zone(zone)
    is_said = bool(known)

    def scaled(text: str) -> str:
        return f"{float(text) / 1000:.3f}" if milliseconds and NUMBER.fullmatch(text.strip()) else text

    def times(texts: Sequence[Optional[str]]) -> list[tuple[Optional[float], str]]:
        nonlocal is_said
        given = np.array(["" if text is None else scaled(text) for text in texts], dtype=object)
        stamps, faults, unzoned = read_times(given, zone=known)
        if unzoned and not is_said:
            is_said = True
            notices.say("times that name no time zone count as UTC; --timezone says theirs")
        return [(None, "") if text is None else (stamp, fault or ("no time" if stamp != stamp else ""))
                for text, stamp, fault in zip(texts, stamps.tolist(), faults.tolist())]

    return times
