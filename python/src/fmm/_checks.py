"""Whether a match belongs to a network and to traces."""
from __future__ import annotations

import math
import os

import numpy as np

from ._match_text import MatchText
from ._places import Places
from ._ragged import rows_of
from .errors import MismatchError, PathText
from .network import Network


def compare_traces(text: MatchText, traces: np.ndarray, counts: np.ndarray, name: str) -> None:
    """Refuses a match that has other traces, or other numbers of positions in them. `name` is that of the traces."""
    found, wanted = text.traces.tolist(), traces.tolist()
    other = f"is not the match of {name}"
    for place, (there, here) in enumerate(zip(found, wanted), 1):
        if there != here:
            raise MismatchError(f"{other}: trace number {place} is {here} in {name} and {there} in the match", text.name)
    if len(found) < len(wanted):
        raise MismatchError(f"{other}: trace {wanted[len(found)]} is missing there", text.name)
    if len(found) > len(wanted):
        raise MismatchError(f"{other}: it has a trace {found[len(wanted)]} more", text.name)
    here = np.diff(text.position_first)
    wrong = np.flatnonzero(here != counts)
    if len(wrong):
        at = int(wrong[0])
        differs = f"trace {found[at]} has {counts[at]} positions in {name} and {here[at]} in the match"
        raise MismatchError(f"{other}: {differs}", text.name)


def compare_places(text: MatchText, network: Network, x: np.ndarray, y: np.ndarray, name: str) -> None:
    """Refuses a match whose places or routes are not those of the network and of the positions (whole centimetres)."""
    path, lines = os.fspath(network.path), network.lines
    check_edges(text, network, path)
    on = np.flatnonzero(text.edge >= 0)
    edge, places = lines.position_of(text.edge[on]), Places(lines)
    wrong = np.flatnonzero(~places.snaps(edge, text.offset[on], text.d2[on], x[on], y[on]))
    if len(wrong):
        at = int(on[wrong[0]])
        d2, offset = places.nearest(int(edge[wrong[0]]), int(x[at]), int(y[at]))
        trace = text.trace_of[at]
        raise MismatchError(
            f"is the match of another network or of other traces: position {at - text.position_first[trace]} of trace "
            f"{text.traces[trace]} is {math.sqrt(d2) / 100:.2f} m from edge {text.edge[at]} at offset {offset} in {path} and "
            f"{name}, and {math.sqrt(text.d2[at]) / 100:.2f} m at offset {text.offset[at]} in the match", text.name)
    route = lines.position_of(text.route)
    apart = lines.to_node[route[:-1]] != lines.from_node[route[1:]]
    apart[text.route_first[1:-1] - 1] = False
    if apart.any():
        at = int(apart.argmax())
        drives = f"trace {trace_of_route(text, at)} drives from edge {text.route[at]} to edge {text.route[at + 1]}"
        raise MismatchError(f"is not the match of {path}: {drives}, which do not join in {path}", text.name)


def check_edges(text: MatchText, network: Network, path: PathText) -> None:
    """Whether the network has all edges of the match."""
    unknown = np.flatnonzero((network.lines.position_of(text.edge) < 0) & (text.edge >= 0))
    if len(unknown):
        at = int(unknown[0])
        lies = f"trace {text.traces[text.trace_of[at]]} is on edge {text.edge[at]}"
        raise MismatchError(f"is not the match of {path}: {lies}, which {path} does not have", text.name)
    unknown = np.flatnonzero(network.lines.position_of(text.route) < 0)
    if len(unknown):
        at = int(unknown[0])
        drives = f"trace {trace_of_route(text, at)} drives over edge {text.route[at]}"
        raise MismatchError(f"is not the match of {path}: {drives}, which {path} does not have", text.name)


def trace_of_route(text: MatchText, place: int) -> int:
    """The trace of an edge of the routes."""
    return int(text.traces[text.piece_trace[rows_of(np.diff(text.route_first))[place]]])


def compare_lines(wanted: bytes, found: bytes, name: PathText, hint: str) -> None:
    """Refuses a text that is not the one that the program writes. The last number of the total line may be missing."""
    if wanted == found or wanted.rpartition(b" rows ")[0] + b"\n" == found:
        return
    pairs = zip(wanted.splitlines(), found.splitlines())
    line, (here, there) = next((number, pair) for number, pair in enumerate(pairs, 1) if pair[0] != pair[1])
    shown = [part[:60].decode(errors="replace") for part in (there, here)]
    raise MismatchError(f"{shown[0]}, where the program writes {shown[1]}{hint}", name, line)
