"""The report of a match: what was chosen and why, what was left out, what to look at."""
from __future__ import annotations

from dataclasses import asdict, dataclass, field
from typing import TYPE_CHECKING, Any, Dict, List

import numpy as np

from .options import centimetres

if TYPE_CHECKING:
    from .matches import Matches

FEW = 0.1  # of the positions with an edge: the match is of little use


@dataclass
class Report:
    """What happened to the positions.

    positions, matched   rows of the input, and those with an edge
    vehicles, drives, pieces   ids, traces, and pieces of road
    options, reasons     by name: the value, and why it was chosen
    left_out             reason: number of rows without an edge
    broken               reason: how often a drive is broken into two pieces
    warnings             what to look at first
    notes                lines about the input
    """

    positions: int = 0
    matched: int = 0
    vehicles: int = 0
    drives: int = 0
    pieces: int = 0
    metres: float = 0.0
    projection: str = ""
    options: Dict[str, Any] = field(default_factory=dict)
    reasons: Dict[str, str] = field(default_factory=dict)
    left_out: Dict[str, int] = field(default_factory=dict)
    broken: Dict[str, int] = field(default_factory=dict)
    warnings: List[str] = field(default_factory=list)
    notes: List[str] = field(default_factory=list)

    def to_dict(self) -> Dict[str, Any]:
        return asdict(self)

    @property
    def text(self) -> str:
        """The report in lines; warnings come first."""
        lines = [f"warning: {text}" for text in self.warnings]
        share = f" ({100 * self.matched / self.positions:.1f} %)" if self.positions else ""
        lines.append(f"positions: {self.positions:,}, with an edge: {self.matched:,}{share}")
        lines.append(f"vehicles: {self.vehicles:,}, drives: {self.drives:,}, pieces of road: {self.pieces:,}, "
                     f"driven: {self.metres / 1000:,.1f} km")
        lines += [f"without an edge: {count:,}: {reason}" for reason, count in self.left_out.items()]
        lines += [f"broken drives: {count:,}: {reason}" for reason, count in self.broken.items()]
        lines.append(f"projection: {self.projection}")
        for name, value in self.options.items():
            why = f": {self.reasons[name]}" if name in self.reasons else ""
            lines.append(f"option {name}: {value if isinstance(value, str) else 'none' if value is None else f'{value:g}'}{why}")
        return "\n".join([*lines, *(f"note: {note}" for note in self.notes)]) + "\n"

    def __str__(self) -> str:
        return self.text


def report_of(matches: Matches, reasons: Dict[str, str]) -> Report:
    """The report of matches that were just solved. `reasons` say by name why an option was chosen."""
    solution = matches.solution
    assert solution is not None
    places = matches.row_places()
    left_out, counts = np.unique(places.reason[places.street < 0].astype(str), return_counts=True)
    order = np.argsort(-counts, kind="stable")
    report = Report(
        positions=len(places.street), matched=int((places.street >= 0).sum()), vehicles=len(set(solution.ids.tolist())),
        drives=len(solution.text.traces), pieces=len(solution.text.cost), metres=float(solution.driven.metres.sum()),
        projection=solution.network.projection.name, left_out=dict(zip(left_out[order].tolist(), counts[order].tolist())),
        reasons=dict(reasons), broken=broken_of(matches), warnings=list(solution.positions.warnings),
        notes=[*solution.positions.notes, *solution.traces.notes])
    if matches.options is not None:
        report.options = {name: value for name, value in asdict(matches.options).items() if name != "workers"}
    unread = int((solution.positions.left_out["row"] < 0).sum()) if len(solution.positions.left_out) else 0
    if unread:
        report.warnings.append(f"{unread:,} records could not be read as positions")
    if report.positions and report.matched <= FEW * report.positions:
        report.warnings.insert(0, f"{report.positions - report.matched:,} of {report.positions:,} positions have no edge: do the "
                                  "network and the positions cover the same area, in the same projection?")
    report.notes += getattr(solution.network.report, "notes", [])
    return report


def broken_of(matches: Matches) -> Dict[str, int]:
    """How often a drive has another piece after a piece, by the reason."""
    solution = matches.solution
    assert solution is not None
    text = solution.text
    same = np.flatnonzero(text.piece_trace[1:] == text.piece_trace[:-1])
    apart = text.first[1:][same] - text.last[:-1][same] > 1
    times = solution.times[solution.traces.row]
    begins = text.piece_begins
    step = times[begins[1:][same]] - times[(begins + text.last - text.first)[:-1][same]]
    gap = getattr(matches.options, "gap", None)
    paused = ~apart & (step > (np.inf if gap is None else gap))
    counts = {f"positions between have {matches.far}": int(apart.sum()), "a pause longer than gap": int(paused.sum()),
              f"no route{within(matches)} leads on": int((~apart & ~paused).sum())}
    return {reason: count for reason, count in counts.items() if count}


def within(matches: Matches) -> str:
    """The bound of routes, if it is known."""
    return "" if matches.options is None else f" within {centimetres(matches.options.bound) / 100:g} m"
