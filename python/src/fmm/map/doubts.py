"""Where a match is in doubt: another road would have cost little more, or a drive breaks into pieces."""
from __future__ import annotations

from dataclasses import dataclass, field
from typing import TYPE_CHECKING, Any, Dict, List

import numpy as np
import pandas as pd

from .._summaries import seconds_of
from .margins import options_of

if TYPE_CHECKING:
    from ..matches import Matches

SMALL = 3_000.0  # a margin below this is small: the other road is at least exp(-3) = 5 % as likely
PLACES = 20  # that are listed
NO_CANDIDATE, GAP, NO_ROUTE = "no edge in reach", "gap", "no route"


@dataclass
class Doubts:
    """What to look at. `small`, `broken` and `far` are bool for each row of `points`."""

    limit: float
    small: np.ndarray  # its margin is below the limit
    broken: np.ndarray  # a piece ends or begins here, and the drive goes on
    far: np.ndarray  # no edge is in reach
    reason: np.ndarray  # object: of a broken piece, "" elsewhere
    edge: np.ndarray  # bool for each row of `edges`: a position in doubt is on it
    lines: List[str] = field(default_factory=list)
    places: List[Dict[str, Any]] = field(default_factory=list)


def doubts_of(matches: Matches, limit: float = SMALL) -> Doubts:
    """The doubts of a match. Without a column `margin` in points only breaks are known."""
    points = matches.points
    margin = points["margin"].to_numpy(np.float64) if "margin" in points else np.full(len(points), np.nan)
    with np.errstate(invalid="ignore"):
        small = margin < limit
    broken, reason = breaks(matches)
    far = (points["edge"].isna() & points["point"].notna()).to_numpy()
    found = Doubts(limit, small, broken, far, reason, np.zeros(len(matches.edges), bool))
    found.edge = edges_in_doubt(matches, small)
    found.lines = report_lines(matches, found, "margin" in points)
    found.places = worst_places(points, margin, found)
    return found


def breaks(matches: Matches) -> tuple[np.ndarray, np.ndarray]:
    """The rows at which pieces end or begin inside a drive, and why, as text."""
    points, routes = matches.points, matches.routes
    broken, reason = np.zeros(len(points), bool), np.full(len(points), "", object)
    trace, piece = routes["trace"].to_numpy(), routes["piece"].to_numpy()
    same = np.flatnonzero((trace[1:] == trace[:-1]) & (piece[1:] == piece[:-1] + 1))
    before, after = routes["last_row"].to_numpy()[same], routes["first_row"].to_numpy()[same + 1]
    point = points["point"].to_numpy(dtype=np.int64, na_value=-1)
    time = seconds_of(points["time"])
    options = options_of(matches)
    gap, bound = (None, None) if options is None else (options.gap, options.bound)
    with np.errstate(invalid="ignore"):
        paused = time[after] - time[before] > (np.inf if gap is None else gap)
    apart = (point[after] - point[before] > 1) & (point[before] >= 0) & (point[after] >= 0)
    why = np.full(len(same), NO_ROUTE if bound is None else f"{NO_ROUTE} within {bound:,g} m", object)
    why[paused] = GAP if gap is None else f"{GAP} of more than {gap:,g} s"
    why[apart] = NO_CANDIDATE
    for rows, text in ((before, "the piece ends here: "), (after, "a piece begins here: ")):
        broken[rows] = True
        reason[rows] = text + why
    return broken, reason


def edges_in_doubt(matches: Matches, small: np.ndarray) -> np.ndarray:
    """Which driven edges have a position of small margin."""
    names = ["trace", "piece", "edge"]
    rows = matches.points.loc[small, names].dropna()
    keys = pd.MultiIndex.from_frame(pd.DataFrame({name: rows[name].astype(np.int64) for name in names}))
    asked = pd.MultiIndex.from_frame(pd.DataFrame({name: matches.edges[name].astype(np.int64) for name in names}))
    return np.asarray(asked.isin(keys), bool)


def share(part: float, whole: float) -> str:
    return f"{100 * part / whole:.1f} %" if whole else "none"


def report_lines(matches: Matches, doubts: Doubts, margins: bool) -> List[str]:
    """Shares of what is in doubt."""
    points, routes, edges = matches.points, matches.routes, matches.edges
    without = int(points["edge"].isna().sum())
    names = ["trace", "piece"]
    marked = points.loc[doubts.small | doubts.broken, names].dropna().drop_duplicates()
    metres = edges["metres"].to_numpy()
    unsure = float(metres[doubts.edge].sum())
    lines = [f"positions without an edge: {without:,} of {len(points):,} ({share(without, len(points))})",
             f"pieces in doubt: {len(marked):,} of {len(routes):,} ({share(len(marked), len(routes))})"]
    if margins:
        lines += [f"positions with a margin below {doubts.limit:,g}: {int(doubts.small.sum()):,}",
                  f"driven in doubt: {unsure / 1000:,.1f} of {metres.sum() / 1000:,.1f} km ({share(unsure, metres.sum())})"]
    for text, count in pd.Series(doubts.reason[doubts.broken]).value_counts().items():
        if str(text).startswith("the piece ends"):
            lines.append(f"broken drives: {count:,}: {str(text).partition(': ')[2]}")
    return lines


def worst_places(points: pd.DataFrame, margin: np.ndarray, doubts: Doubts) -> List[Dict[str, Any]]:
    """The edges with the most positions in doubt; of equal ones first that with the least margin. `row` is the worst position."""
    rows = np.flatnonzero((doubts.small | doubts.broken) & points["edge"].notna().to_numpy())
    if not len(rows):
        return []
    table = pd.DataFrame({"edge": points["edge"].to_numpy(dtype=np.int64, na_value=-1)[rows], "row": rows,
                          "least": np.where(np.isnan(margin[rows]), np.inf, margin[rows]), "broken": doubts.broken[rows]})
    table = table.sort_values(["least", "row"], kind="stable")
    found = table.groupby("edge", sort=False).agg(count=("row", "size"), row=("row", "first"), least=("least", "first"),
                                                  broken=("broken", "sum")).reset_index()
    found = found.sort_values(["count", "least", "edge"], ascending=[False, True, True], kind="stable").head(PLACES)
    names = points["name"].to_numpy(object)
    return [{"edge": int(one.edge), "name": names[one.row] or "", "positions": int(one.count_), "broken": int(one.broken),
             "least": None if np.isinf(one.least) else float(one.least), "row": int(one.row)}
            for one in found.rename(columns={"count": "count_"}).itertuples(index=False)]
