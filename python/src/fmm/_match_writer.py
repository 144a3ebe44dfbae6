"""The text of a match again, from its tables."""
from __future__ import annotations

from typing import Iterator, Optional

import numpy as np
import pandas as pd

from ._match_text import MatchText
from ._ragged import offsets_of


def text_of(points: pd.DataFrame, routes: pd.DataFrame, rows: Optional[int], by_rows: bool) -> bytes:
    """The text that the program wrote. `rows` is the last number of its total line. With `by_rows` the traces have the order of
    the rows of `points`, otherwise that of their numbers."""
    return b"".join(lines_of(arrays_of(points, routes, rows, by_rows)))


def arrays_of(points: pd.DataFrame, routes: pd.DataFrame, rows: Optional[int], by_rows: bool) -> MatchText:
    """The arrays of the text."""
    known = points[points["point"].notna()]
    trace, point = (known[name].to_numpy(np.int64) for name in ("trace", "point"))
    order = np.arange(len(trace)) if by_rows else np.lexsort((point, trace))
    trace, point, known = trace[order], point[order], known.iloc[order]
    first = np.flatnonzero(point == 0)
    position_first = np.append(first, len(point))
    trace_of = np.repeat(np.arange(len(first)), np.diff(position_first))
    offset, distance = (known[name].to_numpy(np.float64) for name in ("offset", "distance"))
    row = pd.Index(known.index).get_indexer(pd.Index(routes["first_row"]))
    last = pd.Index(known.index).get_indexer(pd.Index(routes["last_row"]))
    d2 = np.where(np.isnan(distance), -1, (100 * np.nan_to_num(distance)) ** 2)
    edges = [np.array(text.split(), np.int64) for text in routes["edges"]]
    return MatchText(
        "the tables", "match", trace[first], position_first, trace_of, known["edge"].to_numpy(np.int64, na_value=-1),
        np.rint(np.nan_to_num(100 * offset, nan=-1)).astype(np.int64), np.rint(d2).astype(np.int64),
        trace_of[row], point[row], point[last], routes["cost"].to_numpy(np.int64),
        offsets_of(np.array([len(route) for route in edges], np.int64)),
        np.concatenate(edges) if edges else np.zeros(0, np.int64), rows)


def lines_of(text: MatchText) -> Iterator[bytes]:
    """The lines of a text of match, some at a time."""
    ends = dict(zip((text.piece_begins + text.last - text.first).tolist(), range(len(text.cost))))
    edge, offset, d2 = text.edge.tolist(), text.offset.tolist(), text.d2.tolist()
    bounds: list[int] = text.position_first.tolist()
    first_of: list[int] = text.route_first.tolist()
    for place, trace in enumerate(text.traces.tolist()):
        lines = [f"trace {trace}"]
        for at in range(bounds[place], bounds[place + 1]):
            number = at - bounds[place]
            lines.append(f"at {number} edge {edge[at]} offset {offset[at]} d2 {d2[at]}" if edge[at] >= 0 else f"none {number}")
            if at in ends:
                piece = ends[at]
                route = text.route[first_of[piece]:first_of[piece + 1]].tolist()
                lines.append(f"piece {text.first[piece]} {number} cost {text.cost[piece]} route {' '.join(map(str, route))}")
        yield "\n".join([*lines, f"end {trace}", ""]).encode()
    rows = "" if text.rows is None else f" rows {text.rows}"
    yield f"total traces {len(text.traces)} points {len(edge)} pieces {len(text.cost)}{rows}\n".encode()
