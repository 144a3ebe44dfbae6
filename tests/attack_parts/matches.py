"""Whole matches of tables: the rows that are left are matched as in a table that has only them."""
from __future__ import annotations

from pathlib import Path

import pandas as pd

import fmm
from fmm.errors import FmmError
from fmm.network import Network
from fmm.options import Options

from .common import AS_CLEAN, NAMED, TOP, Draw, hold, refusal
from .tables import HEADER, Row, add_fault, make_rows

SAME = ["id", "edge", "offset", "distance", "piece", "point"]


class Matches:
    """A table with faults of rows, matched on the village."""

    def __init__(self, room: Path) -> None:
        self.room = room
        network = Network.from_osm(TOP / "recipes" / "small" / "village.osm", crs="32N")
        self.network = Network.open(network.save(room / "network.csv"))

    def case(self, draw: Draw) -> str:
        """See Kind."""
        rows = make_rows(draw, 2 + draw.below(8))
        for _ in range(1 + draw.below(3)):
            add_fault(draw, rows, draw.below(7) < 5)
        path = self.room / "rows.csv"
        path.write_text("".join(line + "\n" for line in [",".join(HEADER), *(row.line for row in rows)]), encoding="utf-8")
        try:
            points = self.match(path)
        except FmmError as fault:
            return refusal(fault, "rows.csv")
        written = [row for row in rows if row.line != ""]
        hold(len(points) == len(written), f"{len(written)} rows are in the file and {len(points)} in the result")
        hold(((points["reason"] == "") == points["edge"].notna()).all(), "a row has neither an edge nor a reason, or both")
        self.compare(points, written)
        return NAMED if (points["reason"] != "").any() else AS_CLEAN

    def match(self, path: Path) -> pd.DataFrame:
        return fmm.match(self.network, path, options=Options(gap=300.0, workers=1)).points

    def compare(self, points: pd.DataFrame, rows: list[Row]) -> None:
        """The rows that have a trace are matched as a table of their own."""
        kept = [place for place, named in enumerate(points["point"].notna()) if named]
        said = [rows[place].said for place in kept]
        hold(None not in said, f"a row that says nothing was matched: {[rows[place].line for place in kept]}")
        if not kept:
            return
        wanted = [rows[place] for place in kept]
        path = self.room / "kept.csv"
        path.write_text("".join(line + "\n" for line in [",".join(HEADER), *(row.line for row in wanted)]), encoding="utf-8")
        alone = self.match(path)
        for name in SAME:
            found, known = points[name].iloc[kept].astype(str).tolist(), alone[name].astype(str).tolist()
            hold(found == known, f"{name} is {found} and without the other rows {known}")
