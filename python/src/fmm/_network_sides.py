"""The side files of a network file: what is known of its edges, and what ties them to the network."""
from __future__ import annotations

import os
from dataclasses import dataclass
from pathlib import Path
from typing import TYPE_CHECKING, Any, Dict, List

import numpy as np

from . import _network_file
from ._evidence import part
from ._lines import EdgeLines, Parts
from ._records import Records, read_records
from .errors import InputError, PathText
from .projection import FARTHEST

if TYPE_CHECKING:
    import pandas as pd

COLUMNS = ("direction", "way", "class", "name", "ref", "maxspeed", "oneway")
SIDE = ("edge", "direction", "street", "part_from", "part_to", "way", "class", "name", "ref", "maxspeed", "oneway")


def side_paths(path: PathText) -> tuple[Path, Path]:
    """The names of the two side files of a network file."""
    name = os.fspath(path)
    stem = name[:-4] if name.endswith(".csv") else name
    return Path(f"{stem}.edges.csv"), Path(f"{stem}.json")


def side_table(table: pd.DataFrame, lines: EdgeLines, parts: Parts) -> pd.DataFrame:
    """The table of the edges as it is written: what is known of each edge, without its geometry."""
    written = table.copy()
    written["oneway"] = written["oneway"].astype(int)
    written.insert(0, "edge", lines.ids)
    written["street"] = parts.street
    for name, values in (("part_from", parts.begin), ("part_to", parts.end)):
        written[name] = [f"{value // 100}.{value % 100:02}" for value in values.tolist()]
    return written[[*SIDE, *(name for name in written if name not in SIDE)]]


def links_away(side: dict[str, Any], path: Path) -> tuple[int, int]:
    away = part(side, path, "links_away", kind=list)
    if len(away) != 2 or not all(type(v) is int and abs(v) <= 2 * FARTHEST for v in away):
        raise InputError("is damaged: links_away is no pair of whole numbers", path)
    return away[0], away[1]


@dataclass
class EdgeRecords:
    """The table of the edges as it was read. Its data frame is made when it is asked for, since not all need one."""

    records: Records
    maxspeed: np.ndarray
    oneway: np.ndarray

    @property
    def names(self) -> List[str]:
        """The name of each edge."""
        return self.records.column("name").texts

    def frame(self) -> pd.DataFrame:
        """The table: COLUMNS, and then the further columns."""
        import pandas as pd
        texts: Dict[str, Any] = dict(zip(self.records.header, self.records.columns))
        table = pd.DataFrame(texts, columns=self.records.header, dtype=object)
        table["maxspeed"], table["oneway"] = self.maxspeed, self.oneway
        return table[[*COLUMNS, *(name for name in table if name not in (*SIDE, *COLUMNS))]]


@dataclass
class NoRecords:
    """The table of so many edges of a network file without side files."""

    count: int

    @property
    def names(self) -> List[str]:
        """The name of each edge."""
        return [""] * self.count

    def frame(self) -> pd.DataFrame:
        """The table: COLUMNS."""
        import pandas as pd
        texts = [name for name in COLUMNS if name not in ("maxspeed", "oneway")]
        table = pd.DataFrame({name: np.full(self.count, "", dtype=object) for name in texts})
        table["maxspeed"], table["oneway"] = np.nan, False
        return table[list(COLUMNS)]


def read_edges(path: Path, lines: EdgeLines, away: tuple[int, int]) -> tuple[EdgeRecords, Parts]:
    """The table of the edges and their parts. Refused with InputError: a table that is not of these edges."""
    table = read_records(path, required=SIDE, unique=["edge"])
    edges, street = (table.column(name).whole_numbers(0, _network_file.GREATEST_EDGE) for name in ("edge", "street"))
    if len(edges) != len(lines) or (edges != lines.ids).any():
        raise InputError("has other edges than the network file", path)
    begin, end = (np.rint(100 * table.column(name).numbers(0)).astype(np.int64) for name in ("part_from", "part_to"))
    maxspeed = table.column("maxspeed").numbers(0, empty=np.nan)
    oneway = table.column("oneway").whole_numbers(0, 1).astype(bool)
    return EdgeRecords(table, maxspeed, oneway), Parts(street, begin, end, away)
