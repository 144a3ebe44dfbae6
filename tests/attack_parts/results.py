"""Results of a match: a folder of tables that is opened again."""
from __future__ import annotations

import os
from pathlib import Path

import pandas as pd

import fmm
from fmm.errors import FmmError
from fmm.network import Network
from fmm.options import Options

from . import common
from .common import AS_CLEAN, TOP, Draw, hold, line_fault, refusal

BYTE_FAULTS = [common.cut, common.cut_anywhere, common.changed_byte, common.dropped_byte, common.with_carriage_returns,
               common.inserted(b"0", "a zero")]
TABLES = ("points", "routes", "edges")


class Results:
    """The tables of a match, with faults in one or two. What is not refused has the same tables."""

    def __init__(self, room: Path) -> None:
        small = TOP / "recipes" / "small"
        network = Network.from_osm(small / "village.osm", crs="32N")
        self.folder = room / "result"
        fmm.match(network, small / "walk.gpx", options=Options(gap=300.0, workers=1)).to_file(self.folder)
        self.clean = {name: (self.folder / name).read_bytes() for name in sorted(os.listdir(self.folder))}
        self.tables = self.opened()

    def opened(self) -> dict[str, pd.DataFrame]:
        """The tables as they are read."""
        matches = fmm.open_matches(self.folder)
        return {name: pd.DataFrame(getattr(matches, name)).astype(str) for name in TABLES}

    def case(self, draw: Draw) -> str:
        """See Kind."""
        files = dict(self.clean)
        for _ in range(1 + draw.below(2)):
            name = draw.one(list(files))
            draw.say(name)
            if draw.coin():
                files[name] = b"\n".join(line_fault(draw, files[name].split(b"\n")))
            elif files[name]:
                files[name] = draw.one(BYTE_FAULTS)(draw, files[name])
        for name, data in files.items():
            (self.folder / name).write_bytes(data)
        try:
            found = self.opened()
        except FmmError as fault:
            return refusal(fault, *self.clean)
        hold(all(found[name].equals(self.tables[name]) for name in TABLES), "other tables")
        return AS_CLEAN
