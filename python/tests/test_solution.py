"""Streets that a network splits for turn restrictions are one edge in the tables, and routes may come back to their edges."""
from __future__ import annotations

from pathlib import Path

import numpy as np
import pandas as pd

from fmm._lines import Parts
from fmm.matches import Matches
from fmm.matching import match
from fmm.network import Network
from fmm.options import Options

# Street 2 is split at 50 m; edge 4 is a copy of its first part, which leads on from another node.
SPLIT = """edge,from,to,line
1,10,11,0 0;5000 0
2,11,12,5000 0;20000 0
3,12,13,20000 0;20000 20000
4,14,11,0 0;5000 0
5,15,14,0 -20000;0 0
"""


def drive(tmp_path: Path, xs: list[float], ys: list[float]) -> Matches:
    (tmp_path / "n.csv").write_text(SPLIT)
    network = Network.open(tmp_path / "n.csv")
    network.parts = Parts(np.array([2, 2, 3, 2, 5]), np.array([0, 5000, 0, 0, 0]), np.array([5000, 20000, 20000, 5000, 20000]))
    table = pd.DataFrame({"id": "a", "x": xs, "y": ys, "time": 10.0 * np.arange(len(xs))})
    return match(network, table, options=Options.of(radius=15))


def test_parts_of_a_street_are_one_edge(tmp_path: Path) -> None:
    matches = drive(tmp_path, [0, 0, 20, 100, 200, 200], [-150, -50, 1, 1, 20, 120])
    assert matches.edges["edge"].tolist() == [5, 2, 3]
    assert matches.edges["whole"].tolist() == [False, True, False]
    assert matches.edges["metres"].tolist() == [150, 200, 120]
    assert matches.routes["edges"].tolist() == ["5 2 3"]
    assert matches.routes["metres"].tolist() == [470]
    assert matches.points["edge"].tolist() == [5, 5, 2, 2, 3, 3]
    assert matches.points["offset"].tolist() == [50, 150, 20, 100, 20, 120]
    assert [line.length for line in matches.edges.geometry] == [150, 200, 120]
    assert matches.routes.geometry[0].length == 470


def test_a_drive_that_begins_within_a_split_street(tmp_path: Path) -> None:
    matches = drive(tmp_path, [80, 150, 200], [1, 1, 60])
    assert matches.edges["edge"].tolist() == [2, 3]
    assert matches.edges["metres"].tolist() == [120, 60]
    assert matches.points["offset"].tolist() == [80, 150, 60]
    assert matches.edges["seconds"].sum() == 20
