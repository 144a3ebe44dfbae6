"""Matches and pages that the tests of the map share."""
from __future__ import annotations

import base64
import gzip
import json
import re
from pathlib import Path
from typing import Any, Dict, Tuple

import numpy as np
import pandas as pd

import fmm
from fmm.matches import Matches
from fmm.options import Options

BEGIN = 1_700_000_000


def example(top: Path, crs: Any = None, **options: Any) -> Matches:
    """The match of the example. With a CRS its network is at that place."""
    table = pd.read_csv(top / "examples" / "traces.csv").rename(columns={"trace": "vehicle"})
    if crs is not None:
        table["x"], table["y"] = table["x"] + 50_000_000, table["y"] + 600_000_000
    positions = pd.DataFrame({"vehicle": table["vehicle"].astype(str), "x": table["x"] / 100, "y": table["y"] / 100,
                              "time": BEGIN + table["time"]})
    network = fmm.Network.open(moved(top, crs) if crs is not None else top / "examples" / "network.csv", crs=crs)
    given = {} if crs is None else {"crs": crs}
    return fmm.match(network, fmm.read_positions(positions, **given), options=Options.of(**{"gap": 300, **options}))


def moved(top: Path, crs: Any) -> Path:
    """The network of the example, 500 km to the east and 6,000 km to the north."""
    import tempfile
    text = (top / "examples" / "network.csv").read_text().splitlines()
    rows = [re.sub(r"(-?\d+) (-?\d+)(?=;|$)", lambda place: f"{int(place[1]) + 50_000_000} {int(place[2]) + 600_000_000}", line)
            for line in text[1:]]
    path = Path(tempfile.mkdtemp(prefix="fmm-test-")) / "network.csv"
    path.write_text("\n".join([text[0], *rows]) + "\n")
    return path


def opened(html: str) -> Tuple[Dict[str, Any], Dict[str, np.ndarray], Dict[str, np.ndarray]]:
    """What a page has: about, arrays, candidates."""
    about = json.loads(element(html, "about"))
    return about, arrays(html, "arrays", about["arrays"]), arrays(html, "candidates", about["candidates"])


def element(html: str, name: str) -> str:
    found = re.search(rf'<script type="[a-z/]+" id="{name}">(.*?)</script>', html, re.DOTALL)
    assert found is not None
    return found[1]


def arrays(html: str, name: str, index: Dict[str, Any]) -> Dict[str, np.ndarray]:
    data = gzip.decompress(base64.b64decode(element(html, name)))
    return {key: np.frombuffer(data, kind.lower(), length, begin) for key, (kind, begin, length) in index.items()}
