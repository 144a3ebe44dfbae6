"""A running service for tests, and drives on a grid of streets."""
from __future__ import annotations

import json
import os
import re
import select
import signal
import subprocess
import time
from collections.abc import Iterator, Sequence
from contextlib import contextmanager
from pathlib import Path
from typing import Any, Optional

import forks
import geopandas
import numpy as np
import pytest
from shapely.geometry import LineString

from fmm import Network, _programs
from fmm._match_text import MatchText, read_match

httpx = pytest.importorskip("httpx", reason="python3-httpx is not installed")
TOP = Path(__file__).resolve().parents[2]
X, Y = 500_000.0, 6_000_000.0  # metres of EPSG:32632
STEP = 100.0
# How tests ask a service: reading the certificates, which no test needs, takes longer than most requests.
PLAIN: dict[str, Any] = {"timeout": 60, "verify": False}


class Service:
    """`./fmm serve` on a free port."""

    def __init__(self, process: subprocess.Popen[str], url: str) -> None:
        self.process, self.url = process, url
        self.client = httpx.Client(base_url=url, **PLAIN)

    def match(self, places: np.ndarray, **options: Any) -> dict[str, Any]:
        """The answer of GET /match/v1."""
        return self.client.get(f"/match/v1/car/{coordinates(places)}", params=options).json()

    def children(self) -> tuple[list[int], list[int]]:
        """The process ids of the workers and of their programs."""
        parents = processes()
        forks = [pid for pid, parent in parents.items() if parent == self.process.pid]
        workers = [pid for pid, parent in parents.items() if parent in forks]
        programs = [pid for pid, parent in parents.items() if parent in workers and not is_python(pid)]
        return workers, programs

    def metric(self, name: str) -> float:
        """A value of /metrics."""
        found = re.search(rf"^{name} (\S+)$", self.client.get("/metrics").text, re.MULTILINE)
        assert found, name
        return float(found[1])


def processes() -> dict[int, int]:
    """The parent of each process."""
    found = {}
    for path in Path("/proc").glob("[0-9]*/stat"):
        try:
            text = path.read_text()
        except OSError:
            continue
        found[int(path.parent.name)] = int(text.rpartition(")")[2].split()[1])
    return found


def is_python(pid: int) -> bool:
    """Whether a process runs Python. The programs have other names where they were just built."""
    try:
        return os.readlink(f"/proc/{pid}/exe").rpartition("/")[2].startswith("python")
    except OSError:
        return True


@contextmanager
def running(network: Path, *words: str, given: Optional[int] = None, front: bool = False) -> Iterator[Service]:
    """A service of a network, until the end of the block. `given` is its standard input. With `front` it is started by ./fmm in a
    new Python, as a user does it, and else in a fork."""
    command = ["serve", str(network), "--port", "0", *words]
    process: subprocess.Popen[str]
    if front:
        process = subprocess.Popen([str(TOP / "fmm"), *command], stdin=given, stderr=subprocess.PIPE, text=True)
    else:
        import fmm.commands.serve
        import fmm.service.server  # noqa: F401  so that each fork has all modules
        _programs.program(False)
        process = forks.Process(command, stdin=given, stderr=subprocess.PIPE, text=True)
    try:
        yield Service(process, url_of(process))
    finally:
        process.send_signal(signal.SIGTERM)
        try:
            process.wait(20)
        finally:
            process.kill()
            assert process.stderr
            process.stderr.close()


def url_of(process: subprocess.Popen[str]) -> str:
    """The address that the service says when it is ready."""
    assert process.stderr
    until, said = time.monotonic() + 180, ""  # on a machine that does much else
    while time.monotonic() < until:
        if select.select([process.stderr], [], [], 0.1)[0]:
            line = process.stderr.readline()
            said += line
            found = re.search(r"http://127\.0\.0\.1:[0-9]+", line)
            if found:
                return found[0]
            if not line:
                break
    raise AssertionError(f"the service does not start: {said}")


def grid(side: int = 12) -> Network:
    """A square grid of two-way streets, 100 m apart."""
    lines = []
    for at in range(side):
        for along in range(side - 1):
            a, b, c = STEP * along, STEP * (along + 1), STEP * at
            lines += [LineString([(X + a, Y + c), (X + b, Y + c)]), LineString([(X + c, Y + a), (X + c, Y + b)])]
    names = [f"Street {number}" for number in range(len(lines))]
    return Network.from_geodataframe(geopandas.GeoDataFrame({"name": names}, geometry=lines, crs=32632), columns={"name": "name"})


def drives(count: int, seed: int = 1, side: int = 12, far: float = 0.0) -> list[np.ndarray]:
    """Noisy drives over the grid in metres, of 9 to 39 positions. The share `far` of them is far from all streets."""
    draw = np.random.default_rng(seed)
    found = []
    for _ in range(count):
        steps = int(draw.integers(4, 20))
        corner = draw.integers(0, side, 2)
        places = [corner * STEP]
        for _ in range(steps):
            step = np.array([(1, 0), (0, 1), (-1, 0), (0, -1)][int(draw.integers(0, 4))])
            step = np.where((corner + step < 0) | (corner + step >= side), -step, step)
            places += [(corner + step / 2) * STEP, (corner + step) * STEP]
            corner = corner + step
        noisy = np.array(places) + draw.normal(0, 8, (len(places), 2))
        noisy[draw.random(len(noisy)) < far] += 5_000
        found.append(noisy + [X, Y])
    return found


def degrees(network: Network, metres: np.ndarray) -> np.ndarray:
    """Longitudes and latitudes with seven decimals."""
    x, y = network.projection.to_crs(100 * metres[:, 0], 100 * metres[:, 1], 4326)
    return np.round(np.stack([x, y], axis=1), 7)


def coordinates(places: np.ndarray) -> str:
    """Places as the service takes them."""
    return ";".join(f"{x:.7f},{y:.7f}" for x, y in places)


def matched(network: Network, places: Sequence[np.ndarray], folder: Path, *words: str) -> MatchText:
    """What `fmm match` says of drives in degrees, traces 1, 2, .."""
    traces = np.arange(1, len(places) + 1).repeat([len(place) for place in places])
    x, y = network.projection.to_centimetres(*np.concatenate(places).T, 4326)
    lines = ["trace,x,y\n", *(f"{trace},{a},{b}\n" for trace, a, b in zip(traces.tolist(), x.tolist(), y.tolist()))]
    (folder / "traces.csv").write_text("".join(lines))
    with (folder / "match.txt").open("wb") as out:
        subprocess.run([str(TOP / "fmm"), "match", str(network.path), str(folder / "traces.csv"), *words], stdout=out, check=True)
    return read_match(folder / "match.txt")


def pieces_of(text: MatchText, trace: int) -> list[tuple[list[int], int]]:
    """The edges and the cost of each piece of a trace."""
    return [(text.route[text.route_first[piece]:text.route_first[piece + 1]].tolist(), int(text.cost[piece]))
            for piece in np.flatnonzero(text.piece_trace == trace).tolist()]


def answered(answer: dict[str, Any]) -> list[tuple[list[int], int]]:
    """The same of an answer of the service."""
    return [(matching["edges"], matching["weight"]) for matching in answer.get("matchings", [])]


def blocks(page: str) -> list[tuple[str, Optional[str]]]:
    """The commands of a page with curl, and the answer that the page shows after each, or None."""
    found = re.findall(r"```sh\n(curl.*?)```(?:\n```json\n(.*?)```)?", page, re.DOTALL)
    return [(command, json.dumps(json.loads(text)) if text else None) for command, text in found]


def alive(pid: int) -> bool:
    """Whether a process is there."""
    try:
        os.kill(pid, 0)
    except ProcessLookupError:
        return False
    return True
