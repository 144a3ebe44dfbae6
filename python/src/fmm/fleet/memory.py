"""An estimate of the memory for the rows that traces need, from a coarse grid that counts the nodes of the network.

`match` keeps a row for each node from which a step needs routes. A row first has the nodes within a third of the bound, and
becomes longer where that is not enough: if positions are more than a sixth of the bound apart, and now and then between others.
"""
from __future__ import annotations

from pathlib import Path
from typing import Any, NamedTuple

import numpy as np

from .common import Progress

MOST_NODES = 1_000_000  # of a larger network, a sample is counted
SHIFTED = 1_000_000_000  # makes all coordinates 0 or more
# Bytes for a node within reach in a straight line. An entry has 16 bytes. Roads are longer than straight lines, which makes rows
# shorter; that some steps ask for longer rows makes them longer. In a city of 140,000 edges, with a position each 30 m to 900 m,
# the estimates are 0.95 to 1.35 times the memory that was used.
NEAR_ENTRY, WHOLE_ENTRY = 20, 14
HEAD = 64  # bytes of a row itself
SLACK = 32 << 20  # bytes of a run for a batch of traces and what else it holds
LOADED = 3  # bytes of a loaded network for each byte of its file; 2.2 to 2.5 were measured


class Reach(NamedTuple):
    """The options of a match that say which rows it needs, in centimetres, with the defaults of the program."""

    bound: int = 300_000
    radius: int = 10_000
    k: int = 8


class Grid:
    """Cells are squares of 2^shift cm; a cell is the number (column << 32) + row. `places` are those of the nodes in centimetres,
    int64[n, 2], of which each stands for `scale` nodes."""

    def __init__(self, places: np.ndarray, scale: int, reach: Reach) -> None:
        self.bound, self.scale, self.k = reach.bound, scale, reach.k
        self.shift = max(12, max(reach.bound // 12, reach.radius).bit_length() - 1)
        self.nodes = np.sort(self.cells(places[:, 0], places[:, 1]))
        self.near, self.whole = self.columns_within(reach.bound // 3), self.columns_within(reach.bound)
        self.entries: dict[int, tuple[int, int, int]] = {}

    @classmethod
    def of_file(cls, network: Path, reach: Reach, progress: Progress) -> Grid:
        """The grid of a network file."""
        places, scale = sampled_nodes(network, progress)
        packed = np.fromiter(places.values(), np.int64, len(places))
        xy = np.stack([packed >> 32, packed & 0xFFFFFFFF], axis=1) - SHIFTED
        return cls(xy, scale, reach)

    @classmethod
    def of_network(cls, network: Any, reach: Reach) -> Grid:
        """The grid of a `Network`."""
        lines = network.lines
        _, first = np.unique(lines.to_node, return_index=True)
        return cls(lines.xy[lines.first[1:] - 1][first], 1, reach)

    def columns_within(self, reach: int) -> list[tuple[int, int]]:
        """The columns of cells within reach: how far to the right each is, and how many cells it has upwards and downwards."""
        side = 1 << self.shift
        far = reach // side
        return [(right, int((reach * reach - right * right * side * side) ** 0.5) // side) for right in range(-far, far + 1)]

    def cell(self, x: int, y: int) -> int:
        return ((x + SHIFTED >> self.shift) << 32) + (y + SHIFTED >> self.shift)

    def cells(self, x: np.ndarray, y: np.ndarray) -> np.ndarray:
        """The cell of each place."""
        return ((x + SHIFTED >> self.shift) << 32) + (y + SHIFTED >> self.shift)

    def counts(self, cells: np.ndarray, columns: list[tuple[int, int]]) -> np.ndarray:
        """How many nodes each cell and the cells around it have."""
        total = np.zeros(len(cells), np.int64)
        for right, high in columns:
            middle = cells + (right << 32)
            total += np.searchsorted(self.nodes, middle + high, "right") - np.searchsorted(self.nodes, middle - high)
        return total * self.scale

    def bytes_of(self, cells: np.ndarray, positions: np.ndarray, distant: np.ndarray) -> np.ndarray:
        """The memory for the rows of each cell that has so many positions, of which so many have a distant next one."""
        nodes, near, whole = (self.counts(cells, columns) for columns in ([(0, 0)], self.near, self.whole))
        rows, longer = np.minimum(nodes, self.k * positions), np.minimum(nodes, self.k * distant)
        return rows * (NEAR_ENTRY * near + HEAD) + longer * (WHOLE_ENTRY * whole + HEAD)

    def bytes(self, cell: int, positions: int, distant: int) -> int:
        """The memory for the rows of a cell, as bytes_of has it."""
        if cell not in self.entries:
            here = np.array([cell])
            self.entries[cell] = (int(self.counts(here, [(0, 0)])[0]), int(self.counts(here, self.near)[0]),
                                  int(self.counts(here, self.whole)[0]))
        nodes, near, whole = self.entries[cell]
        rows, longer = min(nodes, self.k * positions), min(nodes, self.k * distant)
        return rows * (NEAR_ENTRY * near + HEAD) + longer * (WHOLE_ENTRY * whole + HEAD)

    def bytes_of_run(self, x: np.ndarray, y: np.ndarray, trace: np.ndarray) -> int:
        """The memory for all rows of one run over positions in centimetres, in the order of their traces."""
        import pandas as pd  # here, since the tasks of a fleet start in half the time without it
        apart = np.hypot(np.diff(x).astype(np.float64), np.diff(y).astype(np.float64)) * 6 > self.bound
        distant = np.concatenate([[False], apart & (np.diff(trace) == 0)])[:len(x)]
        number, cells = pd.factorize(self.cells(x, y))
        positions = np.bincount(number, minlength=len(cells))
        return int(self.bytes_of(cells, positions, np.bincount(number, distant, len(cells)).astype(np.int64)).sum())


def sampled_nodes(network: Path, progress: Progress) -> tuple[dict[int, int], int]:
    """The places of nodes at which edges begin or end, and how many nodes stand for each. Records that FMM would refuse are left
    out. The first edge of a node gives its place: the links of turn restrictions are far away from their nodes, and come last."""
    places: dict[int, int] = {}
    bits = 0
    with open(network, "rb") as file:
        for line in file:
            progress.add(len(line))
            fields = line.split(b",", 3)
            try:
                points = fields[3].split(b";")
                ends = [(int(field.strip(b' \t"')), points[at].strip(b' \t\r\n"').split())
                        for field, at in ((fields[1], 0), (fields[2], -1))]
                found = [(node, (int(x) + SHIFTED << 32) + int(y) + SHIFTED) for node, (x, y) in ends]
            except (IndexError, ValueError):
                continue
            for node, place in found:
                if not (bits and spread(node) & (1 << bits) - 1):
                    places.setdefault(node, place)
            if len(places) > MOST_NODES:
                bits += 1
                places = {node: place for node, place in places.items() if not spread(node) & (1 << bits) - 1}
    return places, 1 << bits


def spread(node: int) -> int:
    """A number whose last bits are mixed, so that they choose a fair sample."""
    return (node * 0x9E3779B97F4A7C15 & 0xFFFFFFFFFFFFFFFF) >> 40


def place_on_curve(cell: int, shift: int) -> int:
    """The place of a cell on a Hilbert curve: cells that are near on the curve are near on the map."""
    x, y = cell >> 32, cell & 0xFFFFFFFF
    bits = 32 - shift
    last, along = (1 << bits) - 1, 0
    for bit in range(bits - 1, -1, -1):
        right, up = x >> bit & 1, y >> bit & 1
        along = along * 4 + (3 * right ^ up)
        if not up:
            if right:
                x, y = last - x, last - y
            x, y = y, x
    return along


def free_memory() -> int:
    """The bytes of memory that this machine has free, or this process's group if that has fewer."""
    with open("/proc/meminfo") as file:
        free = next((int(line.split()[1]) << 10 for line in file if line.startswith("MemAvailable:")), 0)
    try:
        limit, used = (Path("/sys/fs/cgroup", name).read_text().strip() for name in ("memory.max", "memory.current"))
        return free if limit == "max" else min(free, max(0, int(limit) - int(used)))
    except (OSError, ValueError):
        return free


def memory_of_run(network: Any, x: np.ndarray, y: np.ndarray, trace: np.ndarray, reach: Reach) -> int:
    """The bytes that one run over these positions may need: the network, its rows and a batch of traces. Places are whole
    centimetres."""
    rows = Grid.of_network(network, reach).bytes_of_run(x, y, trace)
    return SLACK + LOADED * network.path.stat().st_size + rows
