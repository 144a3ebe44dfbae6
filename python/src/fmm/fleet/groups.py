"""Groups the traces of a file by place: each group is a trace file of its own, FOLDER/groups/NUMBER.csv.

In a group the traces keep the order of the file and have the ids 0, 1, 2 .., so that each trace stays a trace of its own. The
file FOLDER/index has a line `GROUP ID POSITIONS` for each trace, in the order of the file. Sorting is done by GNU sort, on disk.
"""
from __future__ import annotations

import contextlib
import hashlib
import math
import os
import shutil
import subprocess
from collections.abc import Iterator
from dataclasses import dataclass
from pathlib import Path
from typing import Any, Optional

from .._output import Outputs
from ..errors import FmmError, InputError
from .common import number_name
from .memory import Grid, place_on_curve
from .trace_file import Position, TraceFile

LEAST_POSITIONS = 20_000  # smaller groups cost more for loading the network than for matching
HELD = 64 << 20  # bytes of groups that wait in memory to be written

Group = dict[str, Any]


@dataclass(frozen=True)
class Limits:
    """What a group may have: bytes for the rows of the table, and positions. Without `most` each of the jobs gets two groups."""

    room: int
    most: Optional[int]
    jobs: int

    def positions(self, all_positions: int) -> int:
        """The most positions of a group of so many in all."""
        return self.most or max(LEAST_POSITIONS, -(-all_positions // (2 * self.jobs)))


class Sorter:
    """GNU sort as a process: write lines to it in a `with` block, then read them in the order of their first numbers."""

    def __init__(self, folder: Path) -> None:
        self.folder = folder / "sort"
        self.folder.mkdir(exist_ok=True)
        try:
            self.process = subprocess.Popen(
                ["sort", "-n", "-s", "-k1,1", "-S", "256M", "-T", self.folder], stdin=subprocess.PIPE, stdout=subprocess.PIPE,
                stderr=subprocess.DEVNULL, env={**os.environ, "LC_ALL": "C"}, text=True)
        except OSError as fault:
            raise FmmError(f"cannot run sort: {fault.strerror}") from None

    def __enter__(self) -> Sorter:
        return self

    def __exit__(self, *_: object) -> None:
        """Ends the process, if it was left before its end."""
        self.process.kill()
        for pipe in (self.process.stdin, self.process.stdout):
            with contextlib.suppress(BrokenPipeError):  # lines that were not written yet
                assert pipe
                pipe.close()
        self.process.wait()

    def failed(self) -> FmmError:
        return FmmError(f"sort failed; is there room in {self.folder}?")

    def write(self, line: str) -> None:
        assert self.process.stdin
        try:
            self.process.stdin.write(line)
        except BrokenPipeError:
            raise self.failed() from None

    def lines(self) -> Iterator[str]:
        assert self.process.stdin and self.process.stdout
        try:
            self.process.stdin.close()
        except BrokenPipeError:
            pass
        yield from self.process.stdout
        if self.process.wait():
            raise self.failed()


def count_cells(positions: list[Position], grid: Grid) -> dict[int, list[int]]:
    """For each cell its positions, and how many of them are more than a sixth of the bound from the next one or from none."""
    cells: dict[int, list[int]] = {}
    last: Optional[Position] = None
    for position in positions:
        counts = cells.setdefault(grid.cell(position.x, position.y), [0, 0])
        counts[0] += 1
        if last is not None and math.hypot(position.x - last.x, position.y - last.y) * 6 > grid.bound:
            counts[1] += 1
        last = position
    return cells


def sort_by_place(traces: TraceFile, grid: Grid, sorter: Sorter) -> tuple[int, int]:
    """Gives each trace to the sorter: the place on a curve, number, id, positions, and its cells with their counts. Returns the
    numbers of traces and positions."""
    count = points = 0
    for trace, positions in traces.traces():
        cells = count_cells(positions, grid)
        place = place_on_curve(max(cells, key=lambda cell: cells[cell][0]), grid.shift)
        where = " ".join(f"{cell}:{many}:{distant}" for cell, (many, distant) in cells.items())
        sorter.write(f"{place} {count} {trace} {len(positions)} {where}\n")
        count += 1
        points += len(positions)
    return count, points


class Filling:
    """The group that is being filled, with its positions by cell."""

    def __init__(self, grid: Grid) -> None:
        self.grid, self.held = grid, 0
        self.cells: dict[int, tuple[int, int]] = {}

    def more(self, cell: int, many: int, distant: int) -> int:
        """The memory that these positions of a cell add."""
        before = self.cells.get(cell, (0, 0))
        return self.grid.bytes(cell, before[0] + many, before[1] + distant) - self.grid.bytes(cell, *before)

    def add(self, where: list[tuple[int, int, int]]) -> None:
        for cell, many, distant in where:
            self.held += self.more(cell, many, distant)
            before = self.cells.get(cell, (0, 0))
            self.cells[cell] = before[0] + many, before[1] + distant


def fill_groups(lines: Iterator[str], grid: Grid, room: int, most: int, sorter: Sorter) -> list[Group]:
    """Fills groups in the order of place, gives `number group id positions` to the sorter, and returns the groups' sizes."""
    groups: list[Group] = []
    filling = Filling(grid)
    for line in lines:
        _, number, trace, points, *words = line.split()
        where = []
        for word in words:
            cell, many, distant = word.split(":")
            where.append((int(cell), int(many), int(distant)))
        more = sum(filling.more(*counts) for counts in where)
        if not groups or filling.held + more > room or groups[-1]["points"] + int(points) > most:
            groups.append({"traces": 0, "points": 0})
            filling = Filling(grid)
        filling.add(where)
        groups[-1]["traces"] += 1
        groups[-1]["points"] += int(points)
        groups[-1]["rows"] = filling.held
        sorter.write(f"{number} {len(groups)} {trace} {points}\n")
    return groups


class Writers:
    """The files of the groups; lines wait in memory, so that few files are open at a time."""

    def __init__(self, folder: Path, header: str, groups: int) -> None:
        self.folder, self.size = folder, 0
        self.held: dict[int, list[bytes]] = {}
        self.header = header.encode() + b"\n"
        self.digests = [hashlib.sha256(self.header) for _ in range(groups)]
        for number in range(1, groups + 1):
            self.path(number).write_bytes(self.header)

    def path(self, number: int) -> Path:
        return self.folder / f"{number_name(number)}.csv"

    def add(self, number: int, text: bytes) -> None:
        self.held.setdefault(number, []).append(text)
        self.size += len(text)
        if self.size > HELD:
            self.flush()

    def flush(self) -> None:
        for number, texts in self.held.items():
            text = b"".join(texts)
            self.digests[number - 1].update(text)
            with open(self.path(number), "ab") as file:
                file.write(text)
        self.held, self.size = {}, 0


def write_groups(folder: Path, traces: TraceFile, places: Iterator[str], groups: list[Group]) -> str:
    """Reads the trace file again and writes each trace to its group; returns the checksum of the index."""
    shutil.rmtree(folder / "groups", ignore_errors=True)
    (folder / "groups").mkdir()
    writers = Writers(folder / "groups", traces.header, len(groups))
    next_id, digest = [0] * len(groups), hashlib.sha256()
    changed = InputError("was changed while it was read", traces.path)
    with Outputs() as outputs:
        index = outputs.open(folder / "index", binary=True)
        for trace, positions in traces.traces():
            place = next(places, None)
            if place is None:
                raise changed
            _, group, wanted, points = map(int, place.split())
            if (wanted, points) != (trace, len(positions)):
                raise changed
            number = b"%d," % next_id[group - 1]
            next_id[group - 1] += 1
            writers.add(group, b"".join(number + b",".join(position.fields) + b"\n" for position in positions))
            line = b"%d %d %d\n" % (group, trace, points)
            index.write(line)
            digest.update(line)
        if next(places, None) is not None:
            raise changed
        writers.flush()
    for written, digest_of_group in zip(groups, writers.digests):
        written["sha256"] = digest_of_group.hexdigest()
    return digest.hexdigest()


def make_groups(folder: Path, traces: TraceFile, grid: Grid, limits: Limits) -> tuple[dict[str, Any], list[int]]:
    """Makes the groups and the index; returns what the manifest says of them, and the numbers of groups beyond the memory."""
    with Sorter(folder) as by_place, Sorter(folder) as by_number:
        count, points = sort_by_place(traces, grid, by_place)
        first = traces.checksum
        groups = fill_groups(by_place.lines(), grid, limits.room, limits.positions(points), by_number)
        index = write_groups(folder, traces, by_number.lines(), groups)
    if traces.checksum != first:
        raise InputError("was changed while it was read", traces.path)
    shutil.rmtree(folder / "sort", ignore_errors=True)
    large = [number for number, group in enumerate(groups, 1) if group.pop("rows") > limits.room]
    return {"traces": first, "count": count, "points": points, "index": index, "groups": groups}, large
