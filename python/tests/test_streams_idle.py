"""`fmm streams --idle`: its text is that of a plain account of the drives, each of which is followed by `fmm follow`."""
from __future__ import annotations

import subprocess
from collections.abc import Sequence
from dataclasses import dataclass, field
from itertools import takewhile
from pathlib import Path
from typing import NamedTuple, Optional

import pytest
from hypothesis import given, strategies as st
from profiles import slow

from fmm import _programs

NEVER = 2 ** 32 - 1  # seconds
LONGEST = 100_000  # positions of a drive
PROGRAM = _programs.program(False)


class Row(NamedTuple):
    """A line of a trace file."""

    id: int
    x: int
    y: int
    time: int


@dataclass
class Drive:
    """A drive, with its place among all drives in the order of their first rows, and the greatest time of its rows."""

    place: int
    rows: list[Row] = field(default_factory=list)
    newest: int = 0

    def add(self, row: Row) -> None:
        """Takes its next row."""
        self.rows.append(row)
        self.newest = max(self.newest, row.time)


class Fleet:
    """Takes rows, and notes in which order drives go on and end: `events` has a drive and the number of its row, or None if it
    ends."""

    def __init__(self, idle: int) -> None:
        self.idle, self.clock = idle, 0
        self.drives: list[Drive] = []
        self.open: dict[int, Drive] = {}  # by id, in the order of their first rows
        self.events: list[tuple[Drive, Optional[int]]] = []

    def take(self, row: Row) -> None:
        """Takes the next row of the file."""
        self.clock = max(self.clock, row.time)
        for drive in [drive for drive in self.open.values() if drive.newest + self.idle < self.clock]:
            self.end(drive)
        if row.id in self.open and len(self.open[row.id].rows) == LONGEST:
            self.end(self.open[row.id])
        if row.id not in self.open:
            self.open[row.id] = Drive(len(self.drives))
            self.drives.append(self.open[row.id])
        drive = self.open[row.id]
        self.events.append((drive, len(drive.rows)))
        drive.add(row)

    def end(self, drive: Drive) -> None:
        """Ends an open drive."""
        del self.open[drive.rows[0].id]
        self.events.append((drive, None))

    def finish(self) -> None:
        """Ends all drives."""
        for drive in list(self.open.values()):
            self.end(drive)


def trace_text(rows: Sequence[Row]) -> str:
    """A trace file."""
    return "trace,x,y,time\n" + "".join(f"{','.join(map(str, row))}\n" for row in rows)


def run(folder: Path, command: str, text: str, words: Sequence[str], status: int = 0) -> str:
    """What a command writes for a trace file."""
    (folder / "traces.csv").write_text(text)
    done = subprocess.run([str(PROGRAM), command, str(folder / "net.csv"), str(folder / "traces.csv"), *words],
                          capture_output=True, text=True, check=False)
    assert done.returncode == status, done.stderr
    return done.stdout


class Followed:
    """What `follow` writes of drives: for each its lines in groups, one for each row and one for its end; and the total line."""

    def __init__(self, folder: Path, drives: Sequence[Drive], words: Sequence[str]) -> None:
        rows = [row._replace(id=drive.place) for drive in drives for row in drive.rows]
        lines = run(folder, "follow", trace_text(rows), words).splitlines(keepends=True)
        self.total = lines.pop()
        self.groups: list[list[list[str]]] = []
        for line in lines:
            word = line.split()[0]
            if word == "trace":
                self.groups.append([[line]])
            elif word == "finish" or word == "fix" and line != "fix 0\n":
                self.groups[-1].append([line])
            else:
                self.groups[-1][-1].append(line)

    def lines(self, drive: Drive, row: Optional[int]) -> list[str]:
        """The lines of a row, or those of the end, led by the id."""
        number, id_ = drive.place, drive.rows[0].id
        group = self.groups[number][len(drive.rows) if row is None else row]
        return [f"{id_} " + line.replace(f"trace {number}\n", f"trace {id_}\n").replace(f"end {number}\n", f"end {id_}\n")
                for line in group]


def expected(folder: Path, rows: Sequence[Row], idle: int, words: Sequence[str]) -> str:
    """The text of `streams --idle` for these rows."""
    fleet = Fleet(idle)
    for row in rows:
        fleet.take(row)
    fleet.finish()
    followed = Followed(folder, fleet.drives, words)
    return "".join(line for event in fleet.events for line in followed.lines(*event)) + followed.total


def before_fault(folder: Path, rows: Sequence[Row], idle: int, words: Sequence[str]) -> str:
    """The same where a fault follows these rows: the last rows of one id are not matched, and no drive ends with the file."""
    last = len(list(takewhile(lambda row: row.id == rows[-1].id, reversed(rows))))
    fleet = Fleet(idle)
    for row in rows[:len(rows) - last]:
        fleet.take(row)
    events = list(fleet.events)
    followed = Followed(folder, fleet.drives, words)
    return "".join(line for event in events for line in followed.lines(*event))


def network() -> str:
    """Streets in both directions between four rows of four corners, 100 m apart."""
    lines, corners = [], [(x, y) for x in range(4) for y in range(4)]
    for x, y in corners:
        for u, v in ((x + 1, y), (x, y + 1)):
            if (u, v) in corners:
                for (a, b), (c, d) in (((x, y), (u, v)), ((u, v), (x, y))):
                    lines.append(f"{len(lines) + 1},{4 * a + b},{4 * c + d},{10000 * a} {10000 * b};{10000 * c} {10000 * d}\n")
    return "edge,from,to,line\n" + "".join(lines)


@pytest.fixture(scope="module")
def folder(tmp_path_factory: pytest.TempPathFactory) -> Path:
    """A folder with a network."""
    made = tmp_path_factory.mktemp("streams")
    (made / "net.csv").write_text(network())
    return made


@st.composite
def files(draw: st.DrawFn) -> list[Row]:
    """Rows of a few vehicles, whose times mostly rise by a few seconds, and whose places are near streets or not."""
    rows, time = [], draw(st.sampled_from([0, 100, NEVER - 100]))
    for _ in range(draw(st.integers(0, 60))):
        time = min(NEVER, max(0, time + draw(st.sampled_from([0, 0, 1, 1, 2, 3, 5, 10, 11, -1, -4, -30]))))
        x, y = draw(st.integers(-4, 64)), draw(st.integers(0, 6))
        rows.append(Row(draw(st.integers(0, 4)), 500 * x, 5000 * y + draw(st.integers(-9, 9)), time))
    return rows


idles = st.sampled_from([1, 2, 3, 5, 10, 11, 20, 30, NEVER - 1, NEVER])
options = st.sampled_from([(), ("--gap", "4"), ("--back", "2000", "--radius", "3000"), ("--bound", "12000", "--k", "2")])


@slow
@given(rows=files(), idle=idles, words=options)
def test_each_drive_is_followed_as_if_alone(folder: Path, rows: list[Row], idle: int, words: tuple[str, ...]) -> None:
    wanted = expected(folder, rows, idle, words)
    assert run(folder, "streams", trace_text(rows), [*words, "--idle", str(idle)]) == wanted


@slow
@given(rows=files(), words=options)
def test_with_the_greatest_number_no_drive_ends_early(folder: Path, rows: list[Row], words: tuple[str, ...]) -> None:
    text = trace_text(rows)
    assert run(folder, "streams", text, [*words, "--idle", str(NEVER)]) == run(folder, "streams", text, words)


@slow
@given(rows=files(), idle=idles, words=options)
def test_drives_end_before_a_fault_of_the_file(folder: Path, rows: list[Row], idle: int, words: tuple[str, ...]) -> None:
    wanted = before_fault(folder, rows, idle, words)
    assert run(folder, "streams", trace_text(rows) + "1,x,0,0\n", [*words, "--idle", str(idle)], status=6) == wanted


@slow
@given(rows=files(), idle=idles)
def test_without_times_no_drive_ends_early(folder: Path, rows: list[Row], idle: int) -> None:
    text = "trace,x,y\n" + "".join(f"{row.id},{row.x},{row.y}\n" for row in rows)
    assert run(folder, "streams", text, ["--idle", str(idle)]) == run(folder, "streams", text, [])


@pytest.mark.parametrize("words, status", [(["--idle", "60"], 0), ([], 1)])
def test_drives_that_ended_take_no_memory(folder: Path, words: list[str], status: int) -> None:
    """30 MB are enough for 100,000 ids that report once each, a second apart, exactly if their drives end."""
    (folder / "once.csv").write_text(trace_text([Row(i, 500, 5000, i) for i in range(100_000)]))
    within = ["sh", "-c", 'ulimit -v 30000 && exec "$@"', "sh"]
    done = subprocess.run([*within, str(PROGRAM), "streams", "net.csv", "once.csv", *words], cwd=folder, capture_output=True,
                          check=False)
    assert (done.returncode, done.stderr) == (status, b"fmm: out of memory\n" if status else b"")
