"""The durable state of a feed: one SQLite file that one feed uses at a time."""
from __future__ import annotations

import contextlib
import os
import sqlite3
import tempfile
import zlib
from collections import OrderedDict
from collections.abc import Iterable, Iterator
from dataclasses import dataclass
from pathlib import Path
from typing import Any, Optional

from ..errors import FmmError, OutputError
from .ordering import Position

FORM = "2"
REMEMBERED = 100_000  # vehicles in memory; the file has all of them
# `mark` is the checksum of the other columns of a row: a value that something else changed is noticed when the row is read.
TABLES = """
CREATE TABLE setting (name TEXT PRIMARY KEY, value TEXT NOT NULL, mark INTEGER NOT NULL) WITHOUT ROWID;
CREATE TABLE vehicle (id TEXT PRIMARY KEY, number INTEGER NOT NULL, time REAL NOT NULL, positions INTEGER NOT NULL,
                      mark INTEGER NOT NULL) WITHOUT ROWID;
CREATE TABLE drive (number INTEGER PRIMARY KEY, id TEXT NOT NULL, begin REAL NOT NULL, mark INTEGER NOT NULL);
CREATE TABLE waiting (vehicle TEXT, time REAL, x INTEGER NOT NULL, y INTEGER NOT NULL, arrived REAL NOT NULL,
                      mark INTEGER NOT NULL, PRIMARY KEY (vehicle, time)) WITHOUT ROWID;
"""


@dataclass
class Vehicle:
    """A vehicle: the number of its drive, the time of its last position, and how many positions its drive has."""

    number: int
    time: float
    positions: int


def mark_of(table: str, *values: Any) -> int:
    """The checksum of a row."""
    return zlib.crc32(repr((table, values)).encode())


def marked(table: str, *values: Any) -> tuple[Any, ...]:
    """A row with its checksum. Times have to be floats, since SQLite gives them back as floats."""
    return (*values, mark_of(table, *values))


class State:
    """The state in a file. All changes since the last `commit` are lost together if the feed is killed."""

    def __init__(self, path: Path) -> None:
        self.path = path
        self.vehicles: OrderedDict[str, Vehicle] = OrderedDict()
        self.changed: set[str] = set()
        try:
            if not path.exists():
                self._make()
            self.connection = sqlite3.connect(str(path), isolation_level=None, timeout=0)
            with contextlib.ExitStack() as unless_begun:
                unless_begun.callback(self.close)
                self._begin()
                unless_begun.pop_all()
        except OSError as fault:
            raise OutputError(f"{path}: {fault.strerror or fault}") from None
        except sqlite3.OperationalError as fault:
            if "locked" in str(fault):
                raise FmmError(f"{path}: another feed uses this state") from None
            raise OutputError(f"{path}: {fault}") from None
        except sqlite3.DatabaseError as fault:
            raise FmmError(f"{path} is not the state of a feed: {fault}") from None
        self.file = os.stat(path)

    def _make(self) -> None:
        """Makes the file, which appears under its name only when it is complete. If another feed was faster, its file stays."""
        with tempfile.TemporaryDirectory(dir=self.path.parent, prefix=".fmm-") as folder:
            whole = os.path.join(folder, self.path.name)
            self.connection = sqlite3.connect(whole, isolation_level=None)
            with contextlib.closing(self.connection):
                self.connection.execute("BEGIN")
                for statement in TABLES.strip().split(";\n"):
                    self.connection.execute(statement.rstrip(";"))
                self.set("form", FORM)
                self.connection.execute("COMMIT")
            try:
                os.link(whole, self.path)
            except FileExistsError:
                pass
            except OSError:  # no hard links on this file system
                if not self.path.exists():
                    os.rename(whole, self.path)

    def _begin(self) -> None:
        execute = self.connection.execute
        execute("PRAGMA locking_mode = EXCLUSIVE")
        execute("PRAGMA journal_mode = WAL")
        execute("PRAGMA synchronous = FULL")
        execute("BEGIN EXCLUSIVE")
        if execute("PRAGMA quick_check(1)").fetchone()[0] != "ok":
            raise self.damaged()
        found = {name for name, in execute("SELECT name FROM sqlite_master WHERE type = 'table'")}
        if "setting" not in found or self.get("form") != FORM:
            raise FmmError(f"{self.path} is not the state of a feed of this version")
        execute("COMMIT")
        execute("BEGIN")

    def get(self, name: str) -> Optional[str]:
        """A setting, or None."""
        row = self.connection.execute("SELECT * FROM setting WHERE name = ?", (name,)).fetchone()
        return self.checked("setting", row, str, str)[1] if row else None

    def count(self, name: str) -> int:
        """A setting that is a whole number; 0 if there is none."""
        text = self.get(name) or "0"
        if not (text.isascii() and text.isdigit()):
            raise self.damaged()
        return int(text)

    def claim(self, command: str) -> None:
        """Refuses the state of another command."""
        owner = self.get("command") or command
        if owner != command:
            raise FmmError(f"{self.path} is the state of fmm {owner}: name another file")
        self.set("command", command)

    def damaged(self) -> FmmError:
        return FmmError(f"{self.path} is damaged: put a copy in its place, or begin a new state")

    def checked(self, table: str, row: tuple[Any, ...], *kinds: type) -> tuple[Any, ...]:
        """The values of a row of the file. They have to be of some types, and those that were written."""
        *values, mark = row
        if len(values) != len(kinds) or not all(map(isinstance, values, kinds)) or mark != mark_of(table, *values):
            raise self.damaged()
        return tuple(values)

    def set(self, name: str, value: object) -> None:
        """Changes a setting."""
        self.connection.execute("INSERT OR REPLACE INTO setting VALUES (?, ?, ?)", marked("setting", name, str(value)))

    def vehicle(self, name: str) -> Optional[Vehicle]:
        """What is known of a vehicle, or None."""
        found = self.vehicles.get(name)
        if found is None:
            row = self.connection.execute("SELECT * FROM vehicle WHERE id = ?", (name,)).fetchone()
            if row is None:
                return None
            found = self.vehicles[name] = Vehicle(*self.checked("vehicle", row, str, int, float, int)[1:])
        self.vehicles.move_to_end(name)
        return found

    def keep(self, name: str, vehicle: Vehicle) -> None:
        """Changes what is known of a vehicle."""
        self.vehicles[name] = vehicle
        self.changed.add(name)

    def begin_drive(self, number: int, name: str, time: float) -> None:
        """Notes a new drive."""
        self.connection.execute("INSERT INTO drive VALUES (?, ?, ?, ?)", marked("drive", number, name, float(time)))

    def last_number(self) -> int:
        """The greatest number of a drive; 0 if there is none."""
        row = self.connection.execute("SELECT * FROM drive ORDER BY number DESC LIMIT 1").fetchone()
        return self.checked("drive", row, int, str, float)[0] if row else 0

    def vehicle_of(self, number: int) -> str:
        """The vehicle of a drive."""
        row = self.connection.execute("SELECT * FROM drive WHERE number = ?", (number,)).fetchone()
        if row is None:
            raise self.damaged()
        return str(self.checked("drive", row, int, str, float)[1])

    def drives(self) -> Iterator[tuple[int, str]]:
        """The number and the vehicle of each drive, by rising number."""
        for row in self.connection.execute("SELECT * FROM drive ORDER BY number"):
            number, name, _ = self.checked("drive", row, int, str, float)
            yield number, name

    def add_waiting(self, positions: Iterable[Position]) -> None:
        """Notes positions that wait."""
        self.connection.executemany("INSERT INTO waiting VALUES (?, ?, ?, ?, ?, ?)", (
            marked("waiting", p.vehicle, float(p.time), p.x, p.y, float(p.arrived)) for p in positions))

    def drop_waiting(self, positions: Iterable[Position]) -> None:
        """Removes positions that wait no more."""
        self.connection.executemany("DELETE FROM waiting WHERE vehicle = ? AND time = ?",
                                    ((p.vehicle, p.time) for p in positions))

    def waiting(self) -> Iterator[Position]:
        """The positions that wait."""
        for row in self.connection.execute("SELECT * FROM waiting ORDER BY arrived, vehicle, time"):
            vehicle, time, x, y, arrived = self.checked("waiting", row, str, float, int, int, float)
            yield Position(time, vehicle, x, y, arrived)

    def commit(self) -> None:
        """Writes all changes to the disk. A state file that was removed or replaced is an error."""
        self.check_file()
        try:
            self.connection.executemany(
                "INSERT OR REPLACE INTO vehicle VALUES (?, ?, ?, ?, ?)",
                [marked("vehicle", name, v.number, float(v.time), v.positions)
                 for name, v in ((name, self.vehicles[name]) for name in self.changed)])
            self.connection.execute("COMMIT")
            self.connection.execute("BEGIN")
        except sqlite3.Error as fault:
            raise OutputError(f"{self.path}: {fault}") from None
        self.changed.clear()
        while len(self.vehicles) > REMEMBERED:
            self.vehicles.popitem(last=False)

    def check_file(self) -> None:
        """Refuses a state whose file is gone."""
        try:
            now = os.stat(self.path)
        except OSError:
            now = None
        if now is None or (now.st_dev, now.st_ino) != (self.file.st_dev, self.file.st_ino):
            raise OutputError(f"{self.path}: the state was removed or replaced while the feed ran")

    def close(self) -> None:
        """Closes the file. Changes since the last `commit` are dropped."""
        try:
            if self.connection.in_transaction:
                self.connection.execute("ROLLBACK")
            self.connection.close()
        except sqlite3.Error:
            pass
