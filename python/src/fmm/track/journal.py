"""What `track` adds to the state of a feed: the rows of open drives, and how many positions of each were delivered."""
from __future__ import annotations

from collections.abc import Iterator, Sequence
from dataclasses import dataclass

from ..feed.ordering import Position
from ..feed.state import State, marked

TABLES = (
    "CREATE TABLE IF NOT EXISTS tracked (number INTEGER, place INTEGER, time REAL NOT NULL, x INTEGER NOT NULL, "
    "y INTEGER NOT NULL, mark INTEGER NOT NULL, PRIMARY KEY (number, place)) WITHOUT ROWID",
    "CREATE TABLE IF NOT EXISTS delivered (number INTEGER PRIMARY KEY, positions INTEGER NOT NULL, mark INTEGER NOT NULL)",
)


@dataclass(frozen=True)
class Row:
    """A position of a drive: the number of the drive, its time in seconds since 1970, and its place in whole centimetres."""

    number: int
    time: float
    x: int
    y: int

    def text(self) -> str:
        """The row for a program, with whole seconds."""
        return f"{self.number},{self.x},{self.y},{int(self.time)}\n"


class Journal:
    """The rows of the drives that have not ended. Changes last from the next commit of the state on."""

    def __init__(self, state: State) -> None:
        self.state, self.execute = state, state.connection.execute
        for statement in TABLES:
            self.execute(statement)
        self.place = int(self.execute("SELECT coalesce(max(place), 0) FROM tracked").fetchone()[0])
        self.counts: dict[int, int] = {}
        for row in self.execute("SELECT * FROM delivered"):
            number, count = state.checked("delivered", row, int, int)
            self.counts[number] = count

    def add(self, numbered: Sequence[tuple[int, Position]]) -> list[Row]:
        """Notes positions with the numbers of their drives."""
        rows = [Row(number, position.time, position.x, position.y) for number, position in numbered]
        first, self.place = self.place + 1, self.place + len(rows)
        self.state.connection.executemany(
            "INSERT INTO tracked VALUES (?, ?, ?, ?, ?, ?)",
            [marked("tracked", row.number, place, float(row.time), row.x, row.y) for place, row in enumerate(rows, first)])
        return rows

    def rows(self) -> Iterator[Row]:
        """The rows of all open drives in the order in which they were added."""
        for row in self.execute("SELECT * FROM tracked ORDER BY place"):
            number, _, time, x, y = self.state.checked("tracked", row, int, int, float, int, int)
            yield Row(number, time, x, y)

    def vehicles(self) -> dict[int, str]:
        """The vehicle of each drive that is open."""
        numbers = self.execute("SELECT DISTINCT number FROM tracked").fetchall()
        return {number: self.state.vehicle_of(number) for number, in numbers}

    def delivered(self, number: int) -> int:
        """How many positions of an open drive were delivered."""
        return self.counts.get(number, 0)

    def deliver(self, number: int, count: int) -> None:
        """Notes that further positions of a drive are delivered."""
        self.counts[number] = self.counts.get(number, 0) + count
        self.execute("INSERT OR REPLACE INTO delivered VALUES (?, ?, ?)", marked("delivered", number, self.counts[number]))

    def end(self, number: int, count: int) -> None:
        """Forgets a drive of `count` positions. A later drive of the number may have further ones."""
        self.execute("DELETE FROM tracked WHERE number = ?1 AND place IN "
                     "(SELECT place FROM tracked WHERE number = ?1 ORDER BY place LIMIT ?2)", (number, count))
        self.execute("DELETE FROM delivered WHERE number = ?", (number,))
        self.counts.pop(number, None)
