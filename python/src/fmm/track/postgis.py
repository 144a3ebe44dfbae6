"""Objects as rows of two tables in PostGIS."""
from __future__ import annotations

import json
import time
from collections.abc import Callable, Sequence
from typing import Any, Optional

from .._libraries import explained
from ..errors import InputError, OutputError, one_line
from ..feed.notices import Notices
from .drives import Object
from .sinks import Stop

FIRST_PAUSE, LONGEST_PAUSE = 0.5, 10.0  # seconds between attempts to reach the database
TABLES = """
CREATE TABLE IF NOT EXISTS track_positions (
    vehicle text, time timestamptz, drive bigint, edge bigint, street text, speed double precision, provisional boolean NOT NULL,
    geom geometry(Point, 4326), PRIMARY KEY (vehicle, time));
CREATE TABLE IF NOT EXISTS track_drives (
    vehicle text, drive bigint, "begin" timestamptz, "end" timestamptz, seconds double precision, metres double precision,
    positions bigint, geom geometry(MultiLineString, 4326), PRIMARY KEY (vehicle, "begin"));
"""
POINT = "ST_SetSRID(ST_MakePoint(%(longitude)s, %(latitude)s), 4326)"
VALUES = f"(%(vehicle)s, %(time)s, %(drive)s, %(edge)s, %(street)s, %(speed)s, %(provisional)s, {POINT})"
SETTLED = """INSERT INTO track_positions VALUES %s ON CONFLICT (vehicle, time) DO UPDATE SET
    (drive, edge, street, speed, provisional, geom) =
    (EXCLUDED.drive, EXCLUDED.edge, EXCLUDED.street, EXCLUDED.speed, EXCLUDED.provisional, EXCLUDED.geom)"""
PROVISIONAL = SETTLED + " WHERE track_positions.provisional"  # never in place of a settled one
DRIVE = """INSERT INTO track_drives VALUES %s ON CONFLICT (vehicle, "begin") DO UPDATE SET
    (drive, "end", seconds, metres, positions, geom) =
    (EXCLUDED.drive, EXCLUDED."end", EXCLUDED.seconds, EXCLUDED.metres, EXCLUDED.positions, EXCLUDED.geom)"""
DRIVE_VALUES = """(%(vehicle)s, %(drive)s, %(begin)s, %(end)s, %(seconds)s, %(metres)s, %(positions)s,
    ST_SetSRID(ST_GeomFromGeoJSON(%(line)s), 4326))"""


class Database:
    """The tables track_positions and track_drives. A row that is written again replaces itself, so each is there once."""

    def __init__(self, address: str, stop: Stop, notices: Notices) -> None:
        with explained():
            import psycopg2
            import psycopg2.extras
        self.address, self.stop, self.notices = address, stop, notices
        self.library, self.extras = psycopg2, psycopg2.extras
        self.connection: Optional[Any] = None
        self.retry_at = 0.0
        try:
            self._connect()
        except psycopg2.Error as fault:
            self._drop()
            raise InputError(f"the database cannot be used: {first_line(fault)}") from None

    def _connect(self) -> None:
        self.connection = self.library.connect(self.address, connect_timeout=10, application_name="fmm track")
        with self.connection, self.connection.cursor() as cursor:
            cursor.execute("SET client_min_messages = warning")
            cursor.execute(TABLES)

    def write(self, objects: Sequence[Object], text: bytes) -> None:
        positions = latest([{**one, "provisional": False} for one in objects if one["kind"] == "position"])
        drives = [{**one, "line": json.dumps(one["route"])} for one in objects if one["kind"] == "drive"]

        def put(cursor: Any) -> None:
            self._put(cursor, SETTLED, VALUES, positions)
            self._put(cursor, DRIVE, DRIVE_VALUES, drives)
        self._until_done(put)

    def offer(self, objects: Sequence[Object]) -> None:
        if self.connection is None and time.monotonic() < self.retry_at:
            return  # an attempt to connect may take seconds
        rows = latest([{**one, "provisional": True} for one in objects])
        try:
            self._once(lambda cursor: self._put(cursor, PROVISIONAL, VALUES, rows))
        except self.library.Error:
            self._drop()  # the next settled one says so

    def _put(self, cursor: Any, statement: str, values: str, rows: Sequence[Object]) -> None:
        if rows:
            self.extras.execute_values(cursor, statement, rows, template=values, page_size=1000)

    def _once(self, put: Callable[[Any], None]) -> None:
        if self.connection is None:
            self._connect()
        assert self.connection is not None
        with self.connection, self.connection.cursor() as cursor:
            put(cursor)

    def _until_done(self, put: Callable[[Any], None]) -> None:
        """Writes in one transaction. A database that is away is awaited; one that refuses the rows is an error."""
        pause = 0.0
        while True:
            try:
                self._once(put)
                return
            except self.library.Error as fault:
                if not self._is_away(fault):
                    raise OutputError(f"the database: {first_line(fault)}") from None
                self._drop()
                if not pause:
                    self.notices.say(f"the database does not take the positions, which wait: {first_line(fault)}")
                pause = min(LONGEST_PAUSE, 2 * pause or FIRST_PAUSE)
            self._pause(pause)

    def _is_away(self, fault: Any) -> bool:
        """Whether the connection or the server has failed, so that another attempt may succeed. A server that ends in the middle
        of a statement gives an error without a code."""
        return isinstance(fault, (self.library.OperationalError, self.library.InterfaceError)) or fault.pgcode is None

    def _pause(self, seconds: float) -> None:
        end = time.monotonic() + seconds
        while time.monotonic() < end:
            self.stop.check("the database")
            time.sleep(0.1)

    def _drop(self) -> None:
        if self.connection is not None:
            self.connection.close()
        self.connection, self.retry_at = None, time.monotonic() + LONGEST_PAUSE

    def close(self) -> None:
        self._drop()


def latest(rows: Sequence[Object]) -> list[Object]:
    """The rows, of several with one vehicle and time the last one: a statement may write a row only once."""
    return list({(row["vehicle"], row["time"]): row for row in rows}.values())


def first_line(fault: Exception) -> str:
    """What the database says, in one line."""
    return one_line((str(fault).strip() or type(fault).__name__).splitlines()[0])
