"""The payloads of a feed: JSON objects, records of a table with a header, or plain rows."""
from __future__ import annotations

import csv
import json
import math
import re
from collections.abc import Sequence
from dataclasses import dataclass
from typing import Any, Optional

NUMBER = re.compile(r"[+-]?(\d+(\.\d*)?|\.\d+)([eE][+-]?\d+)?", re.ASCII)
LONGEST_ID = 1000  # characters
LONGEST_PAYLOAD = 65_536  # bytes
BYTE_ORDER_MARK = "\ufeff"


class Refused(Exception):
    """A report cannot be used. The text says why."""


@dataclass(frozen=True)
class Report:
    """A position of a vehicle as it came. The time is text; None means the time of arrival."""

    vehicle: str
    x: float
    y: float
    time: Optional[str]


@dataclass(frozen=True)
class Columns:
    """The columns or fields of a report. A dot leads into an object: `payload.lon`. Without `time` it is the time of arrival."""

    vehicle: str = "vehicle"
    x: str = "longitude"
    y: str = "latitude"
    time: Optional[str] = "time"

    @staticmethod
    def of(text: str) -> Columns:
        """The columns of an option such as `id,lon,lat,time`. A ValueError says what is wrong."""
        names = text.split(",")
        if len(names) not in (3, 4) or not all(names):
            raise ValueError("three or four columns are wanted: vehicle, x, y and time")
        return Columns(*names) if len(names) == 4 else Columns(names[0], names[1], names[2], None)

    def names(self) -> list[str]:
        """The names that a report needs."""
        return [name for name in (self.vehicle, self.x, self.y, self.time) if name is not None]


def number(value: object, what: str) -> float:
    """A finite number. Texts have the form of a decimal number, without underscores or words."""
    text = str(value).strip()
    found = float(text) if not isinstance(value, bool) and NUMBER.fullmatch(text) else math.nan
    if not math.isfinite(found):
        raise Refused(f"{what} {text[:20] or '(empty)'} is not a finite number")
    return found


def vehicle_id(value: object) -> str:
    """The id of a vehicle as text. `007` and `7` are two vehicles."""
    text = str(value).strip(" ")
    if not text:
        raise Refused("no id")
    if len(text) > LONGEST_ID:
        raise Refused(f"the id has more than {LONGEST_ID} characters")
    if not text.isprintable():
        raise Refused("the id has control characters")
    return text


class Reader:
    """Makes reports of payloads. `form` is `json`, `csv` (a table with a header) or `rows` (vehicle, x, y, time, no header)."""

    def __init__(self, form: str, columns: Columns) -> None:
        self.form, self.columns = form, columns
        self.header: Optional[list[str]] = None
        self.other_header = ""  # one without the wanted columns: the rows after it cannot be read
        self.has_times = False  # rows without one may be cut then

    def report(self, payload: bytes, vehicle: Optional[str] = None) -> Optional[Report]:
        """The report in a payload; None for a header or an empty line. `vehicle` is the id if the payload has none."""
        if len(payload) > LONGEST_PAYLOAD:
            raise Refused(f"longer than {LONGEST_PAYLOAD} bytes")
        try:
            text = payload.decode().strip()
        except UnicodeDecodeError:
            raise Refused("invalid UTF-8") from None
        text = text.lstrip(BYTE_ORDER_MARK)
        if not text:
            return None
        fields = self._of_object(text, vehicle) if self.form == "json" else self._of_record(text)
        return None if fields is None else self._report(fields)

    def _report(self, fields: Sequence[object]) -> Report:
        name, x, y, time = fields
        place = number(x, self.columns.x), number(y, self.columns.y)
        return Report(vehicle_id(name), *place, None if time is None else str(time))

    def _of_object(self, text: str, vehicle: Optional[str]) -> list[object]:
        try:
            found = json.loads(text, parse_int=str, parse_float=str, parse_constant=_no_constant, object_pairs_hook=_object)
        except (ValueError, RecursionError):
            raise Refused("not JSON") from None
        columns = self.columns
        name = _member(found, columns.vehicle)
        fields = [vehicle if name is None else name, _member(found, columns.x), _member(found, columns.y)]
        time = None if columns.time is None else _member(found, columns.time)
        for value, wanted in zip([*fields, time], (columns.vehicle, columns.x, columns.y, columns.time)):
            if value is None and wanted is not None:
                raise Refused(f"no {wanted}")
        return [*fields, time]

    def _of_record(self, text: str) -> Optional[list[Optional[str]]]:
        try:
            record = next(csv.reader([text], strict=True))
        except csv.Error:
            raise Refused("a quoted field has no end") from None
        if self.form == "rows":
            if len(record) not in (3, 4) or self.has_times and len(record) == 3:
                raise Refused(f"{len(record)} fields; vehicle, x, y and time are wanted")
            self.has_times = len(record) == 4
            return [*record, None][:4]
        wanted = self.columns.names()
        if all(name in record for name in wanted):
            self._take_header(record)
            return None
        if self.header is None:
            raise HeaderMissing(f"the header of the feed is {text[:80]}; name its columns of vehicle, x, y and time with "
                                "--columns")
        if self._is_header(record):
            self.other_header = text[:80]
        if self.other_header:
            raise Refused(f"the last header has other columns: {self.other_header}")
        if len(record) != len(self.header):
            raise Refused(f"{len(record)} fields, and the header has {len(self.header)}")
        found: list[Optional[str]] = [record[self.header.index(name)] for name in wanted]
        return [*found, None][:4]

    def _is_header(self, record: Sequence[str]) -> bool:
        """Whether a record has a word in place of x, and two names of columns or more."""
        header = self.header or []
        place = header.index(self.columns.x)
        if place < len(record) and not record[place].lstrip()[:1].isalpha():
            return False
        from .._reading.frames import has_names
        return has_names(record, header)

    def _take_header(self, record: list[str]) -> None:
        """Takes a header. A later header with other columns replaces the one before it."""
        if len(set(record)) < len(record):
            raise Refused("a column of the header comes twice")
        self.header, self.other_header = record, ""


class HeaderMissing(Refused):
    """The first line of a table is no header with the columns that are wanted."""


def _member(value: object, path: str) -> Optional[str]:
    """The text or the number, which is text here, at a path of an object; None if there is none."""
    for part in path.split("."):
        value = value.get(part) if isinstance(value, dict) else None
    return value if isinstance(value, str) and value else None


def _object(pairs: Sequence[tuple[str, Any]]) -> dict[str, Any]:
    """An object in which each name stands once."""
    found = dict(pairs)
    if len(found) < len(pairs):
        raise Refused("a name stands twice in an object")
    return found


def _no_constant(text: str) -> object:
    raise ValueError(text)
