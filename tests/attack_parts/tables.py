"""Tables of positions, read and written as a trace file."""
from __future__ import annotations

import shutil
from collections.abc import Callable
from dataclasses import dataclass
from pathlib import Path
from typing import Optional

import numpy as np
import pyproj

from fmm._traces import Traces, write_traces
from fmm.errors import FmmError
from fmm.options import Options
from fmm.positions import Positions, read_positions
from fmm.projection import Projection

from . import common
from .common import AS_CLEAN, NAMED, Draw, hold, refusal

HEADER = ["vehicle", "longitude", "latitude", "time", "note"]
IDS = ["007", "7", "red", "blue 1", "ä", "1e3", "NA"]
NOTES = ["", "a", '"a, b"', "=1+1", "None", "ü"]
START = 1_714_982_400
PLACES = pyproj.Transformer.from_crs(4326, 32632, always_xy=True)
BAD_NUMBERS = ["1_0", "nan", "inf", "-inf", "1e308", "1e999", "", " ", "x", "٣", "0x10", "9.", "--9", "9 5", "1e", "NaN", "None",
               "91.5.2", "\x1b[31m9", "９"]
BAD_TIMES = ["2024-02-31T10:00:00Z", "2024-05-06 24:59:60+99:99", "1_714_982_400", "nan", "noon", "-5", "1e400", "1e308", "١٢",
             "1714982400000", "2024-13-01T00:00:00Z", "2024-05-06T10:61:00Z", "2024-05-06T10:00:00+25:00", "05/06/2024",
             "\x1b[2J5", "99999999999999999999", "1714982400,5", "2024-05-06"]


class Network:
    """What write_traces needs of a network."""

    projection = Projection(pyproj.CRS.from_epsg(32632))


Said = tuple[str, int, int, Optional[int]]  # id, x and y in centimetres, whole seconds or no time


@dataclass
class Row:
    """A row of a table. `said` is what it says; None if it says nothing that can be used. `text` replaces its fields."""

    fields: list[str]
    said: Optional[Said]
    text: Optional[str] = None
    is_touched: bool = False

    @property
    def line(self) -> str:
        """The line of the table."""
        return ",".join(self.fields) if self.text is None else self.text


def centimetres(longitude: float, latitude: float) -> tuple[int, int]:
    x, y = PLACES.transform(longitude, latitude)
    return round(100 * x), round(100 * y)


def make_rows(draw: Draw, count: int, away: float = 0.0) -> list[Row]:
    """Good rows of some vehicles, each by rising times."""
    iso, rows = draw.coin(), []
    for number in range(count):
        name, second = draw.one(IDS[:1 + draw.below(len(IDS))]), START + 5 * number
        longitude, latitude = 9.43 + number * 1e-4 + away, 54.31 + draw.below(100) * 1e-6
        time = str(np.datetime64(second, "s")) + "Z" if iso else str(second)
        fields = [name, f"{longitude:.7f}", f"{latitude:.7f}", time, draw.one(NOTES)]
        rows.append(Row(fields, (name, *centimetres(float(fields[1]), float(fields[2])), second)))
    return rows


# ---- faults of rows

def stray_quote(draw: Draw, row: Row) -> None:
    at, fields = draw.below(5), list(row.fields)
    fields[at] = '"' + fields[at] + draw.one(["", "", '""', '"x'])
    row.text, row.said = ",".join(fields), None


def decimal_commas(draw: Draw, row: Row) -> None:
    row.fields[1:3] = [field.replace(".", ",") for field in row.fields[1:3]]
    row.said = None


def other_count(draw: Draw, row: Row) -> None:
    at = draw.below(5)
    row.fields[at:at + 1] = draw.one([[], [row.fields[at], ""], [row.fields[at], row.fields[at]]])
    row.said = None


def half(draw: Draw, row: Row) -> None:
    """A row that was cut within its note says the same."""
    row.text = row.line[:1 + draw.below(len(row.line) - 1)]
    row.said = row.said if row.text.count(",") >= 4 and '"' not in row.line else None


def bad_place(draw: Draw, row: Row) -> None:
    at, value = 1 + draw.below(2), draw.one(BAD_NUMBERS)
    if value != "9.":
        row.said = None
    else:
        value = row.fields[at]
    row.fields[at] = value


def no_place(draw: Draw, row: Row) -> None:
    row.fields[1:3] = draw.one([["0", "0"], ["54.31", "91"], ["181", "54"], ["-0.0", "0e5"], ["943100000", "5431000000"]])
    row.said = None


def bad_time(draw: Draw, row: Row) -> None:
    row.fields[3], row.said = draw.one(BAD_TIMES), None


def no_time(draw: Draw, row: Row) -> None:
    """A vehicle without times may be matched by the order of its rows, and is named."""
    row.fields[3] = draw.one(["", " "])
    row.said = row.said and (*row.said[:3], None)


def other_id(draw: Draw, row: Row) -> None:
    name = draw.one(["", "7\x1b[2J", "7\u2028", "07", "7.0", "\ufeff7", "a\tb"])
    row.fields[0] = name
    row.said = (name, *row.said[1:]) if row.said and name else None


def blanks(draw: Draw, row: Row) -> None:
    """Blanks around numbers, which are allowed."""
    at = 1 + draw.below(3)
    row.fields[at] = f" {row.fields[at]} "


Fault = Callable[[Draw, Row], None]
# Faults for which the whole table is refused come less often.
ROW_FAULTS: list[Fault] = [stray_quote, decimal_commas, other_count, half,
                           *3 * [bad_place, no_place, bad_time, no_time, other_id, blanks]]


# ---- faults of the whole table

def repeated(draw: Draw, rows: list[Row]) -> None:
    rows.insert(draw.below(len(rows) + 1), draw.one(rows))


def other_order(draw: Draw, rows: list[Row]) -> None:
    at, other = draw.below(len(rows)), draw.below(len(rows))
    rows[at], rows[other] = rows[other], rows[at]


def second_header(draw: Draw, rows: list[Row]) -> None:
    """A file was appended to another one, perhaps with other columns."""
    at, header = draw.below(len(rows) + 1), list(HEADER)
    if draw.coin():
        header[1], header[2] = header[2], header[1]
        for row in rows[at:]:
            if len(row.fields) > 2:
                row.fields[1], row.fields[2] = row.fields[2], row.fields[1]
    rows.insert(at, Row(header, None))


def empty_line(draw: Draw, rows: list[Row]) -> None:
    rows.insert(draw.below(len(rows) + 1), Row([], None, ""))


TABLE_FAULTS = [repeated, other_order, second_header, empty_line]
HEADERS = ["vehicle,longitude,latitude,time,time", "vehicle,longitude,latitude,time,", "vehicle;longitude;latitude;time;note",
           "vehicle,longitude,latitude,time", "vehicle,longitude,latitude,time,note,more",
           '"vehicle,longitude,latitude,time,note', "vehicle\tlongitude\tlatitude\ttime\tnote", "7,9.43,54.31,1714982400,a", " "]
FILE_FAULTS = [common.cut, common.cut_anywhere, common.marked, common.with_carriage_returns, common.packed,
               common.inserted(b"\0", "NUL"), common.inserted(b"\xff", "a byte that is not UTF-8"),
               common.inserted(b'"', "a quote"), common.inserted(b"\r", "CR")]


def add_fault(draw: Draw, rows: list[Row], is_of_row: bool) -> None:
    """A fault of a row, of which a row has at most one, or of the table."""
    if not is_of_row:
        table_fault = draw.one(TABLE_FAULTS)
        table_fault(draw, rows)
        draw.say(table_fault.__name__)
        return
    fault, row = draw.one(ROW_FAULTS), draw.one(rows)
    if not row.is_touched and len(row.fields) == 5:
        row.is_touched = True
        fault(draw, row)
        draw.say(f"{fault.__name__}: {row.line!r}")


class Tables:
    """One table or two, with one to three faults."""

    def __init__(self, room: Path) -> None:
        self.room = room

    def case(self, draw: Draw) -> str:
        """See Kind."""
        rows = make_rows(draw, 1 + draw.below(8))
        names = ["rows.csv"]
        header = ",".join(HEADER)
        byte_faults = []
        for _ in range(1 + draw.below(3)):
            what = draw.below(8)
            if what < 7:
                add_fault(draw, rows, what < 5)
            elif draw.coin(4):
                header = draw.one(HEADERS)
                draw.say(f"header {header!r}")
            elif draw.coin(3):
                byte_faults.append(draw.one(FILE_FAULTS))
        data = "".join(line + "\n" for line in [header, *(row.line for row in rows)]).encode()
        for byte_fault in byte_faults:
            data = byte_fault(draw, data)
        (self.room / names[0]).write_bytes(data)
        if draw.coin(20):
            names.append(self.again(draw))
        return self.read(names, rows, changed_lines(data, rows) if byte_faults else set())

    def again(self, draw: Draw) -> str:
        """The same file a second time, perhaps under another name."""
        name = draw.one(["rows.csv", "copy.csv"])
        if name != "rows.csv":
            shutil.copy(self.room / "rows.csv", self.room / name)
        draw.say(f"twice, as {name}")
        return name

    def read(self, names: list[str], rows: list[Row], changed: set[int]) -> str:
        try:
            positions = read_positions([self.room / name for name in names])
            traces = write_traces(positions, Network(), Options(), self.room)
        except FmmError as fault:
            return refusal(fault, *names)
        hold(len(names) == 1, "the same file was taken twice")
        of_lines = {number: row for number, row in enumerate(rows, 2) if row.line != ""}
        return judge(positions, traces, of_lines, changed)


def changed_lines(data: bytes, rows: list[Row]) -> set[int]:
    """The lines of rows in which faults of bytes have changed something."""
    lines = data.decode("utf-8-sig", "replace").replace("\r\n", "\n").split("\n")[1:]
    return {number for number, (line, row) in enumerate(zip(lines, rows), 2) if line != row.line}


def judge(positions: Positions, traces: Traces, rows: dict[int, Row], changed: set[int]) -> str:
    """The law for a table: `rows` by the numbers of their lines. What those of `changed` say is not known."""
    lines = positions.origin["line"].tolist()
    is_whole = set(lines) == set(rows) and (changed or len(lines) == len(rows))
    hold(is_whole, f"lines {sorted(rows)} are in the file, lines {sorted(lines)} were read")
    kept, reasons = traces.row.tolist(), traces.reasons.index.tolist()
    hold(sorted(kept + reasons) == list(range(len(lines))), "a row has neither a position nor a reason, or both")
    hold((traces.reasons != "").all(), "a reason is empty")
    found = said_by(traces)
    for place, (row, said) in enumerate(zip(kept, found)):
        wanted = rows[lines[row]].said
        if lines[row] in changed:
            continue
        hold(wanted is not None, f"line {lines[row]} is taken as {said}: {rows[lines[row]].line!r}")
        assert wanted is not None
        hold(said[:3] == wanted[:3], f"line {lines[row]} is taken as {said} and says {wanted}")
        if said[3] is None:
            hold(traces.notes, f"line {lines[row]} lost its time without a word")
        else:
            hold(said[3] == wanted[3], f"line {lines[row]} has the time {said[3]} and says {wanted[3]}")
    timed = [said for said in found if said[3] is not None]
    hold(len(set(timed)) == len(timed), "a position comes twice")
    return NAMED if reasons else AS_CLEAN


def said_by(traces: Traces) -> list[tuple[str, int, int, Optional[int]]]:
    """Id, place and time of each position of a trace file, with the rising order of times checked."""
    header, *lines = traces.path.read_text().splitlines()
    ids = traces.drives["id"]
    found: list[tuple[str, int, int, Optional[int]]] = []
    before: dict[int, int] = {}
    for line in lines:
        trace, x, y, *time = map(int, line.split(","))
        hold(not time or time[0] >= before.get(trace, 0), f"the time goes back in trace {trace}")
        before[trace] = time[0] if time else 0
        found.append((ids[trace], x, y, time[0] if time else None))
    hold(len(found) == len(traces.row) and (traces.trace == [int(line.split(",")[0]) for line in lines]).all(),
         "the file has other positions than the arrays")
    return found
