"""From positions to a trace file, and the way back to the rows of the input."""
from __future__ import annotations

from dataclasses import dataclass, field
from pathlib import Path
from typing import Any, List, Optional, Tuple

import numpy as np
import pandas as pd

from ._noise import Motion
from ._tables import write_file
from ._thinning import jumps, thinned
from .errors import shown
from .options import Options
from .positions import Positions
from .projection import NOWHERE

LONGEST = 100_000  # positions of a trace
FASTEST = 10_000.0  # centimetres a second, 360 km/h


@dataclass
class Traces:
    """A trace file and what belongs to it. Traces are numbered from 1, by id and time.

    path      the file: `trace,x,y,time`, or `trace,x,y` if a drive has no times
    trace, row   of each position of the file, in its order: the number of the trace, the row of the input (int64)
    drives    index `trace`; columns id (text), begin, end (seconds since 1970, NaN without times), positions (in the file)
    reasons   for each row that is not in the file why, indexed by `row`
    between   the rows that are not in the file and yet belong to a drive ("thinned", "repeated"): columns row, trace, point; they
              were measured after the position with this index in the trace and not after the next one
    notes     lines for a report
    x, y      centimetres, of each position of the file (int64); empty if the file was made elsewhere
    places    centimetres of each row of the input (int64[n, 2]), NOWHERE if it has no place; empty if they are not known
    """

    path: Path
    trace: np.ndarray
    row: np.ndarray
    drives: pd.DataFrame
    reasons: pd.Series
    between: pd.DataFrame
    notes: List[str] = field(default_factory=list)
    x: np.ndarray = field(default_factory=lambda: np.zeros(0, np.int64))
    y: np.ndarray = field(default_factory=lambda: np.zeros(0, np.int64))
    places: np.ndarray = field(default_factory=lambda: np.zeros((0, 2), np.int64))


def write_traces(positions: Positions, network: Any, options: Options, folder: Path) -> Traces:
    """Writes `traces.csv` to a folder: the usable positions in whole centimetres of the network's projection.

    Rows are sorted by id and time; rows of one time keep their order, and so do the rows of an id without times. A drive ends
    before a gap of more than `options.gap` seconds and where the part of the id changes. A trace ends after 100,000 positions.
    With `options.thin` only the positions that moved are written, with `options.fastest` no jumps. Takes about 3 s for a
    million rows.
    """
    plan = Plan(positions)
    plan.project(network.projection)
    plan.drop_untimed()
    plan.sort()
    plan.drop_repeated()
    plan.separate_sources()
    if options.fastest is not None:
        plan.drop_jumps(options.fastest, 5 * options.sigma, options.gap)
    drive = plan.drives(options.gap)
    kept = thinned(plan.x, plan.y, drive, 100 * (options.thin or 0))
    trace = numbers_of(drive, kept)
    return plan.written(trace, kept, Path(folder) / "traces.csv")


def numbers_of(drive: np.ndarray, kept: np.ndarray) -> np.ndarray:
    """The trace of each position, from 1: its drive, or a part of it with at most 100,000 kept positions."""
    if not len(drive):
        return drive
    before = np.cumsum(kept) - kept
    first = np.flatnonzero(np.r_[True, drive[1:] != drive[:-1]])
    within = before - np.repeat(before[first], np.diff(np.r_[first, len(drive)]))
    block = np.maximum(within - (~kept), 0) // LONGEST
    change = np.r_[True, (drive[1:] != drive[:-1]) | (block[1:] != block[:-1])]
    return np.cumsum(change)


class Plan:
    """The rows that are going to the file, as columns that are sorted and cut down step by step."""

    def __init__(self, positions: Positions) -> None:
        frame = positions.frame
        self.positions, self.ids = positions, frame["id"].to_numpy(dtype=object)
        self.reasons = np.full(len(frame), "", dtype=object)
        out = positions.left_out
        known = out["row"].to_numpy(dtype=np.int64)
        self.reasons[known[known >= 0]] = out["reason"].to_numpy(dtype=object)[known >= 0]
        self.names: np.ndarray
        codes, self.names = pd.factorize(self.ids, sort=True)
        self.row = np.flatnonzero(self.reasons == "")
        self.code = codes[self.row].astype(np.int64)
        parts = positions.parts if len(positions.parts) else np.zeros(len(frame), dtype=np.int64)
        self.part = parts[self.row]
        self.time = frame["time"].to_numpy()[self.row]
        self.source = positions.origin["source"].to_numpy()[self.row] if len(positions.origin) else np.zeros_like(self.row)
        self.x = self.y = np.zeros(0, dtype=np.int64)
        self.places = np.zeros((0, 2), dtype=np.int64)
        self.twins: Tuple[np.ndarray, np.ndarray] = (np.zeros(0, dtype=np.int64), np.zeros(0, dtype=np.int64))
        self.notes: List[str] = []

    def keep(self, mask: np.ndarray, reason: Any = None) -> None:
        """Drops the other rows, for a reason."""
        if mask.all():
            return
        if reason is not None:
            self.reasons[self.row[~mask]] = reason
        for name in ("row", "code", "part", "time", "source", "x", "y"):
            column = getattr(self, name)
            if len(column) == len(mask):
                setattr(self, name, column[mask])

    def project(self, projection: Any) -> None:
        """Whole centimetres of the network's projection."""
        frame = self.positions.frame
        x, y = projection.to_centimetres(frame["x"].to_numpy(), frame["y"].to_numpy(), self.positions.crs)
        self.places = np.stack([x, y], axis=1)
        self.x, self.y = x[self.row], y[self.row]
        self.keep((self.x != NOWHERE) & (self.y != NOWHERE), "too far from the area of the network's projection")

    def drop_untimed(self) -> None:
        """Decides which drives have times: those in which half of the rows or more have one. There, the others are dropped."""
        timed = ~np.isnan(self.time)
        if timed.all():
            return
        key = self.keys()
        count, with_time = np.bincount(key), np.bincount(key, weights=timed)
        untimed = 2 * with_time < count
        self.time = np.where(untimed[key], np.nan, self.time)
        partly, whole = untimed & (with_time > 0), untimed & (with_time == 0)
        if whole.any():
            self.notes.append(f"{counted(key, whole)} no times: {self.some(key, whole)}")
        if partly.any():
            self.notes.append(f"{counted(key, partly)} times in less than half of the rows, so no times are used: "
                              f"{self.some(key, partly)}")
        self.keep(timed | untimed[key], "no time")

    def keys(self) -> np.ndarray:
        """A number for each pair of id and part, from 0."""
        part = pd.factorize(self.part)[0]
        return pd.factorize(self.code * (1 + int(part.max(initial=0))) + part)[0]

    def some(self, key: np.ndarray, chosen: np.ndarray) -> str:
        """The first ids of the chosen keys."""
        return self.listed(np.bincount(self.code[chosen[key]], minlength=len(self.names)) > 0)

    def sort(self) -> None:
        """By id, part and time. Rows that are equal in these keep the input's order."""
        order = np.lexsort((self.row, self.time, self.part, self.code))
        for name in ("row", "code", "part", "time", "source", "x", "y"):
            setattr(self, name, getattr(self, name)[order])

    def drop_repeated(self) -> None:
        """Drops all but the first of the rows that are equal in id, part, time and place."""
        same = np.zeros(len(self.row), dtype=bool)
        table = pd.DataFrame({"code": self.code, "part": self.part, "time": self.time, "x": self.x, "y": self.y})
        timed = ~np.isnan(self.time)
        same[timed] = table[timed].duplicated().to_numpy()
        if not same.any():
            return
        number = table[timed].groupby(list(table.columns), sort=False).ngroup().to_numpy()
        rows = self.row[timed]
        first = np.zeros(number.max() + 1, dtype=np.int64)
        first[number[::-1]] = rows[::-1]
        twin = np.full(len(self.row), -1, dtype=np.int64)
        twin[timed] = first[number]
        self.twins = self.row[same], twin[same]
        self.notes.append(f"{int(same.sum())} rows repeat another row of their vehicle, with its time and place")
        self.keep(~same, "repeated")

    def drop_jumps(self, fastest: float, error: float, gap: Optional[float]) -> None:
        """Drops positions that a vehicle cannot have reached; metres and metres a second."""
        found = jumps(Motion(self.x, self.y, self.time, self.drives(gap)), 100 * fastest, 100 * error)
        self.keep(~found, f"a jump: reached and left faster than {3.6 * fastest:.0f} km/h")

    def separate_sources(self) -> None:
        """Parts the rows of an id that come from several sources and from distant places at once; names such ids."""
        fast = self.too_fast()
        if not fast.any():
            return
        steps = np.bincount(self.code, minlength=len(self.names))
        many = np.bincount(self.code[1:][fast], minlength=len(self.names))
        suspects = (many >= 5) & (10 * many >= steps)
        low, high = np.full(len(self.names), self.source.max()), np.zeros(len(self.names), dtype=np.int64)
        np.minimum.at(low, self.code, self.source)
        np.maximum.at(high, self.code, self.source)
        several = suspects & (low < high)
        where = "a tenth or more of the steps are faster than 360 km/h"
        if several.any():
            mixed = several[self.code]
            self.part = np.where(mixed, self.part * (1 + int(self.source.max())) + self.source, self.part)
            self.notes.append(f"{self.listed(several)}: {where} and rows come from several files, so each file is a vehicle of "
                              "its own")
            self.sort()
        if (suspects & ~several).any():
            self.notes.append(f"{self.listed(suspects & ~several)}: {where}: two vehicles with one id, or wrong times?")

    def listed(self, chosen: np.ndarray) -> str:
        """Some ids for a line of the report."""
        codes = np.flatnonzero(chosen)
        more = f" and {len(codes) - 5} more ids" if len(codes) > 5 else ""
        return f"{', '.join(shown(self.names[code], 40) for code in codes[:5])}{more}"

    def too_fast(self) -> np.ndarray:
        """Which steps from one row to the next of the same key are faster than any vehicle and longer than any error."""
        if len(self.row) < 2:
            return np.zeros(0, dtype=bool)
        away = np.hypot(np.diff(self.x).astype(np.float64), np.diff(self.y).astype(np.float64))
        with np.errstate(invalid="ignore"):
            reach = FASTEST * np.maximum(np.diff(self.time), 1)
            return (np.diff(self.code) == 0) & (np.diff(self.part) == 0) & (away > reach) & (away > 50_000)

    def drives(self, gap: Optional[float]) -> np.ndarray:
        """The number of the drive of each row."""
        if not len(self.row):
            return np.zeros(0, dtype=np.int64)
        new = (np.diff(self.code) != 0) | (np.diff(self.part) != 0)
        if gap is not None:
            with np.errstate(invalid="ignore"):
                new |= np.diff(self.time) > gap
        return np.cumsum(np.r_[True, new])

    def written(self, trace: np.ndarray, kept: np.ndarray, path: Path) -> Traces:
        """Writes the kept rows."""
        numbers, rows = trace[kept], self.row[kept]
        table = {"trace": numbers, "x": self.x[kept], "y": self.y[kept]}
        if len(self.time) and not np.isnan(self.time).any():
            table["time"] = np.floor(self.time[kept]).astype(np.int64)
        elif not np.isnan(self.time).all():
            self.notes.append("the trace file has no times, since some drives have none")
        write_file(path, pd.DataFrame(table))
        begin = np.flatnonzero(np.r_[True, np.diff(trace) > 0]) if len(trace) else np.zeros(0, dtype=np.int64)
        end = np.r_[begin[1:], len(trace)] - 1
        drives = pd.DataFrame({"id": self.names[self.code[begin]], "begin": self.time[begin], "end": self.time[end],
                               "positions": np.bincount(numbers, minlength=len(begin) + 1)[1:]},
                              index=pd.Index(trace[begin], name="trace"))
        self.reasons[self.row[~kept]] = "thinned"
        between = self.between(trace, kept)
        out = np.flatnonzero(self.reasons != "")
        reasons = pd.Series(self.reasons[out], index=pd.Index(out, name="row"), dtype=object, name="reason")
        return Traces(path, numbers, rows, drives, reasons, between, self.notes, table["x"], table["y"], self.places)

    def between(self, trace: np.ndarray, kept: np.ndarray) -> pd.DataFrame:
        """Where the thinned and the repeated rows belong."""
        if not len(trace):
            return pd.DataFrame({"row": [], "trace": [], "point": []}, dtype=np.int64)
        upto = np.cumsum(kept)
        first = np.flatnonzero(np.r_[True, np.diff(trace) > 0])
        point = upto - np.repeat((upto - kept)[first], np.diff(np.r_[first, len(trace)])) - 1
        place = np.full(len(self.reasons), -1, dtype=np.int64)
        place[self.row] = np.arange(len(self.row))
        twins = place[self.twins[1]]
        return pd.DataFrame({"row": np.r_[self.row[~kept], self.twins[0]], "trace": np.r_[trace[~kept], trace[twins]],
                             "point": np.r_[point[~kept], point[twins]]})


def counted(key: np.ndarray, chosen: np.ndarray) -> str:
    number = int(chosen.sum())
    return f"{number} {'drive has' if number == 1 else 'drives have'}"
