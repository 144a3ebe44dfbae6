"""Times as seconds since 1970, in whole columns."""
from __future__ import annotations

import datetime
import re
from typing import Any, List, NamedTuple, Optional, Tuple

import numpy as np
import pandas as pd

from ..errors import shown
from .numbers import as_bytes, digits_at, plain_numbers, texts_of, with_points
from .zones import LAST, from_local

REST = (rb":(?P<minute>\d\d)(?::(?P<second>\d\d)(?:[.,](?P<part>\d+))?)?"
        rb" ?(?:(?P<utc>[Zz])|(?P<zone>[+-]\d\d)(?::?(?P<zone_minute>\d\d))?)?")
FORMS = (  # the year comes first, or dots are between the day, the month and the year
    re.compile(rb"(?P<year>\d{4})(?P<mark>[-/.])(?P<month>\d\d)(?P=mark)(?P<day>\d\d)[Tt ](?P<hour>\d\d)" + REST),
    re.compile(rb"(?P<day>\d\d?)\.(?P<month>\d\d?)\.(?P<year>\d{4}),? (?P<hour>\d\d?)" + REST),
)
SLASHES = re.compile(r"\d\d?[/-]\d\d?[/-]\d{4}\b.*", re.ASCII)
HALF = re.compile(r"\d{4}-\d\d-\d\d|\d\d?\.\d\d?\.\d{2,4}|\d\d?:\d\d(:\d\d)?([.,]\d+)?", re.ASCII)
SECONDS = re.compile(r"\d{1,20}(\.\d*)?", re.ASCII)
DIGIT = np.zeros(256, dtype=bool)
DIGIT[ord("0"):ord("9") + 1] = True


class Times(NamedTuple):
    """Seconds since 1970 (float64, NaN if there is no time), for each row its fault ("" if there is none), and how many times
    name no time zone."""

    seconds: np.ndarray
    faults: np.ndarray
    unzoned: int = 0


def read_times(column: Any, decimal_comma: bool = False, zone: Optional[str] = None) -> Times:
    """The times of a column. `zone` is the time zone of those that name none, UTC by default.

    Text is an ISO time or one like 24.12.2026 14:03:22, or a number of seconds, which has a decimal comma only if `decimal_comma`
    says so. Numbers are seconds. Columns of times with a zone keep their instant. An empty field is no time and no fault.
    """
    if isinstance(column, pd.Series) and pd.api.types.is_datetime64_any_dtype(column.dtype):
        return _of_datetimes(column, zone)
    values = np.asarray(column)
    if values.dtype.kind in "iuf":
        numbers = values.astype(np.float64)
        return Times(*_in_range(numbers, ~np.isnan(numbers), values))
    if values.dtype.kind == "M":
        return _of_datetimes(pd.Series(values), zone)
    texts = _texts(values)
    found, known, unzoned = _of_texts(texts)
    found[unzoned], faults = _local(found[unzoned], zone, np.array(texts, dtype=object)[unzoned] if zone else texts)
    rest = np.flatnonzero(~known)
    others = with_points([texts[place] for place in rest]) if decimal_comma else [texts[place] for place in rest]
    numbers, good = plain_numbers(others)
    good &= np.array([SECONDS.fullmatch(text) is not None for text in others], dtype=bool)
    found[rest[good]], known[rest[good]] = numbers[good], True
    ranged, out_of_range = _in_range(found, known & ~np.isnan(found), texts)
    out_of_range[unzoned] = np.where(faults == "", out_of_range[unzoned], faults)
    for place in np.flatnonzero(~known):
        if texts[place]:
            out_of_range[place] = (f"time {shown(texts[place], 40)} is neither an ISO time nor seconds since 1970"
                                   f"{_hint(texts[place])}")
    return Times(ranged, out_of_range, int(unzoned.sum()))


def _local(clocks: np.ndarray, zone: Optional[str], texts: Any) -> Tuple[np.ndarray, np.ndarray]:
    """The seconds since 1970 of times without a zone, and their faults."""
    return from_local(clocks, zone, texts) if zone else (clocks, np.full(len(clocks), "", dtype=object))


def _hint(text: str) -> str:
    """What is likely wrong with a text that is no time."""
    if HALF.fullmatch(text):
        return ": write the date and the time of day into one column, or call their columns date and time"
    return ": is the day or the month first? Write 2026-12-24 or 24.12.2026" if SLASHES.fullmatch(text) else ""


def _texts(values: np.ndarray) -> List[str]:
    """Each value as text without blanks around it; "" for a missing one."""
    if values.dtype == object and pd.api.types.infer_dtype(values, skipna=False) != "string":
        values = np.array([value.isoformat() if isinstance(value, datetime.datetime) and value is not pd.NaT else value
                           for value in values.tolist()], dtype=object)
    return texts_of(values)


def _of_datetimes(column: pd.Series, zone: Optional[str]) -> Times:
    has_zone = getattr(column.dtype, "tz", None) is not None
    stamps = (column.dt.tz_convert("UTC").dt.tz_localize(None) if has_zone else column).to_numpy().astype("datetime64[us]")
    texts, missing = column.astype(str).to_numpy(), np.isnat(stamps)
    found = np.where(missing, np.nan, stamps.astype(np.int64) / 1e6)
    found, faults = _local(found, None if has_zone else zone, texts)
    ranged, outside = _in_range(found, ~np.isnan(found), texts)
    return Times(ranged, np.where(faults == "", outside, faults), 0 if has_zone else int((~missing).sum()))


def _in_range(found: np.ndarray, known: np.ndarray, texts: Any) -> Tuple[np.ndarray, np.ndarray]:
    """Takes the times before 1970 and after 2106 away."""
    faults = np.full(len(found), "", dtype=object)
    with np.errstate(invalid="ignore"):
        outside = known & ~((found >= 0) & (found <= LAST))
    for place in np.flatnonzero(outside):
        hint = ": milliseconds in place of seconds?" if 1e11 < found[place] < 1e14 else ""
        faults[place] = f"time {shown(texts[place], 40)} is not between the years 1970 and 2106{hint}"
    return np.where(outside, np.nan, found), faults


def _of_texts(texts: List[str]) -> Tuple[np.ndarray, np.ndarray, np.ndarray]:
    """The seconds of times with a date, which texts are some, and which of these name no zone.

    Texts of one shape, where a shape is the text with 0 for each digit, have their fields at the same places and are read
    together. There are few shapes in a file.
    """
    found, good = np.full(len(texts), np.nan), np.zeros(len(texts), dtype=bool)
    unzoned = good.copy()
    matrix, rest = as_bytes(texts, 40)
    digit = DIGIT[matrix]
    shapes = np.where(digit, np.uint8(ord("0")), matrix)
    while rest.any():
        first = int(np.argmax(rest))
        same = rest & (shapes == shapes[first]).all(axis=1)
        rest &= ~same
        shape = bytes(shapes[first]).rstrip(b"\0")
        match = next(filter(None, (form.fullmatch(shape) for form in FORMS)), None)
        if match:
            rows = np.flatnonzero(same)
            found[rows], good[rows] = _of_shape(matrix[rows], match)
            unzoned[rows] = good[rows] & (match["utc"] is None and match["zone"] is None)
    return found, good, unzoned


def _of_shape(matrix: np.ndarray, match: "re.Match[bytes]") -> Tuple[np.ndarray, np.ndarray]:
    """The seconds of texts whose fields lie where those of the match lie, and which of them exist."""
    def field(name: str) -> np.ndarray:
        begin, end = match.span(name)
        return digits_at(matrix, begin, end) if begin >= 0 else np.zeros(len(matrix), dtype=np.int64)

    year, month, day, hour, minute, second = map(field, ("year", "month", "day", "hour", "minute", "second"))
    # A leap second is the first second of the next minute; hour 24 is midnight.
    good = (month >= 1) & (month <= 12) & (day >= 1) & (minute < 60) & (second <= 60) & (year >= 1)
    good &= (hour < 24) | (hour == 24) & (minute == 0) & (second == 0)
    months = (year - 1970) * 12 + np.clip(month, 1, 12) - 1
    begin = months.astype("datetime64[M]").astype("datetime64[D]").astype(np.int64)
    after = (months + 1).astype("datetime64[M]").astype("datetime64[D]").astype(np.int64)
    good &= day <= after - begin
    whole = 86400 * (begin + day - 1) + 3600 * hour + 60 * minute + second
    if match["zone"] is not None:
        sign = match.start("zone")
        zone_hour, zone_minute = digits_at(matrix, sign + 1, match.end("zone")), field("zone_minute")
        good &= (zone_hour <= 18) & (zone_minute < 60)
        shift = 3600 * zone_hour + 60 * zone_minute
        whole = whole - np.where(matrix[:, sign] == ord("-"), -shift, shift)
    begin_of, end_of = match.span("part")
    end_of = min(end_of, begin_of + 9)  # nanoseconds
    part = digits_at(matrix, begin_of, end_of) / 10.0 ** (end_of - begin_of) if begin_of >= 0 else 0.0
    return np.where(good, whole + part, np.nan), good
