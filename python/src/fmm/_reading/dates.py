"""A date and a time of day that stand in two columns."""
from __future__ import annotations

import re
from typing import List, Optional, Tuple

import numpy as np
import pandas as pd

from .columns import plain
from .numbers import texts_of
from .times import Times, read_times

# Usual names in English, German, French, Spanish, Italian and Dutch.
PAIRS = (("date", "time"), ("datum", "zeit"), ("datum", "uhrzeit"), ("date", "heure"), ("fecha", "hora"), ("data", "ora"),
         ("datum", "tijd"))
DATE = re.compile(r"\d{4}([-/.])\d\d\1\d\d|\d\d?([-/.])\d\d?\2\d{4}", re.ASCII)
CLOCK = re.compile(r"\d\d?:\d\d(:\d\d([.,]\d+)?)?( ?([Zz]|[+-]\d\d(:?\d\d)?))?", re.ASCII)


def pair_of(frame: pd.DataFrame) -> Optional[Tuple[str, str]]:
    """The columns of the date and of the time of day: the first two of usual names whose first values are such ones."""
    known = {plain(column): column for column in reversed(list(frame.columns))}
    for date, clock in PAIRS:
        if date in known and clock in known and are_pair(frame[known[date]], frame[known[clock]]):
            return known[date], known[clock]
    return None


def are_pair(dates: pd.Series, clocks: pd.Series) -> bool:
    """Whether the first row that has both has a date and a time of day."""
    both = np.flatnonzero((dates.notna() & clocks.notna() & (dates != "") & (clocks != "")).to_numpy())[:1]
    date, clock = date_texts(dates.iloc[both]), texts_of(clocks.iloc[both])
    return len(both) > 0 and DATE.fullmatch(date[0]) is not None and CLOCK.fullmatch(clock[0]) is not None


def date_texts(dates: pd.Series) -> List[str]:
    """Dates as text. Times of pandas and of databases at midnight are dates."""
    return [text[:-9] if text.endswith((" 00:00:00", "T00:00:00")) else text for text in texts_of(dates)]


def read_pair(dates: pd.Series, clocks: pd.Series, zone: Optional[str]) -> Times:
    """The times of dates and times of day. A row with one of both is a fault."""
    date, clock = date_texts(dates), texts_of(clocks)
    whole = [f"{day} {hour if hour[1:2] != ':' else '0' + hour}" if day and hour else "" for day, hour in zip(date, clock)]
    times = read_times(np.array(whole, dtype=object), zone=zone)
    lacks = [f"no {clocks.name}" if day and not hour else f"no {dates.name}" if hour and not day else fault
             for day, hour, fault in zip(date, clock, times.faults.tolist())]
    return times._replace(faults=np.array(lacks, dtype=object))
