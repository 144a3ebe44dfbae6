"""Local times: from what a clock showed to seconds since 1970."""
from __future__ import annotations

from typing import Sequence, Tuple

import numpy as np
import pandas as pd

from ..errors import OptionError, shown

DAY = 86_400
LAST = 4_294_967_295  # the last second that the programs take


def checked_zone(zone: str) -> str:
    """The name of a time zone; an OptionError if there is none of this name."""
    try:
        pd.Timestamp(0, unit="s", tz=zone)
    except (LookupError, ValueError, TypeError, OSError):  # those of pytz and zoneinfo are kinds of these
        raise OptionError(f"zone {shown(zone)} is no time zone; write a name such as Europe/Berlin or UTC") from None
    return zone


def from_local(clocks: np.ndarray, zone: str, texts: Sequence[object]) -> Tuple[np.ndarray, np.ndarray]:
    """Seconds since 1970 of what the clocks of a zone showed, and what is wrong with each ("" if nothing is).

    `clocks` has seconds (float64) as if the clocks were those of UTC, and NaN for none; `texts` are for messages. When clocks are
    set forward, some of their times do not exist; when they are set back, some come twice.
    """
    out, faults = clocks.copy(), np.full(len(clocks), "", dtype=object)
    rows = np.flatnonzero((clocks > -DAY) & (clocks < LAST + DAY))
    whole = np.floor(clocks[rows])
    local = pd.DatetimeIndex(whole.astype("datetime64[s]").astype("datetime64[ns]"))
    found = local.tz_localize(zone, ambiguous="NaT", nonexistent="NaT")
    odd = np.flatnonzero(found.isna())
    skipped = local[odd].tz_localize(zone, ambiguous=np.ones(len(odd), dtype=bool), nonexistent="NaT").isna()
    for row, is_skipped in zip(rows[odd].tolist(), skipped.tolist()):
        what = "does not exist" if is_skipped else "comes twice"
        hint = "there clocks are set forward" if is_skipped else "there clocks are set back; write it with its zone"
        faults[row] = f"time {shown(texts[row], 40)} {what} in {zone}: {hint}"
    seconds = found.tz_convert(None).to_numpy().astype("datetime64[s]").astype(np.int64)
    out[rows] = np.where(found.isna(), np.nan, seconds + (clocks[rows] - whole))
    return out, faults
