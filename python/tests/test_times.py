"""Times of positions: texts, columns of pandas, time zones, and a date and a time of day apart."""
from __future__ import annotations

import datetime
import math
import re
from pathlib import Path
from typing import Any, List

import numpy as np
import pandas as pd
import pytest
from hypothesis import given
from hypothesis import strategies as st

import fmm
from fmm._reading.times import read_times
from fmm.errors import FmmWarning, OptionError
from fmm.positions import Positions, read_positions

BEGIN = 1714982400  # 2024-05-06T08:00:00Z
UNZONED = "times name no time zone and count as UTC; timezone (--timezone) says theirs, such as Europe/Berlin"


def frame_of(times: List[Any], **more: List[Any]) -> pd.DataFrame:
    longitudes = [9.4 + place / 1e4 for place in range(len(times))]
    return pd.DataFrame({"id": "a", "lon": longitudes, "lat": 54.3, "time": times, **more})


def seconds_of(positions: Positions) -> List[float]:
    return positions.frame["time"].tolist()


def test_times() -> None:
    texts = ["2024-05-06T08:00:00Z", "2024-05-06 10:00:00+02:00", "2024-05-06T08:00", "2024-05-06T08:00:00.25Z", "1714982400.5",
             "2024-05-06T03:30:00-0430", "2024-05-06T09:00:00,125+01", "2024-05-06t08:00:00z", "2024-12-31T23:59:60Z",
             "1714982400", "06.05.2024 08:00:00", "6.5.2024, 8:00", "06.05.2024 10:00:00.5+02:00", "2024/05/06 08:00:00"]
    found, faults, _ = read_times(pd.Series(texts, dtype=object))
    begin = 1714982400
    assert found.tolist() == [begin, begin, begin, begin + .25, begin + .5, begin, begin + .125, begin, 1735689600, begin,
                              begin, begin, begin + .5, begin]
    assert (faults == "").all()


def test_times_of_pandas() -> None:
    naive = pd.Series(pd.to_datetime(["2024-05-06 08:00", None]))
    assert read_times(naive)[0].tolist()[0] == 1714982400 and math.isnan(read_times(naive)[0][1])
    zoned = pd.Series(pd.to_datetime(["2024-05-06 08:00"])).dt.tz_localize("Europe/Berlin")
    assert read_times(zoned)[0].tolist() == [1714975200]
    mixed = pd.Series([pd.Timestamp("2024-05-06 08:00", tz="Asia/Tokyo"), 17, "18", None], dtype=object)
    assert read_times(mixed)[0].tolist()[:3] == [1714950000, 17, 18]


@given(st.datetimes(min_value=pd.Timestamp(1970, 1, 2), max_value=pd.Timestamp(2105, 12, 31)), st.integers(-14 * 60, 14 * 60))
def test_any_time_is_read_as_python_does(when: pd.Timestamp, minutes: int) -> None:
    zone = f"{'-' if minutes < 0 else '+'}{abs(minutes) // 60:02}:{abs(minutes) % 60:02}"
    text = when.isoformat() + zone
    found, *_ = read_times(pd.Series([text], dtype=object))
    assert found[0] == pytest.approx(pd.Timestamp(text).timestamp(), abs=1e-5)


@given(st.lists(st.text("0123456789-T:Z+. eE_", max_size=26), min_size=1, max_size=8))
def test_a_time_has_a_value_or_a_fault(texts: List[str]) -> None:
    found, faults, _ = read_times(pd.Series(texts, dtype=object))
    for text, value, fault in zip(texts, found, faults):
        assert (fault == "") == (not math.isnan(value) or not text.strip())
        if not math.isnan(value) and re.match(r"\s*\d{4}-", text):
            assert value == pytest.approx(pd.Timestamp(text.strip().replace("24:00", "00:00"), tz=None).timestamp()
                                          + 86400 * ("24:00" in text), abs=86400)


# ---- zones

def test_times_without_a_zone_are_said_once(tmp_path: Path, small: Path) -> None:
    paths = [tmp_path / "a.csv", tmp_path / "b.csv"]
    frame_of(["2024-05-06 08:00:00", "2024-05-06T08:00:05Z", ""]).to_csv(paths[0], index=False)
    frame_of(["06.05.2024 08:00:10", "1714982415", "nonsense"]).to_csv(paths[1], index=False)
    assert read_positions(paths).warnings == [f"2 {UNZONED}"]
    assert read_positions(paths, timezone="UTC").warnings == []
    assert read_positions(frame_of(pd.to_datetime(["2024-05-06 08:00", None]))).warnings == [f"1 {UNZONED}"]
    assert read_positions(frame_of([BEGIN, BEGIN + 1])).warnings == []
    assert read_positions(sorted(small.glob("*.gpx"))).warnings == []  # GPX has UTC


def test_a_match_warns_of_times_without_a_zone(small: Path) -> None:
    network = fmm.Network.from_osm(small / "village.osm")
    frame = pd.DataFrame({"id": "a", "lon": [9.43001, 9.43201], "lat": [54.31002, 54.31004], "time": [
        "2024-05-06 10:00:00", "2024-05-06 10:00:15"]})
    with pytest.warns(FmmWarning, match="count as UTC"):
        matches = fmm.match(network, frame)
    assert f"warning: 2 {UNZONED}\n" in matches.report.text
    matches = fmm.match(network, read_positions(frame, timezone="Europe/Zurich"))
    assert matches.report.warnings == [] and str(matches.points["time"][0]) == "2024-05-06 08:00:00+00:00"


@pytest.mark.parametrize("texts", [
    ["2024-05-06 10:00:00", "06.05.2024 10:00:05.5", "2024-05-06T08:00:06Z", "1714982407", ""],
    [datetime.datetime(2024, 5, 6, 10), pd.Timestamp("2024-05-06 10:00:05.5"), pd.Timestamp("2024-05-06 08:00:06", tz="UTC"),
     1714982407, None],
])
def test_times_of_a_zone(texts: List[Any]) -> None:
    found, faults, _ = read_times(np.array(texts, dtype=object), zone="Europe/Zurich")
    assert found.tolist()[:4] == [BEGIN, BEGIN + 5.5, BEGIN + 6, BEGIN + 7] and math.isnan(found[4]) and not faults.any()


def test_times_of_pandas_in_a_zone() -> None:
    column = pd.Series(pd.to_datetime(["2024-05-06 10:00:00.25", None, "2024-01-06 09:00"]))
    found, faults, unzoned = read_times(column, zone="Europe/Zurich")
    assert found[[0, 2]].tolist() == [BEGIN + 0.25, 1704528000] and math.isnan(found[1]) and not faults.any() and unzoned == 2
    assert read_times(column.dt.tz_localize("Asia/Tokyo"), zone="Europe/Zurich").seconds[0] == BEGIN + 0.25 - 7 * 3600


def test_times_when_the_clocks_change(tmp_path: Path) -> None:
    path = tmp_path / "night.csv"
    frame_of(["2024-03-31 01:59:59", "2024-03-31 02:30:00", "2024-03-31 03:00:00", "2024-10-27 01:59:59", "2024-10-27 02:30:00",
              "2024-10-27 02:30:00+01:00", "2024-10-27 03:00:00"]).to_csv(path, index=False)
    positions = read_positions(path, timezone="Europe/Zurich")
    assert positions.left_out[["line", "reason"]].values.tolist() == [
        [3, "time 2024-03-31 02:30:00 does not exist in Europe/Zurich: there clocks are set forward"],
        [6, "time 2024-10-27 02:30:00 comes twice in Europe/Zurich: there clocks are set back; write it with its zone"]]
    assert np.diff(seconds_of(positions)).tolist()[-1] == 1800 and positions.frame["time"].isna().sum() == 2
    assert seconds_of(positions)[2] - seconds_of(positions)[0] == 1
    naive = read_times(pd.Series(pd.to_datetime(["2024-03-31 02:30", "2024-10-27 02:30"])), zone="Europe/Zurich").faults.tolist()
    assert "does not exist" in naive[0] and "comes twice" in naive[1]


def test_times_that_no_clock_shows_keep_their_faults() -> None:
    found, faults, _ = read_times(np.array(["0001-01-01 00:00", "9999-12-31 23:59", "1969-12-31 23:59"], dtype=object),
                                  zone="America/New_York")
    assert math.isnan(found[0]) and math.isnan(found[1]) and found[2] == 4 * 3600 + 3540
    assert ["is not between the years" in fault for fault in faults] == [True, True, False]


def test_a_zone_that_does_not_exist(small: Path) -> None:
    with pytest.raises(OptionError, match="zone Europe/Atlantis is no time zone"):
        read_positions(small / "monday.gpx", timezone="Europe/Atlantis")


@given(st.datetimes(min_value=pd.Timestamp(1971, 1, 1), max_value=pd.Timestamp(2035, 12, 31)),
       st.sampled_from(["Europe/Zurich", "America/New_York", "Australia/Lord_Howe", "Asia/Kathmandu", "UTC"]))
def test_a_local_time_is_an_instant_that_the_clocks_show(when: datetime.datetime, zone: str) -> None:
    when = when.replace(microsecond=0)
    found, faults, _ = read_times(pd.Series([when.isoformat()], dtype=object), zone=zone)
    shown = [stamp for stamp in pd.date_range(pd.Timestamp(when, tz="UTC") - pd.Timedelta("15h"), periods=121, freq="15min")
             if stamp.tz_convert(zone).tz_localize(None) == when]
    if len(shown) == 1:
        assert found[0] == shown[0].timestamp() and faults[0] == ""
    else:
        assert math.isnan(found[0]) and ("comes twice" if shown else "does not exist") in faults[0]


# ---- a date and a time of day apart

@pytest.mark.parametrize("date, clock, days, hours", [
    ("date", "time", ["2024-05-06", "2024-05-06"], ["08:00:00", "08:00:05"]),
    ("Datum", "Uhrzeit", ["06.05.2024", "6.5.2024"], ["8:00", "8:00:05"]),
    ("datum", "zeit", ["06.05.2024", "06.05.2024"], ["08:00:00", "08:00:05.0"]),
    ("date", "heure", ["2024/05/06", "2024/05/06"], ["08:00:00Z", "10:00:05+02:00"]),
    ("fecha", "hora", ["2024-05-06", "2024-05-06"], ["08:00:00", "08:00:05"]),
    ("data", "ora", ["2024-05-06", "2024-05-06"], ["08:00:00", "08:00:05"]),
    ("datum", "tijd", ["2024-05-06", "2024-05-06"], ["08:00:00", "08:00:05"]),
    ("date", "time", pd.to_datetime(["2024-05-06", "2024-05-06"]), [datetime.time(8), datetime.time(8, 0, 5)]),
    ("date", "time", [datetime.date(2024, 5, 6)] * 2, [datetime.time(8), datetime.time(8, 0, 5)]),
])
def test_a_date_and_a_time_of_day(date: str, clock: str, days: Any, hours: List[Any]) -> None:
    frame = pd.DataFrame({"id": "a", "lon": [9.4, 9.5], "lat": 54.3, date: days, clock: hours})
    positions = read_positions(frame)
    assert seconds_of(positions) == [BEGIN, BEGIN + 5] and positions.left_out.empty
    assert positions.notes == [f"table: id from id, x from lon, y from lat, time from {date} and {clock}"]
    assert date in positions.frame.columns


def test_a_date_and_a_time_of_day_of_a_file(tmp_path: Path) -> None:
    path = tmp_path / "box.csv"
    path.write_text("id;lon;lat;Datum;Uhrzeit\n7;9,4;54,3;06.05.2024;10:00:00\n7;9,4;54,3;;10:00:05\n7;9,4;54,3;06.05.2024;\n"
                    "7;9,4;54,3;;\n7;9,4;54,3;31.04.2024;10:00:00\n7;9,4;54,3;06.05.2024;25:00\n")
    positions = read_positions(path, timezone="Europe/Zurich")
    assert seconds_of(positions)[0] == BEGIN
    assert positions.left_out[["line", "reason"]].values.tolist() == [
        [3, "no Datum"], [4, "no Uhrzeit"],
        [6, "time 31.04.2024 10:00:00 is neither an ISO time nor seconds since 1970"],
        [7, "time 06.05.2024 25:00 is neither an ISO time nor seconds since 1970"]]


@pytest.mark.parametrize("date, clock", [
    (["2024-05-06T08:00:00Z"], ["1714982400"]),  # two times: that of the usual order of names
    (["x"], ["1714982400"]),
    ([""], ["1714982400"]),
])
def test_columns_that_are_no_date_and_no_time_of_day(date: List[str], clock: List[str]) -> None:
    positions = read_positions(frame_of(clock, date=date))
    assert seconds_of(positions) == [BEGIN] and "time from time" in positions.notes[0]


def test_a_column_by_name_is_the_time(tmp_path: Path) -> None:
    frame = frame_of(["08:00:00"], date=["2024-05-06"], other=[BEGIN])
    assert seconds_of(read_positions(frame, time="other")) == [BEGIN]


def test_a_day_before_the_month_is_not_guessed() -> None:
    frame = frame_of(["08:00:00", "08:00:00"], date=["2024-05-06", "05/06/2024"])
    assert read_positions(frame).left_out["reason"].tolist() == [
        "time 05/06/2024 08:00:00 is neither an ISO time nor seconds since 1970: is the day or the month first? Write 2026-12-24 "
        "or 24.12.2026"]
