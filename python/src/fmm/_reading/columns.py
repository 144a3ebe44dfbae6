"""Which columns of a table have the id, the place and the time of a position."""
from __future__ import annotations

import difflib
import unicodedata
from typing import List, NamedTuple, Optional, Sequence

from ..errors import InputError, shown
from .rows import Wanted

# Usual names in English, German, French, Spanish, Italian and Dutch; the first that a table has counts.
IDS = ("id", "vehicle", "vehicle_id", "vehicleid", "plate", "track", "track_id", "trackid", "trace", "trace_id", "trip",
       "trip_id", "device", "device_id", "deviceid", "unit", "driver", "tid", "fahrzeug", "fahrzeug_id", "kennzeichen",
       "véhicule", "vehicule", "immatriculation", "vehículo", "vehiculo", "matrícula", "matricula", "veicolo", "targa",
       "voertuig", "kenteken")
LONGITUDES = ("longitude", "lon", "lng", "long", "längengrad", "laengengrad", "longitud", "longitudine", "lengtegraad")
LATITUDES = ("latitude", "lat", "breitengrad", "latitud", "latitudine", "breedtegraad")
XS = ("x", "easting", "east", "rechtswert", "ostwert")
YS = ("y", "northing", "north", "hochwert", "nordwert")
TIMES = ("time", "timestamp", "datetime", "date_time", "when", "utc", "recorded_at", "gps_time", "ts", "t", "epoch", "date",
         "zeitstempel", "zeitpunkt", "zeit", "datum_zeit", "datum", "horodatage", "date_heure", "heure", "fecha_hora", "fecha",
         "hora", "data_ora", "ora", "tijdstip", "tijd")


class Columns(NamedTuple):
    """Names of columns. `degrees`: the names of x and y say that they are longitude and latitude. `date`: the column of the date,
    if `time` has times of day only."""

    id: Optional[str]
    x: Optional[str]
    y: Optional[str]
    time: Optional[str]
    degrees: bool
    date: Optional[str] = None

    def note(self, name: str, header: Sequence[str]) -> str:
        """A line for the report, with all columns if some were not found."""
        has = [f"{what} from {shown(column)}" for what, column in zip(("id", "x", "y"), self) if column is not None]
        has += [f"time from {' and '.join(shown(part) for part in (self.date, self.time) if part)}"] if self.time else []
        lacks = [f"no {what}" for what, column in (("id", self.id), ("time", self.time)) if column is None]
        others = [column for column in header if column not in self]
        known = f"; its other columns are {listed(others)}" if lacks and others else ""
        return f"{name}: {', '.join(has + lacks)}{known}"


def find_columns(header: Sequence[str], wanted: Wanted, name: str, places: bool = True) -> Columns:
    """The columns that the caller names, or that have a usual name. Without `places` only id and time are looked for."""
    for column in (wanted.id, wanted.x, wanted.y, wanted.time):
        if column is not None and column not in header:
            raise InputError(f"has no column {shown(column)}{similar(column, header)}; its columns are {listed(header)}", name)
    x = wanted.x or usual(header, LONGITUDES + XS)
    y = wanted.y or usual(header, LATITUDES + YS)
    if places and (x is None or y is None):
        raise InputError(f"name the columns of the place by x and y (--x and --y); its columns are {listed(header)}", name)
    return Columns(wanted.id or usual(header, IDS), x, y, wanted.time or usual(header, TIMES),
                   plain(x) in LONGITUDES or plain(y) in LATITUDES)


def usual(header: Sequence[str], names: Sequence[str]) -> Optional[str]:
    """The column with the first of some usual names, in any case."""
    known = {plain(column): column for column in reversed(header)}
    return next((known[name] for name in names if name in known), None)


def plain(column: Optional[str]) -> str:
    return unicodedata.normalize("NFC", str(column)).strip().lower().replace(" ", "_").replace("-", "_")


def similar(column: str, header: Sequence[str]) -> str:
    close: List[str] = difflib.get_close_matches(column, [str(name) for name in header], 1)
    return f" (did you mean {shown(close[0])}?)" if close else ""


def listed(header: Sequence[str]) -> str:
    return shown(",".join(str(name) for name in header), 100)
