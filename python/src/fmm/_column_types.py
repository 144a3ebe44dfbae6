"""Column types of tables of comma-separated values, for GDAL and QGIS, which guess them otherwise."""
from __future__ import annotations

from pathlib import Path
from typing import Any

import pandas as pd

from ._output import Outputs

KINDS = {"i": "Integer64", "u": "Integer64", "b": "Integer(Boolean)", "f": "Real"}


def write_column_types(outputs: Outputs, path: Path, frame: pd.DataFrame) -> None:
    """Writes TABLE.csvt, the types of the columns of TABLE.csv: the ids 007 and 7 stay two texts."""
    types = ",".join(f'"{column_type(str(name), frame[name].dtype)}"' for name in frame.columns)
    outputs.open(path.with_suffix(".csvt")).write(types + "\n")


def column_type(name: str, dtype: Any) -> str:
    """What GDAL calls the type of a column."""
    if name == "geometry":
        return "WKT"
    if isinstance(dtype, pd.DatetimeTZDtype):
        return "DateTime"
    return KINDS.get(dtype.kind, "String")  # also the integers of pandas, which may be missing, have a kind
