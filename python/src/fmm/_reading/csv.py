"""Positions from tables of values that are separated by commas, semicolons or tabs."""
from __future__ import annotations

import numpy as np

from .._tables import read_table
from ..errors import InputError, PathText
from .frames import rows_of_frame
from .rows import Rows, Wanted


def read_csv(path: PathText, wanted: Wanted, name: str) -> Rows:
    """The rows of a table; all own columns stay text. A table that cannot be read as a whole is an InputError.

    If semicolons or tabs separate the fields, numbers may have a decimal comma.
    """
    frame = read_table(path, name=name, separators=",;\t")
    if not len(frame):
        raise InputError("has a header and no positions", name)
    return rows_of_frame(frame, wanted, name, np.asarray(frame.attrs["lines"]))
