"""Tables of comma-separated values as data frames: the strict reader, and the writer."""
from __future__ import annotations

import math
import os
import re
from typing import IO, Optional, Sequence

import numpy as np
import pandas as pd

from ._output import Outputs
from ._records import Column, LineNumbers, read_records
from .errors import OutputError, PathText, shown

CONTROL = re.compile(r"[\x00-\x1f\x7f-\x9f\u2028\u2029\ud800-\udfff]")
BATCH = 1 << 16


def read_table(path: PathText, *, required: Sequence[str] = (), unique: Sequence[str] = (), name: Optional[str] = None,
               separators: str = ",") -> pd.DataFrame:
    """Reads a table as read_records does, which says what is refused. Each column is text (dtype object).

    `frame.attrs` has `path`, `separator`, and `lines`, the number of the line of each record. A million records of 5 fields take
    about 1 s.
    """
    read = read_records(path, required=required, unique=unique, name=name, separators=separators)
    frame = pd.DataFrame(dict(zip(read.header, read.columns)), columns=read.header, dtype=object)
    frame.attrs.update(path=read.name, separator=read.separator, lines=LineNumbers(read.lines))
    return frame


def column_of(frame: pd.DataFrame, column: str) -> Column:
    """A column of a table that read_table returned."""
    return Column(frame[column].tolist(), column, frame.attrs["path"], frame.attrs["lines"])


def numbers(frame: pd.DataFrame, column: str, low: float = -math.inf, high: float = math.inf,
            empty: Optional[float] = None) -> np.ndarray:
    """The numbers of a column of a table that read_table returned, as Column.numbers reads them."""
    return column_of(frame, column).numbers(low, high, empty)


def whole_numbers(frame: pd.DataFrame, column: str, low: int, high: int) -> np.ndarray:
    """The unsigned whole numbers of a column, as Column.whole_numbers reads them."""
    return column_of(frame, column).whole_numbers(low, high)


def write_table(outputs: Outputs, path: PathText, frame: pd.DataFrame, *, keys: Sequence[str] = (),
                header: bool = True) -> None:
    """Writes a table that read_table can read. The index is not written; empty fields stand for None, NaN and NaT.

    Control characters of texts are written as their escapes (`\\n`, `\\x1b`). In columns of `keys` they are refused with
    OutputError, since an escaped key is another key. Times are written as their texts, so format them before.
    """
    write_rows(outputs.open(path), frame, os.fspath(path), keys, header)


def write_file(path: PathText, frame: pd.DataFrame) -> None:
    """Writes one table as write_table does."""
    with Outputs() as outputs:
        write_table(outputs, path, frame)


def write_rows(file: IO[str], frame: pd.DataFrame, name: str, keys: Sequence[str] = (), header: bool = True) -> None:
    """Appends the rows of a table to an open text file, as write_table does. Takes about 3 s for a million rows of 5."""
    if header:
        file.write(",".join(quoted([escaped(str(column)) for column in frame.columns], len(frame.columns) == 1)) + "\n")
    for begin in range(0, len(frame), BATCH):
        part = frame.iloc[begin:begin + BATCH]
        columns = [column_texts(part.iloc[:, place], name, begin, frame.columns[place] in keys) for place in range(part.shape[1])]
        columns = [quoted(texts, len(columns) == 1) for texts in columns]
        file.write("\n".join(map(",".join, zip(*columns))) + "\n")


def column_texts(values: pd.Series, name: str, begin: int, key: bool) -> list[str]:
    """The fields of a column, with escapes."""
    plain = isinstance(values.dtype, np.dtype)  # the integers of pandas may be missing
    if plain and values.dtype.kind in "iub":
        return list(map(str, values.tolist()))
    if plain and values.dtype.kind == "f":
        return ["" if value != value else repr(value) for value in values.tolist()]
    texts = ["" if missing else str(value) for value, missing in zip(values, pd.isna(values))]
    if not CONTROL.search("".join(texts)):
        return texts
    if key:
        at = next(number for number, text in enumerate(texts) if CONTROL.search(text))
        place = f"column {values.name} of record {begin + at + 1}"
        raise OutputError(f"{name}: {place} has a control character: {shown(escaped(texts[at]))}")
    return [escaped(text) for text in texts]


def quoted(texts: list[str], alone: bool) -> list[str]:
    """The fields with quotes where they are needed; an empty field that is the only one of its record has quotes too."""
    joined = "".join(texts)
    if '"' in joined or "," in joined:
        texts = ['"' + text.replace('"', '""') + '"' if '"' in text or "," in text else text for text in texts]
    return [text or '""' for text in texts] if alone else texts


def escaped(text: str) -> str:
    """The text with escapes in place of control characters and of halves of surrogate pairs."""
    return CONTROL.sub(lambda found: found[0].encode("unicode_escape", "surrogatepass").decode(), text)
