"""The strict reader of tables of comma-separated values. It needs no pandas, whose import takes longer than most tables."""
from __future__ import annotations

import csv
import itertools
import math
import os
import re
import sys
from dataclasses import dataclass
from operator import methodcaller
from typing import Any, Dict, Iterator, List, NoReturn, Optional, Sequence, Union

import numpy as np

from ._text_files import read_text
from .errors import InputError, PathText, shown

QUOTED = re.compile(r'"[^"]*"')
SEPARATORS = {",": "commas", ";": "semicolons", "\t": "tabs"}
# A quote is only around a name, or twice within such a name.
HEADERS = {mark: re.compile(rf'((?:"(?:[^"]|"")*"|[^"{mark}]*)(?:{mark}|$))+') for mark in SEPARATORS}
NUMBER = re.compile(r"\s*[+-]?(\d+\.?\d*|\.\d+)([eE][+-]?\d+)?\s*", re.ASCII)


class LineNumbers:
    """The line of each record of a table, in `frame.attrs["lines"]`. Copies of the table share it."""

    def __init__(self, numbers: np.ndarray) -> None:
        self.numbers = numbers

    def __getitem__(self, record: int) -> int:
        return int(self.numbers[record])

    def __len__(self) -> int:
        return len(self.numbers)

    def __array__(self, dtype: Any = None) -> np.ndarray:
        return np.asarray(self.numbers, dtype)

    def __deepcopy__(self, memo: Dict[int, Any]) -> LineNumbers:
        return self


@dataclass
class Column:
    """The texts of a column as the file has them, and for messages the names of the column and of the table, and the line of each
    record."""

    texts: List[str]
    name: str
    table: str
    lines: Union[np.ndarray, LineNumbers]

    def refuse(self, at: int, message: str) -> NoReturn:
        """Refuses the record with this number, with InputError."""
        raise InputError(message, self.table, int(self.lines[at]), self.name)

    def check_unique(self) -> None:
        """Refuses a text that comes twice."""
        if len(set(self.texts)) < len(self.texts):
            first = {text: at for at, text in reversed(list(enumerate(self.texts)))}
            at = next(at for at, text in enumerate(self.texts) if first[text] < at)
            self.refuse(at, f"{shown(self.texts[at])} comes a second time")

    def numbers(self, low: float = -math.inf, high: float = math.inf, empty: Optional[float] = None) -> np.ndarray:
        """The numbers as float64. Blanks around a number are allowed.

        An empty field is `empty`, or refused if that is None. Refused with InputError (path, line, column): anything that is no
        finite decimal number, and numbers outside `low` to `high`.
        """
        texts = self.texts
        filled = texts if empty is None else [text if text.strip() else repr(float(empty)) for text in texts]
        joined = "".join(texts)
        try:
            values = np.fromiter(map(float, filled), np.float64, len(filled))
            is_plain = joined.isascii() and "_" not in joined
            wrong = np.array([]) if is_plain else np.array([not NUMBER.fullmatch(text) for text in texts])
        except ValueError:
            values = np.zeros(len(texts))
            wrong = np.array([not NUMBER.fullmatch(text) for text in texts])
        if not len(wrong):
            wrong = ~np.isfinite(values)
        if empty is not None:
            wrong &= np.array([bool(text.strip()) for text in texts], dtype=bool)
        outside = wrong | (values < low) | (values > high)
        if outside.any():
            at = int(outside.argmax())
            self.refuse(at, number_fault(texts[at], bool(wrong[at]), low, high))
        return values

    def whole_numbers(self, low: int, high: int) -> np.ndarray:
        """The unsigned whole numbers as int64. Refuses with InputError what is none or is outside `low` to `high`."""
        texts = self.texts
        joined, sizes = "".join(texts), [len(text) for text in texts]
        if joined.isascii() and joined.isdigit() and 0 < min(sizes) and max(sizes) <= 18:
            values = np.fromiter(map(int, texts), np.int64, len(texts))
            wrong = (values < low) | (values > high)
        else:
            values = np.zeros(len(texts), np.int64)
            good = (text.isascii() and text.isdigit() and len(text) <= 18 and low <= int(text) <= high for text in texts)
            wrong = ~np.fromiter(good, bool, len(texts))
        if wrong.any():
            at = int(wrong.argmax())
            self.refuse(at, f"{shown(texts[at]) or 'an empty field'} is not a whole number from {low} to {high}")
        return values


@dataclass
class Records:
    """A table: its name, the separator, the header, the columns, and the line of each record."""

    name: str
    separator: str
    header: List[str]
    columns: List[List[str]]
    lines: np.ndarray

    def __len__(self) -> int:
        return len(self.lines)

    def column(self, name: str) -> Column:
        """The column with this name."""
        return Column(self.columns[self.header.index(name)], name, self.name, self.lines)


def read_records(path: PathText, *, required: Sequence[str] = (), unique: Sequence[str] = (), name: Optional[str] = None,
                 separators: str = ",") -> Records:
    """Reads a table whose first line names the columns. `-` is standard input; `name` replaces the path in messages.

    Of `separators`, that which the header has most often separates the fields. Each field is text, as the file has it. Blank
    lines are no records. Refused with InputError (path, line, column): fields that are separated by semicolons or tabs, records
    with another number of fields than the header, a quoted field that does not end in its line, a last line without LF, NUL,
    invalid UTF-8, CR without LF, an empty or doubled name in the header or a quote within one, a missing column of `required`,
    and a value that comes twice in a column of `unique`. A byte-order mark is dropped.
    """
    name = name or ("standard input" if os.fspath(path) == "-" else os.fspath(path))
    text = read_text(path, name)
    lines, quotes = text.split("\n"), '"' in text
    lines.pop()
    del text
    numbers = np.arange(1, len(lines) + 1)
    if "" in lines:
        kept = np.array([line != "" for line in lines], dtype=bool)
        numbers, lines = numbers[kept], [line for line in lines if line]
    if not lines:
        raise InputError("has no header", name)
    separator = separator_of(lines[0], separators, name, int(numbers[0]))
    header, columns = split_records(lines, numbers, name, separator, quotes)
    check_header(header, lines[0], name, int(numbers[0]), separator)
    for column in required:
        if column not in header:
            raise InputError(f"has no column {shown(column)}; its header is {shown(lines[0], 80)}", name)
    found = Records(name, separator, header, columns, numbers[1:])
    for column in unique:
        found.column(column).check_unique()
    return found


def separator_of(header: str, separators: str, name: str, line: int) -> str:
    """The separator of a table by its header. Refuses a table with one that is not among `separators`."""
    names = QUOTED.sub("", header)
    found, other = max(separators, key=names.count), max(SEPARATORS, key=names.count)
    if found not in names and other in names:
        raise InputError(f"the fields are separated by {SEPARATORS[other]}, not by {SEPARATORS[found]}: {shown(header)}", name,
                         line)
    return found


def split_records(lines: list[str], numbers: np.ndarray, name: str, separator: str,
                  quotes: bool) -> tuple[list[str], list[list[str]]]:
    """The header and the columns. Refuses records with another number of fields than the header."""
    rows: Iterator[list[str]]
    if quotes:
        rows = quoted_records(lines, numbers, name, separator)
        header = next(rows)
        fields: list[str] = []
        for number, row in zip(numbers[1:].tolist(), rows):
            if len(row) != len(header):
                raise InputError(unequal(len(row), len(header)), name, number)
            fields += row
    else:
        header = lines[0].split(separator)
        counts = np.fromiter(map(methodcaller("count", separator), lines), np.int64, len(lines))
        wrong = np.flatnonzero(counts != counts[0])
        if len(wrong):
            raise InputError(unequal(int(counts[wrong[0]]) + 1, len(header)), name, int(numbers[wrong[0]]))
        fields = separator.join(lines[1:]).split(separator) if len(lines) > 1 else []
    return header, [fields[column::len(header)] for column in range(len(header))]


def quoted_records(lines: list[str], numbers: np.ndarray, name: str, separator: str) -> Iterator[list[str]]:
    """The fields of each line, where quoted fields occur. A record is a line."""
    rows = csv.reader(lines, delimiter=separator, strict=True)
    limit = csv.field_size_limit(sys.maxsize)
    try:
        for count in itertools.count(1):
            row = next(rows, None)
            if row is None:
                return
            if rows.line_num != count:
                raise InputError("a quoted field does not end in its line", name, int(numbers[count - 1]))
            yield row
    except csv.Error as fault:
        open_end = "unexpected end of data" in str(fault)
        raise InputError("a quoted field does not end in its line" if open_end else f"a stray quote: {fault}", name,
                         int(numbers[count - 1])) from None
    finally:
        csv.field_size_limit(limit)


def unequal(found: int, wanted: int) -> str:
    hint = "; decimal commas?" if found > wanted else ""
    return f"{found} fields, and the header has {wanted}{hint}"


def check_header(header: list[str], text: str, name: str, line: int, separator: str) -> None:
    if not HEADERS[separator].fullmatch(text):
        raise InputError("a stray quote in the header", name, line)
    for place, column in enumerate(header, 1):
        if not column.strip():
            raise InputError(f"name {place} of the header is empty", name, line)
        if header.index(column) != place - 1:
            raise InputError(f"the header names {shown(column)} twice", name, line)


def number_fault(text: str, wrong: bool, low: float, high: float) -> str:
    if not text.strip():
        return "an empty field is not a number"
    if not wrong:
        return f"{shown(text)} is not in the range from {low:.15g} to {high:.15g}"
    hint = ", decimal comma?" if NUMBER.fullmatch(text.replace(",", ".")) else ""
    return f"{shown(text)} is not a number{hint}"
