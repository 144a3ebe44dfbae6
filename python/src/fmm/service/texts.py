"""Rows of text from columns of numbers, thousands at a time, without an object of Python for each number.

The unit is a word: four bytes of text as one uint32. A column is a list of words uint32[n], which stand side by side in each row.
Bytes that are 0 stand for nothing; `text_of` leaves them out, so that numbers need no common width.
"""
from __future__ import annotations

import functools
from typing import List, Union

import numpy as np

MANY = 10_000  # numbers whose digits are looked up
Column = Union[bytes, List[np.ndarray]]


def words_of(texts: List[bytes]) -> np.ndarray:
    """Texts as words uint32[n, width]."""
    size = max(map(len, texts), default=0) + 3 & -4
    return np.frombuffer(b"".join(text.ljust(size, b"\0") for text in texts), np.uint32).reshape(len(texts), size // 4)


PLAIN = words_of([b"%d" % number for number in range(MANY)])[:, 0]
PADDED = words_of([b"%04d" % number for number in range(MANY)])[:, 0]
# The point and the first decimals, so that fours are left after them.
POINTED = {2: words_of([b".%02d" % number for number in range(100)])[:, 0],
           3: words_of([b".%03d" % number for number in range(1000)])[:, 0]}
NOTHING, MINUS = np.uint32(0), words_of([b"-"])[0, 0]


def whole(values: np.ndarray) -> List[np.ndarray]:
    """Whole numbers of at least 0."""
    if values.max(initial=0) < MANY:
        return [PLAIN[values]]
    high, low = values // MANY, values % MANY
    is_high = high > 0
    return [*(np.where(is_high, word, NOTHING) for word in whole(high)), np.where(is_high, PADDED[low], PLAIN[low])]


def signed(values: np.ndarray) -> List[np.ndarray]:
    """Whole numbers."""
    return [np.where(values < 0, MINUS, NOTHING), *whole(np.abs(values))]


def decimal(units: np.ndarray, digits: int) -> List[np.ndarray]:
    """Numbers with 2, 3, 6 or 7 decimals, given as whole numbers of the last one."""
    sizes, minus = np.abs(units), np.where(units < 0, MINUS, NOTHING)
    before, after = sizes // 10 ** digits, sizes % 10 ** digits
    if digits < 4:
        return [minus, *whole(before), POINTED[digits][after]]
    return [minus, *whole(before), POINTED[digits - 4][after // MANY], PADDED[after % MANY]]


def rows_of(count: int, *columns: Column) -> np.ndarray:
    """Rows uint32[count, width] of columns side by side; bytes are the same in each row."""
    words = [word for column in columns for word in (constant(column) if isinstance(column, bytes) else column)]
    rows = np.empty((count, len(words)), np.uint32)
    rows[:] = [word if word.ndim == 0 else NOTHING for word in words]
    for place, word in enumerate(words):
        if word.ndim:
            rows[:, place] = word
    return rows


@functools.lru_cache
def constant(text: bytes) -> List[np.ndarray]:
    """The words of bytes that are the same in each row."""
    return list(words_of([text])[0])


def text_of(rows: np.ndarray) -> bytes:
    """The rows one after the other."""
    return rows.tobytes().translate(None, b"\0")
