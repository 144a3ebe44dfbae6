"""Rows of unequal length as flat arrays: row i has the values offsets[i] to offsets[i + 1] of one array."""
from __future__ import annotations

from typing import Tuple

import numpy as np


def offsets_of(counts: np.ndarray) -> np.ndarray:
    """Where each row begins, and after them the number of all values."""
    offsets = np.zeros(len(counts) + 1, np.int64)
    counts.cumsum(out=offsets[1:])
    return offsets


def spread(first: np.ndarray, counts: np.ndarray) -> np.ndarray:
    """The numbers first[i], first[i] + 1, .. of each row i, `counts[i]` of them, one row after the other."""
    offsets = offsets_of(counts)
    return (first - offsets[:-1]).repeat(counts) + np.arange(offsets[-1])


def rows_of(counts: np.ndarray) -> np.ndarray:
    """The row of each value."""
    return np.arange(len(counts)).repeat(counts)


def runs(values: np.ndarray) -> Tuple[np.ndarray, np.ndarray]:
    """The first place of each run of equal neighbours, and the length of each run."""
    if not len(values):
        return np.zeros(0, np.int64), np.zeros(0, np.int64)
    first = np.flatnonzero(np.concatenate((np.ones(1, bool), values[1:] != values[:-1])))
    return first, np.diff(np.append(first, len(values)))
