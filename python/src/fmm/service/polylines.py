"""Lines as text in Google's polyline format, latitude first. `digits` is 5 for polyline, 6 for polyline6."""
from __future__ import annotations

from typing import List

import numpy as np

from .._ragged import offsets_of

FIVES = np.arange(0, 30, 5, np.uint32)  # where the groups of five bits of a number begin


def encode(places: np.ndarray, digits: int = 5) -> str:
    """The text of places float64[n, 2], longitude first."""
    return encode_all(places, np.array([0, len(places)]), digits)[0]


def encode_all(places: np.ndarray, first: np.ndarray, digits: int = 5) -> List[str]:
    """The texts of lines. Line i has the places first[i] to first[i + 1], at least one."""
    whole = np.rint(places[:, ::-1] * 10.0 ** digits).astype(np.int64)
    steps = whole.copy()
    steps[1:] -= whole[:-1]
    steps[first[:-1]] = whole[first[:-1]]
    # what a group of five bits and those after it have to say
    left = ((steps << 1) ^ (steps >> 63)).ravel().astype(np.uint32)[:, None] >> FIVES
    groups = (left & 31).astype(np.uint8) + np.where(left >= 32, np.uint8(95), np.uint8(63))
    written = left > 0
    written[:, 0] = True
    text = groups[written].tobytes().decode("ascii")
    bounds = offsets_of(written.sum(axis=1))[2 * first].tolist()
    return [text[begin:end] for begin, end in zip(bounds, bounds[1:])]


def decode(text: str, digits: int = 5) -> np.ndarray:
    """The places of a text, longitude first. ValueError: it is no such text."""
    values, value, shift = [], 0, 0
    for byte in text.encode("ascii"):
        if not 63 <= byte <= 126 or shift > 35:
            raise ValueError("no polyline")
        value |= (byte - 63 & 31) << shift
        shift += 5
        if byte < 95:
            values.append(~(value >> 1) if value & 1 else value >> 1)
            value, shift = 0, 0
    if shift or len(values) % 2:
        raise ValueError("no polyline")
    return np.cumsum(np.array(values, np.int64).reshape(-1, 2), axis=0)[:, ::-1] / 10.0 ** digits
