"""Strict numbers in whole columns."""
from __future__ import annotations

import re
from typing import Any, List, Tuple

import numpy as np
import pandas as pd

from ..errors import shown

CHARACTERS = frozenset("0123456789+-.eE")
NUMBER = re.compile(r"[+-]?(\d+\.?\d*|\.\d+)([eE][+-]?\d+)?", re.ASCII)
DECIMAL_COMMA = re.compile(r"[+-]?\d+,\d+", re.ASCII)


def texts_of(values: Any) -> List[str]:
    """Each value as text without blanks around it; "" for a missing one."""
    listed = values.tolist() if hasattr(values, "tolist") else list(values)
    if pd.api.types.infer_dtype(listed, skipna=False) == "string":
        return [text.strip() for text in listed]
    return ["" if missing else str(value).strip() for value, missing in zip(listed, pd.isna(np.array(listed, dtype=object)))]


def as_bytes(texts: List[str], most: int) -> Tuple[np.ndarray, np.ndarray]:
    """The texts as rows of bytes (uint8, filled with 0), and which of them are ASCII without NUL and at most `most` long."""
    joined = "".join(texts)
    width = max(map(len, texts), default=0)
    fits = np.ones(len(texts), dtype=bool)
    if width > most or not joined.isascii() or "\0" in joined:
        fits = np.array([len(text) <= most and text.isascii() and "\0" not in text for text in texts], dtype=bool)
        texts = [text if good else "" for text, good in zip(texts, fits.tolist())]
        width = max(map(len, texts), default=0)
    width = max(width, 1)
    return np.array(texts, dtype=f"S{width}").view(np.uint8).reshape(len(texts), width), fits


def digits_at(matrix: np.ndarray, begin: int, end: int) -> np.ndarray:
    """The whole numbers of the digits in some columns of bytes."""
    value = np.zeros(len(matrix), dtype=np.int64)
    for column in range(begin, end):
        value = 10 * value + matrix[:, column] - ord("0")
    return value


def plain_numbers(texts: List[str]) -> Tuple[np.ndarray, np.ndarray]:
    """The numbers of texts (NaN for others), and which texts are finite decimal numbers: no underscores, names or blanks."""
    if set("".join(texts)) <= CHARACTERS:
        try:
            numbers = np.fromiter(map(float, texts), np.float64, len(texts))
            good = np.isfinite(numbers)
            return np.where(good, numbers, np.nan), good
        except ValueError:
            pass
    good = np.array([NUMBER.fullmatch(text) is not None for text in texts], dtype=bool)
    numbers = np.array([float(text) if found else np.nan for text, found in zip(texts, good.tolist())], dtype=np.float64)
    good &= np.isfinite(numbers)
    return np.where(good, numbers, np.nan), good


def with_points(texts: List[str]) -> List[str]:
    """The texts with a decimal point in place of a decimal comma."""
    return [text.replace(",", ".") if DECIMAL_COMMA.fullmatch(text) else text for text in texts]


def coordinates(column: Any, name: str, decimal_comma: bool = False) -> Tuple[np.ndarray, np.ndarray]:
    """The numbers of a column (float64, NaN if there is none), and for each row its fault ("" if there is none).

    A decimal comma is a fault unless `decimal_comma` says that the column may have some.
    """
    values = np.asarray(column)
    faults = np.full(len(values), "", dtype=object)
    texts: List[str] = []
    if values.dtype.kind in "iuf":
        numbers = values.astype(np.float64)
        good = np.isfinite(numbers)
    else:
        texts = with_points(texts_of(values)) if decimal_comma else texts_of(values)
        numbers, good = plain_numbers(texts)
    for place in np.flatnonzero(~good):
        text = texts[place] if texts else "" if np.isnan(numbers[place]) else str(values[place])
        faults[place] = f"{name} {shown(text, 40)} is not a number{comma(text)}" if text else f"no {name}"
    return np.where(good, numbers, np.nan), faults


def comma(text: str) -> str:
    """A hint at a decimal comma."""
    return ": a decimal comma? Write points" if DECIMAL_COMMA.fullmatch(text) else ""
