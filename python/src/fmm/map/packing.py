"""Arrays as text in a page: little-endian, one after the other, compressed, in base64."""
from __future__ import annotations

import base64
import gzip
from typing import Any, Dict, List

import numpy as np

KINDS = {"int8": "Int8", "uint8": "Uint8", "int16": "Int16", "uint16": "Uint16", "int32": "Int32", "uint32": "Uint32",
         "float32": "Float32", "float64": "Float64"}  # the names of JavaScript's typed arrays


class Pack:
    """Named arrays that a page opens as typed arrays."""

    def __init__(self) -> None:
        self.index: Dict[str, List[Any]] = {}
        self.parts: List[bytes] = []
        self.size = 0

    def add(self, name: str, values: Any, kind: str) -> None:
        """Adds an array as numbers of a kind, which has to hold them."""
        given = np.asarray(values).ravel()
        array = given.astype(kind)
        if not kind.startswith("float") and len(array) and not np.array_equal(array, given):
            raise OverflowError(f"{name} does not fit {kind}")
        data = array.astype(array.dtype.newbyteorder("<")).tobytes()
        data += bytes(-len(data) % 8)
        self.index[name] = [KINDS[kind], self.size, len(array)]
        self.parts.append(data)
        self.size += len(data)

    def text(self) -> str:
        """The bytes of all arrays. Equal arrays have equal texts."""
        return base64.b64encode(gzip.compress(b"".join(self.parts), 6, mtime=0)).decode("ascii")


class Texts:
    """Texts by number; each once."""

    def __init__(self) -> None:
        self.number: Dict[str, int] = {}

    def numbers(self, values: Any) -> np.ndarray:
        """The number of each text; missing ones are ""."""
        import pandas as pd
        codes, distinct = pd.factorize(pd.Series(np.asarray(values, object)).fillna("").astype(str))
        known = np.array([self.number.setdefault(text, len(self.number)) for text in distinct], np.int64)
        return known[codes] if len(codes) else np.zeros(0, np.int64)

    @property
    def all(self) -> List[str]:
        return list(self.number)
