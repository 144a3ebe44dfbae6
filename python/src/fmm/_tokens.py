"""Words and numbers of a large text as arrays, found without a loop over lines or words."""
from __future__ import annotations

import os
from pathlib import Path
from typing import Tuple, Union

import numpy as np

from .errors import InputError

Source = Union[Path, str, bytes, bytearray, memoryview]

HEAD, TAIL = 24, 8  # bytes around the text, so that eight bytes can be read before and after each word
ZEROS, ONES = np.uint64(0x3030303030303030), np.uint64(0xFFFFFFFFFFFFFFFF)


class Tokens:
    """The words of a text between separators: bytes up to the blank. A line is all words up to a LF, which has to end the text.

    `ends` has the place after each word, `line_first` (lines + 1) the first word of each line. Two separators in a row make an
    empty word, which is neither a word nor a number.
    """

    def __init__(self, text: np.ndarray) -> None:
        """`text` is uint8 with HEAD bytes before and TAIL bytes after the text proper, which ends with LF."""
        self.text = text
        inner = text[HEAD:len(text) - TAIL]
        self.ends = np.flatnonzero(inner <= 32) + HEAD
        separators = text[self.ends]
        ends_line = separators == 10
        self.line_first = np.append(0, np.flatnonzero(ends_line) + 1)
        self.strange = np.flatnonzero(~ends_line & (separators != 32))  # words that end with a tab, a CR or the like

    @property
    def line_count(self) -> int:
        return len(self.line_first) - 1

    def starts(self, words: np.ndarray) -> np.ndarray:
        """The place of the first byte of each word."""
        return np.where(words > 0, self.ends[words - 1] + 1, HEAD)

    def codes(self, words: np.ndarray) -> np.ndarray:
        """A number for each word of at most eight bytes, as `code_of` makes it; 0 for longer and for empty words."""
        starts = self.starts(words)
        lengths = self.ends[words] - starts
        short = (lengths > 0) & (lengths <= 8)
        shift = (8 * (8 - np.where(short, lengths, 8))).astype(np.uint64)
        return np.where(short, (self._eight(starts) << shift) >> shift, np.uint64(0))

    def numbers(self, words: np.ndarray) -> Tuple[np.ndarray, np.ndarray]:
        """The value of each word as int64, and whether the word is a number below 2^63 without leading zeros."""
        ends = self.ends[words]
        lengths = ends - self.starts(words)
        values, good = self._digits(ends, np.minimum(lengths, 8))
        good &= (lengths > 0) & (lengths <= 19)
        good &= (lengths == 1) | (self.text[ends - lengths] != 48)
        for above in (8, 16):
            longer = np.flatnonzero(good & (lengths > above))
            if len(longer):
                more, digits = self._digits(ends[longer] - above, np.minimum(lengths[longer] - above, 8))
                values[longer] += more * np.uint64(10 ** above)
                good[longer] &= digits
        good &= values < np.uint64(2 ** 63)
        return values.astype(np.int64), good

    def _eight(self, places: np.ndarray) -> np.ndarray:
        """The eight bytes at each place as a little-endian number."""
        windows: np.ndarray = np.ndarray((len(self.text) - 7,), "<u8", self.text.data, 0, (1,))
        return windows[places]

    def _digits(self, ends: np.ndarray, lengths: np.ndarray) -> Tuple[np.ndarray, np.ndarray]:
        """The values of up to eight digits before each end, and whether all of them are digits."""
        spare = (8 * (8 - lengths)).astype(np.uint64)
        kept = np.where(lengths > 0, ONES << (spare & np.uint64(63)), np.uint64(0))
        word = (self._eight(ends - 8) & kept) | (ZEROS & ~kept)
        high, six = np.uint64(0xF0F0F0F0F0F0F0F0), np.uint64(0x0606060606060606)
        good = ((word & high) == ZEROS) & (((word + six) & high) == ZEROS)
        word -= ZEROS
        word = word * np.uint64(10) + (word >> np.uint64(8))
        pairs = np.uint64(0x000000FF000000FF)
        word = ((word & pairs) * np.uint64(0x000F424000000064)
                + ((word >> np.uint64(16)) & pairs) * np.uint64(0x0000271000000001)) >> np.uint64(32)
        return word, good


def code_of(word: str) -> np.uint64:
    """The number that `Tokens.codes` gives for a word."""
    return np.uint64(int.from_bytes(word.encode(), "little"))


def padded(source: Source, name: str) -> tuple[np.ndarray, str]:
    """The text with the room around it that `Tokens` needs."""
    if isinstance(source, (str, Path)):
        name = name or str(source)
        try:
            with open(source, "rb") as file:
                size = os.fstat(file.fileno()).st_size
                data = np.zeros(HEAD + size + TAIL, np.uint8)
                got = file.readinto(data.data[HEAD:HEAD + size])
                rest = file.read()
        except OSError as fault:
            raise InputError(fault.strerror or fault, name) from None
        if got == size and not rest:
            return data, name
        source = bytes(data[HEAD:HEAD + got]) + rest  # a pipe, or a file that grows
    data = np.zeros(HEAD + len(source) + TAIL, np.uint8)
    data[HEAD:HEAD + len(source)] = np.frombuffer(source, np.uint8)
    return data, name or "the match"
