"""What the kinds of attack share: drawn values, faults of bytes, and how a case ends."""
from __future__ import annotations

import gzip
import random
from collections.abc import Callable, Sequence
from pathlib import Path
from typing import Protocol, TypeVar

from fmm.errors import FmmError

TOP = Path(__file__).resolve().parents[2]
Value = TypeVar("Value")
# How a case ends when the law holds.
REFUSED, NAMED, AS_CLEAN = "refused", "named", "as clean"


class Broken(Exception):
    """The law does not hold. The text says where."""


class Draw:
    """Draws the values of a case by its number, and keeps what was done to the input for the report of a failure."""

    def __init__(self, number: int) -> None:
        self.random = random.Random(number)
        self.said: list[str] = []

    def below(self, count: int) -> int:
        """A number from 0 to count - 1."""
        return self.random.randrange(count)

    def one(self, values: Sequence[Value]) -> Value:
        """One of some values."""
        return values[self.below(len(values))]

    def coin(self, chance: int = 2) -> bool:
        """True once in `chance` times."""
        return self.below(chance) == chance - 1

    def say(self, text: object) -> None:
        """Adds to the description of the case."""
        self.said.append(str(text))


class Kind(Protocol):
    """A kind of input. It is made once with a private folder, and then runs many cases."""

    def case(self, draw: Draw) -> str:
        """Makes an input with faults, reads it, and returns how that ended. Raises Broken if the law does not hold."""


def hold(condition: object, text: object) -> None:
    """A part of the law."""
    if not condition:
        raise Broken(str(text))


def refusal(fault: FmmError, *names: str) -> str:
    """A refusal has to be one line that names one of some files."""
    text = str(fault)
    hold(text.isprintable() and "\n" not in text, f"the message is not one line: {text!r}")
    hold(any(name in text for name in names), f"the message names no file: {text!r}")
    return REFUSED


# ---- faults of bytes

def cut(draw: Draw, data: bytes) -> bytes:
    """Ends the file within its last lines, and not after a line."""
    places = [at for at in range(max(1, len(data) - 80), len(data)) if data[at - 1:at] != b"\n"]
    at = draw.one(places) if places else len(data)
    draw.say(f"cut after {at} of {len(data)} bytes")
    return data[:at]


def cut_anywhere(draw: Draw, data: bytes) -> bytes:
    """Ends the file within any line."""
    at = draw.below(len(data))
    while 0 < at and data[at - 1:at] == b"\n":
        at -= 1
    draw.say(f"cut after {at} of {len(data)} bytes")
    return data[:at]


def inserted(what: bytes, name: str) -> Callable[[Draw, bytes], bytes]:
    """A fault that puts bytes somewhere."""
    def fault(draw: Draw, data: bytes) -> bytes:
        at = draw.below(len(data) + 1)
        draw.say(f"{name} at byte {at}")
        return data[:at] + what + data[at:]
    return fault


def changed_byte(draw: Draw, data: bytes) -> bytes:
    """Another byte in place of one."""
    at, new = draw.below(len(data)), draw.one(b"0159-,;. \tx\"'\n\r\0\x1b\xff")
    draw.say(f"byte {at} {data[at:at + 1]!r} becomes {bytes([new])!r}")
    return data[:at] + bytes([new]) + data[at + 1:]


def dropped_byte(draw: Draw, data: bytes) -> bytes:
    """A byte less."""
    at = draw.below(len(data))
    draw.say(f"byte {at} {data[at:at + 1]!r} is dropped")
    return data[:at] + data[at + 1:]


def marked(draw: Draw, data: bytes) -> bytes:
    """A byte-order mark, which is no fault for most files."""
    draw.say("byte-order mark")
    return b"\xef\xbb\xbf" + data


def with_carriage_returns(draw: Draw, data: bytes) -> bytes:
    """CR LF in place of LF."""
    draw.say("CR LF")
    return data.replace(b"\n", b"\r\n")


def packed(draw: Draw, data: bytes) -> bytes:
    """Another form of the same file."""
    name, pack = draw.one([("gzip", gzip.compress), ("UTF-16", utf_16), ("CR", lambda old: old.replace(b"\n", b"\r"))])
    draw.say(name)
    return pack(data)


def utf_16(data: bytes) -> bytes:
    return data.decode(errors="replace").encode("utf-16")


# ---- faults of lines

def line_fault(draw: Draw, lines: list[bytes]) -> list[bytes]:
    """Drops, doubles, exchanges, halves, joins or moves lines."""
    at, other = draw.below(len(lines)), draw.below(len(lines))
    name, change = draw.one(LINE_FAULTS)
    draw.say(f"{name} line {at + 1}, other line {other + 1}")
    return change(list(lines), at, other)


def _dropped(lines: list[bytes], at: int, _: int) -> list[bytes]:
    return lines[:at] + lines[at + 1:]


def _doubled(lines: list[bytes], at: int, _: int) -> list[bytes]:
    return lines[:at] + [lines[at]] + lines[at:]


def _exchanged(lines: list[bytes], at: int, other: int) -> list[bytes]:
    lines[at], lines[other] = lines[other], lines[at]
    return lines


def _halved(lines: list[bytes], at: int, other: int) -> list[bytes]:
    lines[at] = lines[at][:other % (1 + len(lines[at]))]
    return lines


def _joined(lines: list[bytes], at: int, _: int) -> list[bytes]:
    if at + 1 < len(lines):
        lines[at:at + 2] = [lines[at] + b" " + lines[at + 1]]
    return lines


def _moved(lines: list[bytes], at: int, other: int) -> list[bytes]:
    lines.insert(other, lines.pop(at))
    return lines


def _range_dropped(lines: list[bytes], at: int, other: int) -> list[bytes]:
    return lines[:min(at, other)] + lines[max(at, other):]


LINE_FAULTS = [("dropped", _dropped), ("doubled", _doubled), ("exchanged", _exchanged), ("halved", _halved), ("joined", _joined),
               ("moved", _moved), ("dropped from", _range_dropped)]
