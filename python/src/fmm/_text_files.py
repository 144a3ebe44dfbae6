"""Text of files: what is compressed, cut or in another encoding is refused."""
from __future__ import annotations

import os
import sys
from pathlib import Path

from .errors import InputError, PathText

MARK = b"\xef\xbb\xbf"
PACKED = (
    (b"\x1f\x8b", "compressed with gzip; unpack it first: gunzip -k {}"),
    (b"BZh", "compressed with bzip2; unpack it first: bunzip2 -k {}"),
    (b"\xfd7zXZ\0", "compressed with xz; unpack it first: unxz -k {}"),
    (b"\x28\xb5\x2f\xfd", "compressed with zstd; unpack it first: unzstd {}"),
    (b"PK\x03\x04", "a ZIP file or a spreadsheet; unpack it, or save it as CSV"),
    (b"SQLite format 3\0", "a database such as a GeoPackage, not a table of comma-separated values"),
    (b"\xff\xfe", "UTF-16 text; convert it first: iconv -f UTF-16 -t UTF-8 {}"),
    (b"\xfe\xff", "UTF-16 text; convert it first: iconv -f UTF-16 -t UTF-8 {}"),
    (b"<?xml", "XML, not a table of comma-separated values"),
    (b"%PDF", "a PDF file, not a table of comma-separated values"),
)


def read_text(path: PathText, name: str) -> str:
    """The text of a file, or of standard input for `-`, with LF line ends and without a byte-order mark."""
    return decoded(read_bytes(path, name), name)


def read_bytes(path: PathText, name: str) -> bytes:
    """All bytes of a file, or of standard input for `-`."""
    try:
        return sys.stdin.buffer.read() if os.fspath(path) == "-" else Path(path).read_bytes()
    except OSError as fault:
        raise InputError(fault.strerror or fault, name) from None


def decoded(data: bytes, name: str) -> str:
    """The text of a table with LF line ends, if its bytes are such text."""
    if data.startswith(MARK):
        data = data[len(MARK):]
    if not data:
        raise InputError("is empty", name)
    for begin, what in PACKED:
        if data.startswith(begin):
            raise InputError(f"is {what.format(name)}", name)
    if b"OSMHeader" in data[:80]:
        raise InputError("is an OpenStreetMap file, not a table: is it in the place of another file?", name)
    if b"\0" in data:
        raise InputError("is not text (NUL)", name, data.count(b"\n", 0, data.index(b"\0")) + 1)
    try:
        text = data.decode()
    except UnicodeDecodeError as fault:
        raise InputError(f"is not UTF-8 text; convert it first: iconv -f LATIN1 -t UTF-8 {name}", name,
                         data.count(b"\n", 0, fault.start) + 1) from None
    if "\r" in text:
        text = text.replace("\r\n", "\n")
        if "\r" in text:
            raise InputError("a carriage return without a line feed", name, text.count("\n", 0, text.index("\r")) + 1)
    if not text.endswith("\n"):
        raise InputError("the last line does not end with a line feed, so the file may be cut", name, text.count("\n") + 1)
    return text
