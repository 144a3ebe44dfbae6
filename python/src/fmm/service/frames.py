"""Messages between the process that accepts requests and its workers: a head in JSON, then a body of bytes."""
from __future__ import annotations

import json
import socket
import struct
from typing import Any, List, Tuple

SIZES = struct.Struct("!II")
BLOCK = 1 << 20
Frame = Tuple[dict[str, Any], bytes]


def packed(head: dict[str, Any], body: bytes = b"") -> bytes:
    """A message as bytes."""
    words = json.dumps(head).encode()
    return SIZES.pack(len(words), len(body)) + words + body


class Frames:
    """The messages of a connection."""

    def __init__(self, connection: socket.socket) -> None:
        self.connection = connection
        self._got = bytearray()

    def all(self) -> List[Frame]:
        """The messages that have arrived; waits until there is one. An empty list at the end of the connection."""
        while not (found := taken(self._got)):
            block = self.connection.recv(BLOCK)
            if not block:
                return []
            self._got += block
        return found


def taken(got: bytearray) -> List[Frame]:
    """The whole messages at the beginning of what has arrived. They are removed from it."""
    found, at = [], 0
    with memoryview(got) as view:
        while len(got) >= at + SIZES.size:
            head_size, body_size = SIZES.unpack_from(got, at)
            begin = at + SIZES.size + head_size
            if len(got) < begin + body_size:
                break
            found.append((json.loads(bytes(view[at + SIZES.size:begin])), bytes(view[begin:begin + body_size])))
            at = begin + body_size
    del got[:at]
    return found
