"""A `streams` program that is kept running, with pipes as its input and output."""
from __future__ import annotations

import math
import os
import select
import subprocess
import time
from pathlib import Path
from typing import Callable, Sequence

from .._programs import explained
from .memory import Memory

BLOCK = 1 << 18


class Lost(Exception):
    """The program ended, or its output is not what was asked for. The text says why."""


class Late(Exception):
    """The program took too long."""


class KeptProgram:
    """One process. It is not shared between threads."""

    def __init__(self, program: Path, network: Path, words: Sequence[str], has_session: bool = False) -> None:
        """`words` are the options. With `has_session` the process leads a session of its own, so that Ctrl-C in a terminal does
        not reach it."""
        command = [str(program), "streams", *words, "--", os.fspath(network), "/dev/stdin"]
        self.child = subprocess.Popen(command, bufsize=0, stdin=subprocess.PIPE, stdout=subprocess.PIPE, stderr=subprocess.PIPE,
                                      start_new_session=has_session)
        assert self.child.stdin and self.child.stdout
        self.input, self.output = self.child.stdin.fileno(), self.child.stdout.fileno()
        os.set_blocking(self.input, False)
        os.set_blocking(self.output, False)
        self.memory = Memory(self.child.pid)
        self._waiting = memoryview(b"")

    def give(self, text: bytes) -> None:
        """Text for the program. `answer` and `is_answering` write it."""
        self._waiting = memoryview(bytes(self._waiting) + text)

    def answer(self, is_whole: Callable[[bytearray], bool], until: float = math.inf) -> bytes:
        """What the program writes for what it was given, as soon as that is whole. `until` is a time of time.monotonic.

        Late: the time has passed; the program is then of no use. Lost: the program has ended.
        """
        got = bytearray()
        poll = select.poll()
        poll.register(self.output, select.POLLIN)
        if self._waiting:
            poll.register(self.input, select.POLLOUT)
        while not is_whole(got):
            left = until - time.monotonic()
            if left <= 0:
                raise Late
            for file, _ in poll.poll(None if left == math.inf else 1000 * left):
                if file == self.output:
                    got += self._read()
                    continue
                self._write()
                if not self._waiting:
                    poll.unregister(self.input)
        return bytes(got)

    def is_answering(self) -> bool:
        """Whether there is something to read, without waiting."""
        if self._waiting:
            self._write()
        return bool(select.select([self.output], [], [], 0)[0])

    def finish(self) -> bytes:
        """Ends the input. Returns what the program still writes. Lost: it ends with a fault."""
        assert self.child.stdin
        self.child.stdin.close()
        os.set_blocking(self.output, True)
        got = bytearray()
        while block := os.read(self.output, BLOCK):
            got += block
        if self.child.wait() != 0:
            raise Lost(self.reason())
        return bytes(got)

    def _write(self) -> None:
        try:
            self._waiting = self._waiting[os.write(self.input, self._waiting):]
        except BlockingIOError:
            return
        except OSError:
            raise Lost(self.reason()) from None

    def _read(self) -> bytes:
        try:
            block = os.read(self.output, BLOCK)
        except BlockingIOError:
            return b""
        if not block:
            raise Lost(self.reason())
        return block

    def reason(self) -> str:
        """Why the program has ended."""
        try:
            _, said = self.child.communicate(timeout=5)
        except (subprocess.TimeoutExpired, ValueError, OSError):
            said = b""
        return explained(self.child.poll() or 0, said.decode(errors="replace"), {})

    def close(self) -> None:
        """Ends the program. What it was asked is lost."""
        if self.child.poll() is None:
            self.child.kill()
        for file in (self.child.stdin, self.child.stdout, self.child.stderr):
            if file:
                file.close()
        self.child.wait()
