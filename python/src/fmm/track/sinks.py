"""Where objects go: standard output, a file, a broker or a database."""
from __future__ import annotations

import json
import os
import select
import time
from collections.abc import Callable, Sequence
from pathlib import Path
from typing import Any, Optional, Protocol

from ..errors import OptionError
from ..feed.notices import Notices
from ..feed.outlet import RowFile
from ..feed.state import State
from .drives import Object

PATIENCE = 5.0  # seconds that a sink gets after a signal
DATABASES = ("postgresql://", "postgres://")
PIECE = 4096  # bytes that a pipe takes at once if it takes any


class Unwritten(Exception):
    """A sink did not take everything before the run had to end."""


class Stop:
    """Whether the run is to end. A sink that cannot write gives up some seconds later."""

    def __init__(self) -> None:
        self.is_set, self.until = False, float("inf")

    def set(self, patience: float = PATIENCE) -> None:
        """Asks the run to end."""
        if not self.is_set:
            self.is_set, self.until = True, time.monotonic() + patience

    def check(self, what: str) -> None:
        """Unwritten: the time has passed."""
        if time.monotonic() > self.until:
            raise Unwritten(what)


class Sink(Protocol):
    """Takes objects. What `write` has taken is written, or the sink keeps it over the end of the process."""

    def write(self, objects: Sequence[Object], text: bytes) -> None:
        """Writes settled objects; `text` has them as lines. Waits as long as it takes. Unwritten: the run is to end."""

    def offer(self, objects: Sequence[Object]) -> None:
        """Writes provisional objects if that takes no time."""

    def close(self) -> None:
        """Ends the connection."""


def lines_of(objects: Sequence[Any]) -> bytes:
    """A JSON object in each line."""
    text = "".join(json.dumps(one, ensure_ascii=False, separators=(",", ":")) + "\n" for one in objects)
    return text.encode("utf-8", "replace")


class Stream:
    """Standard output."""

    def __init__(self, stop: Stop, descriptor: int = 1) -> None:
        self.stop, self.descriptor = stop, descriptor

    def write(self, objects: Sequence[Object], text: bytes) -> None:
        rest = memoryview(text)
        while rest:
            if self._takes(0.5):
                rest = rest[self._put(rest[:PIECE]):]
            else:
                self.stop.check("standard output")

    def offer(self, objects: Sequence[Object]) -> None:
        for one in objects:
            line = lines_of([one])
            if len(line) > PIECE or not self._takes(0):
                return
            self.write([one], line)

    def _takes(self, seconds: float) -> bool:
        return bool(select.select([], [self.descriptor], [], seconds)[1])

    def _put(self, data: memoryview) -> int:
        try:
            return os.write(self.descriptor, data)
        except BlockingIOError:
            return 0

    def close(self) -> None:
        """Leaves standard output open."""


class File:
    """A file that is only appended to. Each settled object is written exactly once, and no provisional one."""

    def __init__(self, path: Path, state: State) -> None:
        self.file = RowFile(path, state, b"")

    def write(self, objects: Sequence[Object], text: bytes) -> None:
        self.file.append(text)  # the state has it as outgoing

    def offer(self, objects: Sequence[Object]) -> None:
        """A file gets no provisional objects."""

    def close(self) -> None:
        self.file.close()


class Sinks:
    """All sinks of a run. The state has what they are about to write, so a run that is killed writes it after its next start."""

    def __init__(self, state: State, make: Callable[[], list[Sink]]) -> None:
        """`make` makes the sinks, a file first."""
        self.state = state
        text = state.get("outgoing") or ""  # before a file completes it
        self.sinks = make()
        if text:
            self._write(text.encode())
        self.written()

    def write(self, objects: Sequence[Object]) -> None:
        """Commits the state with settled objects as outgoing, then writes them."""
        text = lines_of(objects)
        self.state.set("outgoing", text.decode())
        self.state.commit()
        self._write(text, objects)
        self.written()

    def _write(self, text: bytes, objects: Optional[Sequence[Object]] = None) -> None:
        known = [json.loads(line) for line in text.splitlines()] if objects is None else objects
        for sink in self.sinks:
            if objects is None and isinstance(sink, File):
                continue  # it has completed itself
            sink.write(known, text)

    def written(self) -> None:
        """Notes that nothing is outgoing. The next commit of the state keeps this."""
        self.state.set("outgoing", "")
        for sink in self.sinks:
            if isinstance(sink, File):
                sink.file.written()

    def offer(self, objects: Sequence[Object]) -> None:
        """Offers provisional objects."""
        for sink in self.sinks if objects else ():
            sink.offer(objects)

    def close(self) -> None:
        for sink in self.sinks:
            sink.close()


def checked_words(words: Sequence[str]) -> Sequence[str]:
    """The words of --to. OptionError: one of them is no sink, or comes twice."""
    for word in words:
        if word.startswith("mqtt://"):
            from .broker_sink import address_of
            address_of(word)
        elif "://" in word and not word.startswith(DATABASES):
            raise OptionError(f"{word} is no sink: give -, a file, mqtt://HOST/TOPIC or postgresql://HOST/DATABASE")
        if words.count(word) > 1:
            raise OptionError(f"--to {word} stands twice: it would get each object twice")
    if sum(not (word == "-" or "://" in word) for word in words) > 1:
        raise OptionError("only one file can be written")
    return words


def sinks_of(words: Sequence[str], state: State, stop: Stop, notices: Notices) -> Sinks:
    """The sinks that words of --to name, which have been checked."""
    def make() -> list[Sink]:
        files: list[Sink] = []
        others: list[Sink] = []
        for word in words:
            if word == "-":
                others.append(Stream(stop))
            elif word.startswith("mqtt://"):
                from .broker_sink import Publisher, address_of
                others.append(Publisher(address_of(word), stop, notices))
            elif word.startswith(DATABASES):
                from .postgis import Database
                others.append(Database(word, stop, notices))
            else:
                files.append(File(Path(word), state))
        return files + others
    return Sinks(state, make)
