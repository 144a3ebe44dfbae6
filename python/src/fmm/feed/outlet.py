"""Where the rows of a feed go: a file that is only appended to, or standard output."""
from __future__ import annotations

import os
from pathlib import Path
from typing import Optional, Union

from .._locks import lock
from .._output import reason, write_all
from ..errors import FmmError, OutputError
from .state import State

HEADER = b"trace,x,y,time\n"


class RowFile:
    """A file of rows. A feed that is killed and started again writes each row exactly once.

    The state names the rows that are about to be written and the size of the file before them. At the next start the size
    of the file shows how many of them were written.
    """

    def __init__(self, path: Path, state: State, header: bytes = HEADER) -> None:
        self.path, self.state, self.header = path, state, header
        self.size = 0
        is_same = state.get("rows file") == str(path.resolve())
        try:
            if path.is_symlink() or (path.exists() and not path.is_file()):
                raise OutputError(f"{path} is no plain file")
            is_begun = is_same and (not header or state.count("rows size") == 0)  # the header is still to be written
            exists = path.exists() and (path.stat().st_size > 0 or is_begun)
            if exists and not is_same:
                raise FmmError(f"{path} has rows that the state {state.path} does not know: name another file, or the state of "
                               "these rows")
            if not exists and is_same and state.get("outgoing"):
                raise FmmError(f"{path} is gone, and the last rows may not have been matched: put it back, or begin a new state")
            self.descriptor = os.open(path, os.O_WRONLY | os.O_APPEND | os.O_CREAT, 0o666)
        except OSError as fault:
            raise OutputError(f"{path}: {fault.strerror}") from None
        self._lock()
        if exists:
            self._complete()
        else:
            self._begin()

    def _lock(self) -> None:
        """Refuses a file that another feed writes. Some file systems have no locks."""
        try:
            lock(self.descriptor, 0.0)
        except BlockingIOError:
            raise FmmError(f"{self.path}: another feed writes this file") from None
        except OSError:
            pass

    def _begin(self) -> None:
        self.state.set("rows file", self.path.resolve())
        if not self.header:  # what is outgoing was meant for others
            self.state.set("rows size", 0)
            self.state.commit()
            return
        self._note(self.header)
        self.append(self.header)
        self.written()

    def _complete(self) -> None:
        """Writes what a feed that was killed left unwritten."""
        self.size = self.state.count("rows size")
        outgoing = (self.state.get("outgoing") or "").encode()
        found = os.fstat(self.descriptor).st_size
        if not self.size <= found <= self.size + len(outgoing):
            raise FmmError(f"{self.path} has {found} bytes, and its state knows {self.size + len(outgoing)}: it was cut or "
                           "changed")
        rest, self.size = outgoing[found - self.size:], found
        self.append(rest)
        self.written()

    def _note(self, rows: bytes) -> None:
        self.state.set("rows size", self.size)
        self.state.set("outgoing", rows.decode())
        self.state.commit()

    def append(self, rows: bytes) -> None:
        """Writes rows that the state has as outgoing."""
        size = self.size + len(rows)
        try:
            write_all(self.descriptor, rows)
            now, named = os.fstat(self.descriptor), os.stat(self.path)
        except OSError as fault:
            raise OutputError(f"{self.path}: {fault.strerror}") from None
        if now.st_size != size or not os.path.samestat(now, named):
            raise OutputError(f"{self.path}: was changed, moved or cut by another program while the feed wrote it")
        self.size = size

    def write(self, rows: bytes) -> None:
        """Commits the state with these rows as outgoing, and then writes them."""
        self._note(rows)
        self.append(rows)

    def written(self) -> None:
        """Notes that nothing is outgoing. The next commit of the state keeps this."""
        self.state.set("rows size", self.size)
        self.state.set("outgoing", "")

    def close(self) -> None:
        """Closes the file."""
        os.close(self.descriptor)


class RowStream:
    """Standard output. If a feed is killed in the middle of a write, the last rows may come twice after the next start."""

    def __init__(self, state: State, descriptor: int = 1) -> None:
        self.state, self.descriptor = state, descriptor
        self._append(HEADER + (state.get("outgoing") or "").encode())
        self.written()

    def _append(self, rows: bytes) -> None:
        try:
            write_all(self.descriptor, rows)
        except OSError as fault:
            raise OutputError(f"standard output: {reason(fault)}") from None

    def write(self, rows: bytes) -> None:
        """Commits the state with these rows as outgoing, and then writes them."""
        self.state.set("outgoing", rows.decode())
        self.state.commit()
        self._append(rows)

    def written(self) -> None:
        """Notes that nothing is outgoing. The next commit of the state keeps this."""
        self.state.set("outgoing", "")

    def close(self) -> None:
        """Leaves standard output open."""


def outlet_of(into: Optional[Path], state: State) -> Union[RowFile, RowStream]:
    """The outlet that an option names: a file, or standard output for None."""
    return RowStream(state) if into is None else RowFile(into, state)
