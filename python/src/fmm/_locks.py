"""Holds signals and other calls back while the files of a call get their names."""
from __future__ import annotations

import contextlib
import fcntl
import os
import signal
import threading
import time
from pathlib import Path
from typing import Iterable, Iterator

PATIENCE = 1.0  # seconds that a call waits for another one
SIGNALS = (signal.SIGINT, signal.SIGTERM, signal.SIGHUP)


@contextlib.contextmanager
def undisturbed() -> Iterator[None]:
    """Holds back the signals that end a command until the block is over. Only the main thread gets signals."""
    if threading.current_thread() is not threading.main_thread():
        yield
        return
    came: list[int] = []
    handlers = {number: signal.getsignal(number) for number in SIGNALS}
    held = {number: handler for number, handler in handlers.items() if handler not in (signal.SIG_IGN, None)}
    for one in held:
        signal.signal(one, lambda number, _: came.append(number))
    try:
        yield
    finally:
        for one, handler in held.items():
            signal.signal(one, handler)
        for first in came[:1]:
            os.kill(os.getpid(), first)


@contextlib.contextmanager
def locked(folders: Iterable[Path]) -> Iterator[None]:
    """Lets other calls wait that are about to rename their outputs in these folders, but not for long: the caller's script may
    have locked a folder. Some file systems have no locks."""
    descriptors: list[int] = []
    try:
        for folder in sorted({os.path.realpath(folder) for folder in folders}):
            with contextlib.suppress(OSError):
                descriptors.append(os.open(folder, os.O_RDONLY | os.O_DIRECTORY | os.O_CLOEXEC))
                lock(descriptors[-1], PATIENCE)
        yield
    finally:
        for descriptor in descriptors:
            os.close(descriptor)


def lock(descriptor: int, seconds: float) -> None:
    """Locks an open file or folder. Raises OSError if that is not possible within some seconds."""
    until = time.monotonic() + seconds
    while True:
        try:
            fcntl.flock(descriptor, fcntl.LOCK_EX | fcntl.LOCK_NB)
            return
        except BlockingIOError:
            if time.monotonic() > until:
                raise
            time.sleep(0.01)
