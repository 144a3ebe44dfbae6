"""The process that forks workers.

It is forked from the main process before that has an event loop or threads, and after the network was loaded. It prepares what
workers share while the main process loads the libraries of the server. So a new worker starts in milliseconds, and all of them
share the memory of the network.
"""
from __future__ import annotations

import gc
import os
import signal
import socket
import sys
from typing import Callable, NoReturn

from ..commands import say
from ..errors import one_line

Work = Callable[[socket.socket], None]


class Forks:
    """The main process's side: `worker()` gives the connection to a new worker."""

    def __init__(self, prepare: Callable[[], Work]) -> None:
        """`prepare` returns what runs in each worker with its connection; that returns when the worker is to end."""
        gc.freeze()
        self.control, theirs = socket.socketpair()
        sys.stdout.flush()
        self.process = os.fork()
        if self.process == 0:
            self.control.close()
            _run(lambda: _fork_workers(theirs, prepare()))
        theirs.close()

    def worker(self) -> socket.socket:
        """The connection to a new worker. The worker leads a session of its own and ends when the connection does.

        OSError: the process that forks workers is gone.
        """
        ours, theirs = socket.socketpair()
        try:
            socket.send_fds(self.control, [b"w"], [theirs.fileno()])
        except OSError:
            ours.close()
            raise
        finally:
            theirs.close()
        return ours

    def close(self) -> None:
        """Ends the process. Workers end with their connections."""
        self.control.close()
        os.waitpid(self.process, 0)


def _fork_workers(control: socket.socket, work: Work) -> None:
    gc.freeze()
    signal.signal(signal.SIGCHLD, signal.SIG_IGN)  # ended workers leave nothing behind
    while True:
        data, files, _, _ = socket.recv_fds(control, 1, 1)
        if not data:
            return
        if os.fork() == 0:
            control.close()
            _run(lambda: _work(socket.socket(fileno=files[0]), work))
        os.close(files[0])


def _work(connection: socket.socket, work: Work) -> None:
    signal.signal(signal.SIGCHLD, signal.SIG_DFL)
    os.setsid()
    work(connection)


def _run(body: Callable[[], None]) -> NoReturn:
    """Runs the rest of a forked process."""
    status = 1
    try:
        signal.signal(signal.SIGINT, signal.SIG_IGN)  # a terminal sends it to all; the main process ends the others
        for number in (signal.SIGTERM, signal.SIGHUP):
            signal.signal(number, signal.SIG_DFL)
        body()
        status = 0
    except BaseException as fault:
        say(f"fmm serve: a worker ended: {one_line(f'{type(fault).__name__}: {fault}')}")
    finally:
        os._exit(status)
