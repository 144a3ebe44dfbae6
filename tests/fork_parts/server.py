"""`python3 -m fork_parts.server ADDRESS MODULE ..` imports modules of the package, and forks a child for each command that comes
to a socket."""
from __future__ import annotations

import gc
import importlib
import json
import os
import signal
import socket
import sys
from contextlib import suppress
from types import FrameType
from typing import NoReturn, Optional

from .process import perform, start_task


def answer(connection: socket.socket) -> None:
    """Runs the command of a connection, and says first its process id, and then its status."""
    text, files, _, _ = socket.recv_fds(connection, 1 << 20, 3)
    child = os.fork()
    if child == 0:
        words, folder, environment = json.loads(text)
        perform(words, files, folder, environment)
    for number in files:
        os.close(number)
    with suppress(OSError):  # the client may be gone
        connection.send(b"%d" % child)
        connection.send(b"%d" % os.waitstatus_to_exitcode(os.waitpid(child, 0)[1]))


def reap(how: int) -> None:
    """Waits for children that ended, or for all."""
    with suppress(ChildProcessError):
        while os.waitpid(-1, how) != (0, 0):
            pass


def end(number: int, frame: Optional[FrameType]) -> NoReturn:
    """Ends the server when all its commands have ended."""
    reap(0)
    os._exit(0)


def listen(address: str) -> socket.socket:
    """A socket to which commands may come."""
    listener = socket.socket(socket.AF_UNIX, socket.SOCK_SEQPACKET)
    listener.bind(address)
    listener.listen(64)
    return listener


def serve(listener: socket.socket) -> NoReturn:
    """Answers each connection in a child, which forks the command, so that the status can be told when it has ended."""
    signal.signal(signal.SIGTERM, end)
    while True:
        connection, _ = listener.accept()
        reap(os.WNOHANG)
        if os.fork() == 0:
            signal.signal(signal.SIGTERM, signal.SIG_DFL)
            listener.close()
            try:
                answer(connection)
            finally:
                os._exit(0)
        connection.close()


if __name__ == "__main__":
    for name in sys.argv[2:]:
        with suppress(ImportError):  # a command that needs it says so
            importlib.import_module(name)
    with suppress(Exception):
        from fmm import _programs
        _programs.program(False)  # so that a fork need not ask for it
    with suppress(ImportError):
        from fmm.fleet import engines
        engines.start_task = start_task
    gc.freeze()  # so that no child looks at all these objects again, and takes copies of their pages
    socket_of_commands = listen(sys.argv[1])
    print("ready", flush=True)
    serve(socket_of_commands)
