"""Runs commands of the package as a shell does, in forks of this process, which has the libraries already."""
from __future__ import annotations

import contextlib
import os
import signal
import sys
import tempfile
from collections.abc import Iterator, Mapping
from dataclasses import dataclass
from pathlib import Path
from typing import Optional

from fork_parts import forker, server
from fork_parts.process import Process

from fmm import _programs


@dataclass(frozen=True)
class Done:
    """The status and the texts of a command that ended."""

    returncode: int
    stdout: str
    stderr: str


def run(*words: str, given: str = "", folder: Optional[Path] = None, env: Optional[Mapping[str, str]] = None) -> Done:
    """Runs `fmm WORDS` with a text on standard input, in a folder."""
    with tempfile.TemporaryFile() as read, tempfile.TemporaryFile() as out, tempfile.TemporaryFile() as error:
        read.write(given.encode("utf-8", "surrogateescape"))
        read.seek(0)
        status = Process(words, stdin=read, stdout=out, stderr=error, cwd=folder, env=env).wait()
        out.seek(0)
        error.seek(0)
        return Done(status, out.read().decode(), error.read().decode())


@contextlib.contextmanager
def python() -> Iterator[str]:
    """A program that ./fmm takes as its Python (FMM_PYTHON), and that runs commands in forks of this process."""
    _programs.program(False)  # so that a fork need not ask for it
    with tempfile.TemporaryDirectory(prefix="fmm-forks-") as folder:
        address = f"{folder}/socket"
        listener = server.listen(address)
        pid = os.fork()
        if pid == 0:
            server.serve(listener)
        listener.close()
        forker.write_python(Path(folder, "python"), sys.executable, address)
        try:
            yield f"{folder}/python"
        finally:
            os.kill(pid, signal.SIGTERM)
            os.waitpid(pid, 0)
