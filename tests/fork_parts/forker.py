"""Commands of the package in forks of one process, which has imported it: starting Python takes longer than most commands."""
from __future__ import annotations

import os
import shlex
import subprocess
import tempfile
from collections.abc import Mapping, Sequence
from pathlib import Path

from . import client

CLIENT = Path(__file__).with_name("client.py")


def write_python(path: Path, python: str, address: str) -> None:
    """Writes a program that ./fmm takes as its Python: it has its commands run by the server at this address."""
    words = " ".join(map(shlex.quote, [python, "-IS", str(CLIENT), address]))
    path.write_text(f'#!/bin/sh\n[ "$1 $2" = "-m fmm" ] || exec {shlex.quote(python)} "$@"\nshift 2\nexec {words} "$@"\n')
    path.chmod(0o755)


class Forker:
    """A server of forks, started by this Python with the sources of the package in a folder. It imports these modules."""

    def __init__(self, python: str, sources: str, modules: Sequence[str]) -> None:
        self.folder = tempfile.TemporaryDirectory(prefix="fmm-forks-")
        self.address = str(Path(self.folder.name, "socket"))
        self.process = subprocess.Popen([python, "-m", "fork_parts.server", self.address, *modules], stdin=subprocess.DEVNULL,
                                        stdout=subprocess.PIPE, env={
                                            **os.environ, "PYTHONPATH": f"{sources}{os.pathsep}{CLIENT.parents[1]}"})
        self.python = Path(self.folder.name, "python")
        write_python(self.python, python, self.address)
        assert self.process.stdout
        self.process.stdout.readline()  # it listens

    def call(self, words: Sequence[str], environment: Mapping[str, str]) -> subprocess.CompletedProcess[str]:
        """The status, standard output and standard error of `fmm WORDS`."""
        with open(os.devnull, "rb") as nothing, tempfile.TemporaryFile() as out, tempfile.TemporaryFile() as error:
            status = client.run(self.address, words, environment, [nothing.fileno(), out.fileno(), error.fileno()])
            out.seek(0)
            error.seek(0)
            return subprocess.CompletedProcess(words, status, out.read().decode(), error.read().decode())

    def close(self) -> None:
        self.process.terminate()
        self.process.communicate()
        self.folder.cleanup()
