"""Commands of the package as processes that are forks of this one, which has imported it."""
from __future__ import annotations

import contextlib
import os
import signal
import subprocess
import sys
import traceback
from collections.abc import Callable, Mapping, Sequence
from typing import Any, NoReturn, Optional


class Process(subprocess.Popen):  # type: ignore[type-arg]
    """`fmm WORDS` in a fork, with the files, the folder and the environment that Popen takes."""

    def _execute_child(self, args: Any, executable: Any, preexec_fn: Any, close_fds: Any, pass_fds: Any, cwd: Any, env: Any,
                       startupinfo: Any, flags: Any, shell: Any, *ends: Any) -> None:
        """What Popen calls to start the process. Ends of pipes come in pairs: of the child and ours, ours and of the child."""
        read, gives, reads, write, hears, says = ends[:6]
        self.pid = os.fork()
        if self.pid == 0:
            perform([str(word) for word in args], (read, write, says), cwd, env, preexec_fn)
        self._child_created = True
        self._close_pipe_fds(read, gives, reads, write, hears, says)  # type: ignore[attr-defined]


def start_task(run: Any, number: int) -> Process:
    """What `fmm.fleet.engines.start_task` does, in a fork."""
    return Process(["fleet", "--task", run.folder, number], stdin=subprocess.DEVNULL, stdout=subprocess.DEVNULL,
                   stderr=subprocess.PIPE, env={**os.environ, "FLEET_PARENT": str(os.getpid())})


def perform(words: list[str], files: Sequence[int], folder: Any, environment: Optional[Mapping[str, str]],
            prepare: Optional[Callable[[], None]] = None) -> NoReturn:
    """Does what `python3 -m fmm WORDS` does, with these files as standard input, output and error; -1 is that of now."""
    status = 99
    try:
        signal.signal(signal.SIGINT, signal.default_int_handler)  # ignored if a shell runs the tests in the background
        signal.signal(signal.SIGTERM, signal.SIG_DFL)
        for number, file in enumerate(files):
            if file >= 0:
                os.dup2(file, number)
        _let_go()
        sys.stdin, sys.stdout, sys.stderr = (open(number, "w" if number else "r", closefd=False) for number in range(3))
        if environment is not None:
            os.environ.clear()
            os.environ.update(environment)
        os.chdir(folder or ".")
        if prepare:
            prepare()
        from fmm.commands import main
        status = main(words) or 0
        sys.stdout.flush()
    except SystemExit as end:
        status = end.code if isinstance(end.code, int) else 1 if end.code else 0
    except BaseException:
        traceback.print_exc()
    finally:
        os._exit(status)


def _let_go() -> None:
    """Lets go of all other files. Their numbers stay in use, so that objects of this process that are dropped later close nothing
    that the command has opened."""
    nothing = os.open(os.devnull, os.O_RDWR)
    for name in os.listdir("/dev/fd"):
        if int(name) > 2:
            with contextlib.suppress(OSError):  # that of the folder itself is closed
                os.fstat(int(name))
                os.dup2(nothing, int(name))
