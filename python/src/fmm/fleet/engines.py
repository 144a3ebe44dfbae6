"""The engines that run the tasks of groups, and the one that runs them as processes of this machine.

A task ends with 0 when its part is written, with 1 when another try is useless, and with another status when another try may
help. An engine returns the last message of each group that failed.
"""
from __future__ import annotations

import concurrent.futures
import importlib
import os
import shutil
import signal
import subprocess
import sys
import threading
from collections.abc import Callable
from dataclasses import dataclass
from pathlib import Path
from typing import Optional

from ..errors import FmmError, MissingLibraryError
from .common import Progress
from .parts import Run

TRIES = 3
NAMES = ("local", "slurm", "dask", "none")


@dataclass
class Work:
    """The groups to match, how many at a time, the threads and the MB of each, and how many seconds to wait for a cluster."""

    run: Run
    missing: list[int]
    jobs: int
    workers: int
    memory: int
    wait: int
    progress: Progress

    def done(self, number: int) -> None:
        self.progress.add(self.run.groups[number - 1]["points"])


Engine = Callable[[Work], dict[int, str]]


def engine(name: str) -> Engine:
    """The engine of this name."""
    if name in ("local", "none"):
        return local if name == "local" else none
    module = importlib.import_module(f".{name}_engine", __package__)
    return module.run_tasks


def check_engine(name: str) -> None:
    """Refuses an engine that is not installed, before anything is done for it."""
    if name == "slurm" and not shutil.which("sbatch"):
        raise MissingLibraryError("there is no sbatch; on Debian: apt-get install slurm-client")
    if name == "dask":
        try:
            import distributed  # noqa: F401
        except ImportError:
            raise MissingLibraryError(
                f"{sys.executable} has no library distributed; on Debian: apt-get install python3-distributed") from None


def task_command(run: Run, number: int) -> list[str]:
    return [sys.executable, str(Path(__file__).with_name("task.py")), str(run.folder), str(number)]


def start_task(run: Run, number: int) -> subprocess.Popen:
    """Starts a task as a process of this one."""
    return subprocess.Popen(task_command(run, number), stdin=subprocess.DEVNULL, stdout=subprocess.DEVNULL,
                            stderr=subprocess.PIPE, env={**os.environ, "FLEET_PARENT": str(os.getpid())})


def last_line(text: bytes) -> str:
    """The last line of what a task said."""
    lines = text.decode(errors="replace").strip().splitlines()
    return lines[-1].removeprefix("fmm fleet: ") if lines else ""


def none(work: Work) -> dict[int, str]:
    """Runs nothing: the tasks are run by other means."""
    return {}


class Attempts:
    """Runs tasks as processes of this one; when this process ends, Linux ends them too."""

    def __init__(self, run: Run) -> None:
        self.run, self.is_stopped, self.lock = run, False, threading.Lock()
        self.processes: set[subprocess.Popen] = set()

    def match(self, number: int) -> Optional[str]:
        """Runs a task until it ends well or finally; returns why it failed."""
        why = ""
        for _ in range(TRIES):
            process = self._start(number)
            if process is None:
                return "stopped"
            why = last_line(process.communicate()[1])
            with self.lock:
                self.processes.discard(process)
            if process.returncode == 0:
                return None
            why = why or f"status {process.returncode}"
            if process.returncode == 1:
                break
        return why

    def _start(self, number: int) -> Optional[subprocess.Popen]:
        """Starts a task, unless `stop` was called. The lock keeps `stop` from missing a task that is being started."""
        with self.lock:
            if self.is_stopped:
                return None
            process = start_task(self.run, number)
            self.processes.add(process)
            return process

    def stop(self) -> None:
        with self.lock:
            self.is_stopped = True
            for process in self.processes:
                process.send_signal(signal.SIGTERM)


def local(work: Work) -> dict[int, str]:
    """Processes of this machine."""
    attempts, failed = Attempts(work.run), {}
    with concurrent.futures.ThreadPoolExecutor(work.jobs) as pool:
        futures = {pool.submit(attempts.match, number): number for number in work.missing}
        try:
            for future in concurrent.futures.as_completed(futures):
                why = future.result()
                if why:
                    failed[futures[future]] = why
                else:
                    work.done(futures[future])
        except BaseException:
            for future in futures:
                future.cancel()
            attempts.stop()
            raise
    return failed


def run_command(*words: str) -> tuple[int, str, str]:
    """Runs a program of a cluster; returns its status, its output and its last message."""
    try:
        done = subprocess.run(words, stdin=subprocess.DEVNULL, capture_output=True, text=True)
    except OSError as fault:
        raise FmmError(f"cannot run {words[0]}: {fault.strerror}") from None
    return done.returncode, done.stdout.strip(), last_line(done.stderr.encode())
