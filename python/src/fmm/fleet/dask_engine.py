"""Tasks of a Dask cluster: the one of DASK_SCHEDULER_ADDRESS, or one on this machine."""
from __future__ import annotations

import logging
import os
import subprocess
import sys
import time
from pathlib import Path
from typing import Any, Optional

import dask.config
import distributed

from ..errors import FmmError
from .common import print_note
from .engines import TRIES, Work, last_line

LOOK = 1  # seconds between two looks at the workers


def match_group(script: str, folder: str, number: int) -> Optional[str]:
    """Runs a task on a worker, by the worker's Python. Returns why it failed finally; raises RuntimeError if another try may
    help."""
    done = subprocess.run([sys.executable, script, folder, str(number)], stdin=subprocess.DEVNULL, stdout=subprocess.DEVNULL,
                          stderr=subprocess.PIPE, env={**os.environ, "FLEET_PARENT": str(os.getpid())})
    why = last_line(done.stderr) or f"status {done.returncode}"
    if done.returncode > 1 or done.returncode < 0:
        raise RuntimeError(why)
    return why if done.returncode else None


def connect(work: Work) -> tuple[Any, Any]:
    """A client, and the cluster if it is a new one."""
    for name in ("distributed", "tornado", "asyncio"):
        logging.getLogger(name).setLevel(logging.CRITICAL + 1)
    address = dask.config.get("scheduler-address", None)
    try:
        if address:
            return distributed.Client(address, timeout=min(30, work.wait), set_as_default=False), None
        cluster = distributed.LocalCluster(n_workers=work.jobs, threads_per_worker=1, dashboard_address=None,
                                           silence_logs=logging.CRITICAL)
        return distributed.Client(cluster, set_as_default=False), cluster
    except (OSError, ValueError) as fault:
        raise FmmError(f"no Dask scheduler{f' at {address}' if address else ''}: {str(fault).splitlines()[0]}") from None


class Waiting:
    """Says once that there are no workers or no scheduler, and ends the call after `seconds`."""

    def __init__(self, client: Any, seconds: int) -> None:
        self.client, self.seconds = client, seconds
        self.since: Optional[float] = None

    def look(self) -> None:
        what = self.missing()
        if what is None:
            self.since = None
            return
        if self.since is None:
            self.since = time.monotonic()
            print_note(f"waiting for {what}; --wait says how long")
        if time.monotonic() - self.since > self.seconds:
            raise FmmError(f"no {what} within {self.seconds} seconds; the same command does what is missing")

    def missing(self) -> Optional[str]:
        """What is not there: the scheduler, or its workers."""
        if self.client.status != "running":
            return "scheduler of Dask"
        try:
            workers = self.client.sync(self.client.scheduler.identity, callback_timeout=10)["workers"]
        except Exception:  # whatever a connection that breaks raises
            return "scheduler of Dask"
        return None if workers else "worker of Dask"


def run_tasks(work: Work) -> dict[int, str]:
    """Runs the tasks on the workers of the cluster."""
    script, folder = str(Path(__file__).with_name("task.py")), str(work.run.folder)
    client, cluster = connect(work)
    waiting = Waiting(client, work.wait)
    try:
        futures = {client.submit(match_group, script, folder, number, retries=TRIES - 1, pure=False): number
                   for number in work.missing}
        return collect(work, futures, waiting)
    finally:
        try:
            client.close(timeout=2)
            if cluster:
                cluster.close()
        except Exception:  # the scheduler may be gone
            pass


def collect(work: Work, futures: dict[Any, int], waiting: Waiting) -> dict[int, str]:
    """Waits for the tasks; returns why groups failed."""
    failed: dict[int, str] = {}
    left = dict(futures)
    while left:
        done = [future for future in left if future.done()]
        for future in done:
            number = left.pop(future)
            why = outcome(future)
            if why:
                failed[number] = why
            else:
                work.done(number)
        if not done:
            waiting.look()
            time.sleep(LOOK)
    return failed


def outcome(future: Any) -> Optional[str]:
    """Why a task failed."""
    if future.status == "finished":
        return future.result()
    if future.status == "error":
        fault = future.exception()
        return str(fault).splitlines()[0] if str(fault) else type(fault).__name__
    return f"the task was {future.status}"
