"""Tasks as job arrays of Slurm; a task that fails is requeued. Options of sbatch come from its variables, as SBATCH_PARTITION."""
from __future__ import annotations

import os
import shlex
import time
from collections.abc import Callable
from pathlib import Path

from ..errors import FmmError, InputError, OutputError
from .common import print_note, write_whole
from .engines import TRIES, Work, last_line, run_command, task_command
from .parts import Run

SCRIPT = """\
#!/bin/sh
group=$(sed -n "$((SLURM_ARRAY_TASK_ID + 1))p" {numbers})
{task} "$group"
status=$?
if [ $status -gt 1 ] && [ "${{SLURM_RESTART_COUNT:-0}}" -lt {retries} ]; then scontrol requeue "$SLURM_JOB_ID"; fi
exit $status
"""


def run_tasks(work: Work) -> dict[int, str]:
    """Runs the tasks in arrays as long as Slurm allows."""
    folder = work.run.folder / "slurm"
    if "\\" in str(work.run.folder):
        raise OutputError(f"{work.run.folder}: Slurm takes no folder with a backslash in its name")
    folder.mkdir(exist_ok=True)
    Array(work, folder, []).cancel_former()
    failed: dict[int, str] = {}
    most = array_limit()
    for first in range(0, len(work.missing), most):
        failed.update(Array(work, folder, work.missing[first:first + most]).run_all())
    return failed


def array_limit() -> int:
    _, text, _ = run_command("scontrol", "show", "config")
    for line in text.splitlines():
        if line.startswith("MaxArraySize"):
            return max(1, int(line.split("=")[1]) - 1)
    return 1000


class Array:
    """A job array of these groups. Its name has the checksum of the run, so that no other job is taken for one of this run."""

    def __init__(self, work: Work, folder: Path, numbers: list[int]) -> None:
        self.work, self.folder, self.numbers = work, folder, numbers
        self.run: Run = work.run
        self.name = f"fmm-{self.run.name[:24]}"
        self.logs = self.run.folder / "logs"
        self.note = folder / "job"

    def cancel(self, job: str) -> None:
        run_command("scancel", f"--name={self.name}", job)

    def cancel_former(self) -> None:
        """Ends the jobs that an interrupted call has left."""
        try:
            job = self.note.read_text(errors="replace").strip()
        except FileNotFoundError:
            return
        if not (job.isascii() and job.isdecimal()):
            raise InputError(f"has no number of a job: remove it, and end the jobs {self.name} by scancel --name", self.note)
        self.cancel(job)
        self.wait_for_answers(job, lambda: None)
        self.note.unlink()

    def waiting(self, job: str) -> list[str]:
        """The states and reasons of the tasks of the job that have not ended."""
        status, text, why = run_command("squeue", "-h", "-r", f"--name={self.name}", "-j", job, "-o", "%T %r")
        if status and "Invalid job id" not in why:
            return ["UNKNOWN " + why]
        return text.splitlines() if not status else []

    def wait_for_answers(self, job: str, look: Callable[[], None]) -> None:
        """Waits until the job has ended. Calls `look` between; a task that Slurm holds ends the job."""
        silent_since = None
        while tasks := self.waiting(job):
            if tasks[0].startswith("UNKNOWN"):
                if silent_since is None:
                    silent_since = time.monotonic()
                    print_note(f"waiting for Slurm, which does not answer: {tasks[0][8:]}")
                if time.monotonic() - silent_since > self.work.wait:
                    raise FmmError(f"Slurm does not answer: {tasks[0][8:]}")
            else:
                silent_since = None
            if all(task.startswith("PENDING") and "held" in task.lower() for task in tasks):
                self.cancel(job)
            look()
            time.sleep(min(2, 0.3 + len(self.numbers) / 200))

    def submit(self) -> str:
        """Submits the array and returns the number of its job."""
        numbers, script = self.folder / "groups", self.folder / "task.sh"
        write_whole(numbers, "".join(f"{number}\n" for number in self.numbers).encode())
        task = shlex.join(task_command(self.run, 0)[:-1])
        text = SCRIPT.format(numbers=shlex.quote(str(numbers)), task=task, retries=TRIES - 1)
        write_whole(script, text.encode(errors="surrogateescape"))
        self.logs.mkdir(exist_ok=True)
        status, job, why = run_command(
            "sbatch", "--parsable", f"--array=0-{len(self.numbers) - 1}%{self.work.jobs}", f"--mem={self.work.memory}M",
            f"--cpus-per-task={self.work.workers}", "--requeue", f"--job-name={self.name}", "--open-mode=append",
            f"--output={str(self.logs).replace('%', '%%')}/%A_%a.log", str(script))
        if status:
            raise FmmError(f"sbatch: {why}")
        return job.split(";")[0]

    def run_all(self) -> dict[int, str]:
        """Runs the array; returns why groups failed."""
        job = self.submit()
        write_whole(self.note, job.encode())
        left = list(self.numbers)

        def look() -> None:
            came = [number for number in left if self.run.part_path(number).exists()]
            for number in came:
                self.work.done(number)
                left.remove(number)

        try:
            self.wait_for_answers(job, look)
            look()
        except BaseException:
            self.cancel(job)
            raise
        os.remove(self.note)
        return {number: self.log_of(job, self.numbers.index(number)) for number in left}

    def log_of(self, job: str, place: int) -> str:
        path = self.logs / f"{job}_{place}.log"
        try:
            return last_line(path.read_bytes()) or f"the job ended without its part (see {path})"
        except OSError:
            return "the job ended without its part"
