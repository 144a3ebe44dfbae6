"""A call from its words to the joined text."""
from __future__ import annotations

import errno
import fcntl
import json
import os
import shutil
import subprocess
import tempfile
import time
from collections.abc import Iterator
from contextlib import contextmanager
from dataclasses import dataclass, field
from pathlib import Path
from typing import Any, Optional

from .._evidence import state
from ..errors import FmmError, InputError, OptionError, OutputError, shown
from . import engines, groups
from .common import VERSION, Progress, checksum, is_foreign, load_manifest, print_note, store_manifest, write_whole
from .join import join
from .memory import SLACK, Grid, Reach, free_memory
from .parts import Run
from .tasks import die_with_parent
from .trace_file import TraceFile

FOLDER_NAMES = {"lock", "groups", "parts", "logs", "slurm", "sort", "index", "call.json", "manifest.json", "match.txt"}
OPTION_NAMES = ("k", "radius", "sigma", "beta", "bound", "back", "gap", "workers")
WORDS = {"network": "network file", "traces": "trace file", "options": "set of options", "memory": "--memory", "most": "--points"}


@dataclass
class Call:
    """What to match, how and where to.

    `options` are the words of the program, such as `["--back", "2000"]`, in centimetres and seconds. `jobs` run at a time, each
    with `memory` MB; by default as many as this machine has processors and, for `local`, memory. A group has at most `points`
    positions. `wait` is how many seconds to wait for workers of Dask, or for Slurm to answer.
    """

    network: Path
    traces: Path
    into: Path
    program: Path
    engine: str = "local"
    jobs: Optional[int] = None
    memory: int = 2000
    points: Optional[int] = None
    wait: int = 600
    options: list[str] = field(default_factory=list)


def program_options(words: list[str]) -> dict[str, Any]:
    """The options that the program is given, as numbers. The program itself says whether their values are right."""
    options: dict[str, Any] = {}
    rest = iter(words)
    for word in rest:
        name, equals, given = word[2:].partition("=")
        value: Optional[str] = given if equals else next(rest, "") or None
        if not word.startswith("--") or name not in (*OPTION_NAMES, "table"):
            raise OptionError.unknown(word.partition("=")[0], [f"--{known}" for known in OPTION_NAMES], "option of FMM")
        if name == "table":
            raise OptionError("the option --table is not for a fleet")
        if name in options or value is None:
            raise OptionError(f"the option --{name} {'stands twice' if name in options else 'has no value'}")
        options[name] = int(value) if value.isascii() and value.isdecimal() else value
    return options


def probe(program: Path, network: Path, words: list[str]) -> tuple[Path, int]:
    """Runs the program without traces: it says whether the options and the network are right. Returns the path of what runs in
    the end, since the program may be a script, and the memory of a run without rows."""
    with tempfile.TemporaryDirectory() as folder:
        pipe = os.path.join(folder, "traces")
        os.mkfifo(pipe)
        with open(os.path.join(folder, "errors"), "w+b") as errors:
            try:
                process = subprocess.Popen([program, "match", *words, "--", network, pipe], stdin=subprocess.DEVNULL,
                                           stdout=subprocess.DEVNULL, stderr=errors, preexec_fn=die_with_parent)
            except OSError as fault:
                raise FmmError(f"cannot run {program}: {fault.strerror}") from None
            running, status, memory = feed_no_traces(process, pipe, program)
            if status:
                errors.seek(0)
                lines = errors.read().decode(errors="replace").strip().splitlines()
                why = f"{program.name}: {lines[-1] if lines else f'status {status}'}"
                raise OptionError(why) if status == 2 else FmmError(f"{why} ({network})" if status == 5 else why)
            return running, memory


def feed_no_traces(process: subprocess.Popen, pipe: str, running: Path) -> tuple[Path, int, int]:
    """Gives a process a trace file without traces. Returns what ran, its status and its memory in bytes."""
    memory = 0
    while True:
        try:
            end = os.open(pipe, os.O_WRONLY | os.O_NONBLOCK)  # fails until the program has read the network
        except OSError:
            time.sleep(0.01)
            pid, status = os.waitpid(process.pid, os.WNOHANG)
            if pid:
                break
            continue
        running, memory = Path(os.readlink(f"/proc/{process.pid}/exe")), most_memory(process.pid)
        os.write(end, b"trace,x,y\n")
        os.close(end)
        _, status = os.waitpid(process.pid, 0)
        break
    process.returncode = os.waitstatus_to_exitcode(status)
    return running, process.returncode, memory


def most_memory(process: int) -> int:
    """The most bytes that a process had since it began its program; what the system says at its end counts its parent's too."""
    lines = Path(f"/proc/{process}/status").read_text().splitlines()
    return next((int(line.split()[1]) << 10 for line in lines if line.startswith("VmHWM:")), 0)


@contextmanager
def lock(folder: Path) -> Iterator[None]:
    """Keeps other calls out of the folder; the system ends a lock with its process."""
    try:
        file = os.fdopen(os.open(folder / "lock", os.O_WRONLY | os.O_CREAT | os.O_NOFOLLOW, 0o666), "w")
    except OSError as fault:
        raise OutputError(f"{folder / 'lock'}: {fault.strerror}") from None
    with file:
        try:
            fcntl.flock(file, fcntl.LOCK_EX | fcntl.LOCK_NB)
        except OSError as fault:
            if fault.errno in (errno.EWOULDBLOCK, errno.EACCES):
                raise OutputError(f"another call is at work in {folder}") from None
            raise OutputError(f"cannot lock {folder / 'lock'}: {fault.strerror}") from None
        yield


def prepare_folder(folder: Path) -> bool:
    """Makes the folder if it is not there, and returns whether it was made."""
    is_new = not folder.exists()
    try:
        if is_new:
            folder.mkdir()
        strange = sorted(name for name in set(os.listdir(folder)) - FOLDER_NAMES if not is_foreign(name))
    except OSError as fault:
        raise OutputError(f"cannot use {folder}: {fault.strerror}") from None
    if strange:
        raise OutputError(f"{folder} has a file of something else, {shown(strange[0])}: name a new folder")
    return is_new


def prepare_groups(call: Call, folder: Path, identity: dict[str, Any], loaded: int, jobs: int) -> None:
    """Makes the groups, or refuses a folder that was made for something else. `identity` is what the run is made of, and `loaded`
    the memory of a run without rows."""
    found = load_manifest(folder)
    if found:
        with Progress("checksums", os.path.getsize(call.traces)) as reading:
            identity = {**identity, "traces": checksum(call.traces, reading)}
        for name, value in identity.items():
            if found[1].get(name) != value:
                raise InputError(f"was made for another {WORDS.get(name, name)}: name a new folder, or remove it", folder)
        return
    room = (call.memory << 20) - loaded - SLACK
    if room < 0:
        raise OptionError(f"--memory {call.memory} is too little: the network alone needs {(loaded + SLACK >> 20) + 1} MB")
    print_note(f"a job has {call.memory} MB: {loaded + SLACK >> 20} MB for the network, and the rest for rows of the table")
    reach = Reach(**{name: value for name, value in identity["options"].items() if name in Reach._fields})
    with Progress("grouping", os.path.getsize(call.network) + 2 * os.path.getsize(call.traces)) as reading:
        grid = Grid.of_file(call.network, reach, reading)
        made, large = groups.make_groups(folder, TraceFile(call.traces, reading), grid, groups.Limits(room, call.points, jobs))
    for number in large:
        print_note(f"group {number} has one trace that may need more than {call.memory} MB")
    shutil.rmtree(folder / "parts", ignore_errors=True)
    store_manifest(folder, {**identity, **made})


def identity_of(call: Call, options: dict[str, Any], programs: set[str]) -> dict[str, Any]:
    """What a run is made of: another value of it is another run."""
    with Progress("checksums", os.path.getsize(call.network)) as reading:
        network = checksum(call.network, reading)
    return {"version": VERSION, "network": network, "program": sorted(programs), "memory": call.memory, "most": call.points,
            "options": {name: value for name, value in sorted(options.items()) if name != "workers"}}


def match_fleet(call: Call) -> tuple[Path, str]:
    """Matches a fleet; returns the path of the text and its total line. The same call again does only what is missing.

    Raises OptionError, InputError, OutputError, or FmmError for a group that could not be matched.
    """
    options = program_options(call.options)
    engines.check_engine(call.engine)
    for path in (call.network, call.traces):
        if not path.is_file():
            raise InputError("is no file", path)
    TraceFile(call.traces).check_header()
    folder = call.into.absolute()
    for path in (call.network, call.traces):
        if folder.resolve() in path.resolve().parents:
            raise InputError(f"is in the folder of the groups, {call.into}: name another folder", path)
    is_new = prepare_folder(folder)
    with lock(folder):
        try:
            total = match_groups(call, folder, options)
        except BaseException:
            if is_new and not (folder / "manifest.json").exists():
                shutil.rmtree(folder, ignore_errors=True)
            raise
    return call.into / "match.txt", total


def match_groups(call: Call, folder: Path, options: dict[str, Any]) -> str:
    """Matches the groups of the folder that have no part, and joins all; returns the total line."""
    network = call.network.absolute()
    inputs = [network, call.traces]
    before = [state(path) for path in inputs]
    words = call.options if "workers" in options else [*call.options, "--workers", "1"]
    print_note("reading the files")
    running, loaded = probe(call.program, network, words)
    jobs = call.jobs or local_jobs(call)
    prepare_groups(call, folder, identity_of(call, options, {checksum(call.program), checksum(running)}), loaded, jobs)
    match = folder / "match.txt"
    match.unlink(missing_ok=True)
    (folder / "parts").mkdir(exist_ok=True)
    run = Run(folder)
    note = {"program": str(call.program), "running": str(running), "network": str(network), "words": words,
            "workers": options.get("workers", 1), "memory": call.memory}
    write_whole(folder / "call.json", json.dumps(note).encode())
    run.remove_temporary()
    match_missing(run, call, jobs, int(note["workers"]))
    total = join(run, match)
    run.remove_temporary()
    if [state(path) for path in inputs] != before:
        if [checksum(path) for path in inputs] != [run.manifest["network"], run.manifest["traces"]]:
            match.unlink()
            raise InputError("the network or the trace file was changed during the run")
    return total


def match_missing(run: Run, call: Call, jobs: int, workers: int) -> None:
    """Runs the tasks of the groups without a part."""
    missing = run.missing()
    print_note(f"groups {len(run.groups)}, matched before {len(run.groups) - len(missing)}")
    failed: dict[int, str] = {}
    if missing:
        points = sum(group["points"] for group in run.groups)
        left = sum(run.groups[number - 1]["points"] for number in missing)
        with Progress("matching", points, points - left) as progress:
            work = engines.Work(run, missing, jobs, workers, call.memory, call.wait, progress)
            failed = engines.engine(call.engine)(work)
    missing = run.missing()
    if missing:
        number = min(set(missing) & set(failed), default=missing[0])
        why = f" ({failed[number]})" if number in failed else ""
        raise FmmError(f"{run.part_path(number)} is missing{why}; {len(missing)} of {len(run.groups)} parts are missing")


def local_jobs(call: Call) -> int:
    """As many tasks at a time as this machine has processors, and memory if they run here."""
    jobs = len(os.sched_getaffinity(0))
    return max(1, min(jobs, (free_memory() >> 20) // call.memory)) if call.engine == "local" else jobs
