"""A task: runs the program on a group and writes its part."""
from __future__ import annotations

import ctypes
import os
import signal
import socket
import subprocess
from collections import Counter
from pathlib import Path
from typing import Any

import numpy as np

from .._evidence import state
from ..errors import FmmError, InputError, shown
from .common import Again, checksum, load_json, print_note
from .parts import Run, read_text

FINAL = (2, 5, 6)  # statuses of fmm that another try does not change
AGAIN = 75  # the status of a task after whose failure another try may help


def die_with_parent() -> None:
    """Asks Linux to kill this process when its parent ends."""
    try:
        ctypes.CDLL(None).prctl(1, signal.SIGKILL)
    except (OSError, AttributeError):
        pass


def run_task(folder: str, number: str) -> int:
    """Runs the task of a group: 0 when the part is written, 1 when another try is useless, 75 when it may help."""
    if not (number.isascii() and number.isdecimal()):
        print_note(f"a task is --task FOLDER GROUP, and {shown(number)} is no number of a group")
        return 2
    try:
        parent = os.environ.get("FLEET_PARENT")
        if parent:
            if not parent.isdecimal():
                raise InputError(f"FLEET_PARENT={shown(parent)} in the environment is no number of a process")
            die_with_parent()
            if os.getppid() != int(parent):
                return AGAIN
        match_group(Path(folder).absolute(), int(number))
        return 0
    except Again as fault:
        print_note(fault)
        return AGAIN
    except FmmError as fault:
        print_note(fault)
        return 1
    except OSError as fault:
        print_note(f"{fault.filename or 'system'}: {fault.strerror or fault}")
        return AGAIN


class Task:
    """A group and the call that it belongs to."""

    def __init__(self, folder: Path, number: int) -> None:
        self.run = Run(folder)
        if not 1 <= number <= len(self.run.groups):
            raise InputError(f"there is no group {number}", folder)
        self.number, self.group, self.path = number, self.run.groups[number - 1], self.run.group_path(number)
        try:
            _, self.call = load_json(folder / "call.json")
            self.program, self.network = Path(self.call["program"]), Path(self.call["network"])
            self.running, self.words = Path(self.call["running"]), [str(word) for word in self.call["words"]]
        except (FileNotFoundError, KeyError, TypeError):
            raise InputError("cannot be read: call again", folder / "call.json") from None

    def check_inputs(self) -> str:
        """Compares group, network and program with the manifest. Returns the checksum of the program."""
        manifest: dict[str, Any] = self.run.manifest
        if checksum(self.path) != self.group["sha256"]:
            raise InputError(f"was changed: remove {self.run.folder}", self.path)
        if checksum(self.network) != manifest["network"]:
            raise InputError("is not the network of this run any more", self.network)
        for path in (self.running, self.program):
            found = checksum(path)
            if found not in manifest["program"]:
                raise InputError("is not the program of this run any more", path)
        return found

    def states(self) -> dict[Path, list[int]]:
        return {path: state(path) for path in (self.network, self.program, self.running)}

    def run_program(self, output: Path) -> None:
        with open(output, "xb") as file:
            try:
                process = subprocess.Popen(
                    [self.program, "match", *self.words, "--", self.network, self.path], stdin=subprocess.DEVNULL, stdout=file,
                    stderr=subprocess.PIPE, preexec_fn=die_with_parent)
            except OSError as fault:
                raise Again(f"cannot run {self.program}: {fault.strerror}") from None
            errors = process.communicate()[1].decode(errors="replace").strip().splitlines()
        status = process.returncode
        if status:
            why = errors[-1] if errors else f"killed by signal {-status}" if status < 0 else f"status {status}"
            raise (FmmError if status in FINAL else Again)(f"{self.program.name}: {why}")

    def check_text(self, path: Path) -> int:
        """The pieces of the text that the program wrote: it has each position of each trace of the group."""
        try:
            text = read_text(path)
        except InputError as fault:
            raise Again(f"the text of group {self.number}{str(fault).partition(path.name)[2]}") from None
        with open(self.path, "rb") as file:
            next(file, None)
            wanted = Counter(int(line.partition(b",")[0]) for line in file)
        if len(wanted) != len(text.positions):
            raise Again(f"the text of group {self.number} has {len(text.positions)} traces, not {len(wanted)}")
        expected = np.array([wanted[trace] for trace in range(len(wanted))], np.int64)
        for trace in np.flatnonzero(expected != text.positions)[:1]:
            raise Again(f"the text of group {self.number}: trace {trace} has {text.positions[trace]} positions, "
                        f"not {expected[trace]}")
        return text.pieces


def match_group(folder: Path, number: int) -> None:
    """Runs the program on a group and writes the part."""
    task = Task(folder, number)
    before = task.states()
    program = task.check_inputs()
    part = task.run.part_path(number)
    temporary = part.with_name(f"{part.stem}.{socket.gethostname()}.{os.getpid()}.tmp")
    try:
        task.run_program(temporary)
        pieces = task.check_text(temporary)
        for path, now in task.states().items():
            if now != before[path]:
                raise InputError("was changed during the run", path)
        size, digest = os.path.getsize(temporary), checksum(temporary)
        with open(temporary, "ab") as file:
            file.write(b"part %d run %s program %s traces %d points %d pieces %d bytes %d sha256 %s\n" % (
                number, task.run.name.encode(), program.encode(), task.group["traces"], task.group["points"], pieces, size,
                digest.encode()))
            file.flush()
            os.fsync(file.fileno())
        os.replace(temporary, part)
    finally:
        temporary.unlink(missing_ok=True)
