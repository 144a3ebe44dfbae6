"""What the modules of this folder share: the manifest, files written whole, notes and the progress."""
from __future__ import annotations

import json
import sys
import time
from pathlib import Path
from typing import Any, Optional

from tqdm import tqdm

from .._evidence import checksum_of
from .._output import Outputs
from ..errors import FmmError, InputError

VERSION = 2  # of the manifest
# What file systems put into folders by themselves.
FOREIGN = ("lost+found",)
UNFINISHED = ".fmm-"


def is_foreign(name: str) -> bool:
    """Whether this is no file of a fleet: the rest of a removed file of NFS, the folder of ext4, an output that a call which was
    killed did not complete."""
    return name.startswith((".nfs", UNFINISHED)) or name in FOREIGN


def write_whole(path: Path, data: bytes) -> None:
    """Writes a file under a temporary name, then renames it."""
    with Outputs() as outputs:
        outputs.open(path, binary=True).write(data)


def number_name(number: int) -> str:
    """The name of a group's file without its ending."""
    return f"{number:06d}"


def load_json(path: Path) -> tuple[bytes, dict[str, Any]]:
    """An object of a file of this folder, as bytes and as values. FileNotFoundError passes."""
    try:
        data = path.read_bytes()
        values = json.loads(data)
        if isinstance(values, dict):
            return data, values
        raise ValueError
    except FileNotFoundError:
        raise
    except (OSError, ValueError, RecursionError):
        raise InputError(f"cannot be read: remove {path.parent}", path) from None


def load_manifest(folder: Path) -> Optional[tuple[bytes, dict[str, Any]]]:
    """The manifest of a folder as bytes and as values, or None."""
    try:
        data, values = load_json(folder / "manifest.json")
    except FileNotFoundError:
        return None
    if values.get("version") != VERSION or not isinstance(values.get("groups"), list):
        raise InputError(f"cannot be read: remove {folder}", folder / "manifest.json")
    return data, values


def store_manifest(folder: Path, values: dict[str, Any]) -> None:
    write_whole(folder / "manifest.json", json.dumps(values, indent=1).encode() + b"\n")


def print_note(text: object) -> None:
    """A line on standard error. A closed or full standard error stops nothing."""
    try:
        print(f"fmm fleet: {text}", file=sys.stderr, flush=True)
    except (OSError, ValueError, AttributeError):
        pass


def checksum(path: Path, progress: Optional[Progress] = None) -> str:
    """The SHA-256 of a file."""
    digest = checksum_of(path)
    if progress:
        progress.add(path.stat().st_size)
    return digest


class Progress:
    """The progress with the remaining time on standard error: a bar if that is a terminal, and otherwise a line after each
    minute. Call `add` in a `with` block."""

    def __init__(self, what: str, total: int, done: int = 0) -> None:
        self.what, self.total, self.done = what, max(total, 1), done
        self.begin = self.said = time.monotonic()
        self.first = done
        self.bar: Optional[tqdm] = None
        if sys.stderr is not None and sys.stderr.isatty():
            form = "{desc} [{bar:30}] {percentage:3.0f} %, {remaining} left"
            self.bar = tqdm(total=self.total, initial=done, desc=what, bar_format=form, ascii=" #", leave=False)

    def __enter__(self) -> Progress:
        return self

    def __exit__(self, *_: object) -> None:
        if self.bar is not None:
            self.bar.close()

    def add(self, more: int) -> None:
        self.done += more
        if self.bar is not None:
            self.bar.update(more)
            return
        now = time.monotonic()
        if now < self.said + 60:
            return
        self.said = now
        left = (now - self.begin) * max(0, self.total - self.done) / max(1, self.done - self.first)
        print_note(f"{self.what} {100 * min(1.0, self.done / self.total):.0f} %, {tqdm.format_interval(left)} left")


class Again(FmmError):
    """A failure of a task after which another try may help."""
