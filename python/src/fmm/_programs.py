"""Finds the proved programs and runs them."""
from __future__ import annotations

import functools
import hashlib
import os
import shutil
import subprocess
from pathlib import Path
from typing import Any, List, Optional, Sequence

from .errors import InputError, ProgramError, one_line

CRATES = {"fmm": "match_program", "fmm_large": "large_program"}
TOP = Path(__file__).resolve().parents[3]  # of a checkout: python/src/fmm/_programs.py
MEMORY = "out of memory: match fewer vehicles at once, lower bound, or match in groups: --engine local"
SYSTEM = {1: MEMORY, 4: "the match could not be written", 127: "there is no program, and none could be built"}
TICK = 0.1  # seconds


def program(large: bool, named: Optional[str] = None) -> Path:
    """The program: the named one, $FMM_PROGRAM, that of this checkout, or the installed one. Builds nothing."""
    chosen = named or os.environ.get("FMM_PROGRAM")
    if chosen:
        found = shutil.which(chosen)
        if not found:
            raise ProgramError(127, f"{chosen if named else f'FMM_PROGRAM={chosen}'}: there is no such program")
        return Path(found)
    name = "fmm_large" if large else "fmm"
    if (TOP / "tools" / "build").is_file() and (TOP / "crates").is_dir():
        return of_checkout(TOP, name)
    installed = shutil.which(name, path=os.pathsep.join(["/usr/bin", os.environ.get("PATH", "")]))
    if not installed:
        raise ProgramError(127, f"there is no program {name}: install the Debian package fmm, or set FMM_PROGRAM to its path")
    return Path(installed)


@functools.lru_cache(None)
def of_checkout(top: Path, name: str) -> Path:
    """The program that was built here from the present sources, or the one in bin/ if it is of these sources."""
    crate = CRATES[name]
    tool = str(top / "tools" / "build")
    if subprocess.run([tool, "--built", crate], stdin=subprocess.DEVNULL, capture_output=True, check=False).returncode == 0:
        return top / "crates" / crate / "out" / crate
    released, listed = top / "bin" / name, top / "bin" / "SOURCES"
    if released.is_file() and listed.is_file():
        asked = subprocess.run([tool, "--sources", crate], stdin=subprocess.DEVNULL, capture_output=True, check=False, text=True)
        wanted = [name, asked.stdout.strip(), checksum(released)]
        if wanted in [line.split() for line in listed.read_text().splitlines()]:
            return released
    raise ProgramError(127, f"this checkout has no program {name} of its sources: run tools/build {crate}, or set FMM_PROGRAM")


def checksum(path: Path) -> str:
    """The SHA-256 of a program."""
    return hashlib.sha256(path.read_bytes()).hexdigest()


def run(path: Path, words: Sequence[str], out: Path, total: int = 0, names: Optional[dict[str, str]] = None) -> None:
    """Runs a program with its output in a file. Shows on a terminal how many of `total` positions are done.

    ProgramError: a status other than 0. Its text begins with what the user calls the file: `names` has the words `network` and
    `traces` of the program's messages.
    """
    with open(out, "wb") as file:
        try:
            child = subprocess.Popen([str(path), *words], stdin=subprocess.DEVNULL, stdout=file, stderr=subprocess.PIPE)
        except OSError as fault:
            raise ProgramError(127, f"{path}: {fault.strerror or fault}") from None
        try:
            message = watch(child, out, total)
        except BaseException:
            child.kill()
            child.wait()
            raise
    if child.returncode != 0:
        raise ProgramError(child.returncode, explained(child.returncode, message, names or {}))


def watch(child: subprocess.Popen[bytes], out: Path, total: int) -> str:
    """Waits for the program, shows its progress, and returns its message."""
    from ._progress import bar
    shown = bar(total=total, desc="match", unit=" positions", unit_scale=True)
    with open(out, "rb") as file, shown:
        while True:
            try:
                _, message = child.communicate(timeout=None if shown.disable else TICK)
                return message.decode(errors="replace")
            except subprocess.TimeoutExpired:
                text = file.read()
                shown.update(text.count(b"\nat ") + text.count(b"\nnone "))


def explained(status: int, message: str, names: dict[str, str]) -> str:
    """The text of an error: the program's message with the names of the user's files."""
    message = one_line(message)
    if status < 0:
        return f"the program was ended by signal {-status}" + (f"; probably {MEMORY}" if status == -9 else "")
    if status in SYSTEM:
        return SYSTEM[status]
    what, _, rest = message.partition(" ")
    if what == "fmm:":
        for name, shown in names.items():
            message = message.replace(f"cannot read {name}", f"{shown}: cannot be read")
        return message.replace("fmm: ", "", 1)
    if what.rstrip(":") in names:
        return f"{names[what.rstrip(':')]}: {rest}"
    return message or f"the program ended with status {status}"


def words_of(command: str, network: Path, traces: Path, options: Sequence[str]) -> List[str]:
    """The command line of a program. Paths that begin with `-` stay paths. InputError: a path that is invalid UTF-8."""
    for path in (network, traces):
        if not os.fspath(path).isascii() and os.fsencode(path) != os.fspath(path).encode("utf-8", "replace"):
            raise InputError("the programs take no names that are invalid UTF-8; give the file another name", path)
    return [command, *options, "--", os.fspath(network), os.fspath(traces)]


def about(path: Path) -> dict[str, Any]:
    """What the evidence says of a program."""
    return {"name": path.name, "sha256": checksum(path)}
