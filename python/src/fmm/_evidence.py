"""Checksums of files, and the side files (JSON) that say what made an artefact."""
from __future__ import annotations

import contextlib
import hashlib
import json
import os
import stat
from pathlib import Path
from typing import Any, Iterator, Optional

from ._output import Outputs
from ._version import __version__
from .errors import InputError, MismatchError, PathText, shown


def checksum_of(path: PathText) -> str:
    """The SHA-256 of a file, in hexadecimal digits."""
    digest = hashlib.sha256()
    try:
        with open(path, "rb") as file:
            for block in iter(lambda: file.read(1 << 20), b""):
                digest.update(block)
    except OSError as fault:
        raise InputError(fault.strerror or fault, path) from None
    return digest.hexdigest()


def state(path: PathText) -> list[int]:
    """Size, times of change and number of a file: another state shows that the file may have been changed."""
    try:
        about = os.stat(path)
    except OSError as fault:
        raise InputError(fault.strerror or fault, path) from None
    return [about.st_size, about.st_mtime_ns, about.st_ctime_ns, about.st_ino]


@contextlib.contextmanager
def unchanged(*paths: PathText) -> Iterator[None]:
    """Refuses with InputError a file that was changed or replaced while the block read it. Pipes are not looked at."""
    before = {path: state(path) for path in paths if is_file(path)}
    yield
    for path, known in before.items():
        if state(path) != known:
            raise InputError("was changed while it was read: call again", path)


def is_file(path: PathText) -> bool:
    """Whether this is a regular file, which can be read several times."""
    try:
        return stat.S_ISREG(os.stat(path).st_mode)
    except OSError:
        return False


def refuse_pipe(path: PathText) -> None:
    """Refuses with InputError what can be read only once."""
    if os.path.exists(path) and not os.path.isdir(path) and not is_file(path):
        raise InputError("is a pipe, and it is read several times; give a file", path)


def write_side_file(outputs: Outputs, path: PathText, kind: str, content: dict[str, Any]) -> None:
    """Writes what is known of an artefact of a kind, such as `network`, with the version of this package and a checksum of
    all this."""
    text = json.dumps({"fmm": __version__, "kind": kind, **content}, default=str)
    file = outputs.open(path)
    json.dump({**json.loads(text), "checksum": own_checksum(json.loads(text))}, file, indent=2)
    file.write("\n")


def own_checksum(content: dict[str, Any]) -> str:
    """The checksum of the content of a side file, however it is laid out."""
    return hashlib.sha256(json.dumps(content, sort_keys=True).encode()).hexdigest()


def read_side_file(path: PathText, kind: str) -> dict[str, Any]:
    """The content of a side file. Refused with InputError: no JSON object, one of another kind of artefact, or one that was
    changed."""
    try:
        content = json.loads(Path(path).read_bytes())
    except OSError as fault:
        raise InputError(fault.strerror or fault, path) from None
    except (ValueError, RecursionError) as fault:
        raise InputError(f"is damaged: {fault}", path) from None
    if not isinstance(content, dict) or content.get("kind") != kind:
        found = content.get("kind") if isinstance(content, dict) else type(content).__name__
        raise InputError(f"is the side file of {shown(found)}, not of {kind}", path)
    if content.pop("checksum", None) != own_checksum(content):
        raise InputError("is damaged: its own checksum is not right", path)
    return content


def part(content: dict[str, Any], path: PathText, *keys: str, kind: type = str) -> Any:
    """A value within nested objects of a side file. Refused with InputError if it is missing or of another type."""
    value: Any = content
    for key in keys:
        value = value.get(key) if isinstance(value, dict) else None
    if not isinstance(value, kind) or isinstance(value, bool) and kind is not bool:
        raise InputError(f"is damaged: {'.'.join(keys)} is missing or no {kind.__name__}", path)
    return value


def compare(what: str, found: Optional[str], wanted: Optional[str], path: PathText, other: PathText) -> None:
    """Refuses with MismatchError a file whose checksum or projection is not the one that another file names."""
    if found != wanted:
        there = f"{what} is {shown(found, 80)} here, {shown(wanted, 80)} there"
        raise MismatchError(f"does not belong to {os.fspath(other)}: {there}", path)
