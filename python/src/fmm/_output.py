"""Output files that appear under their names only when all of them are complete."""
from __future__ import annotations

import errno
import io
import os
import re
import secrets
import select
import shutil
import stat
from pathlib import Path
from types import TracebackType
from typing import IO, Any, Iterable, NamedTuple, Optional, Union

from ._locks import locked, undisturbed
from .errors import OutputError, PathText

STANDARD_OUTPUT = re.compile(r"-|/dev/stdout")
DESCRIPTOR = re.compile(r"/dev/fd/([0-9]{1,9})|/proc/self/fd/([0-9]{1,9})|(/dev/stderr)")


def write_all(descriptor: int, data: Union[bytes, bytearray, memoryview]) -> None:
    """Writes all bytes, also to a descriptor that does not block."""
    rest = memoryview(data).cast("B")
    while rest:
        try:
            rest = rest[os.write(descriptor, rest):]
        except BlockingIOError:
            select.select([], [descriptor], [])


def reason(fault: OSError) -> str:
    """The system's reason of a failed write."""
    if isinstance(fault, BrokenPipeError):
        return "the reader of the output has gone"
    return fault.strerror or str(fault)


class Target(io.RawIOBase):
    """The raw end of an output file: each write is complete or raises OutputError with the name of the output."""

    def __init__(self, descriptor: int, name: str, keep: bool) -> None:
        self.descriptor, self.name, self.keep = descriptor, name, keep

    def writable(self) -> bool:
        return True

    def fileno(self) -> int:
        return self.descriptor

    def write(self, data: Any) -> int:
        try:
            write_all(self.descriptor, data)
        except OSError as fault:
            raise OutputError(f"{self.name}: {reason(fault)}") from None
        return memoryview(data).nbytes

    def close(self) -> None:
        if self.closed:
            return
        super().close()
        if not self.keep:
            os.close(self.descriptor)


def pages_beside(path: Path) -> Optional[Path]:
    """The file with pages that SQLite takes for those of a database: another program has it open, or was killed."""
    wal, journal = (path.with_name(path.name + end) for end in ("-wal", "-journal"))
    return wal if wal.exists() else journal if journal.exists() and journal.stat().st_size else None


def place_of(path: Path) -> str:
    """The same text for all names of a file that need not exist yet."""
    return os.path.join(os.path.realpath(path.parent), path.name)


class Output(NamedTuple):
    """An output with the name that it gets in the end; `folder` is a private folder around `unfinished`, if there is one."""
    path: Path
    unfinished: Path
    folder: Optional[Path]


class Outputs:
    """All outputs of one call. Leaving the `with` block renames them; an exception removes them, and old files stay.

    `-` and `/dev/stdout` are standard output. Pipes and devices are written directly. Refused with OutputError: two outputs
    of one name, an output that is one of `inputs`, a symbolic link or a folder where a file should be, a database that is open
    elsewhere. If two calls end at the same time, the files of one of them stay.
    """

    def __init__(self, inputs: Iterable[PathText] = ()) -> None:
        self.inputs = [Path(path) for path in inputs]
        self.outputs: list[Output] = []
        self.files: list[tuple[IO, str]] = []
        self.folders: list[Path] = []
        self.private: list[tuple[Path, Path]] = []
        self.names: list[str] = []

    def __enter__(self) -> Outputs:
        return self

    def open(self, path: PathText, binary: bool = False) -> IO:
        """Opens an output file for text in UTF-8, or for bytes. Line ends are written as they are given, and bytes of file names
        that are invalid UTF-8 as escapes."""
        name = os.fspath(path)
        descriptor, keep = self._descriptor(name)
        raw = io.BufferedWriter(Target(descriptor, "standard output" if name == "-" else name, keep), 1 << 16)
        file: Any = raw if binary else io.TextIOWrapper(raw, "utf-8", "backslashreplace", newline="")
        self.files.append((file, name))
        return file

    def path(self, path: PathText) -> Path:
        """A private path with the same name, for a library that writes a file by its path. It does not exist yet."""
        target = self._target(os.fspath(path))
        folder = target.parent / f".fmm-{secrets.token_hex(8)}"
        self.outputs.append(Output(target, folder / target.name, folder))
        try:
            folder.mkdir(mode=0o700)
        except OSError as fault:
            raise OutputError(f"{path}: {reason(fault)}") from None
        return folder / target.name

    def folder(self, path: PathText) -> Path:
        """Makes a folder for outputs, with its parents. The folders that this made are removed again if the call fails."""
        folder = Path(path)
        missing = [parent for parent in (folder, *folder.parents) if not parent.exists()]
        for parent in reversed(missing):
            try:
                parent.mkdir(exist_ok=True)  # another call may make it now
            except OSError as fault:
                raise OutputError(f"{parent}: {reason(fault)}") from None
            self.folders.append(parent)
        if not folder.is_dir():
            raise OutputError(f"{folder}: not a folder")
        return folder

    def files_of(self, path: PathText) -> Path:
        """A private folder, for functions that write files by themselves. In the end its files get their names in `path`."""
        target = self.folder(path)
        private = target / f".fmm-{secrets.token_hex(8)}"
        self.private.append((target, private))
        try:
            private.mkdir(mode=0o700)
        except OSError as fault:
            raise OutputError(f"{path}: {reason(fault)}") from None
        return private

    def _descriptor(self, name: str) -> tuple[int, bool]:
        """An open descriptor to write to, and whether it stays open in the end."""
        special = DESCRIPTOR.fullmatch(name)
        if STANDARD_OUTPUT.fullmatch(name) or special:
            descriptor = int(special[1] or special[2] or 2) if special else 1
            self._add_name(f"descriptor {descriptor}", name)
            return descriptor, True
        try:
            about = os.stat(name)
            if not (stat.S_ISREG(about.st_mode) or stat.S_ISDIR(about.st_mode)):
                self._add_name(os.path.realpath(name), name)
                return os.open(name, os.O_WRONLY | os.O_CLOEXEC), False
        except FileNotFoundError:
            pass
        except OSError as fault:
            raise OutputError(f"{name}: {reason(fault)}") from None
        target = self._target(name)
        unfinished = target.parent / f".fmm-{secrets.token_hex(8)}"
        self.outputs.append(Output(target, unfinished, None))
        try:
            return os.open(unfinished, os.O_WRONLY | os.O_CREAT | os.O_EXCL | os.O_NOFOLLOW | os.O_CLOEXEC, 0o600), False
        except OSError as fault:
            raise OutputError(f"{name}: {reason(fault)}") from None

    def _target(self, name: str) -> Path:
        """The path of a regular file that may be written."""
        target = Path(name)
        if not target.name or name.endswith("/") or target.is_dir():
            raise OutputError(f"{name}: is a folder")
        if target.is_symlink():
            raise OutputError(f"{name}: is a symbolic link; remove it, or name the file that it leads to")
        beside = pages_beside(target)
        if beside is not None:
            raise OutputError(f"{name}: another program has it open, since there is {beside.name}: close it there first")
        self._add_name(place_of(target), name)
        for path in self.inputs:
            if place_of(path) == place_of(target) or target.exists() and path.exists() and os.path.samefile(path, target):
                raise OutputError(f"{name}: is an input of the same call" + (f" ({path})" if os.fspath(path) != name else ""))
        return target

    def _add_name(self, key: str, name: str) -> None:
        if key in self.names:
            raise OutputError(f"{name}: two outputs have this name")
        self.names.append(key)

    def __exit__(self, kind: Optional[type[BaseException]], fault: Optional[BaseException],
                 trace: Optional[TracebackType]) -> None:
        complete = False
        try:
            self._close_all(kind is None)
            if kind is None:
                for target, private in self.private:
                    self.outputs += [Output(self._target(os.fspath(target / name)), private / name, None)
                                     for name in sorted(os.listdir(private))]
                with undisturbed(), locked(output.path.parent for output in self.outputs):
                    self._rename_all()
                    complete = True
        finally:
            self._remove_rest(complete)
        if isinstance(fault, OutputError) and self.private:
            self._name_privates(str(fault))

    def _name_privates(self, text: str) -> None:
        """Raises a fault with the user's names of files in private folders."""
        for target, private in self.private:
            text = text.replace(os.fspath(private), os.fspath(target))
        raise OutputError(text) from None

    def _close_all(self, complete: bool) -> None:
        """Closes the files. If the call failed before, faults of closing say nothing new."""
        for file, name in self.files:
            try:
                if complete and not file.closed:
                    file.flush()
                    self._synchronise(file.fileno(), name)
                file.close()
            except (OSError, OutputError):
                if complete:
                    raise

    def _synchronise(self, descriptor: int, name: str) -> None:
        try:
            os.fsync(descriptor)
        except OSError as fault:
            if fault.errno not in (errno.EINVAL, errno.ENOTSUP, errno.EROFS):  # pipes and devices cannot
                raise OutputError(f"{name}: {reason(fault)}") from None

    def _rename_all(self) -> None:
        mode = 0o666 & ~umask()
        for output in self.outputs:
            if not output.unfinished.exists():
                raise OutputError(f"{output.path}: was not written")
        for output in self.outputs:
            try:
                if output.unfinished.is_file():
                    os.chmod(output.unfinished, mode)
                os.replace(output.unfinished, output.path)
            except OSError as fault:
                raise OutputError(f"{output.path}: {reason(fault)}") from None

    def _remove_rest(self, complete: bool) -> None:
        for output in self.outputs:
            if output.folder is not None:
                shutil.rmtree(output.folder, ignore_errors=True)
            elif output.unfinished.exists():
                os.remove(output.unfinished)
        for _, private in self.private:
            shutil.rmtree(private, ignore_errors=True)
        for folder in reversed(self.folders if not complete else []):
            try:
                folder.rmdir()
            except OSError:
                break  # somebody else has put something there


def umask() -> int:
    """The permissions that new files of this process lack."""
    try:
        found = re.search(r"^Umask:\s*([0-7]+)", Path("/proc/self/status").read_text(), re.MULTILINE)
    except OSError:
        found = None
    if found:
        return int(found[1], 8)
    mask = os.umask(0o077)
    os.umask(mask)
    return mask
