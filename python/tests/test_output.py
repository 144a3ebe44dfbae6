"""Output files: complete under their names, or not at all."""
from __future__ import annotations

import fcntl
import os
import signal
import subprocess
import sys
import threading
import time
from pathlib import Path
from typing import Any

import pytest

from fmm import _locks, _output
from fmm._output import Outputs, umask, write_all
from fmm.errors import OutputError


def test_files_appear_together_at_the_end(tmp_path: Path) -> None:
    with Outputs() as outputs:
        outputs.open(tmp_path / "a.csv").write("ä\n")
        outputs.open(tmp_path / "b", binary=True).write(b"\0")
        outputs.path(tmp_path / "c.gpkg").write_text("layer")
        assert not {"a.csv", "b", "c.gpkg"} & set(os.listdir(tmp_path))
    assert sorted(os.listdir(tmp_path)) == ["a.csv", "b", "c.gpkg"]
    assert (tmp_path / "a.csv").read_bytes() == "ä\n".encode() and (tmp_path / "b").read_bytes() == b"\0"
    assert all((tmp_path / name).stat().st_mode & 0o777 == 0o666 & ~umask() for name in os.listdir(tmp_path))


@pytest.mark.parametrize("fault", [ValueError, KeyboardInterrupt, SystemExit])
def test_a_fault_leaves_the_old_files(tmp_path: Path, fault: type) -> None:
    (tmp_path / "a").write_text("old")
    with pytest.raises(fault):
        with Outputs() as outputs:
            folder = outputs.folder(tmp_path / "x" / "y")
            outputs.open(tmp_path / "a").write("new")
            outputs.open(folder / "b").write("new")
            outputs.path(tmp_path / "c").write_text("new")
            raise fault
    assert os.listdir(tmp_path) == ["a"] and (tmp_path / "a").read_text() == "old"


def test_what_may_not_be_written(tmp_path: Path) -> None:
    (tmp_path / "input").write_text("1")
    (tmp_path / "link").symlink_to("input")
    (tmp_path / "dangling").symlink_to("nowhere")
    os.link(tmp_path / "input", tmp_path / "hard")
    for name, message in (("input", "is an input"), ("hard", "is an input"), ("link", "symbolic link"), ("", "is a folder"),
                          ("dangling", "symbolic link"), ("no/file", "No such file"), ("input/x", "Not a directory")):
        with pytest.raises(OutputError, match=message), Outputs([tmp_path / "input"]) as outputs:
            outputs.open(tmp_path / name)
    with pytest.raises(OutputError, match="two outputs have this name"), Outputs() as outputs:
        outputs.open(tmp_path / "new")
        outputs.path(tmp_path / ".." / tmp_path.name / "new")
    with pytest.raises(OutputError, match="two outputs have this name"), Outputs() as outputs:
        outputs.open("/dev/stdout")
        outputs.open("-")
    with pytest.raises(OutputError, match="was not written"), Outputs() as outputs:
        outputs.path(tmp_path / "new")
    assert (tmp_path / "input").read_text() == "1" and sorted(os.listdir(tmp_path)) == ["dangling", "hard", "input", "link"]


def test_a_stranger_cannot_take_the_temporary_name(tmp_path: Path) -> None:
    (tmp_path / "victim").write_text("1")
    (tmp_path / "o.csv.unfinished").symlink_to("victim")
    with Outputs() as one, Outputs() as two:
        one.open(tmp_path / "o.csv").write("one")
        two.open(tmp_path / "o.csv").write("two")
    assert (tmp_path / "victim").read_text() == "1" and (tmp_path / "o.csv").read_text() == "one"


def test_a_full_disk_names_the_file() -> None:
    with pytest.raises(OutputError, match="^/dev/full: No space left on device$"), Outputs() as outputs:
        outputs.open("/dev/full").write("1")


def test_the_memory_device_keeps_the_old_file() -> None:
    path = Path(f"/dev/shm/fmm-test-{os.getpid()}")
    path.write_text("old")
    try:
        with pytest.raises(ValueError), Outputs() as outputs:
            outputs.open(path).write("new")
            raise ValueError
        assert path.read_text() == "old"
    finally:
        path.unlink()


def test_all_bytes_reach_a_pipe_that_does_not_block() -> None:
    source, sink = os.pipe()
    fcntl.fcntl(sink, fcntl.F_SETFL, fcntl.fcntl(sink, fcntl.F_GETFL) | os.O_NONBLOCK)
    data, found = os.urandom(1 << 20), []

    def read() -> None:
        time.sleep(0.1)
        while chunk := os.read(source, 1 << 16):
            found.append(chunk)

    reader = threading.Thread(target=read)
    reader.start()
    write_all(sink, data)
    os.close(sink)
    reader.join()
    os.close(source)
    assert b"".join(found) == data


def test_standard_output(tmp_path: Path) -> None:
    script = "from fmm._output import Outputs\nwith Outputs() as o: o.open('-').write('a'); o.open('/dev/stderr').write('b')"
    done = subprocess.run([sys.executable, "-c", script], capture_output=True, text=True, env={"PYTHONPATH": "src"},
                          cwd=Path(__file__).parents[1])
    assert (done.returncode, done.stdout, done.stderr) == (0, "a", "b")


def test_the_files_of_two_calls_are_not_mixed(tmp_path: Path, monkeypatch: pytest.MonkeyPatch) -> None:
    """While one call renames its files, another one waits, unless the folder is locked for long."""
    replace = os.replace

    def other() -> None:
        with Outputs() as outputs:
            for name in "ab":
                outputs.open(tmp_path / name).write("other")

    def slow(source: Path, target: Path) -> None:
        replace(source, target)
        if threading.current_thread() is threading.main_thread() and not begun:
            begun.append(threading.Thread(target=other))
            begun[0].start()
            begun[0].join(0.1)

    begun: list[threading.Thread] = []
    monkeypatch.setattr(os, "replace", slow)
    with Outputs() as outputs:
        for name in "ab":
            outputs.open(tmp_path / name).write("one")
    begun[0].join()
    assert {(tmp_path / name).read_text() for name in "ab"} == {"other"}
    monkeypatch.setattr(_locks, "PATIENCE", 0.05)
    folder = os.open(tmp_path, os.O_RDONLY)
    fcntl.flock(folder, fcntl.LOCK_EX)
    other()
    os.close(folder)


def test_a_signal_between_two_renames(tmp_path: Path, monkeypatch: pytest.MonkeyPatch) -> None:
    replace = os.replace

    def interrupted(source: Path, target: Path) -> None:
        replace(source, target)
        os.kill(os.getpid(), signal.SIGINT)

    monkeypatch.setattr(os, "replace", interrupted)
    before = signal.signal(signal.SIGINT, signal.default_int_handler)
    try:
        with pytest.raises(KeyboardInterrupt), Outputs() as outputs:
            for name in "abc":
                outputs.open(outputs.folder(tmp_path / "new") / name).write("x")
        assert signal.getsignal(signal.SIGINT) is signal.default_int_handler
    finally:
        signal.signal(signal.SIGINT, before)
    assert sorted(os.listdir(tmp_path / "new")) == ["a", "b", "c"]


def test_a_full_disk_leaves_no_folder(tmp_path: Path, monkeypatch: pytest.MonkeyPatch) -> None:
    def full(descriptor: int, data: Any) -> None:
        raise OSError(28, "No space left on device")

    monkeypatch.setattr(_output, "write_all", full)
    with pytest.raises(OutputError, match="new/a: No space left"), Outputs() as outputs:
        outputs.open(outputs.folder(tmp_path / "new") / "a").write("x")
    assert os.listdir(tmp_path) == []
