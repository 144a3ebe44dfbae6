"""What a fleet leaves behind when it ends early: no processes, no open files."""
from __future__ import annotations

import os
import signal
import threading
import time
from pathlib import Path
from typing import Any

import pytest
from services import processes

from fmm import _programs
from fmm.errors import InputError
from fmm.fleet import common, engines
from fmm.fleet.call import Call, match_fleet
from fmm.fleet.engines import Attempts
from fmm.fleet.join import join
from fmm.fleet.parts import Run


def call_of(top: Path, folder: Path, traces: Path) -> Call:
    return Call(top / "examples" / "network.csv", traces, folder / "run", _programs.program(True), jobs=1, points=5,
                options=["--gap", "120"])


def children() -> set[int]:
    return {child for child, parent in processes().items() if parent == os.getpid()}


def open_files(folder: Path) -> list[str]:
    return [path for number in os.listdir("/proc/self/fd") if (path := _target(number)).startswith(str(folder))]


def _target(number: str) -> str:
    try:
        return os.readlink(f"/proc/self/fd/{number}")
    except OSError:
        return ""


def test_a_faulty_trace_file_leaves_no_process_and_no_bar(top: Path, tmp_path: Path, monkeypatch: pytest.MonkeyPatch) -> None:
    """GNU sort waits for lines when the fault is found."""
    bars: list[Any] = []

    class Bar:
        def __init__(self, **_: Any) -> None:
            self.is_open = True
            bars.append(self)

        def update(self, _: int) -> None:
            """Shows nothing."""

        def close(self) -> None:
            self.is_open = False

    monkeypatch.setattr(common, "tqdm", Bar)
    monkeypatch.setattr("sys.stderr.isatty", lambda: True, raising=False)
    traces = tmp_path / "traces.csv"
    traces.write_text("trace,x,y\n1,0,0\n2,0,0\n3,0,x\n")
    before = children()
    with pytest.raises(InputError, match="line 4 field 3: bad number") as fault:
        match_fleet(call_of(top, tmp_path, traces))
    assert fault.traceback and children() <= before  # the traceback keeps what was not let go
    assert bars and not [bar for bar in bars if bar.is_open]


@pytest.mark.parametrize("fault", [False, True])
def test_joining_leaves_no_open_files(top: Path, tmp_path: Path, fault: bool) -> None:
    match_fleet(call_of(top, tmp_path, top / "examples" / "traces.csv"))
    run = Run(tmp_path / "run")
    if fault:
        run.manifest["count"] += 1
        with pytest.raises(InputError, match="its parts traces") as found:
            join(run, tmp_path / "joined.txt")
        assert found.traceback
    else:
        join(run, tmp_path / "joined.txt")
    assert open_files(tmp_path) == []


def test_a_task_that_is_being_started_is_stopped_too(tmp_path: Path, monkeypatch: pytest.MonkeyPatch) -> None:
    starting, signals = threading.Event(), []  # type: ignore[var-annotated]

    class Task:
        returncode = 0

        def __init__(self, *_: Any, **__: Any) -> None:
            starting.set()
            time.sleep(0.3)

        def communicate(self) -> tuple[bytes, bytes]:
            time.sleep(0.3)
            return b"", b""

        def send_signal(self, number: int) -> None:
            signals.append(number)

    monkeypatch.setattr(engines.subprocess, "Popen", Task)
    monkeypatch.setattr(engines, "task_command", lambda *_: ["task"])
    run: Any = None
    attempts = Attempts(run)
    thread = threading.Thread(target=attempts.match, args=(1,))
    thread.start()
    assert starting.wait(10)
    attempts.stop()
    thread.join()
    assert signals == [signal.SIGTERM]
    assert attempts.match(2) == "stopped"


def test_a_job_that_ends_while_files_are_removed_is_no_fault(top: Path, tmp_path: Path, monkeypatch: pytest.MonkeyPatch) -> None:
    """It renames its own file then."""
    match_fleet(call_of(top, tmp_path, top / "examples" / "traces.csv"))
    run = Run(tmp_path / "run")
    (run.folder / "parts" / "000001.anna.7.tmp").write_text("")
    paths = list((run.folder / "parts").glob("*.tmp"))
    paths[0].unlink()
    monkeypatch.setattr(Path, "glob", lambda *_: iter(paths))
    run.remove_temporary()
