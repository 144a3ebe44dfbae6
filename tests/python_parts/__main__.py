"""Runs files of python/tests, many at once. See tests/python.

Importing the libraries takes longer than most of the files. So this process imports them once, and forks a child for each file,
or for a few of them.
"""
from __future__ import annotations

import argparse
import gc
import importlib
import os
import re
import signal
import sys
import tempfile
import time
from contextlib import suppress
from dataclasses import dataclass
from pathlib import Path

PYTHON = Path(__file__).resolve().parents[2] / "python"
LIBRARIES = (
    "fiona", "fmm.commands", "fmm.commands.network", "fmm.commands.run", "fmm.commands.serve", "fmm.commands.track",
    "fmm.feed.broker", "fmm.fleet", "fmm.map.margins", "fmm.map.page", "fmm.matches", "fmm.matching", "fmm.network",
    "fmm.positions", "fmm.report", "fmm.service.server", "fmm.suggestions", "fmm.track.parts", "fmm._exports", "fmm._map_files",
    "fmm._osm.network", "fmm._picture", "fmm._runs", "geopandas", "httpx", "hypothesis.strategies",
    "matplotlib.backends.backend_agg", "matplotlib.figure", "numpy.random", "osmium", "PIL.TiffImagePlugin", "pyproj", "pytest",
    "shapely", "sqlite3", "tqdm",
    *(f"_pytest.{name}" for name in (
        "doctest", "faulthandler", "junitxml", "logging", "pastebin", "runner", "skipping", "stepwise", "terminal",
        "threadexception", "tmpdir", "unittest", "unraisableexception")))
NO_TESTS = 5  # the status of pytest if it ran none, since all were left out or there are none
# The files of a process. Those that stand first take longest, of processors or by waiting, and are started first. Files that
# stand together share what takes long to start or to make: a browser, a server of databases, a simulated fleet. The others, which
# are short, come last, FEW together.
TOGETHER = (
    ("test_types.py",), ("test_feed_broker.py",), ("test_service.py",),
    ("test_map_browser.py", "test_service_files.py", "test_service_live.py"), ("test_track.py",),
    ("test_qgis.py",), ("test_to_postgis.py", "test_track_postgis.py", "test_pages.py"), ("test_run.py",),
    ("test_stops.py", "test_matches.py"), ("test_groups.py", "test_exports.py"), ("test_track_broker.py",),
    ("test_attacks.py",), ("test_map.py",), ("test_feed.py",), ("test_match_text.py",),
    ("test_restrictions.py", "test_osm.py"), ("test_extract.py",), ("test_suggestions.py",))
FEW = 6


def grouped(names: list[str]) -> list[list[str]]:
    """The files of each process, in the order in which they are started."""
    known = [[name for name in group if name in names] for group in TOGETHER]
    others = sorted(set(names).difference(*TOGETHER))
    return [group for group in known if group] + [others[at:at + FEW] for at in range(0, len(others), FEW)]


@dataclass
class Child:
    """Files that are being tested."""

    name: str
    output: Path
    begin: float


class Children:
    """Tests files in children of this process, so many at once."""

    def __init__(self, folder: Path, words: list[str]) -> None:
        self.folder, self.words = folder, words
        self.running: dict[int, Child] = {}
        self.failed = False
        self.counts: dict[str, int] = {}
        self.left_out: set[str] = set()
        self.times: list[tuple[float, float, str]] = []

    def start(self, names: list[str]) -> None:
        """Forks a child that tests files."""
        child = Child(" ".join(names), self.folder / f"{names[0]}.txt", time.monotonic())
        sys.stdout.flush()
        pid = os.fork()
        if pid:
            self.running[pid] = child
            return
        status = 3
        try:
            status = run_files(names, child.output, self.folder / names[0], self.words)
        finally:
            sys.stdout.flush()
            sys.stderr.flush()
            os._exit(status)

    def wait(self) -> None:
        """Waits for a child, and counts its tests. What it says is shown if a test failed."""
        pid, status, usage = os.wait4(-1, 0)
        child = self.running.pop(pid)
        text = child.output.read_text(errors="replace") if child.output.exists() else ""
        for count, what in re.findall(r"([0-9]+) (passed|failed|errors?|skipped)", text.rstrip().rpartition("\n")[2]):
            self.counts[what] = self.counts.get(what, 0) + int(count)
        self.left_out |= set(re.findall(r"^SKIPPED \[[0-9]+\] [^ ]*: (.*)$", text, re.MULTILINE))
        self.times.append((usage.ru_utime + usage.ru_stime, time.monotonic() - child.begin, child.name))
        code = os.waitstatus_to_exitcode(status)
        if code != 0 and not (code == NO_TESTS and "SKIPPED" in text):
            self.failed = True
            print(f"{child.name}: status {code}\n{text}", flush=True)

    def end(self) -> None:
        """Ends the children that still run."""
        for pid in self.running:
            os.killpg(pid, signal.SIGTERM)


def run_files(names: list[str], output: Path, room: Path, words: list[str]) -> int:
    """Runs files in this process, and returns the status of pytest."""
    import pytest
    os.setpgid(0, 0)
    signal.signal(signal.SIGTERM, signal.default_int_handler)
    with output.open("wb") as file:
        os.dup2(file.fileno(), 1)
        os.dup2(file.fileno(), 2)
    return int(pytest.main(["-q", "-rs", f"--basetemp={room}", *words, *(f"tests/{name}" for name in names)]))


def preload() -> None:
    """Imports what most files import, and finds the programs that most run."""
    sys.path[:0] = [str(PYTHON / "src")]
    for name in LIBRARIES:
        with suppress(ImportError):  # the tests that need it say so
            importlib.import_module(name)
    with suppress(Exception):
        from fmm import _programs
        for large in (False, True):
            _programs.program(large)
    gc.freeze()  # so that no child looks at all these objects again, and takes copies of their pages


def main() -> int:
    """Runs the files that the words name."""
    parser = argparse.ArgumentParser(prog="tests/python", description="Runs tests of the Python package.")
    parser.add_argument("--jobs", type=int, default=int(os.environ.get("JOBS", 0)) or (os.cpu_count() or 1) + 2,
                        help="how many processes at once (%(default)s)")
    parser.add_argument("--times", action="store_true", help="say the seconds of each process: of processors, and of the clock")
    parser.add_argument("files", nargs="*", metavar="FILE", help="a file of python/tests; all by default")
    words, more = parser.parse_known_args()
    os.chdir(PYTHON)
    names = words.files or [path.name for path in sorted(Path("tests").glob("test_*.py"))]
    waiting = grouped(names)
    preload()
    os.environ["PYTHONDONTWRITEBYTECODE"] = "1"  # programs that tests start keep nothing
    with tempfile.TemporaryDirectory(prefix="fmm-tests-") as folder:
        children = Children(Path(folder), more)
        try:
            while waiting or children.running:
                while waiting and len(children.running) < words.jobs:
                    children.start(waiting.pop(0))
                children.wait()
        finally:
            children.end()
    for processor, whole, name in sorted(children.times, reverse=True) if words.times else []:
        print(f"{processor:8.2f} {whole:8.2f} {name}")
    for reason in sorted(children.left_out):
        print(f"tests/python: left out: {reason}")
    print("tests/python: " + (", ".join(f"{count} {what}" for what, count in sorted(children.counts.items())) or "no tests"))
    return 1 if children.failed or not children.counts else 0


if __name__ == "__main__":
    signal.signal(signal.SIGTERM, signal.default_int_handler)
    try:
        sys.exit(main())
    except KeyboardInterrupt:
        sys.exit(130)
