"""Runs the program for a match: once, or in groups if one run does not fit or another machine is to do the work."""
from __future__ import annotations

import os
import shutil
import tempfile
from dataclasses import asdict, dataclass
from pathlib import Path
from typing import Any, Optional

from . import _programs
from ._checks import compare_traces
from ._evidence import checksum_of, unchanged
from ._match_text import MatchText, read_match
from ._traces import Traces
from .errors import OptionError, PathText
from .network import Network
from .options import ENGINES, Options, centimetres

JOB = 2000  # MB of a job of a cluster, unless told otherwise
SHARE = 0.8  # of the free memory that jobs of this machine use


@dataclass(frozen=True)
class Means:
    """Where and with how much a match is made.

    engine   None: one run of this machine if it fits, otherwise groups on this machine; "local", "slurm", "dask": groups
    jobs     how many groups are matched at a time
    memory   MB that a run or a job may take
    folder   where the files of a match in groups are made; all machines of a cluster need it under one path
    """

    engine: Optional[str] = None
    jobs: Optional[int] = None
    memory: Optional[int] = None
    folder: Optional[PathText] = None

    def __post_init__(self) -> None:
        if self.engine is not None and self.engine not in ENGINES:
            raise OptionError(f"engine is one of {', '.join(ENGINES)}, not {self.engine!r}")
        for name in ("jobs", "memory"):
            value = getattr(self, name)
            if value is not None and (isinstance(value, bool) or not isinstance(value, int) or not 0 < value < 10 ** 9):
                raise OptionError(f"{name} is a whole number above 0, not {value!r}")
        if self.folder is not None and not Path(self.folder).is_dir():
            raise OptionError(f"folder is no folder: {os.fspath(self.folder)}")


@dataclass(frozen=True)
class Work:
    """What is to be matched, and by which program."""

    program: Path
    network: Network
    traces: Traces
    options: Options


def solve(network: Network, traces: Traces, options: Options, means: Means, folder: Path) -> tuple[MatchText, dict[str, Any]]:
    """The text of a match and its evidence. `folder` is for the text of one run."""
    program = _programs.program(network.needs_large)
    network.check_file()
    evidence = {
        "program": _programs.about(program),
        "network": {"path": network.saved_path and str(network.saved_path), "sha256": network.checksum,
                    "projection": network.projection.text},
        "traces": {"sha256": checksum_of(traces.path), "traces": len(traces.drives), "positions": len(traces.row)},
        "options": {"words": options.arguments(), "values": asdict(options)},
    }
    needed = None if means.engine else needed_memory(network, traces, options)
    free = means.memory << 20 if means.memory else free_here()
    work = Work(program, network, traces, options)
    with unchanged(network.path):
        if needed is not None and needed <= free:
            text = read_text(in_one_run(work, folder), evidence)
        else:
            text = in_groups(work, means, evidence)
    if needed is not None and needed > free:
        traces.notes.append(f"one run may need {needed >> 20:,} MB of memory, and has {free >> 20:,} MB: matched in groups")
    compare_traces(text, traces.drives.index.to_numpy(), traces.drives["positions"].to_numpy(), "the positions")
    return text, evidence


def in_one_run(work: Work, folder: Path) -> Path:
    """The file with the text of one run."""
    out, names = folder / "match.txt", {"network": work.network.name, "traces": "the positions"}
    words = _programs.words_of("match", work.network.path, work.traces.path, work.options.arguments())
    _programs.run(work.program, words, out, len(work.traces.row), names)
    return out


def in_groups(work: Work, means: Means, evidence: dict[str, Any]) -> MatchText:
    """The text that the jobs of groups write together."""
    from .fleet import Call, match_fleet
    engine = means.engine or "local"
    apart = engine != "local"
    place = means.folder or (os.getcwd() if apart else None)
    with tempfile.TemporaryDirectory(prefix=".fmm-", dir=place) as own:
        paths = [work.network.path, work.traces.path]
        if apart or means.folder:
            paths = [Path(own, name) for name in ("network.csv", "traces.csv")]
            shutil.copyfile(work.network.path, paths[0])
            shutil.copyfile(work.traces.path, paths[1])
        jobs, memory = share(work.network, means)
        arguments = work.options.arguments()
        words = arguments if work.options.workers else arguments[:arguments.index("--workers")]
        call = Call(paths[0], paths[1], Path(own, "groups"), work.program, engine, jobs, memory, options=words)
        evidence["engine"] = engine
        return read_text(match_fleet(call)[0], evidence)


def read_text(path: Path, evidence: dict[str, Any]) -> MatchText:
    """The text of a file, whose checksum goes to the evidence."""
    text = read_match(path, "the match")
    evidence["text"] = {"sha256": checksum_of(path), "rows": text.rows, "order": "numbers"}
    return text


def needed_memory(network: Network, traces: Traces, options: Options) -> int:
    """The bytes that one run may need."""
    from .fleet.memory import Reach, memory_of_run
    reach = Reach(centimetres(options.bound), centimetres(options.radius), options.k)
    return memory_of_run(network, traces.x, traces.y, traces.trace, reach)


def free_here() -> int:
    """The bytes of memory that are free."""
    from .fleet.memory import free_memory
    return free_memory()


def share(network: Network, means: Means) -> tuple[Optional[int], int]:
    """How many jobs run at a time (None: the fleet decides), and the MB of each."""
    from .fleet.memory import LOADED, SLACK
    if means.memory or means.engine not in (None, "local"):
        return means.jobs, means.memory or JOB
    room = int(SHARE * free_here()) >> 20
    least = 2 * (SLACK + LOADED * network.path.stat().st_size) >> 20
    jobs = means.jobs or max(1, min(len(os.sched_getaffinity(0)), room // least))
    return jobs, max(least, room // jobs)
