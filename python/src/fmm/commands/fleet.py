"""Match a large fleet in groups, on one machine or a cluster.

The traces are grouped by place, so that the rows of each group fit in the memory of a job. Each group is matched by
`fmm_large match`. FOLDER/match.txt gets the text of one run, whose total line ends before the rows. The same command again does
only what is missing. All machines need the same paths, and the same Python libraries.

--engine local runs processes of this machine, slurm job arrays, dask tasks of the cluster of DASK_SCHEDULER_ADDRESS or of a new
one on this machine; none only groups and joins: each group is matched by `fmm fleet --task FOLDER GROUP`.

Options after -- are those of fmm match: fmm fleet network.csv traces.csv --into matched --jobs 8 -- --back 2000
"""
from __future__ import annotations

import signal
from pathlib import Path

from . import interrupt
from ._parser import Parser, above_zero


def main(words: list[str]) -> int:
    from .._programs import program
    from ..fleet.call import Call, match_fleet
    from ..fleet.common import print_note
    from ..fleet.tasks import run_task
    if words[:1] == ["--task"] and len(words) == 3:
        return run_task(words[1], words[2])
    own, options = words, []
    if "--" in words:
        own, options = words[:words.index("--")], words[words.index("--") + 1:]
    values = parser().parse_args(own)
    call = Call(Path(values.network), Path(values.traces), Path(values.into), program(True, values.program).absolute(),
                values.engine, values.jobs, values.memory, values.points, values.wait, options)
    signal.signal(signal.SIGTERM, interrupt)
    try:
        text, total = match_fleet(call)
    except KeyboardInterrupt:
        print_note("interrupted; the same command does what is missing")
        return 130
    print_note(f"all traces are matched in {text}")
    print(total)
    return 0


def parser() -> Parser:
    from ..fleet.engines import NAMES
    made = Parser("fleet", __doc__ or "")
    made.add_argument("network", metavar="NETWORK", help="a network file of fmm")
    made.add_argument("traces", metavar="TRACES", help="a trace file of fmm")
    made.add_argument("--into", metavar="FOLDER", required=True, help="the folder of the groups, the parts and match.txt")
    made.add_argument("--engine", choices=NAMES, default="local", help="what runs the groups (%(default)s)")
    made.add_argument("--jobs", metavar="N", type=above_zero,
                      help="jobs at the same time (the processors of this machine, with local only as many as memory allows)")
    made.add_argument("--memory", metavar="MB", type=above_zero, default=2000, help="memory of a job (%(default)s)")
    made.add_argument("--points", metavar="N", type=above_zero,
                      help="most positions of a group (what gives each job two groups, but at least 20000)")
    made.add_argument("--wait", metavar="SECONDS", type=above_zero, default=600,
                      help="how long to wait for a worker of Dask, or for Slurm to answer (%(default)s)")
    made.add_argument("--program", metavar="FMM", help="the program (fmm_large, or that of FMM_PROGRAM)")
    return made
