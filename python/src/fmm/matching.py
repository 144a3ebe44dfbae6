"""Matches positions to the roads of a network."""
from __future__ import annotations

import tempfile
import warnings
from pathlib import Path
from typing import Any, Optional, Union

from ._runs import Means, solve
from ._solution import Solution
from ._traces import write_traces
from .errors import FmmWarning, MismatchError, PathText
from .matches import Matches
from .network import Network
from .options import Options
from .positions import Positions, read_positions
from .projection import crs_name

NetworkSource = Union[Network, PathText]


def match(network: NetworkSource, positions: Any, *, options: Optional[Options] = None, crs: Any = None,
          engine: Optional[str] = None, jobs: Optional[int] = None, memory: Optional[int] = None,
          folder: Optional[PathText] = None, **words: Any) -> Matches:
    """Finds the roads that vehicles drove.

    network     a Network, or the path of one that was saved
    positions   Positions, or what read_positions takes: a path, a pattern, a DataFrame or GeoDataFrame, a list of these
    options     all options at once; otherwise they are those of `suggest(positions)`, with `words` in place of some: k=8,
                radius=100, sigma=10, beta=10, bound=3000, back=0, thin=None in metres, gap=300 in seconds, workers=None
    crs         of the geometries of the result, by default that of the positions
    engine, jobs, memory, folder
                None, or "local", "slurm" or "dask": always in groups, by so many jobs of `memory` MB at a time, whose files are
                in a folder that all machines need under one path

    Runs `fmm`, or `fmm_large` if the network needs it, on all processors, and shows its progress on a terminal. If one run may
    need more than the free memory, or than `memory`, the positions are matched in groups, and the result is the same. Each row
    of the input is in `matches.points`, with its road or the reason why it has none. MismatchError: positions with a CRS and a
    network without one. ProgramError: the program ended with an error. OptionError: a wrong option. FmmWarning: a warning of the
    report.
    """
    means = Means(engine, jobs, memory, folder)
    network = network if isinstance(network, Network) else Network.open(network)
    positions = positions if isinstance(positions, Positions) else read_positions(positions)
    check_crs(network, positions)
    reasons = {}
    if options is None:
        from .suggestions import suggest
        suggestion = suggest(positions, network)
        options, reasons = suggestion.options, suggestion.reasons
    options = options.but(**words)
    with tempfile.TemporaryDirectory(prefix="fmm-") as own:
        traces = write_traces(positions, network, options, Path(own))
        text, evidence = solve(network, traces, options, means, Path(own))
    evidence["positions_crs"] = None if positions.crs is None else positions.crs.to_wkt()
    evidence["sources"] = [{"path": source.path, "sha256": source.sha256, "rows": source.rows} for source in positions.sources]
    solution = Solution(network, positions, traces, text, options)
    matches = Matches.solved(solution, evidence, reasons={**reasons, **dict.fromkeys(words, "as asked for")}, crs=crs)
    for warning in matches.report.warnings:
        warnings.warn(warning, FmmWarning, stacklevel=2)
    return matches


def check_crs(network: Network, positions: Positions) -> None:
    """Whether places of the two can be compared."""
    if positions.crs is not None and network.projection.crs is None:
        name = positions.sources[0].path if positions.sources else "the table"
        there = f"the projection of the network {network.name} is not known"
        raise MismatchError(f"its positions are in {crs_name(positions.crs)}, and {there}: open the network with its crs", name)
