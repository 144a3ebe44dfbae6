"""The sequences and margins of a match, also of one that was read from a file."""
from __future__ import annotations

from dataclasses import dataclass
from pathlib import Path
from typing import TYPE_CHECKING, Any, List, Optional

import numpy as np
import pandas as pd

from .._evidence import compare
from .._summaries import seconds_of
from ..errors import InputError, MismatchError, PathText
from ..network import Network
from ..options import Options
from .proving import Prover, TraceFile
from .sequences import Sequences

if TYPE_CHECKING:
    from ..matches import Matches


@dataclass
class Margins:
    """The sequences of the positions of the trace file, and their rows in `points`."""

    row: np.ndarray  # int64[p]
    sequences: Sequences
    network: Network

    def of_rows(self, count: int) -> np.ndarray:
        """The margin of each of `count` rows, NaN where there is none."""
        out = np.full(count, np.nan)
        out[self.row] = self.sequences.margin
        return out


def find_margins(matches: Matches, network: Optional[Network] = None) -> Margins:
    """Runs `prove` for the traces of a match, and computes what each candidate would have cost.

    InputError: the network or the options of the match are not known. MismatchError: the network is not that of the match.
    """
    network = network or network_of(matches)
    words, options = words_of(matches), options_of(matches)
    if words is None or options is None:
        raise InputError("the options of the match are not known")
    row, trace = _rows(matches)
    x, y = _places(matches, network, row)
    time = _times(matches, row) if any(str(word).startswith("--gap") for word in words) else None
    sequences = Prover(network, options, words).sequences(TraceFile(trace, x, y, time))
    _check(matches, network, row, sequences)
    return Margins(row, sequences, network)


def words_of(matches: Matches) -> Optional[List[str]]:
    """The options of the match as words of the program, None if they are not known."""
    words = matches.evidence.get("options", {}).get("words")
    return None if words is None else [str(word) for word in words]


def options_of(matches: Matches) -> Optional[Options]:
    """The options of the match, None if they are not known. Those of tables made from a text are known by their words."""
    words = words_of(matches)
    if matches.options is not None or words is None:
        return matches.options
    from ..commands.tables import options_of as options_of_words
    return options_of_words(words)


def network_of(matches: Matches, path: Optional[PathText] = None) -> Network:
    """The network of a match: the one it has, or the file at `path`, or the file that its evidence names."""
    if matches.network is not None and path is None:
        return matches.network
    about = matches.evidence.get("network", {})
    path = path or about.get("path")
    if not path:
        raise InputError("the network of the match was not saved: give its file as network (--network)")
    if not Path(path).is_file():
        raise InputError("the network of the match is not there: give its file as network (--network)", path)
    network = Network.open(path, crs=about.get("projection"))
    compare("the checksum", network.checksum, about.get("sha256"), path, "the match")
    return network


def _rows(matches: Matches) -> tuple[np.ndarray, np.ndarray]:
    """The row of each position of the trace file, in its order, and the number of its trace from 0."""
    if matches.solution is not None:
        return matches.solution.traces.row, matches.solution.text.trace_of
    points = matches.points
    row = np.flatnonzero(points["point"].notna().to_numpy())
    trace, point = (points[name].to_numpy(dtype=np.int64, na_value=0)[row] for name in ("trace", "point"))
    order = np.lexsort((point, trace))
    row, trace, point = row[order], trace[order], point[order]
    begins = np.append(True, trace[1:] != trace[:-1]) if len(row) else np.zeros(0, bool)
    expected = np.arange(len(row)) - np.repeat(np.flatnonzero(begins), np.diff(np.append(np.flatnonzero(begins), len(row))))
    if not np.array_equal(point, expected):
        raise InputError("a trace id comes again in the match, so its positions cannot be told apart")
    return row, np.cumsum(begins) - 1


def _places(matches: Matches, network: Network, row: np.ndarray) -> tuple[np.ndarray, np.ndarray]:
    """Where the rows were measured, in whole centimetres of the network's plane."""
    points = matches.points
    crs: Any = matches.evidence.get("positions_crs") if matches.solution is None else matches.solution.positions.crs
    return network.projection.to_centimetres(points["x"].to_numpy()[row], points["y"].to_numpy()[row], crs)


def _times(matches: Matches, row: np.ndarray) -> Optional[np.ndarray]:
    """Whole seconds, None if a row has no time."""
    times = seconds_of(matches.points["time"])[row]
    return None if np.isnan(times).any() else np.floor(times).astype(np.int64)


def _check(matches: Matches, network: Network, row: np.ndarray, sequences: Sequences) -> None:
    """The chosen candidates have the edges of the match."""
    street = np.append(network.parts.street[sequences.candidates.edge], -1)[sequences.chosen]
    said = matches.points["edge"].iloc[row].to_numpy(dtype=np.int64, na_value=-1)
    other = np.flatnonzero(np.where(sequences.chosen < 0, -1, street) != said)
    if len(other):
        raise MismatchError(f"row {row[other[0]]} is on edge {said[other[0]]}, and the program now finds {street[other[0]]}: "
                            "it is of another version, or was changed", "the match")


def with_margins(points: pd.DataFrame, margins: Margins) -> None:
    """Adds the column `margin` after `distance`, or replaces it."""
    values = margins.of_rows(len(points))
    if "margin" in points:
        points["margin"] = values
    else:
        points.insert(points.columns.get_loc("distance") + 1, "margin", values)
