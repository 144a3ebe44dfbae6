"""Runs `fmm prove` for the traces of a match, and computes its sequences from the certificates."""
from __future__ import annotations

import tempfile
from dataclasses import dataclass
from pathlib import Path
from typing import List, Optional, Sequence, Tuple

import numpy as np
import pandas as pd

from .. import _programs
from .._evidence import unchanged
from .._places import Places
from .._progress import bar
from .._ragged import offsets_of
from .._tables import write_file
from ..errors import MismatchError, ProgramError
from ..network import Network
from ..options import Options, centimetres
from .candidates import Candidates, Search, find_candidates
from .certificates import read_certificate
from .sequences import Costs, Graph, Sequences, Trellis, node_numbers

AT_ONCE = 10_000  # positions of one certificate, unless one trace has more
TOO_LONG = 8  # the status of prove for a certificate of more than 1 GiB


@dataclass
class TraceFile:
    """Positions of traces in whole centimetres, in the order of a trace file."""

    trace: np.ndarray  # int64[p]: rises by one from each trace to the next, from 0
    x: np.ndarray  # int64[p]
    y: np.ndarray  # int64[p]
    time: Optional[np.ndarray]  # int64[p]: whole seconds; None without times

    def part(self, begin: int, end: int) -> TraceFile:
        return TraceFile(self.trace[begin:end], self.x[begin:end], self.y[begin:end],
                         None if self.time is None else self.time[begin:end])

    def write(self, path: Path) -> None:
        columns = {"trace": self.trace, "x": self.x, "y": self.y}
        if self.time is not None:
            columns["time"] = self.time
        write_file(path, pd.DataFrame(columns))


class Prover:
    """Proves the traces of one network with the same options."""

    def __init__(self, network: Network, options: Options, words: Sequence[str]) -> None:
        """`words` are the options as the match had them on its command line."""
        self.network, self.options, self.words, self.lines = network, options, prove_words(words), network.lines
        self.places, self.nodes = Places(self.lines), node_numbers(self.lines)
        self.usable = ~network.parts.links(self.lines)  # no position is near a link, since the file has links far away
        self.costs = Costs(centimetres(options.sigma), centimetres(options.beta), centimetres(options.back))
        self.program = _programs.program(network.needs_large)

    def sequences(self, traces: TraceFile) -> Sequences:
        """The sequences of all positions. ProgramError: `prove` failed, for one trace alone if its certificate is too long."""
        found: List[Sequences] = []
        with bar(total=len(traces.x), desc="margins", unit=" positions", unit_scale=True) as shown:
            for begin, end in batches(traces.trace):
                found += self._proved(traces.part(begin, end))
                shown.update(end - begin)
        return joined(found)

    def _proved(self, traces: TraceFile) -> List[Sequences]:
        """The sequences of some traces; fewer at once if the certificate is too long."""
        try:
            certificate = read_certificate(self._prove(traces))
        except ProgramError as fault:
            first = np.flatnonzero(np.diff(traces.trace)) + 1
            if fault.status != TOO_LONG or not len(first):
                raise
            middle = int(first[len(first) // 2])
            return self._proved(traces.part(0, middle)) + self._proved(traces.part(middle, len(traces.x)))
        if len(certificate.rank) != len(traces.x):
            raise MismatchError(f"has {len(certificate.rank)} positions, not {len(traces.x)}", "the certificate")
        search = Search(self.places, self.usable, centimetres(self.options.radius), int(self.options.k))
        candidates = find_candidates(search, traces.x, traces.y)
        return [Trellis(Graph(self.lines, *self.nodes), (traces.x, traces.y), candidates, certificate, self.costs).solve()]

    def _prove(self, traces: TraceFile) -> bytes:
        with tempfile.TemporaryDirectory(prefix="fmm-") as folder:
            path, out = Path(folder) / "traces.csv", Path(folder) / "certificate.txt"
            traces.write(path)
            words = _programs.words_of("prove", self.network.path, path, self.words)
            self.network.check_file()
            with unchanged(self.network.path):
                _programs.run(self.program, words, out, 0, {"network": self.network.name, "traces": "the positions"})
            return out.read_bytes()


def prove_words(words: Sequence[str]) -> List[str]:
    """The words without a table file, which `prove` does not read and which changes no match."""
    kept, rest = [], list(words)
    while rest:
        word = rest.pop(0)
        if word == "--table":
            rest = rest[1:]
        elif not word.startswith("--table="):
            kept.append(word)
    return kept


def batches(trace: np.ndarray) -> List[Tuple[int, int]]:
    """Ranges of whole traces with about AT_ONCE positions each."""
    ends = np.append(np.flatnonzero(np.diff(trace)) + 1, len(trace)) if len(trace) else np.zeros(0, np.int64)
    found, begin = [], 0
    while begin < len(trace):
        at = max(int(np.searchsorted(ends, begin + AT_ONCE, side="right")) - 1, int(np.searchsorted(ends, begin, side="right")))
        found.append((begin, int(ends[at])))
        begin = int(ends[at])
    return found


def joined(parts: Sequence[Sequences]) -> Sequences:
    """The sequences of several batches, one after the other."""
    none = np.zeros(0, np.int64)
    shifts = offsets_of(np.array([len(part.emission) for part in parts], np.int64))

    def moved(name: str) -> np.ndarray:
        values = [getattr(part, name) for part in parts]
        return np.concatenate([none, *(np.where(value < 0, -1, value + shift) for value, shift in zip(values, shifts))])

    def all_of(values: List[np.ndarray], empty: np.ndarray = none) -> np.ndarray:
        return np.concatenate([empty, *values])

    candidates = Candidates(offsets_of(all_of([part.candidates.counts for part in parts])),
                            all_of([part.candidates.edge for part in parts]), all_of([part.candidates.offset for part in parts]),
                            all_of([part.candidates.d2 for part in parts]))
    return Sequences(candidates, moved("chosen"), all_of([part.emission for part in parts]), moved("before"),
                     all_of([part.transition for part in parts]), all_of([part.total for part in parts]),
                     all_of([part.another for part in parts], np.zeros(0, bool)),
                     all_of([part.margin for part in parts], np.zeros(0)))
