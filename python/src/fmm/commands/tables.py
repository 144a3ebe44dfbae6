"""Turn a network, a trace file and the text of their match into tables.

    fmm tables network.csv traces.csv match.txt --into out/          points.csv, routes.csv, edges.csv, report.txt
    fmm tables network.csv traces.csv match.txt --into out.gpkg -- --back 2000 --gap 120

The match is a text of `fmm match`, `follow` or `streams`, of `fmm_live`, or what `fmm fleet` joined. Words after `--` are the
options of that run. The match is refused unless it is what the program writes for these files and options: the program runs once
more. With --trust only the traces, the places of the positions and the routes are compared, which takes no time.

Times of the traces are seconds since 1970. The network's side files give the names of streets and the projection.
"""
from __future__ import annotations

import os
import tempfile
from pathlib import Path
from typing import Any, Dict, List, Sequence, Tuple

import numpy as np
import pandas as pd

from .. import _programs
from .._checks import compare_lines, compare_places, compare_traces
from .._evidence import checksum_of, compare, part, read_side_file, refuse_pipe, unchanged
from .._match_text import MatchText, read_match
from .._plain_numbers import plain_numbers
from .._ragged import runs
from .._solution import Solution
from .._tables import numbers, read_table, whole_numbers
from .._traces import Traces
from ..errors import InputError, MismatchError, OptionError
from ..matches import Matches
from ..network import Network
from ..options import Options
from ..positions import Positions, Source
from ..projection import Projection
from ._parser import Parser

LAST, MOST = 4_294_967_295, 10 ** 9
HEADERS = (["trace", "x", "y"], ["trace", "x", "y", "time"])
UNITS = {"k": 1.0, "workers": 1.0, "gap": 1.0}  # the others are centimetres
HINT = "; write the options of the match after --, or --trust to take it as it is"


def main(words: Sequence[str]) -> int:
    words = list(words)
    given = words[words.index("--") + 1:] if "--" in words else []
    parser = Parser("tables", __doc__ or "")
    for name, text in (("network", "the network file"), ("traces", "the trace file"), ("match", "the text of their match")):
        parser.add_argument(name, metavar=name.upper(), help=text)
    parser.add_argument("--into", required=True, metavar="OUT", help="a folder for .csv files, or a name that ends in .gpkg")
    parser.add_argument("--ids", metavar="IDS", help="a table with the columns trace and id")
    parser.add_argument("--crs", help="of the geometries, such as EPSG:4326; by default that of the network")
    parser.add_argument("--network-crs", help="of a network without side files, such as EPSG:32632")
    parser.add_argument("--trust", action="store_true", help="do not run the program once more")
    args = parser.parse_args(words[:words.index("--")] if "--" in words else words)
    options = options_of(given)
    inputs = [path for path in (args.network, args.traces, args.match, args.ids) if path is not None]
    for path in inputs:
        refuse_pipe(path)
    with unchanged(*inputs):
        matches = tables(args, options, given)
    matches.to_file(args.into)
    print(matches.report.text, end="")
    return 0


def options_of(words: Sequence[str]) -> Options:
    """The options of the program in metres and seconds."""
    values: Dict[str, float] = {}
    rest = [part for word in words for part in (word.split("=", 1) if word.startswith("--") else [word])]
    if len(rest) % 2:
        raise OptionError(f"{rest[-1]}: an option of the match is --NAME VALUE")
    for name, value in zip(rest[::2], rest[1::2]):
        if not name.startswith("--") or not value.isascii() or not value.isdigit():
            raise OptionError(f"{name} {value}: an option of the match is --NAME and a whole number")
        if name != "--idle":  # it ends drives of streams, and is no option of their match
            values[name[2:]] = int(value) / UNITS.get(name[2:], 100.0)
    return Options.of(**values)


def tables(args: Any, options: Options, words: Sequence[str]) -> Matches:
    """The matches of the files. Refuses a match of other files."""
    network = Network.open(args.network, crs=args.network_crs)
    check_side_file(args.traces, network)
    text = read_match(Path(args.match))
    numbers_of, x, y, time = read_traces(args.traces)
    order = np.argsort(first_ranks(numbers_of), kind="stable") if text.kind == "streams" else np.arange(len(x))
    first, counts = runs(numbers_of[order])
    compare_traces(text, *drives_of(text, numbers_of[order][first], counts), args.traces)
    compare_places(text, network, x[order], y[order], args.traces)
    evidence = {
        "network": {"path": args.network, "sha256": network.checksum, "projection": network.projection.text},
        "traces": {"path": args.traces, "sha256": checksum_of(args.traces)},
        "text": {"path": args.match, "sha256": checksum_of(args.match), "rows": text.rows, "order": "rows"},
        "options": {"words": list(words)}, "positions_crs": network.projection.text,
        "sources": [{"path": path, "sha256": checksum_of(path)} for path in (args.traces, args.match, args.ids) if path],
    }
    if not args.trust:
        evidence["program"] = run_again(network, args, text, words)
    frame = pd.DataFrame({"id": ids_of(numbers_of, args.ids), "x": x / 100, "y": y / 100, "time": time})
    frame.index = pd.RangeIndex(len(frame), name="row")
    positions = Positions(frame, network.projection.crs, nothing_left_out(), [Source(args.traces, "", len(frame))])
    traces = traces_of(args.traces, frame, text, order)
    known = None if args.trust and not words else options
    return Matches.solved(Solution(network, positions, traces, text, known), evidence, crs=args.crs)


def drives_of(text: MatchText, traces: np.ndarray, counts: np.ndarray) -> Tuple[np.ndarray, np.ndarray]:
    """The traces of a file and the numbers of their positions, with each id of streams parted into the drives of the text."""
    found = np.diff(text.position_first)
    first, _ = runs(text.traces)
    if text.kind == "streams" and np.array_equal(text.traces[first], traces):
        if np.array_equal(np.add.reduceat(found, first) if len(first) else found, counts):
            return text.traces, found
    return traces, counts


def check_side_file(path: str, network: Network) -> None:
    """Compares the side file of a trace file, if `fmm positions` wrote one, with the file and with the network's projection."""
    side = Path(path).with_suffix(".json")
    if not side.is_file() or b'"kind": "traces"' not in side.read_bytes():
        return
    content = read_side_file(side, "traces")
    compare("the checksum", checksum_of(path), part(content, side, "traces", "sha256"), path, side)
    crs = part(content, side, "projection", kind=dict).get("crs")
    if crs is not None and not Projection.of(crs).matches(network.projection):
        compare("the projection", Projection.of(crs).name, network.projection.name, path, network.path)


def read_traces(path: str) -> Tuple[np.ndarray, np.ndarray, np.ndarray, np.ndarray]:
    """Trace, x, y (int64) and time (float64, NaN without times) of each position of a trace file."""
    plain = plain_numbers(path)
    if plain is not None and are_traces(plain):
        trace = plain["trace"]
        return trace, plain["x"], plain["y"], plain["time"].astype(np.float64) if "time" in plain else np.full(len(trace), np.nan)
    frame = read_table(path)
    header = list(frame.columns)
    if header not in HEADERS:
        raise InputError(f"the header is {','.join(header)[:60]}, not trace,x,y or trace,x,y,time", path)
    x, y = (whole(frame, name) for name in ("x", "y"))
    time = whole_numbers(frame, "time", 0, LAST).astype(np.float64) if "time" in header else np.full(len(frame), np.nan)
    return whole_numbers(frame, "trace", 0, LAST), x, y, time


def are_traces(columns: Dict[str, np.ndarray]) -> bool:
    """Whether columns of whole numbers are those of traces."""
    limits = {"trace": (0, LAST), "x": (-MOST, MOST), "y": (-MOST, MOST), "time": (0, LAST)}
    return list(columns) in HEADERS and all(limits[name][0] <= values.min() and values.max() <= limits[name][1]
                                            for name, values in columns.items())


def whole(frame: pd.DataFrame, name: str) -> np.ndarray:
    """A column of whole centimetres."""
    values = numbers(frame, name, -MOST, MOST)
    wrong = np.flatnonzero(values != np.rint(values))
    if len(wrong):
        at = int(wrong[0])
        raise InputError(f"{frame[name].iloc[at]} is no whole number of centimetres", frame.attrs["path"],
                         frame.attrs["lines"][at], name)
    return values.astype(np.int64)


def first_ranks(values: np.ndarray) -> np.ndarray:
    """The place of each value in the order of first appearance."""
    return np.asarray(pd.factorize(values)[0])


def ids_of(traces: np.ndarray, path: Any) -> np.ndarray:
    """The id of the vehicle of each position."""
    if path is None:
        numbers, names = pd.factorize(traces)
        return np.array(list(map(str, names.tolist())), object)[numbers]
    table = read_table(path, required=["trace", "id"], unique=["trace"])
    known = pd.Series(table["id"].to_numpy(object), index=whole_numbers(table, "trace", 0, LAST))
    missing = np.setdiff1d(traces, known.index.to_numpy())
    if len(missing):
        raise MismatchError(f"has no trace {missing[0]}: it is of other traces", path)
    return known.reindex(traces).to_numpy(object)


def nothing_left_out() -> pd.DataFrame:
    return pd.DataFrame({name: pd.Series(dtype=kind) for name, kind in
                         (("row", "int64"), ("file", object), ("line", "int64"), ("id", object), ("reason", object))})


def traces_of(path: str, frame: pd.DataFrame, text: MatchText, order: np.ndarray) -> Traces:
    """The traces of the file, whose positions are all rows of the table."""
    rows = order[text.position_first[:-1]]
    last = order[text.position_first[1:] - 1]
    drives = pd.DataFrame({"id": frame["id"].to_numpy(object)[rows], "begin": frame["time"].to_numpy()[rows],
                           "end": frame["time"].to_numpy()[last], "positions": np.diff(text.position_first)},
                          index=pd.Index(text.traces, name="trace"))
    nothing = pd.DataFrame({"row": [], "trace": [], "point": []}, dtype=np.int64)
    places = np.rint(100 * frame[["x", "y"]].to_numpy()).astype(np.int64)
    return Traces(Path(path), text.traces[text.trace_of], order, drives, pd.Series([], dtype=object), nothing, places=places)


def run_again(network: Network, args: Any, text: MatchText, words: Sequence[str]) -> Dict[str, Any]:
    """Compares the text with what the program writes. Returns what the evidence says of the program."""
    program = _programs.program(network.needs_large)
    command: List[str] = _programs.words_of(text.kind, network.path, Path(args.traces), words)
    with tempfile.TemporaryDirectory(prefix="fmm-") as folder:
        out = Path(folder) / "match.txt"
        _programs.run(program, command, out, len(text.edge), {"network": args.network, "traces": os.fspath(args.traces)})
        compare_lines(out.read_bytes(), Path(args.match).read_bytes(), args.match, HINT)
    return _programs.about(program)
