"""Make a trace file of tracks, tables or layers, and a table that leads back.

TRACES.csv has the positions in whole centimetres of the network's projection, for `fmm match` and the other proved commands.
TRACES.rows.csv has a record for each row of the input: its file and line, its id, and its trace and its number there, or the
reason why it is not in the trace file; TRACES.rows.csvt has the types of its columns, so that GDAL and QGIS keep an id 007 as
text. TRACES.json says what both were made of. The report on standard error says what was read, and whether positions and network
lie at the same place; if they do not, it begins with the likely reason, and the status is 1.

By default all positions are written. `--suggest` measures sampling, error and pauses, prints the suggested options for
`fmm match`, and takes the suggested gap and thinning unless they are given.

example: fmm positions tracks/*.gpx --network network.csv --into traces.csv
"""
from __future__ import annotations

import argparse
import tempfile
from pathlib import Path
from typing import Any, Dict, List, Sequence

import numpy as np
import pandas as pd

from .._column_types import write_column_types
from .._evidence import checksum_of, write_side_file
from .._extents import Extents, compare_extents
from .._output import Outputs
from .._tables import write_table
from .._traces import Traces, write_traces
from ..errors import MismatchError, OptionError
from ..network import Network
from ..options import Options
from ..positions import Positions, read_positions
from ..suggestions import suggest
from . import say
from ._parser import Parser


def main(words: Sequence[str]) -> int:
    args = parsed(words)
    network = Network.open(args.network)
    positions = read_positions(args.sources, id=args.id, x=args.x, y=args.y, time=args.time, crs=args.crs, layer=args.layer,
                               query=args.query, timezone=args.timezone)
    if positions.crs is not None and network.projection.crs is None:
        raise MismatchError("its projection is not known, and the positions have one", args.network)
    extents = compare_extents(network, positions)
    options = Options.of(gap=args.gap, thin=args.thin)
    suggestion = suggest(positions, network) if args.suggest else None
    if suggestion is not None:
        given = {name: value for name, value in (("gap", args.gap), ("thin", args.thin)) if value is not None}
        options = suggestion.options.but(**given)
    files = [source.path for source in positions.sources if source.sha256]
    with tempfile.TemporaryDirectory(prefix="fmm-") as folder, Outputs([*network.files, *files]) as outputs:
        traces = write_traces(positions, network, options, Path(folder))
        written(outputs, args.into, traces, rows_of(traces, positions), about(traces, positions, network, options))
    say(report(positions, traces, extents))
    if suggestion is not None:
        say(f"{suggestion.text}options for fmm match: {' '.join(options.arguments())}")
    return 1 if extents.verdict else 0


def parsed(words: Sequence[str]) -> argparse.Namespace:
    parser = Parser("positions", __doc__)
    parser.add_argument("sources", nargs="+", metavar="SOURCE", help="GPX files, tables, layers of points, the URL of a database")
    parser.add_argument("--network", required=True, help="the network file")
    parser.add_argument("--into", required=True, metavar="TRACES.csv", help="the trace file to write")
    for name, what in (("id", "id of the vehicle"), ("x", "longitude or x"), ("y", "latitude or y"), ("time", "time")):
        parser.add_argument(f"--{name}", metavar="COLUMN", help=f"the column of the {what}")
    parser.add_argument("--crs", help="of x and y, such as 4326; `metres` for metres of the network's projection")
    parser.add_argument("--timezone", metavar="ZONE", help="of times that name none, such as Europe/Berlin (UTC)")
    parser.add_argument("--layer", help="the layer of a file that has several; the column of geometries of a query")
    parser.add_argument("--query", help="the SQL query, if the source is the URL of a database")
    parser.add_argument("--gap", metavar="SECONDS", help="a drive ends before a longer pause (never)")
    parser.add_argument("--thin", metavar="METRES", help="leave out positions that moved less (none)")
    parser.add_argument("--suggest", action="store_true", help="measure the positions and suggest options")
    args = parser.parse_args(words)
    if not args.into.endswith(".csv"):
        raise OptionError("--into is the name of a trace file that ends in .csv")
    return args


def written(outputs: Outputs, into: str, traces: Traces, rows: pd.DataFrame, content: Dict[str, Any]) -> None:
    """Writes the trace file, the table of rows and the side file with this content."""
    stem = into[:-len(".csv")]
    with traces.path.open("rb") as file, outputs.open(into, binary=True) as out:
        for block in iter(lambda: file.read(1 << 20), b""):
            out.write(block)
    write_table(outputs, f"{stem}.rows.csv", rows)
    write_column_types(outputs, Path(f"{stem}.rows.csv"), rows)
    write_side_file(outputs, f"{stem}.json", "traces", content)


def about(traces: Traces, positions: Positions, network: Network, options: Options) -> Dict[str, Any]:
    """What the trace file was made of."""
    return {
        "traces": {"sha256": checksum_of(traces.path), "traces": len(traces.drives), "positions": len(traces.row)},
        "network": {"sha256": network.checksum}, "projection": {"crs": network.projection.text},
        "options": {"gap": options.gap, "thin": options.thin},
        "sources": [{"path": source.path, "sha256": source.sha256, "rows": source.rows} for source in positions.sources],
        "left_out": len(positions.left_out), "notes": positions.notes + traces.notes}


def rows_of(traces: Traces, positions: Positions) -> pd.DataFrame:
    """A record for each row of the input: row, file, line, id, trace, point, reason."""
    count = len(positions)
    trace, point = np.full(count, -1, dtype=np.int64), np.full(count, -1, dtype=np.int64)
    trace[traces.row] = traces.trace
    first = np.flatnonzero(np.r_[True, np.diff(traces.trace) != 0]) if len(traces.trace) else np.zeros(0, dtype=np.int64)
    point[traces.row] = np.arange(len(traces.row)) - np.repeat(first, np.diff(np.r_[first, len(traces.row)]))
    names = np.array([source.path for source in positions.sources], dtype=object)
    lines = positions.origin["line"].to_numpy()
    return pd.DataFrame({
        "row": np.arange(count), "file": names[positions.origin["source"].to_numpy()], "line": known(lines),
        "id": positions.frame["id"], "trace": known(trace), "point": known(point),
        "reason": traces.reasons.reindex(range(count), fill_value="").to_numpy()})


def known(numbers: np.ndarray) -> Any:
    """Whole numbers, and missing values in place of -1."""
    return pd.Series(numbers, dtype="Int64").where(numbers >= 0)


def report(positions: Positions, traces: Traces, extents: Extents) -> str:
    """What was read, what was left out and why, and whether the boxes meet; the worst first."""
    lines: List[str] = [f"warning: {text}" for text in (extents.verdict, *positions.warnings) if text]
    lines.append(f"rows: {len(positions)}, sources: {len(positions.sources)}, positions in the trace file: {len(traces.row)}, "
                 f"traces: {len(traces.drives)}")
    for reason, number in traces.reasons.map(kind).value_counts().items():
        lines.append(f"not in the trace file: {number} ({reason})")
    return "\n".join(lines + positions.notes + traces.notes) + "\n" + extents.text


def kind(reason: str) -> str:
    """A reason without the value that it names, so that rows are counted together."""
    for what in ("is not a number", "is neither an ISO time nor seconds since 1970", "is not between the years 1970 and 2106",
                 "is not a longitude and a latitude in degrees", "is farther away than the program takes",
                 "comes twice in", "does not exist in"):
        if what in reason:
            return f"a value {what}"
    return reason
