"""Turn an endless feed of positions into rows for fmm streams.

  fmm feed --network NETWORK --state STATE [--into ROWS] < FEED
  fmm feed --network NETWORK --state STATE [--into ROWS] --mqtt HOST[:PORT] --topic 'fleet/+/position'

Rows go to standard output at once, or to the end of the file ROWS. STATE is a file with the number of each vehicle, its last
time, and what waits. Keep it: after a restart each vehicle keeps its number, and positions that come again are left out. With
--into each position is written exactly once, even if the feed is killed. On standard output the last rows may then come twice.

A row is left out if it is wrong, if it comes again, if it is older than the last row of its vehicle, or if it is ahead of the
clock. Standard error has a line about each of them.
"""
from __future__ import annotations

import argparse
import contextlib
import sqlite3
from collections.abc import Sequence
from pathlib import Path

from ..errors import FmmError
from ..feed.intake import MOST_POSITIONS, Feed, Intake, Reading, Rules
from ..feed.notices import Notices
from ..feed.outlet import outlet_of
from ..feed.reports import Reader
from ..feed.state import State
from ._feed_options import add_broker, add_reading, check_broker, form_of, on_end, seconds, source_of, whole
from ._parser import Parser


def parser() -> Parser:
    """The options."""
    options = Parser("feed", __doc__)
    add = options.add_argument
    add("--network", type=Path, metavar="NETWORK", help="the network: its side file has the projection")
    add("--state", type=Path, required=True, metavar="STATE", help="the state of this feed; it is made if it is not there")
    add("--into", type=Path, metavar="ROWS", help="the file that gets the rows; without it they go to standard output")
    add("--ids", type=Path, metavar="IDS", help="write the table of numbers and ids to this file at the end, and the "
        "types of its columns beside it")
    add_reading(options)
    add("--gap", type=seconds, default=600.0, metavar="S", help="seconds without a position that end a drive (default: 600)")
    add("--most", type=whole(1, MOST_POSITIONS), default=MOST_POSITIONS, metavar="N",
        help="most positions of a drive (default: 100,000)")
    add("--close", action="store_true",
        help="write a row of number 4000000001 or more, far from all roads, after each row: for a feed of a single vehicle")
    add_broker(options, "feed")
    return options


def main(words: Sequence[str]) -> int:
    """Runs a feed until its input ends or a signal ends it."""
    options = parser()
    args = options.parse_args(words)
    check_broker(options, args)
    if args.network is None and args.crs != "metres":
        options.error("--network is wanted, which has the projection; or --crs metres, for positions in metres of the network")
    check_ids(options, args)
    try:
        return run(args)
    except sqlite3.Error as fault:
        raise FmmError(f"{args.state}: {fault}") from None


def check_ids(options: Parser, args: argparse.Namespace) -> None:
    """Refuses a table of ids in place of the rows, of the network, of the state or of what SQLite has beside that."""
    if args.ids is None:
        return
    kept = [args.state, *(Path(f"{args.state}{ending}") for ending in ("-wal", "-shm", "-journal")), *filter(None, [args.into])]
    if args.network is not None:
        from .._network_sides import side_paths
        kept += [args.network, *side_paths(args.network)]
    for made in (args.ids, args.ids.with_suffix(".csvt")):
        for path in kept:
            if made.resolve() == path.resolve():
                options.error(f"--ids {args.ids} would replace {path}")


def run(args: argparse.Namespace) -> int:
    """Runs the feed of these options."""
    from ..feed.reading import keep_projection, placing_on, projection_of, timing_of
    notices, projection = Notices("fmm feed"), projection_of(args.network, args.crs)
    placing, timing = placing_on(projection, args.crs), timing_of(args.milliseconds, args.timezone, notices)
    reading = Reading(Reader(form_of(args), args.columns), placing, timing)
    with contextlib.closing(State(args.state)) as state:
        state.claim("feed")
        keep_projection(state, projection)
        intake = Intake(reading, state, Rules(args.gap, args.most, args.wait, args.ahead, args.close), notices)
        with contextlib.closing(outlet_of(args.into, state)) as outlet, contextlib.closing(source_of(args, notices)) as source:
            feed = Feed(source, intake, outlet)
            on_end(feed.stop)
            feed.run()
        if args.ids:
            _write_ids(args.ids, state)
    notices.summary(f"positions: {intake.positions}, left out: {intake.left_out}, drives: {intake.number}")
    if not intake.positions and not args.mqtt and not feed.is_stopped:
        raise FmmError("the feed has no good row")
    return 0


def _write_ids(path: Path, state: State) -> None:
    import pandas as pd

    from .._column_types import write_column_types
    from .._output import Outputs
    from .._tables import write_table
    frame = pd.DataFrame(state.drives(), columns=["trace", "id"]).astype({"trace": "int64"})
    with Outputs(inputs=[state.path]) as outputs:
        write_table(outputs, path, frame)
        if path.suffix == ".csv":
            write_column_types(outputs, path, frame)
