"""Say where the vehicles of a live fleet are, and which roads they drove.

  fmm track NETWORK --state STATE [--to SINK] < FEED
  fmm track NETWORK --state STATE [--to SINK] --mqtt HOST[:PORT] --topic 'fleet/+/position'

Each line of the output is a JSON object. Its kind is position for a position whose road is settled, provisional for the newest
position of a vehicle, whose road may still change, or drive for a drive that has ended.

SINK is - for standard output, a file, mqtt://HOST/TOPIC or postgresql://HOST/DATABASE; --to may be repeated. STATE is a file
with all open drives: after a stop by a signal, or a kill, the next run goes on with them. The end of the input ends all drives.
"""
from __future__ import annotations

import argparse
import sqlite3
from collections.abc import Sequence
from pathlib import Path
from typing import TYPE_CHECKING

from ..errors import FmmError, MismatchError
from ..feed.intake import Reading, Rules
from ..feed.notices import Notices
from ..feed.reports import Reader
from ..feed.state import State
from ._feed_options import add_broker, add_reading, check_broker, form_of, on_end, seconds, source_of, whole
from ._parser import Parser

if TYPE_CHECKING:
    from ..track.parts import Parts

OPTIONS = ("k", "radius", "sigma", "beta", "bound", "back")
MOST = 99_999  # positions of a drive: the row that ends it is one more
LONGEST = 2 ** 32 - 1  # seconds


def parser() -> Parser:
    """The options."""
    options = Parser("track", __doc__)
    add = options.add_argument
    add("network", metavar="NETWORK", help="a network of fmm network, or a map, layer or graph")
    add("feed", nargs="?", choices=("-",), metavar="-", help="read from standard input, as is done without --mqtt")
    add("--state", type=Path, metavar="STATE", default=Path("track.db"),
        help="the state of this run; it is made if it is not there (default: track.db)")
    add("--to", action="append", metavar="SINK", help="where objects go (default: -, standard output)")
    add("--lookup", type=Path, metavar="TABLE", help="names of streets: a table with the columns edge and name")
    add("--no-provisional", action="store_true", help="write settled positions and drives only")
    add_reading(options)
    add("--gap", type=seconds, metavar="S", help="seconds without a position that end a drive (default: 600)")
    add("--idle", type=whole(1, LONGEST), metavar="S",
        help="let the program end drives, by its option idle; in place of --gap")
    add("--most", type=whole(1, MOST), default=MOST, metavar="N", help="most positions of a drive (default: 99,999)")
    add("--memory", type=whole(64, 1_000_000), default=2048, metavar="MB",
        help="of the program, before it is replaced (default: 2,048)")
    add_broker(options, "track")
    match = options.add_argument_group("options of the match, in metres (fmm run --help explains them; back is 20)")
    for name in OPTIONS:
        match.add_argument(f"--{name}", type=float, metavar="X")
    return options


def main(words: Sequence[str]) -> int:
    """Runs until the input ends or a signal ends the run."""
    options = parser()
    args = options.parse_args(words)
    check_broker(options, args)
    if args.mqtt is not None and args.feed is not None:
        options.error("- and --mqtt exclude each other")
    if args.idle is not None and args.gap is not None:
        options.error("--gap and --idle exclude each other")
    try:
        return run(args)
    except sqlite3.Error as fault:
        raise FmmError(f"{args.state}: {fault}") from None


def run(args: argparse.Namespace) -> int:
    """Runs a tracker with these options."""
    from ..track.sinks import Stop, checked_words, sinks_of
    words = checked_words(args.to or ["-"])
    stop, notices = Stop(), Notices("fmm track")
    parts = _parts(args, notices)
    state = State(args.state)
    try:
        state.claim("track")
        sinks = sinks_of(words, state, stop, notices)
        try:
            tracker = parts.tracker(state, source_of(args, notices), sinks, stop)
            on_end(stop.set)
            try:
                unwritten = tracker.run()
            finally:
                tracker.close()
        finally:
            sinks.close()
    finally:
        state.close()
    notices.summary(f"positions: {tracker.intake.positions}, settled: {tracker.positions}, "
                    f"left out: {tracker.intake.left_out}, drives that ended: {tracker.drives}")
    if unwritten:
        notices.say(f"{unwritten} did not take the last objects; the next run writes them")
    return 0


def _parts(args: argparse.Namespace, notices: Notices) -> Parts:
    """What a tracker is made of: the network, the program and the rules."""
    from .. import _programs
    from ..feed.reading import placing_on, timing_of
    from ..network import Network
    from ..options import Options
    from ..track.fleet import Ends
    from ..track.parts import Parts
    network = Network.from_file(args.network)
    if network.projection.crs is None:
        raise MismatchError("has no side file with its projection, so it has no places in degrees", args.network)
    program = _programs.program(network.needs_large)
    gap = float(args.idle or (600.0 if args.gap is None else args.gap))
    given = {name: getattr(args, name) for name in OPTIONS if getattr(args, name) is not None}
    placing = placing_on(network.projection, args.crs)
    timing = timing_of(args.milliseconds, args.timezone, notices)
    reading = Reading(Reader(form_of(args), args.columns), placing, timing)
    rules, ends = Rules(gap, args.most, args.wait, args.ahead), Ends(gap, args.idle, args.memory)
    return Parts(network, program, Options.of(**{"back": 20.0, **given}), args.lookup, reading, rules, ends,
                 not args.no_provisional, notices)
