"""The options that `feed` and `track` share, and what they make of them."""
from __future__ import annotations

import argparse
import os
import signal
from collections.abc import Callable
from typing import Any, Optional

from ..errors import FmmError
from ..feed.notices import Notices
from ..feed.reports import Columns
from ..feed.sources import Lines, Source
from ._parser import Parser


def add_reading(options: Parser) -> None:
    """The options about positions: their form, their places and times."""
    add = options.add_argument
    add("--format", choices=("csv", "json", "rows"),
        help="csv is a table with a header, json an object on each line, rows is vehicle, x, y and time without a header "
             "(default: csv, and json for --mqtt)")
    add("--columns", type=Columns.of, default=Columns(), metavar="VEHICLE,X,Y,TIME",
        help="the columns or fields, vehicle,longitude,latitude,time by default; payload.lon leads into an object; "
             "without the fourth the time is that of arrival")
    add("--crs", metavar="CRS", help="the CRS of the positions (default: EPSG:4326, degrees); metres means those of the network")
    add("--timezone", metavar="ZONE", help="of times that name none, such as Europe/Berlin (default: UTC)")
    add("--milliseconds", action="store_true", help="times that are numbers are milliseconds since 1970")
    add("--wait", type=seconds, default=5.0, metavar="S", help="how late a position may come and be put in order (default: 5)")
    add("--ahead", type=seconds, default=300.0, metavar="S", help="how far a time may be ahead of the clock (default: 300)")


def add_broker(options: Parser, command: str) -> None:
    """The options about a broker."""
    add = options.add_argument
    add("--mqtt", metavar="HOST[:PORT]", help="read from this MQTT broker in place of standard input")
    add("--topic", metavar="TOPIC", help="the topic, with + or # in place of a vehicle's id")
    add("--client", default=f"fmm-{command}", metavar="NAME", help=f"the name of this run at the broker (default: fmm-{command})")
    add("--user", metavar="USER", help="the user at the broker; the password is in the environment as FMM_MQTT_PASSWORD")
    add("--tls", action="store_true", help="encrypt the connection to the broker")


def check_broker(options: Parser, args: argparse.Namespace) -> None:
    """Refuses a broker without a topic, and a topic without a broker."""
    if (args.mqtt is None) != (args.topic is None):
        options.error("--mqtt and --topic go together")


def seconds(text: str) -> float:
    """A number of seconds, at least 0."""
    value = float(text) if text.replace(".", "", 1).isascii() and text.replace(".", "", 1).isdigit() else -1.0
    if value < 0:
        raise argparse.ArgumentTypeError(f"{text} is no number of seconds")
    return value


def whole(least: int, most: int) -> Any:
    """A parser for a whole number in a range."""
    def of(text: str) -> int:
        if not (text.isascii() and text.isdigit() and least <= int(text) <= most):
            raise argparse.ArgumentTypeError(f"{text} is not a number from {least} to {most}")
        return int(text)
    return of


def form_of(args: argparse.Namespace) -> str:
    """The form of the payloads."""
    return args.format or ("json" if args.mqtt else "csv")


def source_of(args: argparse.Namespace, notices: Notices) -> Source:
    """Standard input, or the broker."""
    if args.mqtt is None:
        return Lines()
    from ..feed.broker import Address, Broker
    try:
        host, port = Address.parts(args.mqtt)
    except ValueError as fault:
        raise FmmError(str(fault)) from None
    password: Optional[str] = os.environ.get("FMM_MQTT_PASSWORD")
    return Broker(Address(host, args.topic, port, args.client, args.user, password, args.tls), notices)


def on_end(stop: Callable[[], None]) -> None:
    """Calls `stop` when a signal asks the process to end. A signal that is ignored, as SIGHUP under nohup, stays so."""
    for number in (signal.SIGTERM, signal.SIGINT, signal.SIGHUP):
        if signal.getsignal(number) != signal.SIG_IGN:
            signal.signal(number, lambda *_: stop())
