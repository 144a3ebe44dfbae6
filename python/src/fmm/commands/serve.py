"""Answer requests for matches over HTTP, as the match service of OSRM does.

MAP is a network (NETWORK.csv of fmm network) or what fmm network takes. The service listens on 127.0.0.1 unless --host says
otherwise. It has no access control and no encryption: put a reverse proxy before it on an open network.

    fmm serve network.csv
    curl 'http://127.0.0.1:8000/match/v1/car/9.43,54.31;9.435,54.31?geometries=geojson'

With a pipe from fmm track, fmm serve network.csv --live - shows a live fleet.

/ is a page with a map on which a GPX file can be dropped; /docs lists the endpoints.
"""
from __future__ import annotations

import argparse
import os
import re
from typing import Any

from ._parser import Parser

OPTIONS = ("k", "radius", "sigma", "beta", "bound", "back", "gap")


def main(words: list[str]) -> int:
    values = vars(parser().parse_args(words))
    from ..network import Network
    from ..options import Options
    from ..service.server import serve
    from ..service.settings import Limits, Settings
    path = values.pop("map")
    chosen = {name: values.pop(name) for name in OPTIONS}
    options = Options.of(**{"gap": 300.0, **{name: value for name, value in chosen.items() if value is not None}})
    size = int(values["megabytes"] * (1 << 20))
    limits = Limits(values["positions"], size, values["seconds"], values["waiting"], values["memory"])
    source: dict[str, Any] = {name: values[name] for name in ("crs", "profile") if values[name] is not None}
    network = Network.from_file(path, **source)
    settings = Settings(options, values["processes"], limits, values["allow_origin"] or "", values["live"] == "-")
    serve(network, settings, values["host"], values["port"])
    return 0


def parser() -> Parser:
    """The options."""
    made = Parser("serve", __doc__ or "")
    add = made.add_argument
    add("map", metavar="MAP", help="a network, or a map, layer or graph")
    add("--port", type=number(0, 65535), default=8000, metavar="P", help="the port (8000); 0 is any free one")
    add("--host", default="127.0.0.1", metavar="ADDRESS", help="the address to listen on (127.0.0.1)")
    add("--processes", type=number(1, 256), default=min(4, os.cpu_count() or 1), metavar="N",
        help="workers, each with a program (the processors, at most 4)")
    add("--allow-origin", type=origin, metavar="ORIGIN",
        help="pages of this origin, such as https://example.org, may read answers of match and nearest; * is any")
    add("--live", choices=("-",), metavar="-", help="standard input has what fmm track writes; GET /live and the page show it")
    add("--crs", metavar="CRS", help="the projection of a network file without side files")
    add("--profile", metavar="NAME", help="for an OpenStreetMap file: whose streets (car)")
    match = made.add_argument_group("options of the match, in metres and seconds (fmm run --help explains them)")
    for name in OPTIONS:
        match.add_argument(f"--{name}", type=float, metavar="X")
    limits = made.add_argument_group("limits")
    limits.add_argument("--positions", type=number(2, 1_000_000), default=10_000, metavar="N", help="of a request (10,000)")
    limits.add_argument("--megabytes", type=amount, default=16.0, metavar="MB", help="of the body of a request (16)")
    limits.add_argument("--seconds", type=amount, default=30.0, metavar="S", help="for a request (30)")
    limits.add_argument("--waiting", type=number(0, 10_000), default=64, metavar="N",
                        help="requests that wait for a worker (64); further ones get status 503")
    limits.add_argument("--memory", type=number(64, 1_000_000), default=2048, metavar="MB",
                        help="of a program, before it is replaced (2,048)")
    return made


def number(least: int, most: int) -> Any:
    """A parser for a whole number in a range."""
    def of(text: str) -> int:
        if not (text.isascii() and text.isdigit() and least <= int(text) <= most):
            raise argparse.ArgumentTypeError(f"{text} is not a whole number from {least} to {most}")
        return int(text)
    return of


def origin(text: str) -> str:
    """An origin of pages."""
    if text != "*" and not re.fullmatch(r"https?://[A-Za-z0-9.:\[\]-]{1,200}", text):
        raise argparse.ArgumentTypeError(f"{text} is no origin, such as https://example.org")
    return text


def amount(text: str) -> float:
    """A number above 0."""
    value = float(text) if text.isascii() and text.replace(".", "", 1).isdigit() else 0.0
    if not 0 < value <= 1e6:
        raise argparse.ArgumentTypeError(f"{text} is not a number above 0")
    return value
