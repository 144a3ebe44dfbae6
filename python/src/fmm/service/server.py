"""Starts the service: the network, the process that forks workers, and the server."""
from __future__ import annotations

import asyncio
import signal
import socket
from contextlib import ExitStack
from dataclasses import asdict
from typing import Any, Awaitable, Dict, List

import numpy as np

from ..commands import SIGNALS, Stopped
from ..errors import FmmError, MismatchError
from ..network import Network
from .forks import Forks, Work
from .metrics import Metrics
from .pool import Pool
from .settings import Settings
from .worker import Worker

BACKLOG = 256


def listen(host: str, port: int) -> socket.socket:
    """A socket that listens. FmmError: the address cannot be used."""
    with ExitStack() as opened:
        try:
            family, kind, _, _, address = socket.getaddrinfo(host, port, type=socket.SOCK_STREAM, flags=socket.AI_PASSIVE)[0]
            made = opened.enter_context(socket.socket(family, kind))
            made.setsockopt(socket.SOL_SOCKET, socket.SO_REUSEADDR, 1)
            made.bind(address)
            made.listen(BACKLOG)
        except (OSError, OverflowError) as fault:
            raise FmmError(f"cannot listen on {host}:{port}: {getattr(fault, 'strerror', None) or fault}") from None
        opened.pop_all()  # the caller closes it
    return made


def serve(network: Network, settings: Settings, host: str, port: int) -> None:
    """Serves until a signal ends the process."""
    if network.projection.crs is None:
        raise MismatchError("its projection is not known, so degrees cannot be placed on it: give --crs", network.name)
    listening = listen(host, port)

    def prepare() -> Work:
        listening.close()  # only the main process accepts
        return Worker(network, settings).serve

    if settings.live:
        from .live import PATIENCE, give_up_after
        give_up_after(listening, PATIENCE)
    forks = Forks(prepare)
    faster_loop()
    try:
        asyncio.run(run(forks, listening, settings, about(network, settings)))
    finally:
        listening.close()
        forks.close()


def faster_loop() -> None:
    """Takes the event loop of python3-uvloop if it is installed. The server itself takes the parser of python3-httptools."""
    try:
        import uvloop
    except ImportError:
        return
    uvloop.install()


async def run(forks: Forks, listening: socket.socket, settings: Settings, facts: Dict[str, Any]) -> None:
    """Starts the workers, then the server."""
    metrics = Metrics()
    pool = Pool(forks, settings.processes, settings.limits, metrics)
    try:
        starting = asyncio.ensure_future(pool.start())
        await asyncio.sleep(0)  # the workers begin
        from .accepting import accept  # with the libraries of the server, which load while the programs do
        await unless_stopped(starting)
        await accept(pool, settings, metrics, facts, listening)
    finally:
        await pool.close()


async def unless_stopped(work: Awaitable[None]) -> None:
    """Does some work, until a signal comes. A handler that raises would not do: the loop logs what it raises, and goes on.
    Stopped, KeyboardInterrupt: a signal came."""
    loop, task = asyncio.get_running_loop(), asyncio.ensure_future(work)
    came: List[int] = []

    def stop(number: int) -> None:
        came.append(number)
        task.cancel()

    kept = {number: signal.getsignal(number) for number in SIGNALS if signal.getsignal(number) != signal.SIG_IGN}
    for number in kept:
        loop.add_signal_handler(number, stop, number)
    try:
        await task
    except asyncio.CancelledError:
        if not came:
            raise
    finally:
        for number, handler in kept.items():
            loop.remove_signal_handler(number)
            signal.signal(number, handler)
    if came[:1] == [signal.SIGINT]:
        raise KeyboardInterrupt
    if came:
        raise Stopped(came[0])


def about(network: Network, settings: Settings) -> Dict[str, Any]:
    """What the page says of the network. `bounds` is west, south, east, north in degrees."""
    low, high = network.lines.xy.min(axis=0), network.lines.xy.max(axis=0)
    corners = np.array([[low[0], low[1]], [low[0], high[1]], [high[0], low[1]], [high[0], high[1]]], np.float64)
    x, y = network.projection.to_crs(corners[:, 0], corners[:, 1], 4326)
    bounds = [float(x.min()), float(y.min()), float(x.max()), float(y.max())]
    options = {name: value for name, value in asdict(settings.options).items() if name != "workers"}
    return {"edges": network.edge_count, "nodes": network.report.size["nodes"], "projection": network.projection.name,
            "sha256": network.checksum, "bounds": bounds, "live": settings.live, "options": options}
