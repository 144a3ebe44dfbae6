"""The server that accepts requests."""
from __future__ import annotations

import socket
from typing import Any, Dict, Optional

import uvicorn

from ..commands import say
from .app import Service
from .live import Live, StandardInput
from .metrics import Metrics
from .pool import TOGETHER, Pool
from .settings import Settings


class Server(uvicorn.Server):
    """A server that ends the answers of /live when it is to end, since they have no end of their own."""

    live: Optional[Live] = None

    def handle_exit(self, sig: int, frame: Any) -> None:
        if self.live:
            self.live.close()
        super().handle_exit(sig, frame)


async def accept(pool: Pool, settings: Settings, metrics: Metrics, facts: Dict[str, Any], listening: socket.socket) -> None:
    """Accepts requests until a signal ends the process. Says the address when it does."""
    host, port = listening.getsockname()[:2]
    address = f"http://{f'[{host}]' if ':' in host else host}:{port}/"
    live = Live() if settings.live else None
    begin = f"fmm serve: {address} ({settings.processes} workers)"
    service = Service(pool, settings, metrics, facts, lambda: say(begin), live)
    most = settings.limits.waiting + TOGETHER * settings.processes + 256
    config = uvicorn.Config(service, log_level="warning", access_log=False, lifespan="on", timeout_keep_alive=30,
                            limit_concurrency=most, server_header=False, proxy_headers=False)
    server = Server(config)
    server.live = live
    if live:
        StandardInput(live)
    await server.serve(sockets=[listening])
