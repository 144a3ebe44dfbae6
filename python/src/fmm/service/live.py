"""GET /live: what `track` writes, as server-sent events."""
from __future__ import annotations

import asyncio
import json
import os
import socket
import threading
from collections import OrderedDict, deque
from typing import Any, Deque, Dict, Iterable, List, Optional, Set

from starlette.responses import StreamingResponse

from ..commands import say
from .refusals import Refused
from .settings import MEGABYTE

KINDS = ("position", "provisional", "drive")
CLIENTS = 100
WAITING = 4 * MEGABYTE  # bytes that wait for a client; one that is slower is dropped
LONGEST = MEGABYTE  # of an object
VEHICLES = 10_000  # whose newest places a new client gets
SHORT = 4096  # bytes of such an event
BEAT = 15.0  # seconds between signs of life
PATIENCE = 60.0  # seconds in which a client has to take something
BLOCK = 1 << 16


class Client:
    """One reader of the events."""

    def __init__(self) -> None:
        self.first: Deque[bytes] = deque()  # the newest places, which all clients share
        self.blocks: Deque[bytes] = deque()
        self.size = 0
        self.is_over = False
        self.event = asyncio.Event()

    def put(self, block: bytes) -> bool:
        """Takes an event. Returns False if the client turns out to be too slow."""
        if self.is_over:
            return True
        self.size += len(block)
        if self.size > WAITING:
            self.end()
            return False
        self.blocks.append(block)
        self.event.set()
        return True

    def end(self) -> None:
        """Ends the answer. What waits is dropped."""
        self.is_over = True
        self.first.clear()
        self.blocks.clear()
        self.event.set()

    async def next(self) -> bytes:
        """What waits, or a comment as a sign of life."""
        try:
            await asyncio.wait_for(self.event.wait(), BEAT)
        except asyncio.TimeoutError:
            return b": \n\n"
        found = bytearray()
        while self.first and len(found) < BLOCK:
            found += self.first.popleft()
        while self.blocks and len(found) < BLOCK:
            found += self.blocks[0]
            self.size -= len(self.blocks.popleft())
        if not self.blocks and not self.first:
            self.event.clear()
        return bytes(found)


class Live:
    """Hands objects to all clients. A new client first gets the newest place of each vehicle."""

    def __init__(self) -> None:
        self.clients: Set[Client] = set()
        self.newest: OrderedDict[str, bytes] = OrderedDict()
        self.times: Dict[str, str] = {}
        self.number = 0
        self.dropped = 0
        self.is_over = False

    def take(self, lines: Iterable[bytes]) -> None:
        """Takes lines of `track`. Those that are none are named."""
        for line in lines:
            try:
                one = json.loads(line, parse_constant=_no_constant) if len(line) <= LONGEST else None
                kind, vehicle = one["kind"], str(one["vehicle"])
                if kind not in KINDS:
                    raise ValueError
            except (ValueError, TypeError, KeyError, RecursionError):
                say("fmm serve: a line for /live is left out: it is no object of fmm track, or too long")
                continue
            self.number += 1
            text = json.dumps(one, ensure_ascii=False, separators=(",", ":"))
            event = f"id: {self.number}\nevent: {kind}\ndata: {text}\n\n".encode("utf-8", "replace")
            if kind != "drive" and len(event) <= SHORT:
                self._note(vehicle, str(one.get("time", "")).rstrip("Z"), event)
            for client in list(self.clients):
                self.dropped += not client.put(event)

    def _note(self, vehicle: str, time: str, event: bytes) -> None:
        if time >= self.times.get(vehicle, ""):
            self.times[vehicle], self.newest[vehicle] = time, event
            self.newest.move_to_end(vehicle)
        while len(self.newest) > VEHICLES:
            del self.times[self.newest.popitem(last=False)[0]]

    def answer(self) -> Events:
        """An answer for a new client. Refused: there are too many."""
        if len(self.clients) >= CLIENTS:
            raise Refused("Busy", f"there are {CLIENTS} clients of /live; try again", 503)
        return Events(self)

    def close(self) -> None:
        """Ends all answers."""
        self.is_over = True
        for client in list(self.clients):
            client.end()


def _no_constant(text: str) -> None:
    raise ValueError(text)


class Events(StreamingResponse):
    """An answer that goes on until the client leaves, is too slow, or the service ends."""

    def __init__(self, live: Live) -> None:
        super().__init__(iter(()), media_type="text/event-stream", headers={"cache-control": "no-store"})
        self.live, self.client = live, Client()

    async def __call__(self, scope: Any, receive: Any, send: Any) -> None:
        self.client.first.extend(reversed(self.live.newest.values()))
        self.client.event.set()
        self.live.clients.add(self.client)
        if self.live.is_over:
            self.client.end()
        gone = asyncio.ensure_future(self._wait_for_end(receive))
        try:
            await send({"type": "http.response.start", "status": 200, "headers": self.raw_headers})
            while not self.client.is_over:
                block = await self.client.next()
                await asyncio.wait_for(send({"type": "http.response.body", "body": block, "more_body": True}), PATIENCE)
            await asyncio.wait_for(send({"type": "http.response.body", "body": b"", "more_body": False}), 1)
        except asyncio.TimeoutError:
            self.live.dropped += not self.client.is_over  # the connection ends when the kernel gives it up
        finally:
            self.live.clients.discard(self.client)
            gone.cancel()

    async def _wait_for_end(self, receive: Any) -> None:
        while (await receive())["type"] != "http.disconnect":
            pass
        self.client.end()


class StandardInput:
    """Reads lines in a thread, and hands them to the event loop, which it waits for."""

    def __init__(self, live: Live, descriptor: int = 0) -> None:
        self.live, self.descriptor, self.loop = live, descriptor, asyncio.get_running_loop()
        threading.Thread(target=self._read, daemon=True).start()

    def _read(self) -> None:
        rest = b""
        while block := os.read(self.descriptor, BLOCK):
            *lines, rest = (rest + block).split(b"\n")
            rest = rest[:LONGEST + 1]
            if lines and not self._give(lines):
                return
        say("fmm serve: the input of /live has ended")

    def _give(self, lines: List[bytes]) -> bool:
        async def give() -> None:
            self.live.take(lines)
        try:
            asyncio.run_coroutine_threadsafe(give(), self.loop).result()
        except (RuntimeError, asyncio.CancelledError):  # the service has ended
            return False
        return True


def give_up_after(listening: socket.socket, seconds: float) -> None:
    """Lets the kernel end connections whose client takes nothing for so long."""
    option: Optional[int] = getattr(socket, "TCP_USER_TIMEOUT", None)
    if option is not None and listening.family in (socket.AF_INET, socket.AF_INET6):
        listening.setsockopt(socket.IPPROTO_TCP, option, int(1000 * seconds))
