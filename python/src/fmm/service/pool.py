"""The workers as the main process sees them: a bounded queue, and replacements for workers that are lost."""
from __future__ import annotations

import asyncio
import os
import signal
from collections import deque
from typing import Any, Callable, Deque, Dict, List, Optional, Sequence, Set, cast

from ..commands import say
from ..errors import ProgramError, one_line
from .forks import Forks
from .frames import Frame, packed, taken
from .metrics import Metrics
from .refusals import Refused, late
from .settings import Limits

START = 660.0  # seconds for a worker to be ready
SPARE = 2.0  # seconds that a worker gets to say itself that the time has passed
TOGETHER = 16  # most requests that a worker gets at once
SIZE = 64 * 1024  # bytes of them: no more than one request for a match may have


class Asked:
    """A request that waits for its answer. `shares` is whether a worker may get others with it."""

    def __init__(self, message: bytes, shares: bool) -> None:
        self.message, self.shares = message, shares
        self.answer: asyncio.Future[Frame] = asyncio.get_running_loop().create_future()
        self.timer: Optional[asyncio.TimerHandle] = None

    def end_timer(self) -> None:
        """The request waits no more."""
        if self.timer:
            self.timer.cancel()

    def fail(self, fault: Exception) -> None:
        """Ends the request without an answer."""
        if not self.answer.done():
            self.answer.set_exception(fault)


class Connection(asyncio.Protocol):
    """A worker. It answers requests in order, and gets the next ones when it has answered all."""

    def __init__(self, is_done: Callable[[Connection], None]) -> None:
        """`is_done` is called when the worker has answered all requests, or is of no use any more."""
        self.about: Dict[str, Any] = {}
        self.counted = 0
        self.is_lost = False  # it has ended
        self.is_over = False  # it gets no more requests
        self._is_done, self._got = is_done, bytearray()
        self._asked: Deque[Asked] = deque()
        self._timer: Optional[asyncio.TimerHandle] = None

    def send(self, asked: Sequence[Asked], seconds: float) -> None:
        """Sends requests. Their faults are ConnectionError if the worker ends, and TimeoutError if it takes too long."""
        self._asked.extend(asked)
        self._timer = asyncio.get_running_loop().call_later(seconds, self._give_up, asyncio.TimeoutError())
        self._transport.write(b"".join(one.message for one in asked))

    def connection_made(self, transport: asyncio.BaseTransport) -> None:
        self._transport = cast(asyncio.Transport, transport)  # uvloop's has another class

    def data_received(self, data: bytes) -> None:
        self._got += data
        for frame in taken(self._got):
            self.about.update(frame[0])
            answer = self._asked.popleft().answer
            if not answer.done():  # else the request was given up
                answer.set_result(frame)
            if not self._asked:
                self._end_timer()
                self._is_done(self)

    def connection_lost(self, fault: Optional[Exception]) -> None:
        self.is_lost = True
        if not self.is_over:
            self._give_up(ConnectionResetError())

    def end(self) -> None:
        """Ends the worker and its program."""
        self.is_over = True
        self._end_timer()
        for asked in self._asked:
            asked.fail(ConnectionResetError())
        self._transport.close()
        if "pid" in self.about and not self.is_lost:
            try:
                os.killpg(int(self.about["pid"]), signal.SIGKILL)
            except (ProcessLookupError, PermissionError):
                pass

    def _give_up(self, fault: Exception) -> None:
        asked, self._asked, self.is_over = self._asked, deque(), True
        self._end_timer()
        for one in asked:
            one.fail(fault)
        self._is_done(self)

    def _end_timer(self) -> None:
        if self._timer:
            self._timer.cancel()


class Pool:
    """Hands requests to idle workers, those for matches that wait several at a time."""

    def __init__(self, forks: Forks, count: int, limits: Limits, metrics: Metrics) -> None:
        self.forks, self.count, self.limits, self.metrics = forks, count, limits, metrics
        self.workers: List[Connection] = []
        self._idle: Deque[Connection] = deque()
        self._waiting: Deque[Asked] = deque()
        self.replaced_programs = 0
        self._starts: Set[asyncio.Task[None]] = set()
        self._closing = False

    async def start(self) -> None:
        """Starts all workers. ProgramError: one does not start."""
        await asyncio.gather(*(self._add() for _ in range(self.count)))

    async def ask(self, head: Dict[str, Any], body: bytes = b"", shares: bool = False) -> Frame:
        """The answer of a worker. Refused: too many wait, it takes too long, or it loses two workers. With `shares` a worker may
        get other requests with it; what fails together with others is asked once more alone."""
        message = packed(head, body)
        for is_first in (True, False):
            try:
                answer = await self._queued(Asked(message, shares and is_first))
            except ConnectionError:
                continue
            except asyncio.TimeoutError:
                raise late(self.limits.seconds) from None
            if not answer[0]["again"]:
                self.metrics.positions += answer[0]["positions"]
                return answer
        raise Refused("InternalError", "the request ended two workers", 500)

    @property
    def ready(self) -> int:
        """How many workers can take requests."""
        return sum(not worker.is_over for worker in self.workers)

    @property
    def waiting(self) -> int:
        """How many requests wait for a worker."""
        return len(self._waiting)

    @property
    def memory(self) -> int:
        """Bytes of all workers and their programs, as of their last answers."""
        return sum(worker.about.get("memory", 0) + worker.about.get("own_memory", 0) for worker in self.workers)

    async def close(self) -> None:
        """Ends all workers."""
        self._closing = True
        for task in self._starts:
            task.cancel()
        for worker in list(self.workers):
            self.workers.remove(worker)
            worker.end()

    def _queued(self, asked: Asked) -> asyncio.Future[Frame]:
        """The answer to a request, which waits for its turn. Refused: too many wait, or no worker takes it in time."""
        if len(self._waiting) >= self.limits.waiting and not self._idle:
            self.metrics.refused_waiting += 1
            raise busy()
        self._waiting.append(asked)
        asked.timer = asyncio.get_running_loop().call_later(self.limits.seconds, self._refuse, asked)
        self._hand_out()
        return asked.answer

    def _refuse(self, asked: Asked) -> None:
        self._waiting.remove(asked)
        self.metrics.refused_waiting += 1
        asked.fail(busy())

    def _hand_out(self) -> None:
        """Gives what waits to idle workers."""
        while self._idle and self._waiting:
            asked = self._together()
            for one in asked:
                one.end_timer()
            self._idle.popleft().send(asked, self.limits.seconds + SPARE)

    def _together(self) -> List[Asked]:
        """The requests for the next worker: one, or its share of those that wait. The share is twice an equal one, since other
        workers are at work on theirs."""
        most = min(TOGETHER, -(-2 * len(self._waiting) // self.count))
        found = [self._waiting.popleft()]
        size, shares = len(found[0].message), found[0].shares
        while shares and self._waiting and len(found) < most:
            following = self._waiting[0]
            size += len(following.message)
            if not following.shares or size > SIZE:
                break
            found.append(self._waiting.popleft())
        return found

    def _done(self, worker: Connection) -> None:
        """A worker has answered all its requests, or is of no use any more."""
        if worker not in self.workers:  # it starts, or is being ended
            return
        replaced = worker.about.get("replaced", 0)
        self.replaced_programs += replaced - worker.counted
        worker.counted = replaced
        if worker.is_over or worker.about.get("last"):
            self._replace(worker, lost=worker.is_over)
        else:
            self._idle.append(worker)
            self._hand_out()

    def _replace(self, worker: Connection, lost: bool) -> None:
        self.workers.remove(worker)
        if worker in self._idle:
            self._idle.remove(worker)
        worker.end()
        self.metrics.lost_workers += lost
        if not self._closing:
            task = asyncio.get_running_loop().create_task(self._again())
            self._starts.add(task)
            task.add_done_callback(self._starts.discard)

    async def _again(self) -> None:
        """Adds a worker, and tries again if it does not start."""
        pause = 0.5
        while True:
            try:
                await self._add()
                return
            except (ProgramError, OSError) as fault:
                say(f"fmm serve: no new worker: {one_line(fault)}; trying again")
                await asyncio.sleep(pause)
                pause = min(2 * pause, 30)

    async def _add(self) -> None:
        _, worker = await asyncio.get_running_loop().create_connection(lambda: Connection(self._done), sock=self.forks.worker())
        ready = Asked(b"", False)
        worker.send([ready], START)
        try:
            head, _ = await ready.answer
        except (ConnectionError, asyncio.TimeoutError):
            worker.end()
            raise ProgramError(1, "a worker ended while it started") from None
        except BaseException:
            worker.end()
            raise
        if "failed" in head:
            worker.end()
            raise ProgramError(1, head["failed"])
        self.workers.append(worker)
        self._done(worker)


def busy() -> Refused:
    """Too many requests wait."""
    return Refused("Busy", "too many requests wait; try again", 503)
