"""A worker: answers requests over its connection to the main process, those that arrive together at once."""
from __future__ import annotations

import json
import os
import socket
import time
from collections import defaultdict
from dataclasses import dataclass, replace
from functools import partial
from typing import Any, Callable, DefaultDict, Dict, List, TypeVar, Union

from ..commands import say
from ..errors import FmmError, one_line
from ..network import Network
from . import osrm, requests
from .drives import Roads
from .frames import Frame, Frames, packed
from .matcher import Matcher
from .memory import Memory
from .nearest import Nearest
from .refusals import Refused
from .settings import MEGABYTE, Settings

GROWTH = 512 * MEGABYTE  # bytes by which a worker may grow
Result = TypeVar("Result")


@dataclass
class Reply:
    """What goes back to the client; with `again` nothing, and the request is to be sent once more, alone."""

    status: int
    body: bytes
    kind: str = "application/json"
    positions: int = 0
    again: bool = False


def json_reply(content: Any, status: int = 200, positions: int = 0, kind: str = "application/json") -> Reply:
    text = json.dumps(content, ensure_ascii=False, separators=(",", ":"), allow_nan=False, default=plain_number)
    return Reply(status, text.encode("utf-8", "replace"), kind, positions)


def plain_number(value: Any) -> Any:
    """A number of numpy as one of Python."""
    return value.item()


class Worker:
    """What workers share is made once, before they are forked; `serve` runs in a worker."""

    def __init__(self, network: Network, settings: Settings) -> None:
        self.network, self.settings = network, settings
        self.roads = Roads(network)
        self.nearest = Nearest(self.roads.places)
        self.kinds: Dict[str, Callable[[Dict[str, Any], bytes], Reply]] = {
            "nearest": self._nearest, "posted": self._posted, "map": self._map}

    def serve(self, connection: socket.socket) -> None:
        """Answers requests until the connection ends."""
        try:
            self.matcher = Matcher(self.network, self.settings.options, self.settings.limits)
            from . import simplified  # noqa: F401  needed at the first request; its libraries load while the program does
            self.matcher.wait()
        except (Refused, FmmError) as fault:
            connection.sendall(packed({"pid": os.getpid(), "failed": str(fault)}))
            return
        memory = Memory("self")
        least = memory.own
        try:
            connection.sendall(packed({"pid": os.getpid(), "program": self.matcher.program.child.pid}))
            arriving = Frames(connection)
            while frames := arriving.all():
                replies = self.replies(frames)
                about = {"memory": self.matcher.memory, "own_memory": memory.own, "replaced": self.matcher.replaced,
                         "program": self.matcher.program.child.pid, "last": memory.own > least + GROWTH}
                connection.sendall(b"".join(packed({"status": reply.status, "kind": reply.kind, "positions": reply.positions,
                                                    "again": reply.again, **about}, reply.body) for reply in replies))
        except (BrokenPipeError, ConnectionResetError):
            return  # the main process has ended
        finally:
            self.matcher.close()

    def replies(self, frames: List[Frame]) -> List[Reply]:
        """The answers to requests that arrived together."""
        self.until = time.monotonic() + self.settings.limits.seconds
        found: Dict[int, Reply] = {}
        together: DefaultDict[requests.MatchOptions, Dict[int, requests.MatchRequest]] = defaultdict(dict)
        for number, (head, body) in enumerate(frames):
            asked = answered(partial(self._asked, head, body))
            if isinstance(asked, Reply):
                found[number] = asked
            else:
                together[asked.options][number] = asked
        for some in together.values():
            found.update(zip(some, self._matches(list(some.values()))))
        return [found[number] for number in range(len(frames))]

    def _asked(self, head: Dict[str, Any], body: bytes) -> Union[requests.MatchRequest, Reply]:
        """A request for a match, or the answer to another one."""
        if head["do"] != "match":
            return self.kinds[head["do"]](head, body)
        requests.check_profile(head["profile"], self.roads.profile)
        return requests.match_request(head["coordinates"], head["query"], self.settings.limits.positions)

    def _matches(self, some: List[requests.MatchRequest]) -> List[Reply]:
        """The answers to requests with the same options. If they fail together, each is to be sent again."""
        is_alone = len(some) == 1
        until = self.until - (0 if is_alone else self.settings.limits.seconds / 2)
        answers = answered(partial(osrm.match, self.matcher, self.roads, some, until))
        if isinstance(answers, Reply):
            return [replace(answers, again=not is_alone)] * len(some)
        return [refused(answer) if isinstance(answer, Refused) else Reply(200, answer, positions=len(request.places))
                for request, answer in zip(some, answers)]

    def _nearest(self, head: Dict[str, Any], body: bytes) -> Reply:
        requests.check_profile(head["profile"], self.roads.profile)
        request = requests.nearest_request(head["coordinates"], head["query"])
        return json_reply(osrm.nearest(self.nearest, self.roads, request), positions=1)

    def _posted(self, head: Dict[str, Any], body: bytes) -> Reply:
        from . import posted  # with the libraries of the tables, which other requests do not need
        request = posted.Posted(head["type"], head["query"], body)
        content, count = posted.geojson(self.matcher, self.network, self.settings, request, self.until)
        return json_reply(content, positions=count, kind="application/geo+json")

    def _map(self, head: Dict[str, Any], body: bytes) -> Reply:
        from . import posted
        request = posted.Posted(head["type"], head["query"], body)
        text, count = posted.page(self.matcher, self.network, self.settings, request, self.until)
        return Reply(200, text.encode("utf-8", "replace"), "text/html", count)


def answered(work: Callable[[], Result]) -> Union[Result, Reply]:
    """What some work returns; a fault is an answer too."""
    try:
        return work()
    except Refused as fault:
        return refused(fault)
    except FmmError as fault:
        return json_reply({"code": "InvalidValue", "message": str(fault)}, 400)
    except Exception as fault:
        say(f"fmm serve: a request failed: {one_line(f'{type(fault).__name__}: {fault}')[:300]}")
        return json_reply({"code": "InternalError", "message": "the request failed; the log of the service says why"}, 500)


def refused(fault: Refused) -> Reply:
    return json_reply({"code": fault.code, "message": str(fault)}, fault.status)
