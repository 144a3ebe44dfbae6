"""The endpoints."""
from __future__ import annotations

import asyncio
import json
import time
from contextlib import asynccontextmanager
from typing import Any, AsyncIterator, Awaitable, Callable, Dict, List, Optional, Tuple

from starlette.applications import Starlette
from starlette.requests import ClientDisconnect, Request
from starlette.responses import JSONResponse, Response
from starlette.routing import Route
from starlette.types import Receive, Scope, Send

from . import page
from .live import Live
from .metrics import Metrics
from .openapi import description, documents
from .pool import Pool
from .refusals import Refused
from .settings import MEGABYTE, Settings

HEADERS = {
    "x-content-type-options": "nosniff",
    "x-frame-options": "DENY",
    "referrer-policy": "no-referrer",
    "cross-origin-resource-policy": "same-origin",
    "content-security-policy": "default-src 'none'; frame-ancestors 'none'; base-uri 'none'; form-action 'none'",
}
PAGE_POLICY = ("default-src 'none'; script-src 'self'; style-src 'self'; img-src 'self' data:; connect-src 'self'; "
               "frame-ancestors 'none'; base-uri 'none'; form-action 'none'")
Endpoint = Callable[[Request], Awaitable[Response]]


class Service:
    """The application of one service, which a server runs."""

    def __init__(self, pool: Pool, settings: Settings, metrics: Metrics, about: Dict[str, Any],
                 begin: Callable[[], None], live: Optional[Live] = None) -> None:
        """`about` is what the page says of the network. `begin` is called when the server has its handlers of signals."""
        self.begin, self.live = begin, live
        self.pool, self.settings, self.metrics, self.about = pool, settings, metrics, about
        self.began = time.monotonic()
        self.asked = {name: Asked(self, name) for name in ("match", "nearest")}
        routes = [
            *(Route(f"/{name}/v1/{{profile}}/{{coordinates:path}}", asked, methods=["GET"])
              for name, asked in self.asked.items()),
            Route("/match", self._counted("post", self._post("posted")), methods=["POST"]),
            Route("/map", self._counted("map", self._post("map")), methods=["POST"]),
            Route("/live", self._counted("live", self._live)),
            Route("/health", self._counted("health", self._health)),
            Route("/metrics", self._counted("metrics", self._metrics)),
            Route("/openapi.json", self._counted("openapi", self._openapi)),
            Route("/docs", self._counted("page", self._docs)),
            Route("/network.json", self._counted("network", self._network)),
            *(Route(path, self._counted("page", self._file(name))) for path, name in page.FILES.items()),
        ]
        self.others = Starlette(routes=routes, lifespan=self._lifespan, exception_handlers={404: unknown, 405: wrong_method})

    async def __call__(self, scope: Scope, receive: Receive, send: Send) -> None:
        """Answers a request. Matches do not go through Starlette, which would take as long as the rest of the main process."""
        if scope["type"] == "http" and scope["method"] == "GET" and scope["path"].startswith("/match/v1/"):
            profile, slash, coordinates = scope["path"][len("/match/v1/"):].partition("/")
            if profile and slash:
                await self.asked["match"].answer(profile, coordinates, scope, send)
                return
        await self.others(scope, receive, send)

    @asynccontextmanager
    async def _lifespan(self, app: Starlette) -> AsyncIterator[None]:
        self.begin()
        try:
            yield
        finally:
            await self.pool.close()

    def _counted(self, name: str, endpoint: Endpoint) -> Endpoint:
        """An endpoint with its faults as answers, with headers, and counted."""
        async def answer(request: Request) -> Response:
            began = time.monotonic()
            try:
                response = await endpoint(request)
            except Refused as fault:
                response = refusal(fault)
            except ClientDisconnect:
                response = Response(status_code=400)
            for key, value in HEADERS.items():
                response.headers.setdefault(key, value)
            self.metrics.request(name, response.status_code, time.monotonic() - began)
            return response
        return answer

    async def _worker(self, head: Dict[str, Any], body: bytes) -> Response:
        about, content = await self.pool.ask(head, body)
        return Response(content, about["status"], media_type=about["kind"])

    def _post(self, what: str) -> Endpoint:
        async def endpoint(request: Request) -> Response:
            check_origin(request)
            body = await self._body(request)
            response = await self._worker({"do": what, "type": request.headers.get("content-type", ""),
                                           "query": request.url.query}, body)
            if response.media_type == "text/html":  # a file to keep: it is no page of this origin
                response.headers["content-disposition"] = 'attachment; filename="map.html"'
            return response
        return endpoint

    async def _body(self, request: Request) -> bytes:
        limits, got = self.settings.limits, bytearray()

        async def read() -> None:
            async for block in request.stream():
                got.extend(block)
                if len(got) > limits.size:
                    raise Refused("TooBig", f"the request has more than {limits.size / MEGABYTE:g} MB", 413)

        try:
            await asyncio.wait_for(read(), limits.seconds)
        except asyncio.TimeoutError:
            raise Refused("Timeout", f"the request takes more than {limits.seconds:g} s to arrive", 408) from None
        return bytes(got)

    async def _health(self, request: Request) -> Response:
        ready = self.pool.ready
        return JSONResponse({"status": "ok" if ready else "unavailable", "workers": ready, "of": self.pool.count},
                            200 if ready else 503)

    async def _metrics(self, request: Request) -> Response:
        pool = self.pool
        return Response(self.metrics.text([
            ("fmm_workers", "gauge", "Workers that can take requests.", pool.ready),
            ("fmm_waiting_requests", "gauge", "Requests that wait for a worker.", pool.waiting),
            ("fmm_memory_bytes", "gauge", "Memory of all workers and their programs; what workers share counts for each.",
             pool.memory),
            ("fmm_replaced_programs_total", "counter", "Programs that were replaced.", pool.replaced_programs),
            ("fmm_live_clients", "gauge", "Clients of /live.", len(self.live.clients) if self.live else 0),
            ("fmm_live_dropped_total", "counter", "Clients of /live that were too slow.", self.live.dropped if self.live else 0),
            ("fmm_up_seconds", "gauge", "Seconds since the start.", time.monotonic() - self.began),
        ]), media_type="text/plain; version=0.0.4")

    async def _live(self, request: Request) -> Response:
        if self.live is None:
            raise Refused("InvalidUrl", "this service has no live fleet: it was started without --live", 404)
        if request.method == "HEAD":
            return Response(media_type="text/event-stream")
        return self.live.answer()

    async def _openapi(self, request: Request) -> Response:
        return JSONResponse(description(self.settings))

    async def _network(self, request: Request) -> Response:
        return JSONResponse(self.about)

    async def _docs(self, request: Request) -> Response:
        return Response(documents(self.settings), media_type="text/html", headers={"content-security-policy": PAGE_POLICY})

    def _file(self, name: str) -> Endpoint:
        content, kind = page.content(name)

        async def endpoint(request: Request) -> Response:
            headers = {"content-security-policy": PAGE_POLICY, "cache-control": "no-cache"}
            return Response(content, media_type=kind, headers=headers)
        return endpoint


class Asked:
    """The endpoint of /match/v1 or /nearest/v1. It makes no objects of Starlette, which would take as long as the rest."""

    def __init__(self, service: Service, what: str) -> None:
        self.service, self.what = service, what
        headers = {**HEADERS, "access-control-allow-origin": service.settings.origin} if service.settings.origin else HEADERS
        self.headers = [(name.encode(), value.encode()) for name, value in headers.items()]

    async def __call__(self, scope: Scope, receive: Receive, send: Send) -> None:
        await self.answer(scope["path_params"]["profile"], scope["path_params"]["coordinates"], scope, send)

    async def answer(self, profile: str, coordinates: str, scope: Scope, send: Send) -> None:
        """Sends the answer."""
        began = time.monotonic()
        head = {"do": self.what, "profile": profile, "coordinates": coordinates,
                "query": scope["query_string"].decode("latin-1")}
        more: List[Tuple[bytes, bytes]] = []
        try:
            about, content = await self.service.pool.ask(head, shares=self.what == "match")
            status, kind = about["status"], about["kind"]
        except Refused as fault:
            response = refusal(fault)
            status, kind, content = fault.status, "application/json", response.body
            more = [(name, value) for name, value in response.raw_headers if name == b"retry-after"]
        headers = [(b"content-type", kind.encode()), (b"content-length", b"%d" % len(content)), *self.headers, *more]
        await send({"type": "http.response.start", "status": status, "headers": headers})
        await send({"type": "http.response.body", "body": b"" if scope["method"] == "HEAD" else content})
        self.service.metrics.request(self.what, status, time.monotonic() - began)


def refusal(fault: Refused) -> Response:
    """The answer to a request that is refused."""
    return JSONResponse({"code": fault.code, "message": str(fault)}, fault.status,
                        {"retry-after": "1"} if fault.status == 503 else None)


def check_origin(request: Request) -> None:
    """Refuses what a page of another origin sends."""
    origin = request.headers.get("origin")
    if origin is not None and origin.partition("://")[2] != request.headers.get("host", ""):
        raise Refused("InvalidOptions", "pages of another origin may not use this service", 403)


async def unknown(request: Request, fault: Exception) -> Response:
    """The answer for a path that is none."""
    services = "/match/v1/{profile}/{coordinates}, /nearest/v1/{profile}/{coordinates}, /match, /map, /live; /docs describes them"
    return Response(json.dumps({"code": "InvalidUrl", "message": f"there is no such path; there are {services}"}), 404, HEADERS,
                    "application/json")


async def wrong_method(request: Request, fault: Exception) -> Response:
    """The answer for a method that a path does not have."""
    return Response(json.dumps({"code": "InvalidUrl", "message": "this path takes another method"}), 405, HEADERS,
                    "application/json")
