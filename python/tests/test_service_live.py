"""GET /live: what `fmm track` writes, in a service."""
from __future__ import annotations

import json
import os
import re
import select
import signal
import socket
import subprocess
import time
from collections.abc import Iterator
from pathlib import Path
from typing import Any

import pytest
from services import PLAIN, TOP, Service, httpx, running

pytest.importorskip("starlette", reason="python3-starlette is not installed")
pytest.importorskip("uvicorn", reason="python3-uvicorn is not installed")
PLACE = {"kind": "position", "vehicle": "van 7", "drive": 1, "time": "2024-05-06T08:00:00Z", "longitude": 9.43,
         "latitude": 54.31, "edge": 1, "street": "Lange Straße", "speed": None}


class Live:
    """A service with a pipe as its live fleet."""

    def __init__(self, service: Service, pipe: int) -> None:
        self.service, self.pipe = service, pipe

    def give(self, *objects: Any) -> None:
        """Writes objects as `fmm track` does."""
        data = memoryview("".join(json.dumps(one, ensure_ascii=False) + "\n" for one in objects).encode())
        while data:
            data = data[os.write(self.pipe, data):]


@pytest.fixture(scope="module")
def live() -> Iterator[Live]:
    read, write = os.pipe()
    with running(TOP / "recipes" / "small" / "village.osm", "--processes", "1", "--live", "-", given=read) as service:
        os.close(read)
        yield Live(service, write)
        with httpx.stream("GET", f"{service.url}/live", **PLAIN) as answer:
            blocks = answer.iter_raw()
            next(blocks)
            service.process.send_signal(signal.SIGTERM)  # an answer without end does not hold it up
            assert service.process.wait(20) == 0
    os.close(write)


def lines_of(answer: httpx.Response) -> Iterator[str]:
    """The lines of an answer as they come. httpx itself joins long ones slowly."""
    rest = b""
    for block in answer.iter_raw():
        *lines, rest = (rest + block).split(b"\n")
        yield from (line.decode() for line in lines)


def events(lines: Iterator[str], count: int) -> list[tuple[str, dict[str, Any]]]:
    """The next events: kind and object."""
    found: list[tuple[str, dict[str, Any]]] = []
    kind = ""
    while len(found) < count:
        line = next(lines).rstrip("\n")
        if line.startswith("event: "):
            kind = line[7:]
        elif line.startswith("data: "):
            found.append((kind, json.loads(line[6:])))
    return found


def test_clients_get_the_newest_places_and_then_all_objects(live: Live) -> None:
    tram = {**PLACE, "vehicle": "tram", "kind": "provisional"}
    live.give(PLACE, tram, {**tram, "time": "2024-05-06T07:00:00Z"})
    time.sleep(0.5)
    with httpx.stream("GET", f"{live.service.url}/live", **PLAIN) as answer:
        assert answer.status_code == 200 and answer.headers["content-type"].startswith("text/event-stream")
        assert answer.headers["x-frame-options"] == "DENY" and "default-src 'none'" in answer.headers["content-security-policy"]
        assert "access-control-allow-origin" not in answer.headers and answer.headers["cache-control"] == "no-store"
        lines = lines_of(answer)
        assert sorted(events(lines, 2), key=lambda one: one[1]["vehicle"]) == [("provisional", tram), ("position", PLACE)]
        drive = {"kind": "drive", "vehicle": "van 7", "route": {"type": "MultiLineString", "coordinates": []}, "metres": 1.0}
        live.give({"kind": "other"}, [1], {**PLACE, "speed": float("nan")}, "x" * 2_000_000, drive, PLACE)
        assert events(lines, 2) == [("drive", drive), ("position", PLACE)]
    end = time.monotonic() + 20
    while live.service.metric("fmm_live_clients") and time.monotonic() < end:
        time.sleep(0.1)
    assert live.service.metric("fmm_live_clients") == 0


def test_the_example_of_the_page(live: Live) -> None:
    page = (TOP / "docs" / "SERVICE.md").read_text()
    found = re.search(r"```sh\n(curl[^\n]*/live[^\n]*)\n```\n```text\n(.*?)```", page, re.S)
    assert found
    live.give(PLACE)
    time.sleep(0.5)
    words = ["bash", "-c", found[1].replace("http://127.0.0.1:8000", live.service.url)]
    with subprocess.Popen(words, stdout=subprocess.PIPE, text=True) as run:
        end = time.monotonic() + 60
        while run.poll() is None and time.monotonic() < end:
            live.give(PLACE)  # curl learns from the next event that its reader has all it wants
            time.sleep(0.1)
        said = run.communicate(timeout=10)[0]
    assert run.returncode == 0
    wanted = re.sub(r"id: \d+", "id: N", found[2])
    assert wanted == re.sub(r"id: \d+", "id: N", said)


def test_a_slow_client_is_dropped_and_the_others_go_on(live: Live) -> None:
    before = live.service.metric("fmm_live_dropped_total")
    host, _, port = live.service.url.rpartition("/")[2].partition(":")
    with socket.create_connection((host, int(port)), 20) as slow:
        slow.setsockopt(socket.SOL_SOCKET, socket.SO_RCVBUF, 4096)
        slow.sendall(b"GET /live HTTP/1.1\r\nhost: a\r\n\r\n")
        assert slow.recv(100).startswith(b"HTTP/1.1 200 ")
        with httpx.stream("GET", f"{live.service.url}/live", **PLAIN) as answer:
            lines = lines_of(answer)
            long = {"kind": "drive", "vehicle": "x" * 400_000}
            for number in range(40):
                live.give({**long, "number": number})
                while events(lines, 1)[0][1].get("number") != number:
                    pass
        end = time.monotonic() + 30
        while live.service.metric("fmm_live_dropped_total") == before and time.monotonic() < end:
            time.sleep(0.1)
        assert live.service.metric("fmm_live_dropped_total") == before + 1
        assert live.service.metric("fmm_live_clients") <= 1


def test_clients_are_bounded(live: Live) -> None:
    host, _, port = live.service.url.rpartition("/")[2].partition(":")
    clients, said = [], b""
    try:
        for _ in range(101):
            client = socket.create_connection((host, int(port)), 20)
            clients.append(client)
            client.sendall(b"GET /live HTTP/1.1\r\nhost: a\r\n\r\n")
            assert select.select([client], [], [], 30)[0]
            said = client.recv(1000)
        assert said.startswith(b"HTTP/1.1 503 ") and b"retry-after: 1" in said.lower()
        assert live.service.client.get("/health").status_code == 200
    finally:
        for client in clients:
            client.close()


def test_a_service_without_a_fleet_has_no_events(tmp_path: Path) -> None:
    with running(TOP / "recipes" / "small" / "village.osm", "--processes", "1") as service:
        answer = service.client.get("/live")
        assert answer.status_code == 404 and "--live" in answer.json()["message"]
        assert service.client.get("/network.json").json()["live"] is False


def test_the_page_moves_with_the_fleet(live: Live, browser: Any) -> None:
    from selenium.webdriver.support.ui import WebDriverWait  # type: ignore[import]
    live.give(PLACE)
    browser.get(live.service.url + "/")
    row = "#vehicles tbody"
    WebDriverWait(browser, 60).until(lambda d: "van 7" in d.find_element("css selector", row).text)
    moves = browser.execute_script("return window.drawn.moves")
    live.give({**PLACE, "time": "2024-05-06T08:00:05Z", "street": "Am <b>Markt</b>", "speed": 30.2, "kind": "provisional"})
    WebDriverWait(browser, 60).until(lambda d: d.execute_script("return window.drawn.moves") > moves)
    text = browser.find_element("css selector", row).text
    assert "Am <b>Markt</b>" in text and "30 km/h" in text
    live.give({"kind": "drive", "vehicle": "van 7", "metres": 10,
               "route": {"type": "MultiLineString", "coordinates": [[[9.43, 54.31], [9.431, 54.31]]]}})
    WebDriverWait(browser, 60).until(lambda d: d.execute_script("return window.drawn.drives") == 1)
    assert not [entry for entry in browser.get_log("browser") if entry["level"] == "SEVERE"]
