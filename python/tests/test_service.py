"""The service as its clients see it: answers, refusals, limits, lost processes."""
from __future__ import annotations

import asyncio
import json
import os
import random
import re
import shutil
import signal
import socket
import subprocess
import threading
import time
from collections.abc import Iterator
from pathlib import Path

import httpx
import numpy as np
import pytest
from services import PLAIN, TOP, Service, alive, answered, coordinates, degrees, drives, grid, matched, pieces_of, running

from fmm import Network
from fmm.service.frames import Frames, packed
from fmm.service.polylines import decode

pytest.importorskip("starlette", reason="python3-starlette is not installed")
pytest.importorskip("uvicorn", reason="python3-uvicorn is not installed")


@pytest.fixture(scope="module")
def network(tmp_path_factory: pytest.TempPathFactory) -> Network:
    made = grid()
    made.save(tmp_path_factory.mktemp("network") / "network.csv")
    return made


@pytest.fixture(scope="module")
def service(network: Network) -> Iterator[Service]:
    with running(network.path, "--processes", "2", "--positions", "500", "--megabytes", "1", front=True) as made:
        yield made


@pytest.fixture(scope="module")
def drive(network: Network) -> np.ndarray:
    return degrees(network, drives(1, seed=7)[0])


def test_answers_have_the_form_of_osrm(service: Service, network: Network, drive: np.ndarray) -> None:
    times = ";".join(str(1_700_000_000 + 5 * i) for i in range(len(drive)))
    answer = service.match(drive, timestamps=times, geometries="geojson", overview="full", annotations="distance,duration,speed")
    assert answer["code"] == "Ok" and len(answer["tracepoints"]) == len(drive)
    matching = answer["matchings"][0]
    assert len(matching["legs"]) == len(drive) - 1 and 0 < matching["confidence"] <= 1
    assert matching["duration"] == 5 * (len(drive) - 1)
    assert matching["distance"] == pytest.approx(sum(leg["distance"] for leg in matching["legs"]), abs=0.5)
    leg = matching["legs"][0]
    assert leg["annotation"] == {"distance": [leg["distance"]], "duration": [5], "speed": [round(leg["distance"] / 5, 2)]}
    line = np.array(matching["geometry"]["coordinates"])
    first, last = answer["tracepoints"][0], answer["tracepoints"][-1]
    assert np.allclose(line[[0, -1]], [first["location"], last["location"]], atol=2e-7)
    assert [point["waypoint_index"] for point in answer["tracepoints"]] == list(range(len(drive)))
    assert first["name"] == network.edges.name[first["edge"]]


def test_lines_are_the_same_in_each_form(service: Service, drive: np.ndarray) -> None:
    lines = {form: service.match(drive, geometries=form, overview="full")["matchings"][0]["geometry"]
             for form in ("polyline", "polyline6", "geojson")}
    whole = np.array(lines["geojson"]["coordinates"])
    assert np.abs(decode(lines["polyline"]) - whole).max() < 0.6e-5
    assert np.abs(decode(lines["polyline6"], 6) - whole).max() < 0.6e-6
    simple = decode(service.match(drive)["matchings"][0]["geometry"])
    assert 2 <= len(simple) <= len(whole)
    assert "geometry" not in service.match(drive, overview="false")["matchings"][0]


def test_positions_far_from_roads_are_null_and_break_the_drive(service: Service, drive: np.ndarray) -> None:
    away = drive.copy()
    away[4] += 0.05
    answer = service.match(away)
    assert answer["tracepoints"][4] is None and len(answer["matchings"]) == 2
    assert [point and point["matchings_index"] for point in answer["tracepoints"][3:6]] == [0, None, 1]
    nowhere = service.client.get("/match/v1/car/1,1;1.001,1")
    assert (nowhere.status_code, nowhere.json()["code"]) == (400, "NoMatch")


def test_gaps_in_time_break_the_drive_unless_they_are_ignored(service: Service, drive: np.ndarray) -> None:
    times = [10 * i + (1000 if i >= 5 else 0) for i in range(len(drive))]
    text = ";".join(map(str, times))
    assert len(service.match(drive, timestamps=text)["matchings"]) == 2
    ignored = service.match(drive, timestamps=text, gaps="ignore")["matchings"]
    assert len(ignored) == 1 and ignored[0]["duration"] == times[-1]


def test_tidy_leaves_out_positions_that_did_not_move(service: Service, drive: np.ndarray) -> None:
    doubled = np.repeat(drive, 2, axis=0)
    answer = service.match(doubled, tidy="true")
    assert [point is None for point in answer["tracepoints"][:4]] == [False, True, False, True]


def test_equal_radiuses_are_the_accuracy(service: Service, network: Network, drive: np.ndarray, tmp_path: Path) -> None:
    answer = service.match(drive, radiuses=";".join(["20"] * len(drive)))
    assert answered(answer) == pieces_of(matched(network, [drive], tmp_path, "--sigma", "2000"), 0)
    assert answered(service.match(drive)) == pieces_of(matched(network, [drive], tmp_path), 0)


@pytest.mark.parametrize("query, code, name", [
    ("steps=true", "InvalidOptions", "steps"),
    ("annotations=true", "InvalidOptions", "annotations=true"),
    ("annotations=nodes", "InvalidOptions", "annotations=nodes"),
    ("bearings=0,20;0,20", "InvalidOptions", "bearings"),
    ("hints=abc;def", "InvalidOptions", "hints"),
    ("waypoints=0;1", "InvalidOptions", "waypoints"),
    ("exclude=motorway", "InvalidOptions", "exclude"),
    ("approaches=curb;curb", "InvalidOptions", "approaches"),
    ("radiuses=5;10", "InvalidOptions", "radiuses"),
    ("radiuses=5", "InvalidOptions", "radiuses"),
    ("timestamps=1", "InvalidOptions", "timestamps"),
    ("timestamps=2;1", "InvalidValue", "timestamps"),
    ("timestamps=1.5;2", "InvalidValue", "timestamps"),
    ("geometries=wkt", "InvalidValue", "geometries"),
    ("overview=some", "InvalidValue", "overview"),
    ("gaps=no", "InvalidValue", "gaps"),
    ("colour=red", "InvalidOptions", "colour"),
    ("tidy=true&tidy=false", "InvalidQuery", "tidy"),
])
def test_what_fmm_does_not_mean_is_refused_by_name(service: Service, query: str, code: str, name: str) -> None:
    answer = service.client.get(f"/match/v1/car/9,54;9.001,54?{query}")
    assert (answer.status_code, answer.json()["code"]) == (400, code) and name in answer.json()["message"]


@pytest.mark.parametrize("path, code", [
    ("/match/v1/car/9,54", "InvalidOptions"),
    ("/match/v1/car/9,54;x,54", "InvalidQuery"),
    ("/match/v1/car/9,54;9", "InvalidQuery"),
    ("/match/v1/car/9,54;9,nan", "InvalidQuery"),
    ("/match/v1/car/9,54;9,91", "InvalidValue"),
    ("/match/v1/car/polyline(%20)", "InvalidQuery"),
    ("/match/v1/car/" + ";".join(["9,54"] * 501), "TooBig"),
    ("/match/v1/c%2Far/9,54;9,54", "InvalidQuery"),
    ("/match/v2/car/9,54;9,54", "InvalidUrl"),
    ("/route/v1/car/9,54;9,54", "InvalidUrl"),
    ("/nearest/v1/car/9,54;9,54", "TooBig"),
    ("/nearest/v1/car/9,54?number=0", "InvalidValue"),
    ("/nearest/v1/car/9,54?radiuses=10", "NoSegment"),
    ("/../../etc/passwd", "InvalidUrl"),
    ("/%2e%2e/%2e%2e/etc/passwd", "InvalidUrl"),
])
def test_wrong_paths_are_refused(service: Service, path: str, code: str) -> None:
    answer = service.client.get(path)
    assert answer.status_code in (400, 404) and answer.json()["code"] == code, answer.text


def test_polylines_are_coordinates(service: Service, drive: np.ndarray) -> None:
    from fmm.service.polylines import encode
    text = encode(drive, 6)
    answer = service.client.get(f"/match/v1/car/polyline6({httpx.QueryParams(a=text)}".replace("(a=", "(") + ")").json()
    assert answer["code"] == "Ok" and len(answer["tracepoints"]) == len(drive)


def test_nearest_edges(service: Service, network: Network, drive: np.ndarray) -> None:
    answer = service.client.get(f"/nearest/v1/driving/{coordinates(drive[:1])}?number=3").json()
    distances = [point["distance"] for point in answer["waypoints"]]
    assert answer["code"] == "Ok" and len(distances) == 3 and distances == sorted(distances)
    assert answer["waypoints"][0]["name"] == network.edges.name[answer["waypoints"][0]["edge"]]


def test_headers_keep_scripts_and_frames_out(service: Service) -> None:
    for path in ("/", "/health", "/match/v1/car/9,54;9,54", "/nothing", "/docs"):
        headers = service.client.get(path).headers
        assert headers["x-frame-options"] == "DENY" and headers["x-content-type-options"] == "nosniff"
        assert "default-src 'none'" in headers["content-security-policy"]
        assert "unsafe" not in headers["content-security-policy"] and "http" not in headers["content-security-policy"]


def test_other_methods_and_origins_are_refused(service: Service) -> None:
    assert service.client.post("/health").status_code == 405
    headers = {"origin": "http://other.example", "content-type": "text/csv"}
    other = service.client.post("/match", content=b"id,lon,lat\n", headers=headers)
    assert other.status_code == 403


def test_bodies_are_bounded(service: Service) -> None:
    answer = service.client.post("/match", content=b"x" * (1 << 20) + b"x", headers={"content-type": "text/csv"})
    assert (answer.status_code, answer.json()["code"]) == (413, "TooBig")
    rows = "id,lon,lat\n" + "a,9,54\n" * 501
    answer = service.client.post("/match", content=rows, headers={"content-type": "text/csv"})
    assert answer.json()["code"] == "TooBig"


def test_sixteen_clients_get_the_answers_of_match(service: Service, network: Network, tmp_path: Path) -> None:
    """A thousand drives in random order. The clients are plain sockets, since httpx takes longer than the service."""
    made = [drive[:14] for drive in drives(1000, far=0.01)]
    places = np.split(degrees(network, np.concatenate(made)), np.cumsum([len(drive) for drive in made])[:-1])
    text = matched(network, places, tmp_path)
    order = list(range(len(places)))
    random.Random(5).shuffle(order)
    found: dict[int, bytes] = {}

    async def client(host: str, port: str) -> None:
        reader, writer = await asyncio.open_connection(host, int(port))
        while order:
            number = order.pop()
            path = f"/match/v1/car/{coordinates(places[number])}?overview=false&skip_waypoints=true"
            writer.write(f"GET {path} HTTP/1.1\r\nhost: {host}\r\n\r\n".encode())
            size = re.search(rb"content-length: (\d+)", await reader.readuntil(b"\r\n\r\n"))
            assert size
            found[number] = await reader.readexactly(int(size[1]))
        writer.close()

    async def clients() -> None:
        host, _, port = service.url.removeprefix("http://").partition(":")
        await asyncio.gather(*(client(host, port) for _ in range(16)))

    asyncio.run(clients())
    assert len(found) == len(places)
    for number, body in found.items():
        assert answered(json.loads(body)) == pieces_of(text, number), number


def wait_for(answers: list[object], count: int) -> None:
    """Waits until there are so many answers."""
    until = time.monotonic() + 60
    while len(answers) < count:
        assert time.monotonic() < until, "the service does not answer any more"
        time.sleep(0.01)


def test_a_killed_program_or_worker_loses_no_request(service: Service, network: Network, drive: np.ndarray,
                                                     tmp_path: Path) -> None:
    wanted = pieces_of(matched(network, [drive], tmp_path), 0)
    done = threading.Event()
    answers: list[object] = []

    def ask() -> None:
        while not done.is_set():
            answers.append(answered(httpx.get(f"{service.url}/match/v1/car/{coordinates(drive)}", **PLAIN).json()))

    threads = [threading.Thread(target=ask) for _ in range(3)]
    for thread in threads:
        thread.start()
    for kind in (1, 0, 1, 0, 1):
        wait_for(answers, len(answers) + 4)
        for pid in service.children()[kind][:1]:
            os.kill(pid, signal.SIGKILL)
    wait_for(answers, len(answers) + 8)
    done.set()
    for thread in threads:
        thread.join()
    assert all(answer == wanted for answer in answers)
    assert service.metric("fmm_lost_workers_total") + service.metric("fmm_replaced_programs_total") >= 1


def test_a_stopped_program_harms_its_own_request_only(network: Network, drive: np.ndarray) -> None:
    with running(network.path, "--processes", "2", "--seconds", "2") as service:
        stopped = service.children()[1][0]
        os.kill(stopped, signal.SIGSTOP)
        statuses = [httpx.get(f"{service.url}/match/v1/car/{coordinates(drive)}", **PLAIN).status_code for _ in range(6)]
        assert sorted(set(statuses)) in ([200], [200, 504]) and statuses.count(504) <= 1
        until = time.monotonic() + 20
        while alive(stopped) and time.monotonic() < until:
            httpx.get(f"{service.url}/match/v1/car/{coordinates(drive)}", **PLAIN)
        assert not alive(stopped)
        host, _, port = service.url.rpartition("/")[2].partition(":")
        with socket.create_connection((host, int(port)), 20) as slow:
            slow.sendall(b"POST /match HTTP/1.1\r\nhost: a\r\ncontent-type: text/csv\r\ncontent-length: 10\r\n\r\nid,")
            assert slow.recv(100).startswith(b"HTTP/1.1 408 ")
        assert service.client.get("/health").json() == {"status": "ok", "workers": 2, "of": 2}


def test_waiting_is_bounded(network: Network, drive: np.ndarray) -> None:
    words = ["--processes", "1", "--waiting", "1", "--seconds", "3", "--allow-origin", "https://a.example"]
    with running(network.path, *words) as service:
        os.kill(service.children()[1][0], signal.SIGSTOP)

        async def all_at_once() -> list[httpx.Response]:
            async with httpx.AsyncClient(base_url=service.url, **PLAIN) as http:
                return list(await asyncio.gather(*(http.get(f"/match/v1/car/{coordinates(drive)}") for _ in range(6))))

        answers = asyncio.run(all_at_once())
        refused = [answer for answer in answers if answer.status_code == 503]
        assert all(answer.headers["access-control-allow-origin"] == "https://a.example" for answer in answers)
        assert "access-control-allow-origin" not in service.client.get("/health").headers
        assert len(refused) >= 4 and all(answer.headers["retry-after"] == "1" for answer in refused)
        assert service.match(drive)["code"] == "Ok"


def test_drives_that_fail_together_are_asked_again(network: Network, drive: np.ndarray) -> None:
    from fmm.service.matcher import Matcher
    from fmm.service.settings import Limits, Settings
    from fmm.service.worker import Worker
    worker = Worker(network, Settings(limits=Limits(seconds=2)))
    worker.matcher = Matcher(network, worker.settings.options, worker.settings.limits)
    frames = [({"do": "match", "profile": "car", "coordinates": text, "query": ""}, b"") for text in (coordinates(drive), "9;9")]
    try:
        os.kill(worker.matcher.program.child.pid, signal.SIGSTOP)
        first, wrong, last = worker.replies([frames[0], frames[1], frames[0]])
        assert first.again and last.again and not wrong.again and wrong.status == 400
        os.kill(worker.matcher.program.child.pid, signal.SIGKILL)
        assert [(reply.status, reply.again) for reply in worker.replies(frames[:1] * 3)] == [(200, False)] * 3
        os.kill(worker.matcher.program.child.pid, signal.SIGSTOP)
        assert [(reply.status, reply.again) for reply in worker.replies(frames[:1])] == [(504, False)]
    finally:
        worker.matcher.close()


class Echo:
    """Stands for the process that forks workers. A worker answers with its request, but not more than one at once, and ends at
    the request `end`."""

    def __init__(self) -> None:
        self.sizes: list[int] = []

    def worker(self) -> socket.socket:
        ours, theirs = socket.socketpair()
        threading.Thread(target=self._work, args=(theirs,), daemon=True).start()
        return ours

    def _work(self, connection: socket.socket) -> None:
        connection.sendall(packed({}))
        arriving = Frames(connection)
        with connection:
            while frames := arriving.all():
                self.sizes.append(len(frames))
                if any(head["do"] == "end" for head, _ in frames):
                    return
                time.sleep(0.05)  # so that others wait
                for head, _ in frames:
                    connection.sendall(packed({"again": len(frames) > 1, "positions": 1}, head["do"].encode()))


def test_requests_that_failed_together_are_sent_alone() -> None:
    from fmm.service.metrics import Metrics
    from fmm.service.pool import Pool
    from fmm.service.settings import Limits
    echo = Echo()

    async def run() -> list[object]:
        pool = Pool(echo, 1, Limits(), Metrics())  # type: ignore[arg-type]
        await pool.start()
        words = ["a", "b", "end", "c", "d"]
        found = await asyncio.gather(*(pool.ask({"do": word}, shares=True) for word in words), return_exceptions=True)
        await pool.close()
        return [one if isinstance(one, BaseException) else one[1].decode() for one in found]

    found = asyncio.run(asyncio.wait_for(run(), 30))
    assert [str(one) for one in found] == ["a", "b", "the request ended two workers", "c", "d"]
    assert max(echo.sizes) > 1


def test_large_programs_are_replaced(network: Network, drive: np.ndarray, tmp_path: Path) -> None:
    wanted = pieces_of(matched(network, [drive], tmp_path), 0)
    from fmm.options import Options
    from fmm.service.matcher import Matcher
    from fmm.service.settings import Limits
    matcher = Matcher(network, Options(), Limits(memory=0))
    try:
        x, y = network.projection.to_centimetres(drive[:, 0], drive[:, 1], 4326)
        until = time.monotonic() + 120
        while matcher.replaced < 3:
            assert time.monotonic() < until, "no program was replaced"
            rows = np.stack([x, y, np.zeros(len(x), np.int64)], axis=1)
            text = matcher.match(rows, np.array([len(x)]), None, time.monotonic() + 60)
            assert pieces_of(text, 0) == wanted
            time.sleep(0.05)
    finally:
        matcher.close()


def test_no_program_starts_over_a_network_that_was_exchanged(network: Network, drive: np.ndarray, tmp_path: Path) -> None:
    from fmm.options import Options
    from fmm.service.matcher import Matcher
    from fmm.service.refusals import Refused
    from fmm.service.settings import Limits
    shutil.copytree(network.path.parent, tmp_path / "own")
    own = Network.open(tmp_path / "own" / network.path.name)
    matcher = Matcher(own, Options(), Limits())
    try:
        x, y = own.projection.to_centimetres(drive[:, 0], drive[:, 1], 4326)
        rows, counts = np.stack([x, y, np.zeros(len(x), np.int64)], axis=1), np.array([len(x)])
        assert len(matcher.match(rows, counts, None, time.monotonic() + 60).cost)
        own.path.write_text("edge,from,to,line\n1,1,2,0 0;100 0\n", encoding="ascii")
        os.kill(matcher.program.child.pid, signal.SIGKILL)
        for _ in range(2):
            with pytest.raises(Refused, match="was changed after it was read") as refused:
                matcher.match(rows, counts, None, time.monotonic() + 60)
            assert refused.value.status == 500
    finally:
        matcher.close()


def test_the_service_ends_with_all_its_processes(network: Network) -> None:
    with running(network.path, "--processes", "2") as service:
        workers, programs = service.children()
        assert workers and programs
    until = time.monotonic() + 10
    while any(map(alive, workers + programs)) and time.monotonic() < until:
        time.sleep(0.1)
    assert not any(map(alive, workers + programs)) and service.process.returncode == 0


def test_a_signal_while_workers_start_ends_the_service(network: Network, tmp_path: Path) -> None:
    program = tmp_path / "program"
    program.write_text(f"#!/bin/sh\necho > {tmp_path}/started\nexec sleep 30\n")
    program.chmod(0o755)
    process = subprocess.Popen([str(TOP / "fmm"), "serve", str(network.path), "--port", "0"], stderr=subprocess.DEVNULL,
                               env={**os.environ, "FMM_PROGRAM": str(program)})
    until = time.monotonic() + 60
    while not (tmp_path / "started").exists() and time.monotonic() < until:
        time.sleep(0.05)
    time.sleep(0.5)
    process.send_signal(signal.SIGTERM)
    assert process.wait(60) == 128 + signal.SIGTERM


def test_no_process_is_left_when_the_service_is_killed(network: Network) -> None:
    with running(network.path, "--processes", "2") as service:
        workers, programs = service.children()
        assert workers and programs
        service.process.kill()
        until = time.monotonic() + 20
        while any(map(alive, workers + programs)) and time.monotonic() < until:
            time.sleep(0.1)
        assert not any(map(alive, workers + programs))


def test_it_listens_on_this_machine_only(service: Service) -> None:
    port = int(service.url.rpartition(":")[2])
    names = subprocess.run(["hostname", "-I"], capture_output=True, text=True).stdout.split()
    for name in names[:1]:
        with socket.socket(socket.AF_INET6 if ":" in name else socket.AF_INET) as other:
            assert other.connect_ex((name, port)) != 0
