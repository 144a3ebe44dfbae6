"""`fmm track` and a real broker."""
from __future__ import annotations

import json
import os
import random
import signal
import time
from collections.abc import Iterator
from pathlib import Path

import pytest
from brokers import Broker, needs_mosquitto
from tracks import BEGIN, Fleet, Run, assert_once_and_as_matched, fleet, of_kind, read_objects

pytestmark = needs_mosquitto


@pytest.fixture
def broker(tmp_path: Path) -> Iterator[Broker]:
    running = Broker(tmp_path)
    yield running
    running.process.kill()
    running.process.wait(30)


@pytest.fixture(scope="module")
def made(tmp_path_factory: pytest.TempPathFactory) -> Fleet:
    return fleet(tmp_path_factory.mktemp("network"), 20)


def messages(made: Fleet, first: int = 0, last: int | None = None) -> list[tuple[str, str]]:
    return [(vehicle, json.dumps({"x": x, "y": y, "time": time})) for vehicle, x, y, time in made.rows[first:last]]


def start(broker: Broker, made: Fleet, folder: Path, *words: str) -> Run:
    form = ["--crs", "metres", "--columns", "vehicle,x,y,time", "--no-provisional", "--wait", "0"]
    where = ["--mqtt", f"127.0.0.1:{broker.port}", "--topic", "fleet/+/position"]
    return Run(made.network.path, folder, *form, *where, *words, metres=False)


def end_all(broker: Broker, path: Path, count: int) -> None:
    """Publishes positions so late that all drives end, and waits until they have."""
    end, at = time.monotonic() + 90, 0
    while len(set(settled(path))) < count:
        assert time.monotonic() < end
        at += 1
        broker.publish([("probe", json.dumps({"x": 0, "y": 0, "time": BEGIN + 100_000 + 1000 * at}))])
        time.sleep(0.2)


def settled(path: Path) -> list[tuple[str, str]]:
    return [(one["vehicle"], one["time"]) for one in of_kind(read_objects(path), "position") if one["vehicle"] != "probe"]


def assert_all(path: Path, made: Fleet, folder: Path) -> None:
    assert_once_and_as_matched([one for one in read_objects(path) if one["vehicle"] != "probe"], made, folder)


def test_what_was_acknowledged_is_matched_once_over_kills(broker: Broker, made: Fleet, tmp_path: Path) -> None:
    path, chance, kills = tmp_path / "settled.txt", random.Random(5), int(os.environ.get("FMM_KILLS", "3"))
    part = len(made.rows) // (kills + 1)
    for kill in range(kills):
        run = start(broker, made, tmp_path, "--to", str(path))
        if kill == 0:
            wait_until_listening(broker, path)
        before = path.stat().st_size
        broker.publish(messages(made, part * kill, part * (kill + 1)))
        end = time.monotonic() + 30
        while time.monotonic() < end and path.stat().st_size == before:
            time.sleep(0.001)
        time.sleep(chance.uniform(0, 0.2))
        run.end(signal.SIGKILL)
    broker.publish(messages(made, part * kills))
    run = start(broker, made, tmp_path, "--to", str(path))
    end_all(broker, path, len(made.rows))
    assert run.end(signal.SIGTERM) == 0
    assert_all(path, made, tmp_path)


def wait_until_listening(broker: Broker, path: Path) -> None:
    """Waits until a position of `probe` has come through; the drives of others begin later."""
    for at in range(200):
        broker.publish([("probe", json.dumps({"x": 0, "y": 0, "time": BEGIN - 1000 + at}))])
        time.sleep(0.3)
        if path.exists() and path.stat().st_size:
            return
    raise AssertionError("the run did not subscribe")


def test_a_broker_that_is_killed_is_awaited_by_source_and_sink(broker: Broker, made: Fleet, tmp_path: Path) -> None:
    path, half = tmp_path / "settled.txt", len(made.rows) // 2
    address = f"mqtt://127.0.0.1:{broker.port}/track/all"
    run = start(broker, made, tmp_path, "--to", str(path), "--to", address)
    client, got = broker.listen("track/all/+/position")
    wait_until_listening(broker, path)
    broker.publish(messages(made, 0, half))
    end = time.monotonic() + 60
    while len(settled(path)) < half // 2 and time.monotonic() < end:
        time.sleep(0.05)
    time.sleep(2)  # the broker saves each second
    broker.process.kill()
    broker.process.wait(30)
    broker.start()
    time.sleep(1)
    broker.publish(messages(made, half))
    end_all(broker, path, len(made.rows))
    assert run.end(signal.SIGTERM) == 0
    assert_all(path, made, tmp_path)
    wanted = set(settled(path))
    end = time.monotonic() + 30
    while time.monotonic() < end and not wanted <= {key(payload) for _, payload in got}:
        time.sleep(0.1)
    client.loop_stop()
    assert wanted <= {key(payload) for _, payload in got}
    assert all(topic == f"track/all/{json.loads(payload)['vehicle']}/position" for topic, payload in got)
    assert "the broker is gone" in run.said.read_text()


def key(payload: bytes) -> tuple[str, str]:
    one = json.loads(payload)
    return one["vehicle"], one["time"]
