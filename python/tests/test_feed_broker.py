"""`fmm feed` and a real broker."""
import json
import os
import random
import time

import forks
import pytest
from brokers import Broker, needs_mosquitto
from feeds import WORDS, rows
from feeds import start as start_feed

import fmm.feed.broker  # noqa: F401  so that a fork has all modules

pytestmark = needs_mosquitto
VEHICLES = 20
KILLS = int(os.environ.get("FMM_KILLS", "5"))


@pytest.fixture
def broker(tmp_path):
    running = Broker(tmp_path)
    yield running
    running.stop()


def start(broker, folder, *words):
    more = ["--columns", "vehicle,x,y,time", "--mqtt", f"127.0.0.1:{broker.port}", "--topic", "fleet/+/position"]
    with open(folder / "said.txt", "a") as said:
        return start_feed("--into", "rows.csv", *more, *words, cwd=folder, stderr=said)


def positions(count, first=0):
    return [(f"van {i % VEHICLES}", json.dumps({"x": i, "y": i % VEHICLES, "time": 1000 + i // VEHICLES}))
            for i in range(first, first + count)]


def written(folder):
    """The whole rows that a feed has written, without those of the vehicle `probe`."""
    path = folder / "rows.csv"
    text = path.read_text() if path.exists() else ""
    found = rows(text[:text.rfind("\n") + 1]) if "\n" in text else []
    return [row for row in found if row[1] >= 0]


def wait_for(folder, count, seconds=90):
    end = time.monotonic() + seconds
    while time.monotonic() < end and len(written(folder)) < count:
        time.sleep(0.2)


def start_listening(broker, folder, *words):
    """Starts a feed and waits until it has subscribed: until a position of the vehicle `probe` has come through."""
    run = start(broker, folder, *words)
    path = folder / "rows.csv"
    before = path.read_text().count(",-100,0,") if path.exists() else 0
    for _ in range(120):
        broker.publish([("probe", json.dumps({"x": -1, "y": 0, "time": time.time()}))])
        time.sleep(0.5)
        if path.exists() and path.read_text().count(",-100,0,") > before:
            return run
    raise AssertionError("the feed did not subscribe")


def stop(run):
    run.terminate()
    assert run.wait(30) == 0


def test_each_position_is_written_once_over_kills(broker, tmp_path):
    stop(start_listening(broker, tmp_path, "--wait", "0"))
    broker.publish(positions(5000))
    chance = random.Random(7)
    for _ in range(KILLS):
        run = start(broker, tmp_path, "--wait", "0.5")
        before = len(written(tmp_path))
        wait_for(tmp_path, before + 1, 20)
        time.sleep(chance.uniform(0, 0.05))
        run.kill()
        run.wait(30)
    last = start_listening(broker, tmp_path, "--wait", "0.5")
    wait_for(tmp_path, 5000)
    stop(last)
    found = written(tmp_path)
    assert len(found) == len(set(found)) == 5000
    assert {row[1] // 100 for row in found} == set(range(5000))
    assert len({row[0] for row in found}) == VEHICLES


def test_a_broker_that_stops_is_awaited(broker, tmp_path):
    run = start_listening(broker, tmp_path, "--wait", "0.2")
    broker.publish(positions(100))
    wait_for(tmp_path, 100)
    broker.stop()
    time.sleep(1)
    broker.start()
    broker.publish(positions(100, 100))
    wait_for(tmp_path, 200)
    stop(run)
    assert {row[1] // 100 for row in written(tmp_path)} == set(range(200))
    assert (tmp_path / "said.txt").read_text().count("the broker is gone") == 1


def test_the_topic_names_the_vehicle_and_bad_payloads_are_named(broker, tmp_path):
    run = start_listening(broker, tmp_path, "--wait", "0.2", "--ids", "ids.csv")
    wrong = [("van 1", b"\xff"), ("van 1", b'{"x": 1e308, "y": 0, "time": 1}'), ("van 1", b"")]
    named = ("van 2", b'{"vehicle": "tram 3", "x": 1, "y": 0, "time": 1}')
    broker.publish([*wrong, ("van 1", b'{"x": 1, "y": 0, "time": 1}'), named])
    wait_for(tmp_path, 2)
    stop(run)
    assert {line.split(",")[1] for line in (tmp_path / "ids.csv").read_text().splitlines()} == {"id", "probe", "van 1", "tram 3"}
    said = (tmp_path / "said.txt").read_text()
    assert "message of fleet/van 1/position is left out: invalid UTF-8" in said and "farther away than fmm takes" in said


def test_a_broker_that_is_not_there_is_an_error(tmp_path):
    words = ["--state", "state.db", "--mqtt", "127.0.0.1:1", "--topic", "a/+"]
    done = forks.run(*WORDS, *words, folder=tmp_path)
    assert done.returncode == 1 and "the broker 127.0.0.1:1 cannot be reached" in done.stderr and "Traceback" not in done.stderr
