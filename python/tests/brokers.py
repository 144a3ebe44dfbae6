"""A Mosquitto broker for tests, on a port of its own."""
from __future__ import annotations

import shutil
import socket
import subprocess
import time
from collections.abc import Sequence
from pathlib import Path
from typing import Any, Union

import pytest

mqtt: Any = pytest.importorskip("paho.mqtt.client")
MOSQUITTO = shutil.which("mosquitto") or shutil.which("mosquitto", path="/usr/sbin")
needs_mosquitto = pytest.mark.skipif(MOSQUITTO is None, reason="mosquitto is not installed")


class Broker:
    """A broker that keeps messages over its own end."""

    def __init__(self, folder: Path) -> None:
        with socket.socket() as free:
            free.bind(("127.0.0.1", 0))
            self.port = free.getsockname()[1]
        self.settings = folder / "mosquitto.conf"
        self.settings.write_text(f"listener {self.port} 127.0.0.1\nallow_anonymous true\npersistence true\n"
                                 f"persistence_location {folder}/\nautosave_interval 1\nmax_queued_messages 0\nuser root\n")
        self.start()

    def start(self) -> None:
        """Starts it, and waits until it listens."""
        self.process = subprocess.Popen([str(MOSQUITTO), "-c", str(self.settings)], stderr=subprocess.DEVNULL)
        for _ in range(200):
            try:
                socket.create_connection(("127.0.0.1", self.port), 1).close()
                return
            except OSError:
                time.sleep(0.05)
        raise AssertionError("the broker did not start")

    def stop(self) -> None:
        """Ends it. It saves what it has."""
        self.process.terminate()
        self.process.wait(30)

    def publish(self, messages: Sequence[tuple[str, Union[str, bytes]]]) -> None:
        """Publishes (vehicle, payload) and waits until the broker has all of them."""
        publisher = mqtt.Client()
        publisher.max_inflight_messages_set(100)
        publisher.connect("127.0.0.1", self.port)
        publisher.loop_start()
        for done in [publisher.publish(f"fleet/{vehicle}/position", payload, qos=1) for vehicle, payload in messages]:
            done.wait_for_publish(60)
        publisher.disconnect()
        publisher.loop_stop()

    def listen(self, topic: str) -> tuple[Any, list[tuple[str, bytes]]]:
        """A client that has subscribed to a topic, and the list that gets what comes."""
        found: list[tuple[str, bytes]] = []
        client, ready = mqtt.Client(), []
        client.on_message = lambda _, __, message: found.append((message.topic, message.payload))
        client.on_connect = lambda *_: client.subscribe(topic, qos=1)
        client.on_subscribe = lambda *_: ready.append(True)
        client.connect("127.0.0.1", self.port)
        client.loop_start()
        end = time.monotonic() + 30
        while not ready:
            assert time.monotonic() < end, "the broker did not take the subscription"
            time.sleep(0.02)
        return client, found
