"""The session of a feed with its broker, without a broker."""
from __future__ import annotations

import os
import socket
import threading
import time
from collections.abc import Iterator
from typing import Any

import pytest

pytest.importorskip("paho.mqtt.client", reason="python3-paho-mqtt is not installed")

from fmm.errors import FmmError  # noqa: E402
from fmm.feed import broker as module  # noqa: E402
from fmm.feed.broker import Address, Broker  # noqa: E402
from fmm.feed.notices import Notices  # noqa: E402


class Server:
    """Takes connections and ends each at once, as a proxy without a broker does."""

    def __init__(self) -> None:
        self.listener, self.count = socket.create_server(("127.0.0.1", 0)), 0
        self.port = self.listener.getsockname()[1]
        self.thread = threading.Thread(target=self._run, daemon=True)
        self.thread.start()

    def _run(self) -> None:
        while True:
            try:
                connection, _ = self.listener.accept()
            except OSError:
                return
            self.count += 1
            connection.close()


@pytest.fixture
def server() -> Iterator[Server]:
    made = Server()
    yield made
    made.listener.shutdown(socket.SHUT_RDWR)
    made.listener.close()
    made.thread.join()


@pytest.fixture
def notices() -> Iterator[Notices]:
    read, write = os.pipe()
    made = Notices("fmm feed", write)
    made.said = lambda: os.read(read, 65_536).decode()  # type: ignore[attr-defined]
    yield made
    os.close(read)
    os.close(write)


def test_a_broker_that_ends_each_connection_is_asked_again_after_a_pause(server: Server, notices: Notices) -> None:
    broker = Broker(Address("127.0.0.1", "fleet/+", server.port), notices)
    assert broker.receive(time.monotonic() + 2.5) == []
    broker.close()
    assert 2 <= server.count <= 4  # it was thousands


class Buffered:
    """A socket with nothing to read, and a layer of encryption above it that has messages."""

    def __init__(self, messages: int) -> None:
        self.ends, self.left = socket.socketpair(), messages

    def fileno(self) -> int:
        return self.ends[0].fileno()

    def pending(self) -> int:
        return self.left


class Client:
    """A client whose messages have been decrypted already."""

    def __init__(self, messages: int) -> None:
        self.buffer = Buffered(messages)

    def connect(self, *_: Any, **__: Any) -> None:
        """Is connected."""

    def socket(self) -> Buffered:
        return self.buffer

    def want_write(self) -> bool:
        return False

    def loop_misc(self) -> None:
        """Has nothing to do."""

    def loop_read(self, _: int) -> int:
        self.buffer.left -= 1
        message = type("Message", (), {"topic": "fleet/van 7", "payload": b"{}"})
        self.on_message(None, None, message)  # type: ignore[attr-defined]
        return 0


def test_messages_that_are_decrypted_already_do_not_wait(notices: Notices, monkeypatch: pytest.MonkeyPatch) -> None:
    """The system shows nothing to read then."""
    client = Client(module.AT_ONCE + 5)
    monkeypatch.setattr(module, "client_of", lambda *_, **__: client)
    broker = Broker(Address("127.0.0.1", "fleet/+", tls=True), notices)
    client.buffer.ends[1].send(b"x")
    assert len(broker.receive(time.monotonic() + 5) or []) == module.AT_ONCE
    client.buffer.ends[0].recv(1)
    assert len(broker.receive(time.monotonic() + 0.5) or []) == 5


def test_a_subscription_without_acknowledgements_is_said(server: Server, notices: Notices) -> None:
    broker = Broker(Address("127.0.0.1", "fleet/+", server.port), notices)
    broker.client.on_subscribe(None, None, 1, (0,))
    assert "grants quality of service 0 only: it keeps no messages" in notices.said()  # type: ignore[attr-defined]


@pytest.mark.parametrize("code, is_refused", [(3, False), (4, True), (5, True)])
def test_a_broker_that_is_not_ready_yet_is_awaited(server: Server, notices: Notices, code: int, is_refused: bool) -> None:
    broker = Broker(Address("127.0.0.1", "fleet/+", server.port), notices)
    broker.client.on_connect(broker.client, None, {}, code)
    if is_refused:
        with pytest.raises(FmmError, match="refuses the connection"):
            broker.receive(time.monotonic() + 2)
    else:
        assert broker.receive(time.monotonic() + 0.5) == []
