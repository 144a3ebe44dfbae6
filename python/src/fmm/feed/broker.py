"""Positions from an MQTT broker.

Messages have quality of service 1 and the session survives, so the broker keeps what comes while no feed runs. A message is
acknowledged after the state has it: paho queues the acknowledgement when the message is read, and it is sent by `acknowledge`.
"""
from __future__ import annotations

import re
import select
import time
from collections.abc import Sequence
from dataclasses import dataclass
from typing import Any, Optional

import paho.mqtt.client as mqtt

from ..errors import FmmError, InputError
from .notices import Notices
from .sources import Payload

AT_ONCE = 1000  # messages that are read before the state is written
FIRST_PAUSE, LONGEST_PAUSE = 1.0, 60.0  # seconds between attempts to reach the broker
NOT_READY = 3  # the code of a broker that takes no connections yet


@dataclass(frozen=True)
class Address:
    """A broker and a topic. The levels of a topic that `+` and `#` match are the id of a vehicle, unless the payload has one."""

    host: str
    topic: str
    port: int = 1883
    client: str = "fmm-feed"
    user: Optional[str] = None
    password: Optional[str] = None
    tls: bool = False

    @staticmethod
    def parts(text: str) -> tuple[str, int]:
        """The host and the port of an option such as `broker:1883`. A ValueError says what is wrong."""
        found = re.fullmatch(r"\[?([^\[\]]+?)\]?(?::(\d{1,5}))?", text)
        if not found or not 0 < int(found[2] or 1883) < 65_536:
            raise ValueError(f"{text} is no host, or host and port")
        return found[1], int(found[2] or 1883)

    @property
    def where(self) -> str:
        """The host and the port, for messages."""
        return f"{self.host}:{self.port}"

    def vehicle(self, topic: str) -> Optional[str]:
        """The part of a topic that the wildcards match."""
        pattern = re.escape(self.topic).replace(r"\+", "([^/]+)").replace(r"\#", "#").replace("#", "(.+)")
        found = re.fullmatch(pattern, topic)
        return "/".join(found.groups()) if found and found.groups() else None


def client_of(address: Address, **words: Any) -> Any:
    """A client of paho with the callbacks of its first version, which each version has."""
    versions = getattr(mqtt, "CallbackAPIVersion", None)
    client = mqtt.Client(*(() if versions is None else (versions.VERSION1,)), **words)
    if address.user is not None:
        client.username_pw_set(address.user, address.password)
    if address.tls:
        client.tls_set()
    return client


def connect(client: Any, address: Address) -> None:
    """Begins a connection. InputError: the broker cannot be reached."""
    try:
        client.connect(address.host, address.port, keepalive=60)
    except (OSError, ValueError) as fault:
        raise InputError(f"the broker {address.where} cannot be reached: {fault}") from None


def refusal_of(address: Address, code: int) -> str:
    """Why a broker refuses a connection."""
    return f"the broker {address.where} refuses the connection: {mqtt.connack_string(code)}"


class Broker:
    """A connection to a broker, which is made again when it breaks."""

    def __init__(self, address: Address, notices: Notices) -> None:
        self.address, self.notices = address, notices
        self.found: list[Payload] = []
        self.pause, self.retry_at, self.is_up, self.refusal = FIRST_PAUSE, 0.0, False, ""
        self.client = client_of(address, client_id=address.client, clean_session=False)
        self.client.on_connect = self._connected
        self.client.on_message = self._take
        self.client.on_subscribe = self._subscribed
        # with this callback paho leaves all writes to us, acknowledgements too
        self.client.on_socket_register_write = lambda *_: None
        connect(self.client, address)
        self._write()

    def _connected(self, client: Any, _: Any, __: Any, code: int, *___: Any) -> None:
        if int(code) == NOT_READY:
            return  # the broker ends the connection, and is asked again
        if int(code):
            self.refusal = refusal_of(self.address, int(code))
        else:
            client.subscribe(self.address.topic, qos=1)

    def _subscribed(self, _: Any, __: Any, ___: Any, granted: Sequence[Any], *____: Any) -> None:
        if int(granted[0]) == 128:
            self.refusal = f"the broker refuses the topic {self.address.topic}"
        else:
            if int(granted[0]) == 0:
                self.notices.say("the broker grants quality of service 0 only: it keeps no messages while no feed runs")
            self.notices.say(f"takes messages of {self.address.topic} from {self.address.where}")
            self.is_up, self.pause = True, FIRST_PAUSE

    def _take(self, _: Any, __: Any, message: Any) -> None:
        try:
            topic = message.topic
        except UnicodeDecodeError:
            self.found.append(Payload(message.payload, "a message", fault="its topic is invalid UTF-8"))
            return
        self.found.append(Payload(message.payload, f"message of {topic}", self.address.vehicle(topic)))

    def receive(self, until: float) -> Optional[Sequence[Payload]]:
        """The messages that have come; none after `until`."""
        self.found = []
        while not self.found and (until == float("inf") or time.monotonic() < until):
            timeout = min(1.0, max(0.0, until - time.monotonic()))
            socket = self.client.socket()
            if socket is None:
                self._reconnect(timeout)
                continue
            if _has_data(socket, timeout):
                self._read(socket)
            self.client.loop_misc()
            if not self.found:
                self._write()
            if self.refusal:
                raise FmmError(self.refusal)
        return self.found

    def _read(self, socket: Any) -> None:
        """Reads the messages that are there."""
        while len(self.found) < AT_ONCE:
            if self.client.loop_read(1) != mqtt.MQTT_ERR_SUCCESS or self.client.socket() is None:
                return
            if not _has_data(socket, 0):
                return

    def _write(self) -> None:
        while self.client.socket() is not None and self.client.want_write():
            if not select.select([], [self.client.socket()], [], 10)[1] or self.client.loop_write() != mqtt.MQTT_ERR_SUCCESS:
                return

    def _reconnect(self, timeout: float) -> None:
        if self.is_up:
            self.is_up = False
            self.notices.say("the broker is gone; the feed tries to reach it again")
        now = time.monotonic()
        if now < self.retry_at:
            time.sleep(min(timeout, self.retry_at - now))
            return
        # also after a connection that the other end takes and ends at once
        self.retry_at = now + self.pause
        self.pause = min(2 * self.pause, LONGEST_PAUSE)
        try:
            self.client.reconnect()
            self._write()
        except OSError:
            pass  # the next attempt comes after the pause

    def acknowledge(self) -> None:
        """Sends the acknowledgements of all messages that were given."""
        self._write()

    def close(self) -> None:
        """Leaves the broker, which keeps the session."""
        if self.client.socket() is not None:
            self.client.disconnect()
            self._write()


def _has_data(socket: Any, timeout: float) -> bool:
    """Whether a socket has something to read within a timeout. What its layer of encryption has read already counts: the system
    does not know of it."""
    pending = getattr(socket, "pending", None)
    return bool(pending and pending()) or bool(select.select([socket], [], [], timeout)[0])
