"""Objects as messages of an MQTT broker."""
from __future__ import annotations

import os
import re
import threading
import time
from collections.abc import Sequence
from typing import Any
from urllib.parse import quote, unquote, urlsplit

from ..errors import InputError, OptionError, OutputError
from ..feed.broker import NOT_READY, Address, client_of, connect, refusal_of
from ..feed.notices import Notices
from .drives import Object
from .sinks import Stop, lines_of

SLICE = 0.5  # seconds between looks at the signal to end
LOST = 5.0  # seconds without the broker after which that is said
ANSWER = 30.0  # seconds for the answer of a broker at the beginning


def address_of(word: str) -> Address:
    """The broker and the topic of an address such as mqtt://user@host:1883/topic. OptionError: it is none."""
    parts = urlsplit(word)
    topic = unquote(parts.path.strip("/"))
    try:
        port = parts.port or 1883
    except ValueError:
        port = 0
    if parts.password is not None:
        raise OptionError(f"mqtt://{parts.hostname}: the password belongs into FMM_MQTT_PASSWORD of the environment")
    if not parts.hostname or not port or not topic or re.search(r"[+#\0]", topic):
        raise OptionError(f"{word}: mqtt://HOST[:PORT]/TOPIC is wanted, without + and #")
    user = None if parts.username is None else unquote(parts.username)
    return Address(parts.hostname, topic, port, user=user, password=os.environ.get("FMM_MQTT_PASSWORD"))


class Publisher:
    """Publishes to TOPIC/VEHICLE/KIND. A settled object has quality of service 1 and is written when the broker has it; a
    provisional one has quality of service 0 and is left out while the broker is away or slow."""

    def __init__(self, address: Address, stop: Stop, notices: Notices) -> None:
        self.address, self.stop, self.notices = address, stop, notices
        self.news = threading.Condition()  # of what the thread of paho tells
        self.arrived: set[int] = set()  # numbers of messages that the broker has
        self.refusal = ""
        self.client: Any = client_of(address)
        self.client.max_inflight_messages_set(200)
        self.client.reconnect_delay_set(1, 30)
        self.client.on_connect, self.client.on_publish = self._connected, self._published
        connect(self.client, address)
        self.client.loop_start()
        with self.news:
            self.news.wait_for(lambda: self.refusal or self.client.is_connected(), ANSWER)
        if not self.client.is_connected():
            self.close()
            raise InputError(self.refusal or f"the broker {address.where} does not answer")

    def _connected(self, _: Any, __: Any, ___: Any, code: int, *____: Any) -> None:
        with self.news:
            self.refusal = refusal_of(self.address, int(code)) if int(code) not in (0, NOT_READY) else ""
            self.news.notify()

    def _published(self, _: Any, __: Any, number: int, *___: Any) -> None:
        with self.news:
            self.arrived.add(number)
            self.news.notify()

    def write(self, objects: Sequence[Object], text: bytes) -> None:
        with self.news:
            self.arrived.clear()  # numbers are used again
        sent = {self.client.publish(self._topic(one), lines_of([one])[:-1], qos=1).mid for one in objects}
        since, is_said = time.monotonic(), False
        while True:
            with self.news:
                if self.news.wait_for(lambda: self.refusal or sent <= self.arrived, SLICE) and not self.refusal:
                    return
            if self.refusal:
                raise OutputError(self.refusal)
            if not is_said and not self.client.is_connected() and time.monotonic() - since > LOST:
                is_said = True
                self.notices.say(f"the broker {self.address.where} is gone; positions wait until it is back")
            self.stop.check(f"the broker {self.address.where}")

    def offer(self, objects: Sequence[Object]) -> None:
        if self.client.is_connected() and not self.client.want_write():
            for one in objects:
                self.client.publish(self._topic(one), lines_of([one])[:-1], qos=0)

    def _topic(self, one: Object) -> str:
        return f"{self.address.topic}/{quote(one['vehicle'], safe=' ')}/{one['kind']}"

    def close(self) -> None:
        self.client.disconnect()
        self.client.loop_stop()
