"""Feeds of positions, in one process, with kills between."""
from __future__ import annotations

import json
from collections import Counter
from collections.abc import Sequence
from dataclasses import dataclass
from pathlib import Path
from typing import Optional

from fmm.errors import FmmError
from fmm.feed.intake import Feed, Intake, Reading, Rules
from fmm.feed.notices import Notices
from fmm.feed.outlet import outlet_of
from fmm.feed.reading import placing_of, timing_of
from fmm.feed.reports import Columns, Reader
from fmm.feed.sources import Payload
from fmm.feed.state import State

from .common import AS_CLEAN, NAMED, REFUSED, Broken, Draw, hold
from .tables import BAD_NUMBERS, BAD_TIMES, START

HEADER = "vehicle,longitude,latitude,time"
IDS = ["007", "7", "red", "blue 1", "ä", "a.b", "=1+1"]
BAD_IDS = ["", " ", "x\ny", "x\u0000", "x\r", "\x1b[2J", "9" * 1001, "a\u2028b", "\ud800"]
BAD_PAYLOADS = [b"", b"\xff\xfe", b"{", b"[]", b"null", b'{"vehicle":"a"}', b'"', b"a,1", b"a,1,2,3,4,5", b"[" * 5000,
                b"a" * 70_000,
                b'{"vehicle":"a","longitude":1e999,"latitude":1,"time":5}',
                b'{"vehicle":["a"],"longitude":1,"latitude":1,"time":5}',
                b'"a,1,2,3', b'{"vehicle":"a","longitude":NaN,"latitude":1,"time":5}', b"\xef\xbb\xbf", b"\x1b]0;x\x07"]
Said = tuple[str, int, int, int]


@dataclass
class Sent:
    """A payload. `said` is what it says; None if it says nothing that can be used."""

    data: bytes
    said: Optional[Said]


class Heard(Notices):
    """Keeps the messages."""

    def __init__(self) -> None:
        super().__init__("fmm feed")
        self.lines: list[str] = []

    def say(self, text: str) -> None:
        """Keeps a message."""
        self.lines.append(text)


class Given:
    """Gives payloads in batches. What was not acknowledged comes again. After `last` batches the feed is killed."""

    def __init__(self, sent: list[Sent], first: int, sizes: list[int], last: Optional[int]) -> None:
        self.sent, self.at, self.sizes, self.last = sent, first, sizes, last
        self.acknowledged = first
        self.batches = 0

    def receive(self, until: float) -> Optional[Sequence[Payload]]:
        """The next batch."""
        if self.last is not None and self.batches >= self.last:
            raise Killed
        if self.at >= len(self.sent):
            return None
        size = self.sizes[self.batches % len(self.sizes)]
        found = [Payload(sent.data, f"line {number + 1}") for number, sent in enumerate(self.sent)][self.at:self.at + size]
        self.at, self.batches = self.at + size, self.batches + 1
        return found

    def acknowledge(self) -> None:
        """What was given will not come again."""
        self.acknowledged = min(self.at, len(self.sent))

    def close(self) -> None:
        """Nothing is open."""


class Killed(BaseException):
    """Ends a feed as a kill does."""


def payload_of(draw: Draw, form: str, name: str, x: str, y: str, time: str) -> bytes:
    if form != "json":
        return f"{name},{x},{y},{time}".encode("utf-8", "surrogatepass")
    values = {"vehicle": name, "longitude": x, "latitude": y, "time": time}
    if draw.coin():
        return json.dumps(values).encode()
    plain = {key: json.dumps(value) if key == "vehicle" or not value else value for key, value in values.items()}
    numbers = ",".join(f'"{key}":{value}' for key, value in plain.items())
    return ("{" + numbers + "}").encode("utf-8", "surrogatepass")


def make_sent(draw: Draw, form: str) -> list[Sent]:
    """Positions of some vehicles by rising times, with one to three faults."""
    sent = []
    for number in range(2 + draw.below(10)):
        name, second = draw.one(IDS), START + 5 * number
        values = [name, f"{number}.5", f"-{number}", str(second)]
        sent.append(Sent(payload_of(draw, form, *values), (name, 100 * number + 50, -100 * number, second)))
    for _ in range(1 + draw.below(3)):
        add_fault(draw, form, sent)
    return sent


def add_fault(draw: Draw, form: str, sent: list[Sent]) -> None:
    at, what = draw.below(len(sent)), draw.below(8)
    said = sent[at].said
    if what == 0:
        sent[at] = Sent(draw.one(BAD_PAYLOADS), None)
    elif what in (1, 2, 3) and said is not None:
        values = [said[0], "1", "2", str(said[3])]
        bad = {1: [text for text in BAD_NUMBERS if text != "9."], 2: [*BAD_TIMES, ""], 3: BAD_IDS}[what]
        values[{1: 1 + draw.below(2), 2: 3, 3: 0}[what]] = draw.one(bad)
        sent[at] = Sent(payload_of(draw, form, *values), None)
    elif what == 4:
        sent.insert(draw.below(len(sent) + 1), sent[at])
    elif what == 5:
        sent.insert(draw.below(len(sent) + 1), sent.pop(at))
    elif what == 6:
        sent[at] = Sent(sent[at].data[:draw.below(len(sent[at].data) + 1)] + draw.one([b"\0", b"\xff", b",", b'"']), None)
    elif said is not None:
        values = [said[0], "1", "2", draw.one(["4102444800", str(START - 86_400)])]
        sent[at] = Sent(payload_of(draw, form, *values), (said[0], 100, 200, int(values[3])))
    draw.say(f"payload {at + 1} of fault {what}: {sent[min(at, len(sent) - 1)].data[:60]!r}")


class Feeds:
    """A feed into a file of rows, which is killed and started again."""

    def __init__(self, room: Path) -> None:
        self.room = room
        self.placing, self.timing = placing_of(None, "metres"), timing_of(False, "UTC", Notices("fmm feed"))

    def case(self, draw: Draw) -> str:
        """See Kind."""
        form = draw.one(["rows", "json", "csv"])
        sent = make_sent(draw, form)
        if form == "csv":
            sent.insert(0, Sent(HEADER.encode(), None))
        kills = [1 + draw.below(4) for _ in range(draw.below(3))] if form != "csv" else []
        sizes = [1 + draw.below(4), 1 + draw.below(8)]
        wait = draw.one([0.0, 5.0, 60.0])
        draw.say(f"form {form}, wait {wait}, kills {kills}, batches of {sizes}")
        for path in self.room.iterdir():
            path.unlink()
        heard, first = Heard(), 0
        for last in [*kills, None]:
            try:
                first = self.run(Given(sent, first, sizes, last), form, Rules(wait=wait), heard)
            except FmmError as fault:
                hold(str(fault).isprintable(), f"the message is not one line: {str(fault)!r}")
                hold(first == 0 and form == "csv", f"the feed ends: {fault}")
                return REFUSED
        return judge(sent, (self.room / "rows.csv").read_text(), self.ids, heard)

    def run(self, given: Given, form: str, rules: Rules, heard: Heard) -> int:
        """Runs a feed until it ends or is killed. Returns how many payloads were acknowledged."""
        state = State(self.room / "state.db")
        try:
            intake = Intake(Reading(Reader(form, Columns()), self.placing, self.timing), state, rules, heard)
            outlet = outlet_of(self.room / "rows.csv", state)
            try:
                Feed(given, intake, outlet).run()
            except Killed:
                pass
            outlet.close()
            self.ids = dict(state.drives())
        finally:
            state.close()
        return given.acknowledged


def judge(sent: list[Sent], text: str, ids: dict[int, str], heard: Heard) -> str:
    """Each payload is a row with what it says, or named; no row comes twice, and those of a vehicle by rising times."""
    header, *lines = text.split("\n")
    hold(header == "trace,x,y,time" and lines.pop() == "", "the file of rows is no trace file")
    rows: Counter[Said] = Counter()
    before: dict[str, int] = {}
    for line in lines:
        number, x, y, second = map(int, line.split(","))
        said = ids[number], x, y, second
        hold(second > before.get(said[0], 0), f"the time goes back in {line}")
        before[said[0]] = second
        rows[said] += 1
    hold(not rows or max(rows.values()) == 1, "a row comes twice")
    named = {line.split(" is left out")[0] for line in heard.lines}
    for number, payload in enumerate(sent, 1):
        if f"line {number}" not in named and payload.data not in (b"", HEADER.encode(), b"\xef\xbb\xbf", b"\n"):
            if payload.said is None:
                raise Broken(f"payload {number} {payload.data[:60]!r} is neither a row nor named")
            hold(rows[payload.said] == 1, f"payload {number} is neither a row nor named")
    wanted = {payload.said for payload in sent if payload.said is not None}
    hold(set(rows) <= wanted, f"rows that no payload says: {sorted(set(rows) - wanted)}")
    return NAMED if named else AS_CLEAN
