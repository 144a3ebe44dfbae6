"""Layers of lines in CSV, read as a network."""
from __future__ import annotations

from collections import Counter
from pathlib import Path

from fmm.errors import FmmError
from fmm.network import Network

from . import common
from .common import AS_CLEAN, NAMED, Draw, hold, refusal

HEADER = "WKT,label,note"
BYTE_FAULTS = [common.cut, common.cut_anywhere, common.marked, common.with_carriage_returns, common.changed_byte,
               common.dropped_byte, common.inserted(b"\0", "NUL"), common.inserted(b"\xff", "a byte that is not UTF-8"),
               common.inserted(b'"', "a quote"), common.inserted(b"\r", "CR")]
LINES = ["LINESTRING (nan 1,2 3)", "LINESTRING (1 2)", "POINT (1 2)", "LINESTRING EMPTY", "", "LINESTRING (5 6", "x"]


def make_lines(draw: Draw) -> list[str]:
    """Streets apart from each other, each with a name of its own."""
    return [f'"LINESTRING ({500_000 + 10 * at} {6_000_000 + 100 * at},{500_050 + 10 * at} {6_000_000 + 100 * at})",'
            f"Street {at},{draw.one(['', 'a', '=1+1'])}" for at in range(2 + draw.below(6))]


def faulty(draw: Draw, line: str) -> str:
    shape, _, rest = line.rpartition('",')
    label, _, note = rest.partition(",")
    new = draw.one([f'{shape}",{label},"{note}', f'{shape}","{label},{note}', f"{line},more", f'{shape}",{label}', shape,
                    f'"{draw.one(LINES)}",{label},{note}', f'{shape},{label},{note}', "", '"', f'{shape}",{label}""x,{note}'])
    draw.say(f"{line!r} becomes {new!r}")
    return new


class Layers:
    """A table of lines with one to three faults. Each line that has none is a street of the network."""

    def __init__(self, room: Path) -> None:
        self.path = room / "roads.csv"

    def case(self, draw: Draw) -> str:
        """See Kind."""
        lines = make_lines(draw)
        clean = dict(enumerate(lines))
        data = b""
        for _ in range(1 + draw.below(3)):
            if draw.coin(3):
                at = draw.below(len(lines))
                lines[at] = faulty(draw, lines[at] or '"')
                clean.pop(at, None)
        data = "".join(line + "\n" for line in [HEADER, *lines]).encode()
        if draw.coin() or len(clean) == len(lines):
            data = draw.one(BYTE_FAULTS)(draw, data)
        self.path.write_bytes(data)
        try:
            network = Network.from_file(self.path, crs="32N", columns={"name": "label"})
        except FmmError as fault:
            return refusal(fault, "roads.csv")
        return judge(network, clean, data)


def judge(network: Network, clean: dict[int, str], data: bytes) -> str:
    """Each record is two edges, or counted as left out; those of lines without faults are where they were."""
    text = data.decode("utf-8-sig").replace("\r\n", "\n").split("\n")
    found = Counter(network.edges["name"].tolist())
    for at, line in clean.items():
        if line in text:
            others = sum(f"Street {at}" in other for other in text if other != line)  # a fault may give another line its name
            hold(2 <= found[f"Street {at}"] <= 2 + 2 * others, f"street {at} is {found[f'Street {at}']} edges")
            x, y = (500_000 + 10 * at) * 100, (6_000_000 + 100 * at) * 100
            named = [network.lines.first[edge] for edge, name in enumerate(network.edges["name"]) if name == f"Street {at}"]
            begins = {tuple(network.lines.xy[first].tolist()) for first in named}
            hold({(x, y), (x + 5_000, y)} <= begins, f"street {at} is elsewhere")
    records = sum(line != "" for line in text[1:])
    said = [int(words.split()[0]) for words in str(network.report).split("left out: ")[1:]]
    hold(2 * (records - sum(said)) == network.edge_count, f"{records} records, {said} left out, {network.edge_count} edges")
    return NAMED if said else AS_CLEAN
