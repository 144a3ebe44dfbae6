"""Texts of match, follow and streams."""
from __future__ import annotations

import os
import re
import subprocess
from pathlib import Path

from fmm._match_text import MatchText, read_match
from fmm.errors import FmmError

from . import common
from .common import AS_CLEAN, NAMED, TOP, Draw, hold, line_fault, refusal

BYTE_FAULTS = [common.cut, common.cut_anywhere, common.changed_byte, common.changed_byte, common.dropped_byte, common.marked,
               common.with_carriage_returns, common.inserted(b"\0", "NUL"), common.inserted(b" ", "a blank"),
               common.inserted(b"\n", "a line feed"), common.inserted(b"0", "a zero")]


def program(name: str = "match_program") -> Path:
    """The program of the checkout, or that of the environment."""
    named = os.environ.get({"match_program": "FMM", "large_program": "FMM_LARGE"}[name])
    if named:
        return Path(named).absolute()
    done = subprocess.run([TOP / "tools" / "build", "--path", name], check=True, capture_output=True, text=True)
    return Path(done.stdout.strip())


class Texts:
    """A text of the example, with faults of lines and bytes. What is not refused has to say all that the text says."""

    def __init__(self, room: Path) -> None:
        files = [TOP / "examples" / "network.csv", TOP / "examples" / "traces.csv"]
        self.texts = [subprocess.run([program(), command, *files, "--gap", "120"], check=True, capture_output=True).stdout
                      for command in ("match", "match", "follow", "streams")]

    def case(self, draw: Draw) -> str:
        """See Kind."""
        clean = data = with_great_ids(draw, draw.one(self.texts)) if draw.coin(4) else draw.one(self.texts)
        for _ in range(1 + draw.below(3)):
            if draw.coin():
                data = b"\n".join(line_fault(draw, data.split(b"\n")))
            elif data:
                data = draw.one(BYTE_FAULTS)(draw, data)
        try:
            text = read_match(data, "match.txt")
        except FmmError as fault:
            return refusal(fault, "match.txt")
        if text.kind == "match":
            hold(written(text) == data, "the text says something that the arrays do not have")
        else:
            hold(lines_of(written(text)) == lines_of(data), "the text says something that the arrays do not have")
        return AS_CLEAN if data == clean else NAMED


def with_great_ids(draw: Draw, data: bytes) -> bytes:
    """The text with ids of traces up to the greatest one, 4,294,967,295, in place of small ones."""
    greatest = draw.one([4_294_967_295, 4_000_000_200])
    draw.say(f"ids below {greatest}")

    def great(found: re.Match[bytes]) -> bytes:
        return found[1] + b"%d" % (greatest - int(found[2]))

    data = re.sub(rb"(?m)^((?:[0-9]+ )?(?:trace|end) )([0-9]+)$", great, data)
    return re.sub(rb"(?m)^()([0-9]+)(?= )", great, data)


def written(text: MatchText) -> bytes:
    """The text of match of these arrays, written by their definition."""
    lines = []
    piece = 0
    for place, trace in enumerate(text.traces.tolist()):
        lines.append(f"trace {trace}")
        for at in range(*text.position_first[place:place + 2].tolist()):
            number = at - text.position_first[place]
            if text.edge[at] < 0:
                lines.append(f"none {number}")
                continue
            lines.append(f"at {number} edge {text.edge[at]} offset {text.offset[at]} d2 {text.d2[at]}")
            if piece < len(text.cost) and (text.piece_trace[piece], text.last[piece]) == (place, number):
                route = text.route[text.route_first[piece]:text.route_first[piece + 1]].tolist()
                lines.append(f"piece {text.first[piece]} {number} cost {text.cost[piece]} route {' '.join(map(str, route))}")
                piece += 1
        lines.append(f"end {trace}")
    total = f"total traces {len(text.traces)} points {len(text.edge)} pieces {len(text.cost)}"
    lines.append(total if text.rows is None else f"{total} rows {text.rows}")
    return "".join(line + "\n" for line in lines).encode()


def lines_of(text: bytes) -> list[bytes]:
    """The lines of a text without the ids of streams and without the lines that say when others were settled."""
    lines = [re.sub(rb"^[0-9]+ ", b"", line) for line in text.split(b"\n")]
    return sorted(line for line in lines if not re.fullmatch(rb"fix [0-9]+|finish", line))
