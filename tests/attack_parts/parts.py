"""Parts of a fleet: the folder of `fmm fleet`, whose files are damaged and then joined."""
from __future__ import annotations

import contextlib
import os
from pathlib import Path

from fmm.errors import FmmError
from fmm.fleet.call import Call, match_fleet
from fmm.fleet.join import join
from fmm.fleet.parts import Run

from . import common
from .common import AS_CLEAN, TOP, Draw, hold, line_fault, refusal
from .texts import program

BYTE_FAULTS = [common.cut, common.cut_anywhere, common.changed_byte, common.changed_byte, common.dropped_byte,
               common.with_carriage_returns, common.inserted(b"\0", "NUL"), common.inserted(b"0", "a zero"),
               common.inserted(b"\n", "a line feed")]


class Parts:
    """A fleet in several groups whose parts, index or manifest have faults. What is joined is the text without faults."""

    def __init__(self, room: Path) -> None:
        examples = TOP / "examples"
        call = Call(examples / "network.csv", examples / "traces.csv", room / "run", program("large_program"), jobs=1, points=5,
                    options=["--gap", "120"])
        with open(os.devnull, "w") as nothing, contextlib.redirect_stderr(nothing):
            match_fleet(call)
        self.folder = room / "run"
        self.wanted = (self.folder / "match.txt").read_bytes()
        names = ["index", "manifest.json", *(f"parts/{name}" for name in sorted(os.listdir(self.folder / "parts")))]
        self.clean = {name: (self.folder / name).read_bytes() for name in names}
        self.parts = names[2:]

    def case(self, draw: Draw) -> str:
        """See Kind."""
        files = dict(self.clean)
        for _ in range(1 + draw.below(3)):
            name = draw.one(self.parts + list(self.clean))
            draw.say(name)
            what = draw.below(6)
            if what == 0:
                files[name] = self.clean[draw.one(self.parts)]
                draw.say("another part")
            elif what < 3:
                files[name] = b"\n".join(line_fault(draw, files[name].split(b"\n")))
            elif files[name]:
                files[name] = draw.one(BYTE_FAULTS)(draw, files[name])
        for name, data in files.items():
            (self.folder / name).write_bytes(data)
        try:
            run = Run(self.folder)
            if run.missing():
                return common.REFUSED
            with open(os.devnull, "w") as nothing, contextlib.redirect_stderr(nothing):
                join(run, self.folder / "joined.txt")
        except FmmError as fault:
            return refusal(fault, "run", *self.clean)
        hold((self.folder / "joined.txt").read_bytes() == self.wanted, "another text was joined")
        return AS_CLEAN
