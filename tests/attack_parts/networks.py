"""Network files with their side files."""
from __future__ import annotations

from pathlib import Path

from fmm.errors import FmmError
from fmm.network import Network

from . import common
from .common import AS_CLEAN, TOP, Draw, hold, line_fault, refusal

FILES = ["network.csv", "network.edges.csv", "network.json"]
BYTE_FAULTS = [common.cut, common.cut_anywhere, common.changed_byte, common.changed_byte, common.dropped_byte,
               common.with_carriage_returns, common.packed, common.inserted(b"\0", "NUL"), common.inserted(b"0", "a zero"),
               common.inserted(b"{", "a brace")]


class Networks:
    """Three files that belong together, with faults in some. What is not refused is the network that they were, or another one if
    all three are of it."""

    def __init__(self, room: Path) -> None:
        village = TOP / "recipes" / "small" / "village.osm"
        self.room, self.path = room, room / "network.csv"
        self.other, self.other_network = self.files_of(Network.from_osm(village, crs="33N"))
        self.clean, self.network = self.files_of(Network.from_osm(village, crs="32N"))

    def files_of(self, network: Network) -> tuple[dict[str, bytes], Network]:
        """The three files of a network, and the network that is read from them."""
        network.save(self.path)
        return {name: (self.room / name).read_bytes() for name in FILES}, Network.open(self.path)

    def case(self, draw: Draw) -> str:
        """See Kind."""
        files = dict(self.clean)
        for _ in range(1 + draw.below(3)):
            name = draw.one(FILES)
            draw.say(name)
            what = draw.below(8)
            if what == 0:
                files[name] = self.other[name]
                draw.say("of another network")
            elif what < 3:
                files[name] = b"\n".join(line_fault(draw, files[name].split(b"\n")))
            elif files[name]:
                files[name] = draw.one(BYTE_FAULTS)(draw, files[name])
        for name, data in files.items():
            (self.room / name).write_bytes(data)
        try:
            network = Network.open(self.path)
        except FmmError as fault:
            return refusal(fault, *FILES)
        compare(network, self.other_network if files == self.other else self.network)
        return AS_CLEAN


def compare(network: Network, wanted: Network) -> None:
    """Both have to be the same network."""
    lines, known = network.lines, wanted.lines
    same = all(len(a) == len(b) and (a == b).all() for a, b in (
        (lines.ids, known.ids), (lines.first, known.first), (lines.xy, known.xy), (lines.from_node, known.from_node),
        (lines.to_node, known.to_node), (network.parts.street, wanted.parts.street)))
    hold(same, "other edges")
    hold(network.table.equals(wanted.table), "another table")
    hold(network.projection.crs == wanted.projection.crs, "another projection")
    hold(str(network.report) == str(wanted.report), "another report")
