"""Small OpenStreetMap files for tests."""
from __future__ import annotations

from pathlib import Path
from typing import Any, Mapping, Optional, Sequence
from xml.sax.saxutils import quoteattr

import osmium

METRE = 1 / 111_320  # degrees of latitude, and of longitude on the equator


def osm_text(nodes: Mapping[int, tuple[float, float]], ways: Mapping[int, tuple[Sequence[int], Mapping[str, str]]],
             relations: Sequence[tuple[int, Mapping[str, str], Sequence[tuple[str, str, int]]]] = (), north: float = 0.1) -> str:
    """The XML of a map near the equator; places are metres to the east and to the north of 9 E and 0.1 N."""
    lines = ["<?xml version='1.0' encoding='UTF-8'?>", '<osm version="0.6">']
    for number, (x, y) in nodes.items():
        lines.append(f'<node id="{number}" lat="{north + y * METRE:.7f}" lon="{9 + x * METRE:.7f}"/>')
    for number, (refs, tags) in ways.items():
        lines.append(f'<way id="{number}">' + "".join(f'<nd ref="{ref}"/>' for ref in refs) + tags_text(tags) + "</way>")
    for number, tags, members in relations:
        inner = "".join(f'<member type="{kind}" ref="{ref}" role="{role}"/>' for role, kind, ref in members)
        lines.append(f'<relation id="{number}">{inner}{tags_text(tags)}</relation>')
    return "\n".join([*lines, "</osm>", ""])


def tags_text(tags: Mapping[str, str]) -> str:
    return "".join(f"<tag k={quoteattr(key)} v={quoteattr(value)}/>" for key, value in tags.items())


def street(refs: Sequence[int], **tags: str) -> tuple[Sequence[int], Mapping[str, str]]:
    return refs, {"highway": "residential", **{key.replace("__", ":"): value for key, value in tags.items()}}


def turn(number: int, kind: str, origin: int, via: int, target: int, via_kind: str = "node",
         **tags: str) -> tuple[int, Mapping[str, str], Sequence[tuple[str, str, int]]]:
    about = {"type": "restriction", "restriction": kind, **{key.replace("__", ":"): value for key, value in tags.items()}}
    return number, about, (("from", "way", origin), ("via", via_kind, via), ("to", "way", target))


def write(folder: Path, text: str, name: str = "map.osm") -> Path:
    path = folder / name
    path.write_text(text, encoding="utf-8")
    return path


class Copy(osmium.SimpleHandler):
    """Copies the objects of a map."""

    def __init__(self, path: Path) -> None:
        super().__init__()
        self.writer = osmium.SimpleWriter(str(path))

    def node(self, node: Any) -> None:
        self.writer.add_node(node)

    def way(self, way: Any) -> None:
        self.writer.add_way(way)

    def relation(self, relation: Any) -> None:
        self.writer.add_relation(relation)


def to_pbf(path: Path, target: Path) -> Path:
    """Converts a map; the name of the target ends in .osm.pbf."""
    copy = Copy(target)
    copy.apply_file(str(path))
    copy.writer.close()
    return target


def grid(size: int, step: float = 100.0, tags: Optional[Mapping[str, str]] = None,
         ) -> tuple[dict[int, tuple[float, float]], dict[int, tuple[Sequence[int], Mapping[str, str]]]]:
    """Crossings 1 to size * size in rows from the south, and a way between each two neighbours: way 1RC0 leads from row R and
    column C to the east, 1RC1 to the north (two digits each)."""
    nodes = {1 + row * size + column: (column * step, row * step) for row in range(size) for column in range(size)}
    ways = {}
    for row in range(size):
        for column in range(size):
            here = 1 + row * size + column
            about = {"highway": "residential", **(tags or {})}
            if column + 1 < size:
                ways[way_id(row, column, 0)] = ([here, here + 1], about)
            if row + 1 < size:
                ways[way_id(row, column, 1)] = ([here, here + size], about)
    return nodes, ways


def way_id(row: int, column: int, up: int) -> int:
    return 100_000 + row * 1000 + column * 10 + up
