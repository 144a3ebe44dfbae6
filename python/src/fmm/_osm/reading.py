"""Reads ways and places of nodes from an OpenStreetMap file, each in a pass of its own."""
from __future__ import annotations

import bz2
import gzip
import os
import re
import shutil
import tempfile
import xml.parsers.expat
import zlib
from array import array
from contextlib import contextmanager, suppress
from dataclasses import dataclass, field
from pathlib import Path
from typing import IO, Any, Iterator, Union

import numpy as np
import osmium
from osmium.osm import osm_entity_bits

from .._progress import bar
from ..errors import InputError, OutputError, PathText
from .profiles import Profile, Rules

NODE = np.dtype([("id", "<i8"), ("x", "<i4"), ("y", "<i4")])  # a record of libosmium's sparse_file_array
UNIT = 1e-7  # degrees
CHUNK = 1 << 20
PACKED, PLAIN = 2.5, 0.4  # bytes for places of nodes, for each byte of a file; large extracts have 1.6 to 2.1 as PBF
KINDS = (
    (b"\x1f\x8b", "osm.gz"), (b"BZh", "osm.bz2"), (b"\xef\xbb\xbf<", "osm"), (b"<", "osm"),
)
SUSPECT = re.compile(rb"action\s*=\s*[\"']delete|visible\s*=\s*[\"']false|l(?:at|on)\s*=\s*[\"'][^\"'eE]{0,30}[eE]")
COLUMNS = ("class", "name", "ref", "maxspeed", "maxspeed_backward")
TWICE = "comes twice; merge files by osmium merge, which drops what is double"


@dataclass
class Ways:
    """The ways of the profile: their ids, their nodes (of way w: refs[first[w]:first[w + 1]]), directions and tags."""

    ids: np.ndarray
    first: np.ndarray
    refs: np.ndarray
    forward: np.ndarray
    backward: np.ndarray
    tags: dict[str, list[str]]
    others: int = 0
    deleted: list[int] = field(default_factory=list)


@dataclass
class Deleted:
    """Ids of objects that an XML file marks as deleted."""

    node: set[int] = field(default_factory=set)
    way: set[int] = field(default_factory=set)
    relation: set[int] = field(default_factory=set)


class Source:
    """An OpenStreetMap file (.pbf, or XML that may be packed by gzip or bzip2, by its content), opened by `opened`."""

    def __init__(self, path: PathText, link: str, kind: str) -> None:
        self.path, self.link, self.kind = os.fspath(path), link, kind
        self.deleted = self._deleted() if kind.startswith("osm") and kind != "osm.pbf" else Deleted()

    def apply(self, entities: Any, *handlers: Any) -> None:
        """Runs handlers over the objects of some kinds."""
        try:
            reader = osmium.io.Reader(self.link, entities)
            if reader.header().has_multiple_object_versions:
                raise InputError("is a history file; give a file of the present state", self.path)
            osmium.apply(reader, *handlers)
            reader.close()
        except (RuntimeError, ValueError, osmium.InvalidLocationError) as fault:
            raise InputError(self._explained(str(fault)), self.path) from None

    def _explained(self, text: str) -> str:
        line = re.search(r"line ([0-9]+)", text)
        if "no element found" in text or "unclosed token" in text:
            return f"is cut: its XML does not end (line {line[1] if line else '?'})"
        if "unexpected EOF" in text or "truncated" in text:
            return "is cut: it ends within a block"
        if text.startswith("Unknown top-level element"):
            return f"is not OpenStreetMap XML: its root is <{text.rpartition(' ')[2]}>, not <osm>"
        if "illegal id" in text:
            return f"an id that is no number: {text.partition(': ')[2]}"
        if "wrong format for coordinate" in text:
            return f"a coordinate that is no longitude or latitude: {text.partition(': ')[2]}"
        return f"cannot be read as OpenStreetMap data: {text}"

    def _deleted(self) -> Deleted:
        """What is marked as deleted: action="delete" by editors, visible="false" in histories. libosmium ignores the first.

        Refused: coordinates such as 1e308, which libosmium takes for 0.
        """
        found = Deleted()
        try:
            with self._open() as file:
                end = b""
                while block := file.read(1 << 20):
                    if SUSPECT.search(end + block):
                        break
                    end = block[-60:]
                else:
                    return found
            with self._open() as file:
                self._parse(file, found)
        except (OSError, EOFError, zlib.error) as fault:
            raise InputError(f"is cut or damaged: {fault}", self.path) from None
        except (xml.parsers.expat.ExpatError, ValueError, LookupError) as fault:
            raise InputError(self._explained(f"illegal id: {fault}" if isinstance(fault, ValueError) else str(fault)),
                             self.path) from None
        return found

    def _parse(self, file: IO[bytes], found: Deleted) -> None:
        def begin(name: str, attributes: dict[str, str]) -> None:
            for key in ("lat", "lon"):
                if "e" in attributes.get(key, "").lower() and abs(float(attributes[key])) > 360:
                    number, value = attributes.get("id", ""), attributes[key]
                    raise InputError(f"node {number}: {value} is no longitude or latitude", self.path, parser.CurrentLineNumber)
            if attributes.get("action") == "delete" or attributes.get("visible") == "false":
                if name in ("node", "way", "relation"):
                    getattr(found, name).add(int(attributes.get("id", "")))

        parser = xml.parsers.expat.ParserCreate()
        parser.StartElementHandler = begin
        parser.ParseFile(file)

    def _open(self) -> Any:
        openers: dict[str, Any] = {"osm.gz": gzip.open, "osm.bz2": bz2.open}
        return openers.get(self.kind, open)(self.path, "rb")


@contextmanager
def opened(path: PathText) -> Iterator[Source]:
    """Opens an OpenStreetMap file by its content, whatever it is called. Refused with InputError: anything else."""
    name = os.fspath(path)
    try:
        with open(path, "rb") as file:
            head = file.read(1024)
            if not file.seekable():
                raise InputError("is a pipe, and the map is read several times; give a file", name)
    except OSError as fault:
        raise InputError(fault.strerror or fault, name) from None
    with tempfile.TemporaryDirectory(prefix="fmm-") as folder:
        kind = kind_of(head, name)
        link = Path(folder, f"map.{kind}")  # libosmium takes the format from the name
        link.symlink_to(Path(path).absolute())
        yield Source(path, str(link), kind)


def kind_of(head: bytes, name: str) -> str:
    if not head:
        raise InputError("is empty", name)
    if b"OSMHeader" in head[:80]:
        return "osm.pbf"
    for begin, kind in KINDS:
        if head.lstrip(b" \t\r\n").startswith(begin):
            return kind
    raise InputError("is no OpenStreetMap data: neither PBF nor XML", name)


class WayHandler(osmium.SimpleHandler):
    """Collects the ways of a profile."""

    def __init__(self, rules: Union[Profile, Rules], deleted: set[int], progress: Any) -> None:
        super().__init__()
        self.rules, self.known_deleted, self.progress = rules, deleted, progress
        self.ids, self.refs, self.ends = array("q"), array("q"), array("q")
        self.forward, self.backward = array("b"), array("b")
        self.tags: dict[str, list[str]] = {}
        self.words: dict[str, str] = {}
        self.others = self.count = 0
        self.deleted: list[int] = []

    def way(self, way: Any) -> None:
        self.count += 1
        if self.count % 65536 == 0:
            self.progress.update(65536)
        if way.deleted or way.id in self.known_deleted:
            self.deleted.append(way.id)
        elif "highway" in way.tags:
            tags = {tag.k: tag.v for tag in way.tags}
            directions = self.rules(tags)
            if directions is None or not any(directions):
                self.others += 1
            else:
                self._add(way, tags, directions)

    def _add(self, way: Any, tags: dict[str, str], directions: tuple[bool, bool]) -> None:
        self.ids.append(way.id)
        self.refs.extend(node.ref for node in way.nodes)
        self.ends.append(len(self.refs))
        self.forward.append(bool(directions[0]))
        self.backward.append(bool(directions[1]))
        both = tags.get("maxspeed", "")
        values = (tags.get("highway", ""), tags.get("name", ""), tags.get("ref", ""), tags.get("maxspeed:forward", both),
                  tags.get("maxspeed:backward", both))
        for column, value in zip(COLUMNS, values):
            self.tags.setdefault(column, []).append(self.words.setdefault(value, value))


def read_ways(source: Source, rules: Union[Profile, Rules]) -> Ways:
    """The ways of a profile. Refused with InputError: a way that comes twice, ids below 1."""
    with bar(desc=f"{source.path}: ways", unit="", unit_scale=True, leave=False) as progress:
        handler = WayHandler(rules, source.deleted.way, progress)
        source.apply(osm_entity_bits.WAY, handler)
    ids, refs = np.array(handler.ids, np.int64), np.array(handler.refs, np.int64)
    check_ids("way", ids, source)
    check_ids("node", refs, source)
    seen, counts = np.unique(np.concatenate([ids, np.array(handler.deleted, np.int64)]), return_counts=True)
    if (counts > 1).any():
        raise InputError(f"way {seen[counts > 1][0]} {TWICE}", source.path)
    first = np.concatenate([[0], np.array(handler.ends, np.int64)]).astype(np.int64)
    forward, backward = (np.array(flags, np.int8).astype(bool) for flags in (handler.forward, handler.backward))
    return Ways(ids, first, refs, forward, backward, handler.tags, handler.others, handler.deleted)


def check_ids(what: str, ids: np.ndarray, source: Source) -> None:
    if len(ids) and ids.min() < 1:
        raise InputError(f"{what} {ids.min()}: ids below 1 are of objects that no map has yet; give them ids above 0, such as by "
                         "osmium renumber", source.path)


def room_for(source: Source) -> str:
    """The folder of temporary files. Refused with OutputError: a folder that may be too small for the places of all nodes, since
    libosmium would be ended by the system there."""
    folder = tempfile.gettempdir()
    folder = "/tmp" if "," in folder else folder  # libosmium takes a comma for the end of the path
    wanted = int(os.path.getsize(source.path) * (PLAIN if source.kind == "osm" else PACKED))
    free = shutil.disk_usage(folder).free
    if free < wanted:
        need = f"the nodes of {source.path} may need {wanted // 1_000_000 + 1} MB there"
        raise OutputError(f"{folder}: {need}, and {free // 1_000_000} MB are free; name another folder in TMPDIR")
    return folder


@contextmanager
def file_of_places(source: Source) -> Iterator[str]:
    """The path of a temporary file. libosmium leaves it open, so that its room would not come back before the process ends."""
    with tempfile.TemporaryDirectory(prefix="fmm-", dir=room_for(source)) as folder:
        path = os.path.join(folder, "nodes")
        try:
            yield path
        finally:
            close_file(path)


def close_file(path: str) -> None:
    """Closes all descriptors of a file in this process."""
    for name in os.listdir("/dev/fd"):
        with suppress(OSError):  # the folder was open itself
            if os.path.samestat(os.fstat(int(name)), os.stat(path)):
                os.close(int(name))


def read_places(source: Source, wanted: np.ndarray) -> tuple[np.ndarray, np.ndarray, np.ndarray]:
    """Longitudes and latitudes of nodes by their ids (sorted, each once), and which of them the file has.

    libosmium writes the places of all nodes to a temporary file of 16 bytes a node, from which the wanted ones are taken in
    chunks. Refused with InputError: a wanted node that comes twice; with OutputError: no room for the file.
    """
    x, y = np.full(len(wanted), np.nan), np.full(len(wanted), np.nan)
    known = np.zeros(len(wanted), bool)
    with file_of_places(source) as path:
        try:
            index = osmium.index.create_map(f"sparse_file_array,{path}")
        except RuntimeError as fault:  # it begins with a file of 16 MB
            raise OutputError(f"{os.path.dirname(path)}: {fault}; name another folder in TMPDIR") from None
        source.apply(osm_entity_bits.NODE, osmium.NodeLocationsForWays(index))
        count = index.used_memory() // NODE.itemsize
        for begin in range(0, count, CHUNK):
            nodes = np.fromfile(path, NODE, min(CHUNK, count - begin), offset=begin * NODE.itemsize)
            at = np.searchsorted(wanted, nodes["id"])
            hits = at < len(wanted)
            hits[hits] = wanted[at[hits]] == nodes["id"][hits]
            at, nodes = at[hits], nodes[hits]
            ordered = np.sort(at)
            twice = np.concatenate([at[known[at]], ordered[1:][ordered[1:] == ordered[:-1]]])
            if len(twice):
                raise InputError(f"node {wanted[twice[0]]} {TWICE}", source.path)
            x[at], y[at], known[at] = nodes["x"] * UNIT, nodes["y"] * UNIT, True
        del index
    known &= (np.abs(x) <= 180) & (np.abs(y) <= 90)
    if source.deleted.node:
        known &= ~np.isin(wanted, np.fromiter(source.deleted.node, np.int64))
    return x, y, known
