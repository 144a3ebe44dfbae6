"""Networks from OpenStreetMap files."""
from __future__ import annotations

import bz2
import gzip
import math
import os
import shutil
import tempfile
from pathlib import Path

import pytest
from osm_maps import grid, osm_text, street, to_pbf, way_id, write

from fmm import Network
from fmm.errors import InputError, OptionError, OutputError

DATA = Path(__file__).parent / "data"
NODES = {1: (0.0, 0.0), 2: (100.0, 0.0), 3: (200.0, 0.0), 4: (100.0, 100.0), 5: (300.0, 0.0)}


def test_the_village_is_that_of_the_script(small: Path, tmp_path: Path) -> None:
    network = Network.from_osm(small / "village.osm")
    assert network.path.read_bytes() == (DATA / "village_network.csv").read_bytes()
    assert network.projection.name == "EPSG:32632 (UTM 32N)" and not network.needs_large
    edges = network.edges
    assert edges.loc[1, ["way", "class", "name", "direction"]].tolist() == ["101", "residential", "Lange Straße", "forward"]
    assert edges.crs.to_epsg() == 32632 and edges.geometry.iloc[0].length == pytest.approx(edges["length"].iloc[0], abs=0.05)
    assert "1 nodes: the file lacks their places" in str(network.report)
    main = Network.from_osm(small / "village.osm", profile="main", crs="33N")
    assert main.path.read_bytes() == (DATA / "village_main_network.csv").read_bytes()


def test_all_formats_are_told_apart_by_content(small: Path, tmp_path: Path) -> None:
    text = (small / "village.osm").read_bytes()
    (tmp_path / "a.gz").write_bytes(gzip.compress(text))
    (tmp_path / "b").write_bytes(bz2.compress(text))
    (tmp_path / "c.pbf").write_bytes(text)
    to_pbf(small / "village.osm", tmp_path / "d.osm.pbf")
    (tmp_path / "d.osm.pbf").rename(tmp_path / "d.osm")
    wanted = Network.from_osm(small / "village.osm").checksum
    for name in ("a.gz", "b", "c.pbf", "d.osm"):
        assert Network.from_osm(tmp_path / name).checksum == wanted


@pytest.mark.parametrize("tags, directions", [
    ({}, "both"), ({"oneway": "yes"}, "forward"), ({"oneway": "1"}, "forward"), ({"oneway": "-1"}, "backward"),
    ({"oneway": "no", "junction": "roundabout"}, "both"), ({"junction": "roundabout"}, "forward"),
    ({"junction": "circular"}, "forward"), ({"highway": "motorway"}, "forward"), ({"highway": "motorway_link"}, "both"),
    ({"access": "no"}, ""), ({"access": "private"}, "both"), ({"access": "no", "motor_vehicle": "yes"}, "both"),
    ({"motor_vehicle": "agricultural"}, ""), ({"vehicle": "no"}, ""), ({"motorcar": "no"}, ""), ({"area": "yes"}, ""),
    ({"highway": "cycleway"}, ""), ({"highway": "track"}, ""), ({"highway": "track", "motor_vehicle": "yes"}, "both"),
    ({"highway": "proposed"}, ""), ({"vehicle:backward": "no"}, "forward"),
    ({"oneway": "yes", "oneway:bicycle": "no"}, "forward"),
])
def test_directions_for_cars(tmp_path: Path, tags: dict, directions: str) -> None:
    check_directions(tmp_path, tags, directions, "car")


@pytest.mark.parametrize("profile, tags, directions", [
    ("bicycle", {"oneway": "yes", "oneway:bicycle": "no"}, "both"), ("bicycle", {"oneway": "yes"}, "forward"),
    ("bicycle", {"oneway": "yes", "cycleway": "opposite"}, "both"), ("bicycle", {"highway": "motorway"}, ""),
    ("bicycle", {"highway": "path"}, "both"),
    ("bicycle", {"highway": "footway"}, ""), ("bicycle", {"highway": "footway", "bicycle": "yes"}, "both"),
    ("bicycle", {"highway": "trunk"}, ""), ("bicycle", {"oneway": "yes", "cycleway:left:oneway": "-1"}, "both"),
    ("foot", {"oneway": "yes"}, "both"), ("foot", {"highway": "steps"}, "both"), ("foot", {"highway": "motorway"}, ""),
    ("foot", {"foot": "no"}, ""), ("foot", {"vehicle": "no"}, "both"), ("main", {}, ""),
    ("main", {"highway": "tertiary_link"}, "both"),
])
def test_directions_of_other_profiles(tmp_path: Path, profile: str, tags: dict, directions: str) -> None:
    check_directions(tmp_path, tags, directions, profile)


def check_directions(folder: Path, tags: dict, directions: str, profile: str) -> None:
    ways = {7: street([1, 2], **tags), 8: street([2, 3], highway="primary", bicycle="yes", foot="yes")}
    network = Network.from_osm(write(folder, osm_text(NODES, ways)), profile)
    found = network.edges[network.edges.way == "7"]
    wanted = {"both": ["forward", "backward"], "": []}.get(directions, [directions])
    assert found.direction.tolist() == wanted and found.oneway.tolist() == [len(wanted) == 1] * len(wanted)
    assert [(1, 2) if word == "forward" else (2, 1) for word in wanted] == list(zip(found.from_node, found.to_node))


def test_own_rules(tmp_path: Path) -> None:
    path = write(tmp_path, osm_text(NODES, {7: street([1, 2], highway="cycleway"), 8: street([2, 3])}))
    network = Network.from_osm(path, lambda tags: (False, True) if tags["highway"] == "cycleway" else None)
    assert network.edges[["way", "direction"]].values.tolist() == [["7", "backward"]]
    with pytest.raises(OptionError, match="cars is no profile; did you mean car?"):
        Network.from_osm(path, "cars")


def test_streets_meet_at_shared_nodes(tmp_path: Path) -> None:
    ways = {7: street([1, 2, 3, 3, 5]), 8: street([4, 2])}
    edges = Network.from_osm(write(tmp_path, osm_text(NODES, ways))).edges
    assert sorted(zip(edges.way, edges.from_node, edges.to_node)) == [
        ("7", 1, 2), ("7", 2, 1), ("7", 2, 5), ("7", 5, 2), ("8", 2, 4), ("8", 4, 2)]
    assert edges["length"].tolist() == pytest.approx([100, 100, 200, 200, 100, 100], rel=0.01)


@pytest.mark.parametrize("text, speed", [
    ("50", 50), ("50 km/h", 50), ("30 mph", 48.3), ("20mph", 32.2), ("walk", 6), ("DE:urban", 50), ("DE:zone:30", 30),
    ("DE:zone30", 30), ("none", math.nan), ("signals", None), ("50;30", None), ("XX:urban", None), ("", math.nan),
    ("-5", None), ("0", None),
])
def test_speeds(tmp_path: Path, text: str, speed: object) -> None:
    network = Network.from_osm(write(tmp_path, osm_text(NODES, {7: street([1, 2], maxspeed=text, maxspeed__backward="80")})))
    assert network.edges.maxspeed.tolist() == pytest.approx([math.nan if speed is None else speed, 80], nan_ok=True)
    assert (f"1 speeds: maxspeed cannot be read ({text})" in str(network.report)) == (speed is None)


def test_what_the_file_lacks_is_counted_and_named(tmp_path: Path) -> None:
    text = osm_text({k: NODES[k] for k in (1, 2, 4, 5)}, {7: street([1, 2, 3, 5, 4]), 8: street([3, 4])})
    network = Network.from_osm(write(tmp_path, text))
    edges = network.edges
    assert list(zip(edges.way, edges.from_node, edges.to_node)) == [("7", 1, 2), ("7", 2, 1), ("7", 5, 4), ("7", 4, 5)]
    report = str(network.report)
    assert "left out: 1 nodes: the file lacks their places; their ways are cut there (3)" in report
    assert "left out: 1 ways: fewer than two of their nodes have places (8)" in report
    assert "left out: 1 parts of ways: some of their nodes have no places (7)" in report


def test_deleted_objects_are_left_out_and_named(tmp_path: Path) -> None:
    text = osm_text(NODES, {7: street([1, 2, 3]), 8: street([3, 5]), 9: street([2, 4])})
    text = text.replace('<way id="8">', "<way id='8' action='delete'>").replace('<way id="9">', '<way id="9" visible="false">')
    network = Network.from_osm(write(tmp_path, text.replace('<node id="3"', '<node action="delete" id="3"')))
    assert network.edges.way.tolist() == ["7", "7"] and network.edges.to_node.tolist() == [2, 1]
    assert "2 ways: marked as deleted (8, 9)" in str(network.report)
    assert "1 nodes: marked as deleted; their ways are cut there (3)" in str(network.report)


NODE = '<node id="2" lat="0.1" lon="9.001"/>'


@pytest.mark.parametrize("old, new, message", [
    ('<way id="8">', '<way id="7">', "way 7 comes twice; merge files by osmium merge"),
    ('<way id="8">', '<way id="7" visible="false">', "way 7 comes twice"),
    ('<way id="7">', NODE + '<way id="7">', "node 2 comes twice; merge files by osmium merge"),
    ('<nd ref="2"/>', '<nd ref="-2"/>', "node -2: ids below 1 are of objects that no map has yet"),
    ('<way id="7">', '<way id="-7">', "way -7: ids below 1"),
    ('<node id="2"', '<node id="1,7"', "an id that is no number: '1,7'"),
    ('<nd ref="2"/>', '<nd ref="x"/>', "an id that is no number: 'x'"),
    ('lon="9.0000000"', 'lon="nan"', "a coordinate that is no longitude or latitude: 'nan'"),
    ('lat="0.1000000"', 'lat="600000"', "a coordinate that is no longitude or latitude: '600000'"),
    ("</osm>", "", "is cut: its XML does not end"),
    ("osm version", "gpx version", "its root is <gpx>, not <osm>|cannot be read"),
    ('"residential"', '"cycleway"', "has no streets of the profile car"),
    ('<node id', '<none id', "has ways and not their nodes: export the nodes of the ways too|cannot be read as OpenStreetMap"),
])
def test_wrong_maps_are_refused(tmp_path: Path, old: str, new: str, message: str) -> None:
    text = osm_text(NODES, {7: street([1, 2, 3]), 8: street([3, 5])})
    assert old in text
    path = write(tmp_path, text.replace(old, new))
    with pytest.raises(InputError, match=f"^{path}: .*({message})") as fault:
        Network.from_osm(path)
    assert "\n" not in str(fault.value)


@pytest.mark.parametrize("data, message", [
    (b"", "is empty"), (b"a,b\n1,2\n", "is no OpenStreetMap data: neither PBF nor XML"), (b"\x1f\x8b\x08\0", "is cut or damaged"),
    (b"BZh91AY&SY\1\2\3", "cut or damaged"), (b"\x1f\x8b\x08\0\0\0\0\0\0\3" + b"\xff" * 20, "is cut or damaged"),
    (b"\0\0\0\x0d\x0a\x09OSMHeader\x18\x81\1\x10", "cannot be read as OpenStreetMap data"),
    (b"<gpx/>", "its root is <gpx>, not <osm>"), (b"PK\3\4", "is no OpenStreetMap data"),
])
def test_files_of_other_kinds_are_refused(tmp_path: Path, data: bytes, message: str) -> None:
    (tmp_path / "map.osm").write_bytes(data)
    with pytest.raises(InputError, match=f"^{tmp_path}/map.osm: .*{message}"):
        Network.from_osm(tmp_path / "map.osm")


def test_files_that_cannot_be_opened(tmp_path: Path) -> None:
    with pytest.raises(InputError, match="no.osm: No such file or directory"):
        Network.from_osm(tmp_path / "no.osm")
    with pytest.raises(InputError, match="Is a directory"):
        Network.from_osm(tmp_path)


def test_a_cut_pbf_is_refused(tmp_path: Path) -> None:
    nodes, ways = grid(12)
    path = write(tmp_path, osm_text(nodes, ways))
    to_pbf(path, tmp_path / "whole.osm.pbf")
    data = (tmp_path / "whole.osm.pbf").read_bytes()
    (tmp_path / "cut.osm.pbf").write_bytes(data[:-40])
    assert Network.from_osm(tmp_path / "whole.osm.pbf").edge_count == len(ways) * 2
    with pytest.raises(InputError, match="cut.osm.pbf: is cut: it ends within a block"):
        Network.from_osm(tmp_path / "cut.osm.pbf")


def test_too_little_room_for_places_is_said_before(tmp_path: Path, monkeypatch: pytest.MonkeyPatch) -> None:
    path = write(tmp_path, osm_text(*grid(12)))
    folder = tmp_path / "with, comma"
    folder.mkdir()
    monkeypatch.setattr(tempfile, "tempdir", str(folder))
    assert Network.from_osm(path).edge_count and not list(folder.iterdir()) and not (tmp_path / "with").exists()
    monkeypatch.setattr(shutil, "disk_usage", lambda folder: shutil._ntuple_diskusage(9, 9, 5000))  # type: ignore[attr-defined]
    with pytest.raises(OutputError, match="the nodes of .*map.osm may need 1 MB there, and 0 MB are free; name another folder"):
        Network.from_osm(path)


def test_a_disk_without_room_for_places_is_named(tmp_path: Path, monkeypatch: pytest.MonkeyPatch) -> None:
    def full(words: str) -> None:
        raise RuntimeError("Could not resize file: Not enough space on filesystem: No space left on device")

    path = write(tmp_path, osm_text(NODES, {7: street([1, 2, 3])}))
    monkeypatch.setattr("fmm._osm.reading.osmium.index.create_map", full)
    with pytest.raises(OutputError, match="fmm-.*: Could not resize file: .*No space left on device; name another folder"):
        Network.from_osm(path)


def test_no_file_of_places_stays_open(tmp_path: Path) -> None:
    """Its room comes back before the process ends, also after a refusal."""
    nodes, ways = grid(2)
    text = osm_text(nodes, ways)
    twice = text.replace("</osm>", next(line for line in text.splitlines() if "<node" in line) + "</osm>")
    before = set(os.listdir("/dev/fd"))
    for _ in range(2):
        Network.from_osm(write(tmp_path, text))
        with pytest.raises(InputError, match="comes twice"):
            Network.from_osm(write(tmp_path, twice))
    assert set(os.listdir("/dev/fd")) == before


def test_a_box_keeps_the_streets_up_to_the_next_node(tmp_path: Path) -> None:
    nodes, ways = grid(6)
    path = write(tmp_path, osm_text(nodes, ways))
    box = (9 + 150 / 111_320, 0.1 + 150 / 111_320, 9 + 350 / 111_320, 0.1 + 350 / 111_320)
    edges = Network.from_osm(path, bbox=box).edges
    assert {way_id(2, 2, 0), way_id(2, 1, 0), way_id(3, 3, 1)} <= set(map(int, edges.way)) and len(edges) == 24
    with pytest.raises(InputError, match="has no streets in the box"):
        Network.from_osm(path, bbox=(1, 1, 2, 2))
    with pytest.raises(OptionError, match="bbox is west, south, east, north"):
        Network.from_osm(path, bbox=(1, 2, 3, 1))
