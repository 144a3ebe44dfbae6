"""Turn restrictions, kept by the network alone."""
from __future__ import annotations

import heapq
import random
import subprocess
from pathlib import Path
from typing import Iterator

import numpy as np
import pytest
from hypothesis import given
from hypothesis import strategies as some
from osm_maps import METRE, grid, osm_text, street, turn, way_id, write
from profiles import slow

from fmm import Network
from fmm._match_text import MatchText, read_match
from fmm._places import Places
from fmm.projection import DEGREES

# a crossing (5) with four arms of 100 m, and a way round from the south to the east, over 6 and 7
CROSS = {1: (-100.0, 0.0), 2: (100.0, 0.0), 3: (0.0, -100.0), 4: (0.0, 100.0), 5: (0.0, 0.0), 6: (40.0, -100.0),
         7: (100.0, -60.0)}
ARMS = {11: street([1, 5]), 12: street([5, 2]), 13: street([3, 5]), 14: street([5, 4]), 15: street([3, 6, 7, 2])}


def cross(folder: Path, *turns: tuple, ways: dict = ARMS, restrictions: bool = True, profile: str = "car") -> Network:
    return Network.from_osm(write(folder, osm_text(CROSS, ways, turns)), profile, restrictions=restrictions)


def match(network: Network, folder: Path, top: Path, *drives: list[tuple[float, float]]) -> MatchText:
    """Matches drives whose places are metres from the middle of the crossing, by the proved program."""
    rows = ["trace,x,y"]
    for number, drive in enumerate(drives, 1):
        x, y = network.projection.to_centimetres([9 + p[0] * METRE for p in drive], [0.1 + p[1] * METRE for p in drive], DEGREES)
        rows += [f"{number},{a},{b}" for a, b in zip(x.tolist(), y.tolist())]
    (folder / "traces.csv").write_text("\n".join([*rows, ""]))
    words = [str(top / "fmm"), "match", str(network.path), str(folder / "traces.csv")]
    return read_match(subprocess.run(words, check=True, capture_output=True).stdout, "match")


def routes(network: Network, found: MatchText) -> list[list[str]]:
    """The ways of the streets that each piece goes over: of those whose last part it drives over, and that of its end."""
    parts, edges, first = network.parts, network.lines.position_of(found.route), found.route_first.tolist()
    ends: dict[int, int] = {}
    for street_id, end in zip(parts.street.tolist(), parts.end.tolist()):
        ends[street_id] = max(end, ends.get(street_id, 0))
    streets = [[int(parts.street[edge]) for edge in edges[a:b]
                if edge == edges[b - 1] or parts.end[edge] == ends[int(parts.street[edge])]] for a, b in zip(first, first[1:])]
    return [network.edges.way.loc[route].tolist() for route in streets]


def drive_from_south_to_east(shift: float = 0.0) -> list[tuple[float, float]]:
    return [(shift, -70), (shift, -30), (30, shift), (70, shift)]


def test_a_forbidden_turn_is_driven_around(tmp_path: Path, top: Path) -> None:
    free = cross(tmp_path)
    assert routes(free, match(free, tmp_path, top, drive_from_south_to_east())) == [["13", "12"]]
    network = cross(tmp_path, turn(1, "no_right_turn", 13, 5, 12))
    assert "turn restrictions: 1 kept, 0 not kept" in str(network.report)
    found = routes(network, match(network, tmp_path, top, drive_from_south_to_east()))
    assert found and ["13", "12"] not in [route[i:i + 2] for route in found for i in range(len(route))]


def test_an_order_leaves_one_way_on(tmp_path: Path, top: Path) -> None:
    network = cross(tmp_path, turn(1, "only_straight_on", 13, 5, 14))
    straight, right, other = (match(network, tmp_path, top, drive) for drive in (
        [(0, -70), (0, -30), (0, 30), (0, 70)], drive_from_south_to_east(), [(-70, 0), (-30, 0), (0, 30), (0, 70)]))
    assert routes(network, straight) == [["13", "14"]] and routes(network, other) == [["11", "14"]]
    assert ["13", "12"] not in [route[:2] for route in routes(network, right)]


def test_a_forbidden_u_turn(tmp_path: Path, top: Path) -> None:
    drive = [(0, -70), (0, -10), (0, -60)]
    assert routes(free := cross(tmp_path), match(free, tmp_path, top, drive)) == [["13", "13"]]
    network = cross(tmp_path, turn(1, "no_u_turn", 13, 5, 13))
    (route,) = routes(network, match(network, tmp_path, top, drive))
    assert route[0] == "13" and route[1] != "13"


@pytest.mark.parametrize("shift", [0.0, 3.0, -7.0])
def test_permitted_drives_cost_the_same(tmp_path: Path, top: Path, shift: float) -> None:
    """Drives over the restricted crossing, in all permitted ways, with positions in the doubled first metres too."""
    arms = {1: (-1, 0), 2: (1, 0), 3: (0, -1), 4: (0, 1)}
    drives = []
    for origin, target in ((3, 4), (3, 1), (1, 2), (1, 4), (2, 1), (2, 3), (4, 3), (4, 2)):
        for distances in ((70, 30), (50, 2)):
            way_in = [(arms[origin][0] * d + shift, arms[origin][1] * d + shift / 2) for d in distances]
            way_out = [(arms[target][0] * d + shift, arms[target][1] * d + shift / 2) for d in reversed(distances)]
            drives.append(way_in + way_out)
    free, bound = cross(tmp_path), cross(tmp_path, turn(1, "no_right_turn", 13, 5, 12))
    a, b = match(free, tmp_path, top, *drives), match(bound, tmp_path, top, *drives)
    assert len(a.cost) == len(drives) and b.cost.tolist() == pytest.approx(a.cost.tolist(), abs=3)
    assert np.sqrt(b.d2).tolist() == pytest.approx(np.sqrt(a.d2).tolist(), abs=1)
    edges = bound.lines.position_of(b.edge)
    streets, offsets = bound.parts.street[edges], bound.parts.begin[edges] + b.offset
    places = Places(free.lines).at(free.lines.position_of(a.edge), a.offset)
    assert Places(bound.streets).at(bound.streets.position_of(streets), offsets) == pytest.approx(places, abs=2)
    same = [drive for drive in range(len(drives)) if (streets == a.edge)[a.trace_of == drive].all()]  # not at the crossing itself
    assert len(same) >= len(drives) - 1
    assert [routes(bound, b)[drive] for drive in same] == [routes(free, a)[drive] for drive in same]


def test_what_is_told_of_split_streets(tmp_path: Path) -> None:
    free, network = cross(tmp_path), cross(tmp_path, turn(1, "no_right_turn", 13, 5, 12))
    edges = network.edges
    assert network.edge_count == free.edge_count + 6  # three permitted ways on: their first metres, twice
    assert edges.part_from.min() == 0 and (edges.part_from[edges.part_from > 0].between(0.01, 0.2)).all()
    links = network.parts.links(network.lines)
    assert links.sum() == 6 and (edges.geometry[links].distance(edges.geometry.loc[1]) < 1000).all()
    file = Network.open(network.path, network.projection.crs)
    assert (file.edges.geometry[links].distance(edges.geometry.unary_union) > 1_000_000).all()
    assert (file.edges.geometry[~links].geom_equals(edges.geometry[~links])).all()
    assert edges["length"].tolist() == pytest.approx((edges.part_to - edges.part_from).tolist())
    old, new = free.lines, network.streets
    assert new.ids.tolist() == old.ids.tolist() and new.lengths.tolist() == old.lengths.tolist()
    assert new.xy[new.first[:-1]].tolist() == old.xy[old.first[:-1]].tolist()
    assert free.streets is free.lines and (free.edges.street == free.edges.index).all()
    saved = Network.open(network.save(tmp_path / "n.csv"))
    assert all((getattr(saved.parts, name) == getattr(network.parts, name)).all() for name in ("street", "begin", "end"))
    assert str(saved.report) == str(network.report) and saved.streets.xy.tolist() == new.xy.tolist()


@pytest.mark.parametrize("relation, reason", [
    (turn(1, "no_left_turn", 13, 15, 12, via_kind="way"), "goes over a via way"),
    (turn(1, "no_left_turn", 99, 5, 12), "names a way that the network lacks"),
    (turn(1, "no_left_turn", 13, 4, 12), "no edge leads to its via node, or none away from it"),
    (turn(1, "give_way", 13, 5, 12), "unknown kind of restriction"),
    (turn(1, "no_left_turn", 13, 5, 12, restriction__conditional="no_left_turn @ (06:00-09:00)"), "holds at times only"),
    ((1, {"type": "restriction", "restriction": "no_left_turn"}, (("from", "way", 13), ("to", "way", 12))), "lacks a member"),
])
def test_what_cannot_be_kept_is_counted(tmp_path: Path, relation: tuple, reason: str) -> None:
    network = cross(tmp_path, relation)
    assert network.edge_count == cross(tmp_path).edge_count
    assert "turn restrictions: 0 kept, 1 not kept" in str(network.report) and f"1 not kept: {reason}" in str(network.report)


def test_a_way_through_the_via_node_is_ambiguous_unless_it_is_oneway(tmp_path: Path) -> None:
    ways = {**ARMS, 13: street([3, 5, 4])}
    right = turn(1, "no_right_turn", 13, 5, 12)
    assert "1 not kept: its via node is inside one of its ways" in str(cross(tmp_path, right, ways=ways).report)
    ways[13] = street([3, 5, 4], oneway="yes")
    assert "1 kept, 0 not" in str(cross(tmp_path, right, ways=ways).report)


def test_for_whom_a_restriction_holds(tmp_path: Path) -> None:
    def kept(profile: str, **tags: str) -> int:
        return cross(tmp_path, turn(1, "no_right_turn", 13, 5, 12, **tags), profile=profile).report.used

    assert (kept("car"), kept("bicycle"), kept("foot")) == (1, 1, 0)
    assert [kept("car", **{"except": words}) for words in ("psv;motorcar", "bicycle")] == [0, 1]
    assert kept("bicycle", **{"except": "bicycle"}) == 0
    hgv = (1, {"type": "restriction", "restriction:hgv": "no_right_turn"}, turn(1, "", 13, 5, 12)[2])
    assert cross(tmp_path, hgv).report.used == 0 and not cross(tmp_path, hgv).report.unused
    cars = (1, {"type": "restriction", "restriction:motorcar": "no_right_turn"}, turn(1, "", 13, 5, 12)[2])
    assert cross(tmp_path, cars).report.used == 1 and cross(tmp_path, cars, profile="bicycle").report.used == 0
    assert cross(tmp_path, turn(1, "no_right_turn", 13, 5, 12), restrictions=False).report.used == 0


def followers(network: Network, turns: list[tuple]) -> dict[int, list[int]]:
    """For each edge of a network without restrictions, the edges that may follow it: by the meaning of the restrictions."""
    lines, ways = network.lines, network.table["way"].astype(int).tolist()
    edges = range(len(lines))
    after = {e: [f for f in edges if lines.from_node[f] == lines.to_node[e]] for e in edges}
    result = {}
    for e in edges:
        here = [(tags["restriction"], members[2][2]) for _, tags, members in turns
                if members[0][2] == ways[e] and members[1][2] == lines.to_node[e]]
        wanted = {way for kind, way in here if kind.startswith("only")}
        refused = {way for kind, way in here if kind.startswith("no")}
        result[e] = [f for f in after[e] if (not wanted or ways[f] in wanted) and ways[f] not in refused]
    return result


def lengths_by_turns(network: Network, after: dict[int, list[int]], origin: int) -> dict[int, int]:
    """The least length from the end of an edge to the end of each other edge, over permitted turns."""
    lengths, best, queue = network.lines.lengths, {}, [(0, origin)]
    while queue:
        far, edge = heapq.heappop(queue)
        for follower in after[edge]:
            total = far + int(lengths[follower])
            if total < best.get(follower, total + 1):
                best[follower] = total
                heapq.heappush(queue, (total, follower))
    return best


def lengths_by_nodes(network: Network, origin: int) -> dict[int, int]:
    """The same in a network without regard to turns: from the end of an edge to the end of each street, in cm."""
    lines, parts = network.lines, network.parts
    out: dict[int, list[int]] = {}
    for edge, node in enumerate(lines.from_node.tolist()):
        out.setdefault(node, []).append(edge)
    begin = int(lines.to_node[origin])
    best, queue, ends = {begin: 0}, [(0, begin)], {}
    while queue:
        far, node = heapq.heappop(queue)
        if far > best[node]:
            continue
        for edge in out.get(node, []):
            total, there = far + int(lines.lengths[edge]), int(lines.to_node[edge])
            street_id = int(parts.street[edge])
            if parts.end[edge] == parts.end[parts.street == street_id].max():
                ends[street_id] = min(total, ends.get(street_id, total))
            if total < best.get(there, total + 1):
                best[there] = total
                heapq.heappush(queue, (total, there))
    return ends


def random_turns(seed: int, nodes: dict, ways: dict) -> Iterator[tuple]:
    draw = random.Random(seed)
    at: dict[int, list[int]] = {}
    for number, (refs, _) in ways.items():
        for ref in refs:
            at.setdefault(ref, []).append(number)
    for number in range(draw.randrange(1, 12)):
        via, kind = draw.choice(list(nodes)), draw.choice(["no_left_turn", "no_u_turn", "only_right_turn"])
        yield turn(1 + number, kind, draw.choice(at[via]), via, draw.choice(at[via]))


@slow
@given(seed=some.integers(0, 2**32), step=some.sampled_from([0.04, 0.3, 4.0, 100.0]))
def test_routes_are_those_that_the_restrictions_permit(tmp_path_factory: pytest.TempPathFactory, seed: int, step: float) -> None:
    folder = tmp_path_factory.getbasetemp()
    draw = random.Random(seed)
    nodes, ways = grid(3, step)
    nodes = {number: (x + draw.uniform(-0.2, 0.2) * step, y + draw.uniform(-0.2, 0.2) * step) for number, (x, y) in nodes.items()}
    ways = {way: (refs, {**tags, **({"oneway": "yes"} if draw.random() < 0.2 else {})}) for way, (refs, tags) in ways.items()}
    turns = list(random_turns(seed, nodes, ways))
    path = write(folder, osm_text(nodes, ways, turns))
    free, bound = Network.from_osm(path, restrictions=False), Network.from_osm(path)
    assert bound.report.used + sum(bound.report.unused.values()) == len(turns)
    usable = [item for item in turns if could_be_kept(free, item)]
    assert bound.report.used == len(usable)
    after = followers(free, usable)
    for edge in range(len(free.lines)):
        wanted = {int(free.lines.ids[end]): length for end, length in lengths_by_turns(free, after, edge).items()}
        found = lengths_by_nodes(bound, edge)
        assert found.keys() == wanted.keys()
        assert all(abs(found[street_id] - wanted[street_id]) <= 1 for street_id in wanted)


def could_be_kept(free: Network, item: tuple) -> bool:
    (_, _, origin), (_, _, via), (_, _, target) = item[2]
    edges = free.edges
    arriving, leaving = (edges.way == str(origin)) & (edges.to_node == via), (edges.way == str(target)) & (edges.from_node == via)
    return bool(arriving.any() and leaving.any())


def test_a_street_with_restrictions_at_both_ends(tmp_path: Path) -> None:
    nodes, ways = grid(3)
    here, there = way_id(1, 0, 0), way_id(1, 1, 0)
    turns = [turn(1, "no_left_turn", here, 5, way_id(1, 1, 1)), turn(2, "no_left_turn", there, 6, way_id(1, 2, 1)),
             turn(3, "only_straight_on", there, 5, here)]
    network = Network.from_osm(write(tmp_path, osm_text(nodes, ways, turns)))
    edges = network.edges
    whole = edges.groupby("street").apply(lambda rows: rows.part_to.max() - rows.part_from.min())
    assert whole.tolist() == pytest.approx(Network.from_osm(tmp_path / "map.osm", restrictions=False).edges["length"].tolist())
    assert network.report.used == 3
