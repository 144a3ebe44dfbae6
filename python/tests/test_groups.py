"""A match that does not fit one run is matched in groups, with the same result."""
from __future__ import annotations

from pathlib import Path
from typing import Any

import numpy as np
import pytest
import simulated
from osm_maps import turn
from test_matches import network_of
from test_restrictions import cross

from fmm import _runs
from fmm.errors import OptionError
from fmm.fleet.common import Progress
from fmm.fleet.memory import Grid, Reach, memory_of_run, sampled_nodes
from fmm.matching import match
from fmm.options import Options

OPTIONS = Options.of(back=20, gap=300)


@pytest.fixture(scope="module")
def small_fleet(tmp_path_factory: pytest.TempPathFactory) -> Any:
    town, positions, _ = simulated.fleet(7, interval=15)
    return network_of(town, tmp_path_factory.mktemp("groups")), positions


@pytest.fixture(scope="module")
def once(small_fleet: Any) -> Any:
    """The match of one run."""
    network, positions = small_fleet
    return match(network, positions, options=OPTIONS)


def same(first: Any, second: Any) -> None:
    """Two matches have the same tables, and the same text except for the rows of the total line."""
    for name in ("points", "routes", "edges"):
        one, other = getattr(first, name), getattr(second, name)
        assert one.crs == other.crs
        assert one.to_wkb().equals(other.to_wkb()), name  # pandas takes long to compare geometries
    assert first.text().rpartition(b" rows ")[0] == second.text().removesuffix(b"\n")


@pytest.mark.parametrize("means", [{"engine": "local"}, {"engine": "local", "jobs": 2, "memory": 100, "folder": "."}])
def test_groups_give_the_match_of_one_run(small_fleet: Any, once: Any, means: Any, tmp_path: Path,
                                          monkeypatch: pytest.MonkeyPatch) -> None:
    monkeypatch.chdir(tmp_path)
    network, positions = small_fleet
    groups = match(network, positions, options=OPTIONS, **means)
    same(once, groups)
    assert groups.evidence["engine"] == "local" and "engine" not in once.evidence
    assert groups.evidence["text"]["rows"] is None
    assert not list(tmp_path.iterdir())


def test_what_does_not_fit_is_matched_in_groups(small_fleet: Any, once: Any, monkeypatch: pytest.MonkeyPatch) -> None:
    network, positions = small_fleet
    monkeypatch.setattr(_runs, "needed_memory", lambda *given: 1 << 50)
    groups = match(network, positions, options=OPTIONS)
    same(once, groups)
    note = next(note for note in groups.report.notes if "matched in groups" in note)
    assert note.startswith("one run may need 1,073,741,824 MB of memory, and has ")


def test_a_job_with_too_little_memory_is_an_error(small_fleet: Any) -> None:
    network, positions = small_fleet
    with pytest.raises(OptionError, match="--memory 1 is too little: the network alone needs"):
        match(network, positions, options=OPTIONS, memory=1)
    for wrong, why in (({"engine": "slum"}, "engine is one of local, slurm, dask"), ({"memory": 0}, "memory is a whole number"),
                       ({"jobs": 1.5}, "jobs is a whole number"), ({"folder": "no/folder"}, "folder is no folder")):
        with pytest.raises(OptionError, match=why):
            match(network, positions, options=OPTIONS, **wrong)


def test_the_estimate_knows_nodes_and_distances(small_fleet: Any) -> None:
    network, _ = small_fleet
    x, y = network.lines.xy[::3, 0], network.lines.xy[::3, 1]
    trace = np.zeros(len(x), np.int64)
    far, near = (memory_of_run(network, x, y, trace, Reach(bound)) for bound in (300_000, 3_000))
    assert far > near > 32 << 20
    assert memory_of_run(network, x[:0], y[:0], trace[:0], Reach()) < near
    assert memory_of_run(network, x[:1], y[:1], trace[:1], Reach()) < far


def test_the_grid_of_a_file_is_that_of_its_network(small_fleet: Any) -> None:
    network, _ = small_fleet
    one = Grid.of_file(network.path, Reach(20_000), Progress("nodes", 1))
    other = Grid.of_network(network, Reach(20_000))
    assert one.nodes.tolist() == other.nodes.tolist()
    cells = np.unique(one.nodes)
    many = np.arange(1, len(cells) + 1)
    assert one.bytes_of(cells, many, many // 2).tolist() == [
        one.bytes(cell, number, number // 2) for cell, number in zip(cells.tolist(), many.tolist())]
    assert one.counts(cells[:1], one.whole)[0] == sum(
        np.hypot((node >> 32) - (cells[0] >> 32), (node & 0xFFFFFFFF) - (cells[0] & 0xFFFFFFFF)) * (1 << one.shift) <= 20_000
        for node in one.nodes.tolist())


def test_nodes_of_split_streets_have_their_places(tmp_path: Path) -> None:
    network = cross(tmp_path, turn(1, "no_right_turn", 13, 5, 12))
    assert network.parts.away != (0, 0)
    places, scale = sampled_nodes(network.path, Progress("nodes", 1))
    low, high = network.lines.xy.min(axis=0) + 10 ** 9, network.lines.xy.max(axis=0) + 10 ** 9
    found = np.array([[place >> 32, place & 0xFFFFFFFF] for place in places.values()])
    assert scale == 1 and len(found) == network.node_count
    assert (found >= low).all() and (found <= high).all()
