"""Files that others change, open or name while a command works: nothing is mixed, exchanged or written over in silence."""
from __future__ import annotations

import fcntl
import json
import os
import resource
import shutil
import signal
import subprocess
import threading
import time
import unicodedata
from pathlib import Path
from typing import Any, Callable, Iterator

import forks
import geopandas
import pytest
from feeds import feed, start

import fmm
from fmm import _picture, _programs, commands, positions
from fmm._evidence import own_checksum
from fmm._osm import network
from fmm._output import Outputs
from fmm.commands import run as run_command
from fmm.errors import FmmError, InputError, MismatchError, OptionError, OutputError
from fmm.feed.intake import Reading, Rules
from fmm.feed.notices import Notices
from fmm.feed.ordering import Position
from fmm.feed.reading import placing_of, timing_of
from fmm.feed.reports import Columns, Reader
from fmm.feed.sources import Lines
from fmm.feed.state import State
from fmm.map.page import Page
from fmm.options import Options
from fmm.track.fleet import Ends
from fmm.track.journal import Journal
from fmm.track.parts import Parts
from fmm.track.sinks import Sinks, Stop

HEADER = "vehicle,longitude,latitude,time\n"
ALONE = Options(workers=1)
SIDE = json.dumps({"kind": "matches", "files": {}, "checksum": own_checksum({"kind": "matches", "files": {}})})


@pytest.fixture
def place(small: Path, tmp_path: Path, monkeypatch: pytest.MonkeyPatch) -> Path:
    """A folder with a network and a track, in which the test runs."""
    monkeypatch.chdir(tmp_path)
    fmm.Network.from_osm(small / "village.osm", crs="32N").save("n.csv")
    shutil.copy(small / "monday.gpx", tmp_path)
    return tmp_path


# ---- files that change while they are read

def test_positions_that_change_while_they_are_read(tmp_path: Path, monkeypatch: pytest.MonkeyPatch) -> None:
    path = tmp_path / "a.csv"
    path.write_text(HEADER + "a,9.43,54.31,5\n")
    read = positions.read_csv

    def appended(*words: Any) -> Any:
        with path.open("a") as file:
            file.write("a,9.44,54.31,6\n")
        return read(*words)

    monkeypatch.setattr(positions, "read_csv", appended)
    with pytest.raises(InputError, match=f"^{path}: was changed while it was read"):
        fmm.read_positions(path)


def exchange(path: Path) -> None:
    """Gives the edges of a network file the ids of others, as another version of the map may have."""
    header, *lines = path.read_text().splitlines(True)
    ids, rest = [line.partition(",")[0] for line in lines], [line.partition(",")[2] for line in lines]
    path.write_text(header + "".join(f"{new},{text}" for new, text in zip(ids[1:] + ids[:1], rest)))


@pytest.mark.parametrize("saved", [False, True])
def test_a_network_that_changes_after_it_was_read(place: Path, saved: bool) -> None:
    opened = fmm.Network.open("n.csv")
    if saved:
        opened.save("n.csv")
    shutil.copy("n.csv", "kept.csv")
    exchange(place / "n.csv")
    with pytest.raises(InputError, match="^n.csv: was changed after it was read: open it again"):
        fmm.match(opened, "monday.gpx", options=ALONE)
    shutil.copy("kept.csv", "n.csv")
    found = fmm.match(opened, "monday.gpx", options=ALONE)
    exchange(place / "n.csv")
    with pytest.raises(InputError, match="^n.csv: was changed"):
        found.add_margins()


def test_a_network_that_is_put_back_after_the_run(place: Path, monkeypatch: pytest.MonkeyPatch) -> None:
    run = _programs.run

    def exchanged(*words: Any) -> None:
        shutil.copy("n.csv", "kept.csv")
        exchange(place / "n.csv")
        run(*words)
        os.replace("kept.csv", "n.csv")

    monkeypatch.setattr(_programs, "run", exchanged)
    with pytest.raises(InputError, match="^n.csv: was changed while it was read"):
        fmm.match("n.csv", "monday.gpx", options=ALONE)


def test_a_map_that_changes_while_it_is_read(small: Path, tmp_path: Path, monkeypatch: pytest.MonkeyPatch) -> None:
    """It is read several times."""
    path = shutil.copy(small / "village.osm", tmp_path / "m.osm")
    read = network.read

    def exchanged(*words: Any) -> Any:
        found = read(*words)
        shutil.copy(small / "village.osm", path)
        return found

    monkeypatch.setattr(network, "read", exchanged)
    with pytest.raises(InputError, match="m.osm: was changed while it was read"):
        fmm.Network.from_osm(path)


def parts_of(name: str, **words: Any) -> Parts:
    """What a tracker on a network is made of."""
    reading = Reading(Reader("rows", Columns()), placing_of(None, "metres"), timing_of(False, None, Notices("fmm track")))
    return Parts(fmm.Network.open(name), _programs.program(False), ALONE.but(**words), None, reading, Rules(),
                 Ends(600.0, None, 1000), False, Notices("fmm track"))


@pytest.fixture
def state(place: Path) -> Iterator[State]:
    """A state in the folder with a network."""
    made = State(Path("s.db"))
    yield made
    made.close()


def test_a_live_fleet_starts_no_program_on_another_network(place: Path, state: State) -> None:
    """Such as after the weekly update of a map, when a program that was killed is started again."""
    tracker = parts_of("n.csv").tracker(state, Lines(), Sinks(state, list), Stop())
    exchange(place / "n.csv")
    with pytest.raises(InputError, match="^n.csv: was changed after it was read"):
        tracker.fleet.restore()
    tracker.close()


def test_open_drives_keep_their_network_and_options(place: Path, small: Path, state: State) -> None:
    fmm.Network.from_osm(small / "village.osm", crs="32N", profile="foot").save("m.csv")
    others = (parts_of("m.csv"), parts_of("n.csv", radius=50.0))
    parts_of("n.csv").tracker(state, Lines(), Sinks(state, list), Stop()).close()
    parts_of("m.csv").tracker(state, Lines(), Sinks(state, list), Stop()).close()
    parts_of("n.csv", workers=2).tracker(state, Lines(), Sinks(state, list), Stop()).close()
    Journal(state).add([(1, Position(5.0, "a", 0, 0, 5.0))])
    for other in others:
        with pytest.raises(FmmError, match="s.db has open drives of another network or of other options: end them by"):
            other.tracker(state, Lines(), Sinks(state, list), Stop())


def test_a_feed_keeps_its_projection(place: Path, small: Path) -> None:
    fmm.Network.from_osm(small / "village.osm", crs="33N").save("m.csv")
    for name, status in (("n.csv", 0), ("m.csv", 1), ("n.csv", 0)):
        done = forks.run("feed", "--network", name, "--format", "rows", "--state", "s.db", "--into", "out.csv",
                         given=f"{name} {time.time()},9.43,54.31,5\n")
        assert done.returncode == status, done
        assert status == 0 or "s.db has positions in EPSG:32632 (UTM 32N), and the network is in EPSG:32633" in done.stderr
    assert len(Path("out.csv").read_text().splitlines()) == 3


def test_a_table_of_edges_without_the_file_that_ties_it(place: Path) -> None:
    (place / "n.json").unlink()
    with pytest.raises(MismatchError, match="n.csv: lies beside n.edges.csv without n.json"):
        fmm.Network.open("n.csv")


def test_pipes_are_read_whole_or_refused(place: Path, capfd: pytest.CaptureFixture[str]) -> None:
    text = HEADER + "".join(f"a,{9.43 + at * 1e-5:.5f},54.31,{1714982400 + at}\n" for at in range(600))

    def through(*words: str) -> int:
        source, sink = os.pipe()
        writer = threading.Thread(target=lambda: (os.write(sink, text.encode()), os.close(sink)))
        writer.start()
        status = commands.main([word.replace("PIPE", f"/dev/fd/{source}") for word in words])
        os.close(source)
        writer.join()
        return status

    assert through("positions", "PIPE", "--network", "n.csv", "--into", "t.csv") == 0
    assert len(Path("t.csv").read_text().splitlines()) == 601
    for words in (["network", "PIPE", "--into", "m.csv"], ["positions", "monday.gpx", "--network", "PIPE", "--into", "m.csv"],
                  ["run", "PIPE", "monday.gpx", "--into", "out"], ["tables", "n.csv", "t.csv", "PIPE", "--into", "out"]):
        capfd.readouterr()
        signal.signal(signal.SIGPIPE, signal.SIG_IGN)
        assert through(*words) == 1 and "is a pipe, and it is read several times; give a file\n" in capfd.readouterr().err


# ---- outputs that are inputs, or those of others

def test_no_command_writes_over_what_it_reads(place: Path, capfd: pytest.CaptureFixture[str],
                                              monkeypatch: pytest.MonkeyPatch) -> None:
    monkeypatch.setattr(run_command, "write_all", lambda _, folder, *__: (folder / "result.json").write_text("new"))
    assert commands.main(["positions", "monday.gpx", "--network", "n.csv", "--into", "t.csv"]) == 0
    words = [str(_programs.program(False)), "match", "n.csv", "t.csv"]
    Path("m.txt").write_bytes(subprocess.run(words, capture_output=True, check=True).stdout)
    Path("ids").mkdir()
    Path("ids/points.csv").write_text("trace,id\n1,a\n2,b\n")
    Path("groups").mkdir()
    shutil.copy("t.csv", "groups/match.txt")
    Path("out").mkdir()
    for end in ("csv", "json", "edges.csv"):
        shutil.copy(f"n.{end}", f"out/result.{end}")
    before = {path: path.read_bytes() for path in place.rglob("*") if path.is_file()}
    for line, message in (
            ("tables n.csv t.csv m.txt --ids ids/points.csv --into ids", "ids/points.csv: is an input of the same call"),
            ("tables n.csv t.csv m.txt --into n.gpkg", "n.json: is an input of the same call"),
            ("positions monday.gpx --network n.csv --into n.edges.csv", "n.edges.csv: is an input of the same call"),
            ("fleet n.csv groups/match.txt --into groups", "groups/match.txt: is in the folder of the groups, groups"),
            ("run out/result.csv monday.gpx --into out", "out/result.json: is an input of the same call"),
            ("feed --network n.csv --state s.db --ids n.json", "--ids n.json would replace n.json")):
        capfd.readouterr()
        assert commands.main(line.split()) in (1, 2) and message in capfd.readouterr().err, line
    assert {path for path in place.rglob("*") if path.is_file()} == set(before)
    assert all(path.read_bytes() == data for path, data in before.items())


def test_a_map_is_no_file_of_a_match() -> None:
    with pytest.raises(OptionError, match="points.csv: the name of a map ends in .html"):
        Page("", []).save("points.csv")


@pytest.mark.parametrize("beside", ["a.gpkg-wal", "a.gpkg-journal"])
def test_a_database_that_another_program_has_open(tmp_path: Path, beside: str) -> None:
    """SQLite would take the pages of that file for those of the new database."""
    (tmp_path / "a.gpkg").write_text("old")
    (tmp_path / beside).write_text("pages")
    with pytest.raises(OutputError, match=f"a.gpkg: another program has it open, since there is {beside}"), Outputs() as outputs:
        outputs.path(tmp_path / "a.gpkg").write_text("new")
    assert (tmp_path / "a.gpkg").read_text() == "old"
    with pytest.raises(InputError, match=f"a.gpkg: another program has changed it, since there is {beside}"):
        (tmp_path / "a.json").write_text(SIDE)
        fmm.open_matches(tmp_path / "a.gpkg")


def test_a_layer_on_a_full_disk_is_one_line(place: Path, monkeypatch: pytest.MonkeyPatch) -> None:
    words = ["run", "n.csv", "monday.gpx", "--no-margins", "--into", "out"]
    monkeypatch.setattr(run_command, "write_map", lambda *_: None)
    with forks.Process(words, stdout=subprocess.DEVNULL, stderr=subprocess.PIPE, text=True,
                       preexec_fn=lambda: resource.setrlimit(resource.RLIMIT_FSIZE, (150_000, 150_000))) as run:
        said = run.communicate()[1]
    assert said.startswith("fmm run: out/result.gpkg: ") and said.count("\n") == 1, said
    assert run.returncode == 1 and not Path("out").exists()


# ---- feeds

def test_two_feeds_on_one_file_of_rows(tmp_path: Path, monkeypatch: pytest.MonkeyPatch) -> None:
    monkeypatch.chdir(tmp_path)
    Path("out.csv").touch()
    with open("out.csv", "a") as other:
        fcntl.flock(other, fcntl.LOCK_EX)
        done = feed("a,1,2,3\n", "--format", "rows", "--into", "out.csv")
    assert done.returncode == 1 and "out.csv: another feed writes this file" in done.stderr and not Path("out.csv").stat().st_size


@pytest.mark.parametrize("change", [lambda: os.truncate("out.csv", 0), lambda: os.rename("out.csv", "old.csv")])
def test_a_file_of_rows_that_is_rotated(tmp_path: Path, monkeypatch: pytest.MonkeyPatch, change: Callable[[], None]) -> None:
    monkeypatch.chdir(tmp_path)
    with start("--format", "rows", "--wait", "0", "--into", "out.csv", stdin=subprocess.PIPE, stderr=subprocess.PIPE,
               text=True) as run:
        run.stdin.write("a,1,2,3\n")
        run.stdin.flush()
        while not Path("out.csv").exists() or b"\n1," not in Path("out.csv").read_bytes():
            assert run.poll() is None
        change()
        said = run.communicate("a,1,2,4\n")[1]
    assert run.returncode == 1 and "fmm feed: out.csv: " in said


@pytest.mark.parametrize("closed", [0, 1])
def test_a_closed_descriptor_gets_no_file(tmp_path: Path, closed: int) -> None:
    """Otherwise the first file that is opened would get its number, and the rows."""
    with start("--format", "rows", cwd=tmp_path, stdin=subprocess.PIPE, stdout=subprocess.PIPE, stderr=subprocess.PIPE, text=True,
               preexec_fn=lambda: os.close(closed)) as run:
        said = run.communicate("a,1,2,3\n")[1]
    name = "standard output" if closed else "standard input"
    assert run.returncode == 1 and said == f"fmm feed: {name}: Bad file descriptor\n"


# ---- ids and pictures

def test_ids_that_look_alike_are_named(tmp_path: Path) -> None:
    names = ["caf\u00e9", unicodedata.normalize("NFD", "caf\u00e9"), "7", "7 ", "07"]
    text = HEADER + "".join(f"{name},9.43,54.31,{at}\n" for at, name in enumerate(names))
    (tmp_path / "a.csv").write_text(text, encoding="utf-8")
    found = fmm.read_positions(tmp_path / "a.csv")
    assert found.frame["id"].tolist() == names
    assert found.notes[-1] == ("ids that differ only in blanks or in the form of accents are several vehicles: "
                               r"'caf\xe9' and 'cafe\u0301' and 1 more")


def test_rows_without_a_place_are_chosen_without_a_warning(recwarn: pytest.WarningsRecorder) -> None:
    places = geopandas.GeoSeries.from_wkt(["POINT (1 2)", "POINT EMPTY", None])
    assert len(_picture.with_places(geopandas.GeoDataFrame(geometry=places))) == 1 and not recwarn.list
