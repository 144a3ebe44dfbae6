"""Wrong inputs and bad conditions, each as it came up with real files: refused, or named, and never wrong data."""
from __future__ import annotations

import ast
import json
import os
import random
import resource
import signal
import subprocess
import sys
from collections.abc import Iterator
from pathlib import Path
from typing import Callable

import forks
import numpy as np
import pytest
from feeds import feed
from osm_maps import grid, osm_text, street, write

from fmm import Network, commands, match, read_positions
from fmm._output import Outputs
from fmm._programs import program, run, words_of
from fmm._tables import read_table
from fmm.commands import tables
from fmm.errors import FmmError, InputError, MismatchError
from fmm.fleet.trace_file import TraceFile
from fmm.options import Options
from fmm.projection import Projection

SOURCES = Path(__file__).parents[1] / "src"


def file(folder: Path, text: str, name: str = "rows.csv") -> Path:
    path = folder / name
    path.write_text(text, encoding="utf-8", newline="")
    return path


# ---- tables of positions

@pytest.mark.parametrize("header", ["vehicle,latitude,longitude,time", "plate, lat ,lon,when", "vehicle,5,9,time"])
def test_a_second_header_with_other_columns_is_refused(tmp_path: Path, header: str) -> None:
    path = file(tmp_path, f"vehicle,longitude,latitude,time\na,9.43,54.31,5\n{header}\nb,54.31,9.43,6\n")
    with pytest.raises(InputError, match=f"^{path} line 3: is a second header with other columns"):
        read_positions(path)


def test_a_second_header_with_the_same_columns_is_named(tmp_path: Path) -> None:
    head = "vehicle,longitude,latitude,time\n"
    found = read_positions(file(tmp_path, f"{head}a,9.43,54.31,5\n{head}b,9.43,54.31,6\n"))
    assert found.left_out["line"].tolist() == [3] and "longitude longitude is not a number" in found.left_out["reason"][0]


def test_file_names_that_look_like_options(tmp_path: Path, monkeypatch: pytest.MonkeyPatch) -> None:
    monkeypatch.chdir(tmp_path)
    for name in ("step=1.csv", "-h.csv", "a -h b.csv"):
        file(tmp_path, "vehicle,longitude,latitude,time\na,9.43,54.31,5\n", name)
        assert len(read_positions(name)) == 1


def test_a_point_with_two_times_is_left_out(tmp_path: Path) -> None:
    points = "".join(f'<trkpt lat="54.31" lon="9.43">{time}</trkpt>' for time in (
        "<time>2024-05-06T10:00:00Z</time>", "<time>2024-05-06T10:00:05Z</time><time>2024-05-06T11:00:00Z</time>"))
    found = read_positions(file(tmp_path, f"<gpx><trk><trkseg>{points}</trkseg></trk></gpx>", "a.gpx"))
    assert found.left_out["row"].tolist() == [1] and "is neither an ISO time" in found.left_out["reason"][0]


def test_an_encoding_that_does_not_exist_is_refused(small: Path, tmp_path: Path) -> None:
    for name, read in (("walk.gpx", read_positions), ("village.osm", Network.from_osm)):
        text = (small / name).read_text().replace('visible="true"', "").replace("<way ", '<way action="delete" ', 1)
        path = file(tmp_path, text.replace("UTF-8", "UT-8"), name)
        with pytest.raises(InputError, match=f"^{path}.*encoding"):
            read(path)


# ---- maps and networks

def test_a_coordinate_with_a_great_exponent_is_refused(tmp_path: Path) -> None:
    text = osm_text({1: (0, 0), 2: (100, 0)}, {10: street([1, 2])})
    for value in ("1e308", "1e3", "-1E99"):
        path = write(tmp_path, text.replace('lon="9.0000000"', f'lon="{value}"'))
        with pytest.raises(InputError, match=f"{path}.* {value}"):
            Network.from_osm(path)
    small = write(tmp_path, text.replace('lon="9.0000000"', 'lon="9e0"'))
    assert len(Network.from_osm(small).lines) == 2


def test_names_with_control_characters_can_be_read_again(tmp_path: Path) -> None:
    text = osm_text({1: (0, 0), 2: (100, 0)}, {10: street([1, 2], name="CR")}).replace('"CR"', '"a&#13;b&#10;c, &quot;d&quot;"')
    path = Network.from_osm(write(tmp_path, text)).save(tmp_path / "n.csv")
    assert Network.open(path).table["name"].tolist() == [r'a\rb\nc, "d"'] * 2


@pytest.mark.parametrize("edit", [
    lambda text: text.replace("EPSG:32632", "EPSG:32633"), lambda text: text.replace('"fmm"', '"fmn"'),
    lambda text: json.dumps({name: value for name, value in json.loads(text).items() if name != "checksum"}),
])
def test_a_changed_side_file_is_refused(tmp_path: Path, edit: Callable[[str], str]) -> None:
    nodes, ways = grid(2)
    path = Network.from_osm(write(tmp_path, osm_text(nodes, ways)), crs="32N").save(tmp_path / "n.csv")
    side = tmp_path / "n.json"
    side.write_text(edit(side.read_text()))
    with pytest.raises(InputError, match=f"^{side}: is damaged: its own checksum is not right"):
        Network.open(path)


def test_degrees_stay_in_their_range() -> None:
    for zone, x in (("1N", 16_600_000), ("60S", 83_300_000)):
        longitude, latitude = Projection.of(zone).to_crs(np.array([x]), np.array([500_000_000]), 4326)
        assert abs(longitude[0]) <= 180 and abs(latitude[0]) <= 90


def test_a_header_with_a_blank_is_refused_as_the_program_does(tmp_path: Path) -> None:
    with pytest.raises(InputError, match="bad header"):
        TraceFile(file(tmp_path, " trace,x,y\n1,2,3\n")).check_header()


# ---- matches

@pytest.fixture(scope="module")
def example(tmp_path_factory: pytest.TempPathFactory) -> list[str]:
    """The example's network, traces and text of match."""
    folder, top = tmp_path_factory.mktemp("example"), Path(__file__).parents[2]
    text = folder / "match.txt"
    text.write_bytes((top / "examples" / "match.txt").read_bytes())
    return [str(top / "examples" / "network.csv"), str(top / "examples" / "traces.csv"), str(text)]


@pytest.mark.parametrize("edit", [
    lambda text: text.replace("cost 297", "cost 298"),
    lambda text: text.replace("offset 2079 d2 124745", "offset 2079 d2 124746"),
    lambda text: text.replace("route 71\n", "route 72\n", 1),
    lambda text: "".join("none " + line.split()[1] + "\n" if line.startswith("at ") else line
                         for line in text.splitlines(True) if not line.startswith("piece ")).replace("pieces 8", "pieces 0"),
])
def test_a_match_that_the_program_does_not_write_is_refused(example: list[str], tmp_path: Path,
                                                            edit: Callable[[str], str]) -> None:
    network, traces, text = example
    path = file(tmp_path, edit(Path(text).read_text()), "match.txt")
    with pytest.raises((InputError, MismatchError), match=f"^{path}"):
        tables.main([network, traces, str(path), "--into", str(tmp_path / "out"), "--", "--gap", "120"])
    assert not (tmp_path / "out").exists()


def test_doubled_keys_are_refused(example: list[str], tmp_path: Path) -> None:
    ids = file(tmp_path, "trace,id\n8,red\n8,blue\n")
    with pytest.raises(InputError, match=f"^{ids} line 3 column trace: 8 comes a second time"):
        tables.main([*example, "--into", str(tmp_path / "out"), "--ids", str(ids), "--", "--gap", "120"])


def test_traces_of_another_projection_are_refused(small: Path, tmp_path: Path) -> None:
    """The side files of traces and network know their projections, and the traces their own bytes."""
    for zone in ("32N", "33N"):
        Network.from_osm(small / "village.osm", crs=zone).save(tmp_path / f"{zone}.csv")
    traces = tmp_path / "traces.csv"
    network = str(tmp_path / "32N.csv")
    assert commands.main(["positions", str(small / "walk.gpx"), "--network", network, "--into", str(traces)]) == 0
    text = tmp_path / "match.txt"
    for zone, message in (("32N", ""), ("33N", "traces.csv: does not belong to .*33N.csv: the projection is EPSG:32632")):
        words = [str(tmp_path / f"{zone}.csv"), str(traces)]
        run(program(False), words_of("match", *words, []), text)
        if message:
            with pytest.raises(MismatchError, match=message):
                tables.main([*words, str(text), "--into", str(tmp_path / zone)])
        else:
            assert tables.main([*words, str(text), "--into", str(tmp_path / zone)]) == 0
    traces.write_text(traces.read_text().replace("1,", "2,"))
    with pytest.raises(MismatchError, match="traces.csv: does not belong to .*traces.json: the checksum"):
        tables.main([str(tmp_path / "32N.csv"), str(traces), str(text), "--into", str(tmp_path / "more")])


def test_positions_far_from_all_roads_are_said_first(small: Path, tmp_path: Path) -> None:
    network = Network.from_osm(small / "village.osm", crs="32N")
    rows = "".join(f"a,{9.5 + 0.0004 * step:.4f},54.3100,{5 * step}\n" for step in range(12))
    found = match(network, file(tmp_path, "vehicle,longitude,latitude,time\n" + rows), options=Options(workers=1))
    assert found.report.text.startswith("warning: ") and (found.points["reason"] != "").all()


def test_drives_without_times_have_no_seconds(small: Path, tmp_path: Path) -> None:
    network = Network.from_osm(small / "village.osm", crs="32N")
    rows = "".join(f"a,{9.4301 + 0.0004 * step:.4f},54.3100\n" for step in range(12))
    found = match(network, file(tmp_path, "vehicle,longitude,latitude\n" + rows), options=Options(workers=1))
    assert len(found.edges) and found.edges["seconds"].isna().all() and found.edges["entry"].isna().all()


def test_ids_stay_text_in_a_database(small: Path, tmp_path: Path) -> None:
    import fiona
    network = Network.from_osm(small / "village.osm", crs="32N")
    rows = "".join(f"{name},{9.4301 + 0.0004 * step:.4f},54.3100,{5 * step}\n" for step in range(12) for name in ("007", "7"))
    found = match(network, file(tmp_path, "vehicle,longitude,latitude,time\n" + rows), options=Options(workers=1))
    found.to_file(tmp_path / "out.gpkg")
    with fiona.open(tmp_path / "out.gpkg", layer="points") as layer:
        assert {row["properties"]["id"] for row in layer} == {"007", "7"}


# ---- outputs

def test_a_file_that_cannot_grow_is_named_and_not_left(tmp_path: Path) -> None:
    with open(tmp_path / "out", "wb") as out:
        source = "import resource; from fmm._output import Outputs\nresource.setrlimit(resource.RLIMIT_FSIZE, (4096, 4096))\n"
        source += "with Outputs() as outputs:\n  outputs.open('a').write('x')\n  outputs.open('b').write('y' * 99_999)\n"
        done = subprocess.run([sys.executable, "-c", source], cwd=tmp_path, stdout=out, stderr=subprocess.PIPE, text=True,
                              env={**os.environ, "PYTHONPATH": str(SOURCES)})
    assert done.stderr.splitlines()[-1] == "fmm.errors.OutputError: b: File too large" and os.listdir(tmp_path) == ["out"]


def test_a_feed_on_a_full_disk_names_the_file_and_goes_on_later(tmp_path: Path) -> None:
    lines = [f"a,{at},0,{1000 + at}\n" for at in range(9000)]
    file(tmp_path, "".join(lines))
    words = ["feed", "--crs", "metres", "--format", "rows", "--state", "s.db", "--into", "out.csv"]

    def run(size: int) -> tuple[int, str]:
        with open(tmp_path / "rows.csv") as rows:
            started = forks.Process(words, cwd=tmp_path, stdin=rows, stderr=subprocess.PIPE, text=True,
                                    preexec_fn=lambda: resource.setrlimit(resource.RLIMIT_FSIZE, (size, size)))
            said = started.communicate()[1]
        return started.returncode, said

    status, said = run(65_536)
    assert status == 1 and said.count("\n") == 1 and ("File too large" in said or "disk" in said)
    assert run(1 << 30)[0] == 0
    written = (tmp_path / "out.csv").read_text().splitlines()[1:]
    assert [int(line.split(",")[3]) for line in written] == [1000 + at for at in range(9000)]


@pytest.fixture
def signals() -> Iterator[None]:
    """Signals end a process, as they do in a terminal. After the test they do what they did before it."""
    before = {number: signal.getsignal(number) for number in commands.SIGNALS}
    signal.signal(signal.SIGINT, signal.default_int_handler)
    for number in commands.SIGNALS[1:]:
        signal.signal(number, signal.SIG_DFL)
    yield
    for number, handler in before.items():
        signal.signal(number, handler)


@pytest.mark.parametrize("number", commands.SIGNALS)
@pytest.mark.usefixtures("signals")
def test_a_signal_leaves_nothing_behind(tmp_path: Path, monkeypatch: pytest.MonkeyPatch, number: int) -> None:
    def main(words: list[str]) -> int:
        with Outputs() as outputs:
            outputs.folder(tmp_path / "new")
            outputs.open(tmp_path / "new" / "a").write("x")
            outputs.path(tmp_path / "new" / "b.gpkg").write_text("x")
            os.kill(os.getpid(), number)
        return 0

    monkeypatch.setitem(sys.modules, "fmm.commands.slow", type("Slow", (), {"main": staticmethod(main)}))
    assert commands.perform("slow", []) == 128 + number
    assert os.listdir(tmp_path) == []


def test_a_link_in_the_place_of_a_temporary_file_is_not_followed(example: list[str], tmp_path: Path) -> None:
    victim = file(tmp_path, "mine", "victim")
    for name in ("match.txt", "manifest.json", "call.json", "index", "lock"):
        folder = tmp_path / f"run_{name}"
        folder.mkdir()
        (folder / name).symlink_to(victim)
        status = commands.main(["fleet", *example[:2], "--into", str(folder), "--", "--gap", "120"])
        assert victim.read_text() == "mine" and status == (0 if name == "match.txt" else 1)


# ---- the package itself

def written_by(path: Path) -> set[str]:
    """The calls in a module that write files or tables."""
    found = set()
    for node in ast.walk(ast.parse(path.read_text())):
        if isinstance(node, ast.Call):
            name = node.func.attr if isinstance(node.func, ast.Attribute) else getattr(node.func, "id", "")
            texts = [word.value for word in node.args if isinstance(word, ast.Constant) and isinstance(word.value, str)]
            if name in ("to_csv", "writer", "DictWriter", "write_text", "write_bytes", "mkstemp", "NamedTemporaryFile"):
                found.add(name)
            if name == "open" and any(text in ("w", "wb", "a", "ab", "x", "xb", "w+b") for text in texts):
                found.add("open")
    return found


def test_all_outputs_go_through_one_layer() -> None:
    """Only programs that run, and bodies of requests, are in files of their own: in private folders and in that of a fleet."""
    others = {str(path.relative_to(SOURCES / "fmm")): written_by(path) for path in (SOURCES / "fmm").rglob("*.py")}
    found = {name: calls for name, calls in others.items() if calls}
    assert found == {"_programs.py": {"open"}, "fleet/call.py": {"open"}, "fleet/groups.py": {"open", "write_bytes"},
                     "fleet/tasks.py": {"open"}, "service/posted.py": {"write_bytes"}}


def test_the_sources_are_those_of_the_promised_python() -> None:
    for path in SOURCES.rglob("*.py"):
        ast.parse(path.read_text(), feature_version=(3, 9))


def test_a_table_that_only_the_program_takes_says_why(tmp_path: Path) -> None:
    path = file(tmp_path, "edge,from,to,line\r1,1,2,0 0;9 9\r", "n.csv")
    with pytest.raises(InputError, match="line 1: a carriage return without a line feed"):
        read_table(path)
    with pytest.raises(FmmError):
        Network.open(path)


def test_a_damaged_state_of_a_feed_is_named(tmp_path: Path, monkeypatch: pytest.MonkeyPatch) -> None:
    monkeypatch.chdir(tmp_path)
    words = ["--format", "rows", "--into", "out.csv"]
    assert feed("".join(f"v{at},{at},0,1000\n" for at in range(300)), *words).returncode == 0
    clean, rows = (tmp_path / "state.db").read_bytes(), (tmp_path / "out.csv").read_bytes()
    draw = random.Random(3)
    ends = set()
    for _ in range(25):
        damaged = bytearray(clean)
        at = draw.randrange(len(clean))
        damaged[at:at + 200] = draw.randbytes(min(200, len(clean) - at))
        for name in ("state.db-wal", "state.db-shm"):
            (tmp_path / name).unlink(missing_ok=True)
        (tmp_path / "state.db").write_bytes(damaged)
        (tmp_path / "out.csv").write_bytes(rows)
        done = feed("w,1,0,2000\n", *words)
        ends.add(done.returncode)
        assert done.returncode in (0, 1) and "state.db" in done.stderr or done.returncode == 0, done
    assert 1 in ends


@pytest.mark.skipif(sys.platform == "darwin", reason="file names are always UTF-8 there")
def test_file_names_that_are_not_utf8(small: Path, tmp_path: Path, capfd: pytest.CaptureFixture[str]) -> None:
    odd = os.fsdecode(os.fsencode(tmp_path) + b"/a\xff")
    for ending, name in ((".osm", "village.osm"), (".gpx", "walk.gpx")):
        Path(odd + ending).write_bytes((small / name).read_bytes())
    assert commands.main(["run", f"{odd}.osm", f"{odd}.gpx", "--into", str(tmp_path / "out")]) == 0
    assert r"\udcff" in (tmp_path / "out" / "report.txt").read_text(encoding="utf-8")
    assert commands.main(["network", f"{odd}.osm", "--into", f"{odd}.csv"]) == 0
    capfd.readouterr()
    assert commands.main(["run", f"{odd}.csv", f"{odd}.gpx", "--into", str(tmp_path / "more")]) == 1
    assert "the programs take no names that are invalid UTF-8" in capfd.readouterr().err
