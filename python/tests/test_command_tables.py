"""The command `tables`: texts that exist become tables, and texts of other files are refused."""
from __future__ import annotations

import shutil
import subprocess
from pathlib import Path
from typing import List

import pandas as pd
import pytest

from fmm.commands import main
from fmm.matches import open_matches

TOP = Path(__file__).resolve().parents[2]
RING = "edge,from,to,line\n1,1,2,0 0;100000 0\n2,2,3,100000 0;100000 90000\n3,3,1,100000 90000;0 0\n"
ROUND = """trace,x,y,time
1,50000,0,0
1,100000,40000,60
1,30000,27000,120
1,20000,0,200
2,50000,0,0
2,49000,0,10
2,60000,0,40
3,50000,0,0
3,10000,0,300
4,50000,0,0
4,49000,0,10
4,20000,0,300
"""


def program(*words: str, cwd: Path) -> str:
    return subprocess.run([TOP / "fmm", *words], check=True, stdout=subprocess.PIPE, cwd=cwd, text=True).stdout


@pytest.fixture(scope="module")
def made(tmp_path_factory: pytest.TempPathFactory) -> Path:
    """A network, traces, and the three texts of them."""
    made = tmp_path_factory.mktemp("made")
    (made / "n.csv").write_text(RING)
    (made / "t.csv").write_text(ROUND)
    for command in ("match", "follow", "streams"):
        (made / f"{command}.txt").write_text(program(command, "n.csv", "t.csv", "--back", "2000", cwd=made))
    return made


@pytest.fixture
def folder(made: Path, tmp_path: Path, monkeypatch: pytest.MonkeyPatch) -> Path:
    """A copy of them, in which the test runs."""
    shutil.copytree(made, tmp_path, dirs_exist_ok=True)
    monkeypatch.chdir(tmp_path)
    return tmp_path


def tables(*words: str) -> int:
    return main(["tables", "n.csv", "t.csv", *words, "--", "--back", "2000"])


@pytest.mark.parametrize("command", ["match", "follow", "streams"])
def test_all_texts_give_the_same_tables(folder: Path, command: str, capsys: pytest.CaptureFixture[str]) -> None:
    assert tables(f"{command}.txt", "--into", "out") == 0
    assert "positions: 12, with an edge: 12 (100.0 %)" in capsys.readouterr().out
    edges = pd.read_csv("out/edges.csv", dtype={"id": str})
    assert edges["edge"].tolist() == [1, 2, 3, 1, 1, 1, 2, 3, 1, 1, 2, 3, 1]
    assert edges["whole"].tolist() == [0, 1, 1, 0, 0, 0, 1, 1, 0, 0, 1, 1, 0]
    assert edges["metres"].round().tolist()[:4] == [500, 900, 1345, 200]
    assert edges[edges["id"] == "2"]["metres"].tolist() == [105.0]
    matches = open_matches("out")
    assert matches.text() == Path("match.txt").read_bytes()


def test_an_id_of_streams_has_several_drives(folder: Path, capsys: pytest.CaptureFixture[str]) -> None:
    """As `streams --idle` writes it where trace 2 is a second drive of vehicle 1."""
    Path("t.csv").write_text(ROUND.replace("\n2,", "\n1,"))
    lines, number = [], "1"
    for line in Path("follow.txt").read_text().replace("trace 2\n", "trace 1\n").replace("end 2\n", "end 1\n").splitlines():
        number = line.split()[1] if line.startswith("trace") else number
        lines.append(line if line.startswith("total") else f"{number} {line}")
    Path("drives.txt").write_text("\n".join(lines) + "\n")
    words = ["tables", "n.csv", "t.csv", "drives.txt", "--into", "out", "--trust", "--", "--back", "2000", "--idle", "60"]
    assert main(words) == 0
    edges = pd.read_csv("out/edges.csv", dtype={"id": str})
    assert edges["edge"].tolist() == [1, 2, 3, 1, 1, 1, 2, 3, 1, 1, 2, 3, 1]
    assert edges["id"].tolist() == ["1"] * 5 + ["3"] * 4 + ["4"] * 4
    Path("t.csv").write_text(ROUND.replace("\n2,", "\n1,").replace("1,20000,0,200\n", ""))
    assert main(words) == 1 and "drives.txt: is not the match of t.csv" in capsys.readouterr().err


def test_untimed_traces_have_no_seconds(folder: Path) -> None:
    Path("t.csv").write_text("".join(line.rsplit(",", 1)[0] + "\n" for line in ROUND.splitlines()))
    Path("m.txt").write_text(program("match", "n.csv", "t.csv", "--back", "2000", cwd=folder))
    assert tables("m.txt", "--into", "out") == 0
    edges = pd.read_csv("out/edges.csv")
    assert edges[["seconds", "entry", "exit", "standing", "speed"]].isna().all().all() and edges["metres"].sum() > 0
    assert pd.read_csv("out/routes.csv")["seconds"].isna().all()


def edited(name: str, old: str, new: str, count: int = 1) -> None:
    text = Path(name).read_text()
    assert old in text
    Path(name).write_text(text.replace(old, new, count))


WRONG = [
    ("n.csv", "90000;0 0", "90001;0 0", "match.txt: is the match of another network or of other traces: position 2 of trace 1"),
    ("n.csv", "2,2,3,", "2,2,9,", "match.txt: is not the match of n.csv: trace 1 drives from edge 2 to edge 3, which do not"),
    ("n.csv", "\n2,2,3,", "\n7,2,3,", "match.txt: is not the match of n.csv: trace 1 is on edge 2, which n.csv does not have"),
    ("t.csv", "1,50000,0,0\n", "", "match.txt: is not the match of t.csv: trace 1 has 3 positions in t.csv and 4"),
    ("t.csv", "4,20000,0,300\n", "4,20000,0,300\n5,1,1,1\n", "match.txt: is not the match of t.csv: trace 5 is missing there"),
    ("t.csv", "3,50000,0,0\n3,10000,0,300\n", "", "match.txt: is not the match of t.csv: trace number 3 is 4 in t.csv and 3"),
    ("t.csv", "1,50000,0,0", "1,50000,1,0", "match.txt: is the match of another network or of other traces: position 0 of"),
    ("t.csv", "1,50000,0,0", "1,5e4.5,0,0", "t.csv line 2 column x: 5e4.5 is not a number"),
    ("t.csv", "4,20000,0,300\n", "4,20000,0,30", "t.csv line 13: the last line does not end with a line feed, so"),
    ("t.csv", "trace,x,y,time", "vehicle,x,y,time", "t.csv: the header is vehicle,x,y,time, not trace,x,y or trace,x,y,time"),
    ("match.txt", "cost ", "cost 1", "match.txt line 6: piece 0 3 cost 1"),
    ("match.txt", "at 0 edge 1 offset 50000 d2 0\n", "none 0\n", "match.txt line 6: piece 0 3 cost"),
    ("match.txt", "total", "end 4\ntotal", "match.txt line"),
]


@pytest.mark.parametrize("name, old, new, message", WRONG)
def test_what_does_not_belong_together_is_refused(folder: Path, capsys: pytest.CaptureFixture[str], name: str, old: str,
                                                  new: str, message: str) -> None:
    edited(name, old, new)
    assert tables("match.txt", "--into", "out") == 1
    error = capsys.readouterr().err
    assert error.startswith(f"fmm tables: {message}") and error.count("\n") == 1
    assert not Path("out").exists()


def test_a_match_of_nothing_but_none_is_refused(folder: Path, capsys: pytest.CaptureFixture[str]) -> None:
    lines: List[str] = []
    for trace, count in ((1, 4), (2, 3), (3, 2), (4, 3)):
        lines += [f"trace {trace}", *(f"none {number}" for number in range(count)), f"end {trace}"]
    Path("match.txt").write_text("\n".join([*lines, "total traces 4 points 12 pieces 0 rows 0", ""]))
    assert tables("match.txt", "--into", "out") == 1
    assert "none 0, where the program writes at 0 edge 1 offset 50000 d2 0; write the options" in capsys.readouterr().err


def test_other_options_are_refused_and_trust_takes_them(folder: Path, capsys: pytest.CaptureFixture[str]) -> None:
    assert main(["tables", "n.csv", "t.csv", "match.txt", "--into", "out", "--", "--back", "0"]) == 1
    assert "write the options of the match after --, or --trust" in capsys.readouterr().err
    assert main(["tables", "n.csv", "t.csv", "match.txt", "--into", "out", "--trust"]) == 0
    assert main(["tables", "n.csv", "t.csv", "match.txt", "--into", "out", "--", "--bak", "0"]) == 2
    assert "bak is no option; did you mean back?" in capsys.readouterr().err


def test_ids_are_text_and_belong_to_the_traces(folder: Path, capsys: pytest.CaptureFixture[str]) -> None:
    Path("i.csv").write_text("trace,id\n1,007\n2,7\n3,van 3\n4,007\n")
    assert tables("match.txt", "--into", "out", "--ids", "i.csv") == 0
    assert sorted(set(open_matches("out").points["id"])) == ["007", "7", "van 3"]
    Path("i.csv").write_text("trace,id\n1,a\n1,b\n")
    assert tables("match.txt", "--into", "out", "--ids", "i.csv") == 1
    assert "i.csv line 3 column trace: 1 comes a second time" in capsys.readouterr().err
    Path("i.csv").write_text("trace,id\n1,a\n")
    assert tables("match.txt", "--into", "out", "--ids", "i.csv") == 1
    assert "i.csv: has no trace 2: it is of other traces" in capsys.readouterr().err
