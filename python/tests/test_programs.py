"""The proved programs: which one is found, and what is said when it fails."""
from __future__ import annotations

from pathlib import Path

import pytest

from fmm import _programs
from fmm.errors import ProgramError

TOP = Path(__file__).resolve().parents[2]
NAMES = {"network": "my map.csv", "traces": "the positions"}


def failing(tmp_path: Path, script: str) -> ProgramError:
    path = tmp_path / "program"
    path.write_text(f"#!/bin/sh\n{script}\n")
    path.chmod(0o755)
    with pytest.raises(ProgramError) as caught:
        _programs.run(path, ["match"], tmp_path / "out.txt", 0, NAMES)
    return caught.value


@pytest.mark.parametrize("script, status, text", [
    ("echo 'network record 17: edge id repeated' >&2; exit 5", 5, "my map.csv: record 17: edge id repeated"),
    ("echo 'network: bad header' >&2; exit 5", 5, "my map.csv: bad header"),
    ("echo 'traces line 3 field 2: out of range' >&2; exit 6", 6, "the positions: line 3 field 2: out of range"),
    ("echo 'fmm: cannot read network' >&2; exit 3", 3, "my map.csv: cannot be read"),
    ("echo 'fmm: bad value back' >&2; exit 2", 2, "bad value back"),
    ("exit 1", 1, "out of memory: match fewer vehicles at once, lower bound, or match in groups: --engine local"),
    ("kill -9 $$", -9, "the program was ended by signal 9; probably out of memory: match fewer vehicles at once, lower bound, or "
     "match in groups: --engine local"),
    ("exit 77", 77, "the program ended with status 77"),
])
def test_errors_name_the_files_of_the_user(tmp_path: Path, script: str, status: int, text: str) -> None:
    error = failing(tmp_path, script)
    assert error.status == status
    assert str(error) == text


def test_the_program_of_this_checkout_or_the_chosen_one(tmp_path: Path, monkeypatch: pytest.MonkeyPatch) -> None:
    monkeypatch.delenv("FMM_PROGRAM", raising=False)
    assert _programs.program(False).is_file() and _programs.program(True).is_file()
    monkeypatch.setenv("FMM_PROGRAM", str(TOP / "bin" / "fmm_large"))
    assert _programs.program(False) == TOP / "bin" / "fmm_large"
    monkeypatch.setenv("FMM_PROGRAM", str(tmp_path / "none"))
    with pytest.raises(ProgramError, match="there is no such program"):
        _programs.program(False)


def test_a_path_that_begins_with_a_dash_stays_a_path(tmp_path: Path, monkeypatch: pytest.MonkeyPatch) -> None:
    monkeypatch.chdir(tmp_path)
    Path("-h.csv").write_text("edge,from,to,line\n1,1,2,0 0;9000 0\n")
    Path("t.csv").write_text("trace,x,y\n1,100,0\n")
    words = _programs.words_of("match", Path("-h.csv"), Path("t.csv"), ["--back", "5"])
    _programs.run(_programs.program(False), words, tmp_path / "out.txt")
    assert (tmp_path / "out.txt").read_text().endswith("total traces 1 points 1 pieces 1 rows 0\n")
