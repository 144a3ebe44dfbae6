"""The state of a feed and of track: a value that something else changed is noticed."""
from __future__ import annotations

import contextlib
import sqlite3
import sys
import time
from pathlib import Path

import pytest
from feeds import feed

from fmm.errors import FmmError
from fmm.feed import state as state_module
from fmm.feed.ordering import Position
from fmm.feed.outlet import HEADER, RowFile
from fmm.feed.state import State, Vehicle
from fmm.track.journal import Journal, Row


@pytest.mark.parametrize("change", [
    "vehicle SET number = number + 1 WHERE id = 'b'", "vehicle SET time = time - 300", "vehicle SET positions = 7",
    "drive SET id = 'a'", "drive SET begin = begin + 1", "waiting SET x = x + 100", "waiting SET time = time + 1",
    "setting SET value = '1' || value WHERE name <> 'form'",
])
def test_a_changed_value_in_a_state_of_a_feed_is_noticed(tmp_path: Path, monkeypatch: pytest.MonkeyPatch, change: str) -> None:
    """Each change leaves a state of the right form."""
    monkeypatch.chdir(tmp_path)
    words = ["--format", "rows", "--into", "out.csv", "--wait", "60"]
    rows = "".join(f"{name},{at},0,{1_714_982_400 + 50 * at}\n" for at in range(4) for name in ("a", "b"))
    assert feed(rows, *words).returncode == 0
    state = State(Path("state.db"))
    state.add_waiting([Position(1_714_982_700.0, "b", 5, 5, 1_714_982_700.0)])
    state.commit()
    state.close()
    with contextlib.closing(sqlite3.connect("state.db")) as database, database:
        assert database.execute(f"UPDATE {change}").rowcount > 0
    before = Path("out.csv").read_bytes()
    done = feed("b,9,0,1714982900\n", *words, "--ids", "ids.csv")
    assert (done.returncode, done.stdout) == (1, "") and "state.db is damaged: " in done.stderr
    assert Path("out.csv").read_bytes() == before


@pytest.mark.parametrize("change", ["tracked SET x = x + 1", "tracked SET time = time + 1", "delivered SET positions = 2",
                                    "drive SET id = 'b'"])
def test_a_changed_value_in_a_state_of_track_is_noticed(tmp_path: Path, change: str) -> None:
    path = tmp_path / "state.db"
    with contextlib.closing(State(path)) as state:
        state.begin_drive(1, "a", 5.0)
        journal = Journal(state)
        journal.add([(1, Position(5.0, "a", 10, 20, 5.0))])
        journal.deliver(1, 1)
        state.commit()
        assert (list(journal.rows()), journal.vehicles(), journal.counts) == ([Row(1, 5.0, 10, 20)], {1: "a"}, {1: 1})
    with contextlib.closing(sqlite3.connect(path)) as database, database:
        assert database.execute(f"UPDATE {change}").rowcount == 1
    with contextlib.closing(State(path)) as state, pytest.raises(FmmError, match="state.db is damaged"):
        journal = Journal(state)
        print(list(journal.rows()), journal.vehicles(), journal.delivered())


def test_a_state_appears_when_it_is_complete(tmp_path: Path, monkeypatch: pytest.MonkeyPatch) -> None:
    """A feed that is killed while it makes its state leaves none that cannot be used."""
    def stop(*words: object) -> None:
        raise KeyboardInterrupt

    with monkeypatch.context() as patch, pytest.raises(KeyboardInterrupt):
        patch.setattr(State, "set", stop)
        State(tmp_path / "state.db")
    assert not list(tmp_path.iterdir())
    State(tmp_path / "state.db").close()
    assert [path.name for path in tmp_path.iterdir()] == ["state.db"]


def test_a_state_is_made_where_there_are_no_hard_links(tmp_path: Path, monkeypatch: pytest.MonkeyPatch) -> None:
    def refused(*words: object) -> None:
        raise PermissionError(1, "Operation not permitted")

    monkeypatch.setattr("os.link", refused)
    for _ in range(2):
        State(tmp_path / "state.db").close()
    assert [path.name for path in tmp_path.iterdir()] == ["state.db"]


def test_a_commit_costs_what_has_changed(tmp_path: Path) -> None:
    """And not what is remembered of a large fleet."""
    with contextlib.closing(State(tmp_path / "state.db")) as state:
        for number in range(state_module.REMEMBERED):
            state.keep(f"van {number}", Vehicle(number, 1.0, 1))
        state.commit()
        begin = time.process_time()
        for second in range(100):
            state.keep("van 7", Vehicle(7, float(second), second))
            state.commit()
        assert time.process_time() - begin < 0.5  # it was ten times as long
        assert state.vehicle("van 7") == Vehicle(7, 99.0, 99)


def test_a_state_that_is_refused_is_let_go(tmp_path: Path) -> None:
    """So that another program may use the file at once."""
    path = tmp_path / "other.db"
    with contextlib.closing(sqlite3.connect(path)) as database:
        database.execute("CREATE TABLE a (b)")
    with pytest.raises(FmmError, match="is not the state of a feed") as refused:
        State(path)
    with contextlib.closing(sqlite3.connect(path, timeout=0)) as database:
        database.execute("INSERT INTO a VALUES (1)")
    assert refused.traceback  # which keeps the refused state alive


def test_a_feed_goes_on_that_was_killed_before_it_wrote_the_header(tmp_path: Path, monkeypatch: pytest.MonkeyPatch) -> None:
    path = tmp_path / "rows.csv"
    with contextlib.closing(State(tmp_path / "state.db")) as state, monkeypatch.context() as killed:
        killed.setattr(RowFile, "append", lambda file, rows: (file.close(), sys.exit("killed")))
        with pytest.raises(SystemExit):
            RowFile(path, state)
    assert path.read_bytes() == b""
    with contextlib.closing(State(tmp_path / "state.db")) as state:
        RowFile(path, state).close()
    assert path.read_bytes() == HEADER
