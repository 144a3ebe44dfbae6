"""`fmm feed` over standard input, as a user runs it."""
import fcntl
import os
import random
import signal
import sqlite3
import subprocess
import time

import pytest
from feeds import FEED, environment, feed, rows
from feeds import start as start_feed

from fmm.feed.intake import Clock


@pytest.fixture(autouse=True)
def folder(tmp_path, monkeypatch):
    monkeypatch.chdir(tmp_path)
    return tmp_path


def start(*words, **more):
    return start_feed("--format", "rows", *words, **more)


def test_rows_are_numbered_by_vehicle():
    done = feed("a,1,2,100\n007,3,4,100\n7,5,6,100\na,2,2,105\n", "--format", "rows", "--ids", "ids.csv")
    assert done.returncode == 0
    assert rows(done.stdout) == [(1, 100, 200, 100), (2, 300, 400, 100), (3, 500, 600, 100), (1, 200, 200, 105)]
    assert open("ids.csv").read() == "trace,id\n1,a\n2,007\n3,7\n"
    assert open("ids.csvt").read() == '"Integer64","String"\n'
    assert done.stderr == "fmm feed: positions: 4, left out: 0, drives: 3\n"


def test_a_vehicle_keeps_its_number_over_a_restart():
    assert rows(feed("a,1,2,100\n", "--format", "rows").stdout) == [(1, 100, 200, 100)]
    assert rows(feed("b,1,2,100\na,1,3,105\n", "--format", "rows").stdout) == [(2, 100, 200, 100), (1, 100, 300, 105)]


def test_a_silent_vehicle_begins_a_new_drive():
    assert rows(feed("a,1,2,100\na,1,2,701\n", "--format", "rows").stdout) == [(1, 100, 200, 100), (2, 100, 200, 701)]
    assert rows(feed("a,1,2,702\n", "--format", "rows", "--most", "1").stdout) == [(3, 100, 200, 702)]


def test_a_shuffled_feed_is_put_in_order():
    lines = [f"v{i % 20},{i},0,{1000 + i // 20}\n" for i in range(1999)]
    late = random.Random(5)
    lines.sort(key=lambda line: int(line.split(",")[3]) + late.uniform(0, 4.9))
    done = feed("".join(lines), "--format", "rows")
    found = rows(done.stdout)
    assert "positions: 1999, left out: 0" in done.stderr and len(found) == 1999
    for number in range(1, 21):
        mine = [row[3] for row in found if row[0] == number]
        assert mine == sorted(mine)


def test_times_without_a_zone_are_said_once():
    text = "a,1,2,1970-01-02T00:00:00\na,1,3,1970-01-02T00:00:05\na,1,4,1970-01-02T00:00:10Z\n"
    done = feed(text, "--format", "rows")
    assert [row[3] for row in rows(done.stdout)] == [86400, 86405, 86410]
    assert done.stderr.count("times that name no time zone count as UTC; --timezone says theirs") == 1
    done = feed(text, "--format", "rows", "--state", "other.db", "--timezone", "Asia/Tokyo")
    assert [row[3] for row in rows(done.stdout)] == [86400 - 9 * 3600, 86405 - 9 * 3600, 86410] and "UTC" not in done.stderr
    done = feed(text, "--format", "rows", "--timezone", "Mars")
    assert done.returncode == 2 and "zone Mars is no time zone" in done.stderr


def test_what_came_before_is_left_out_also_after_a_restart():
    feed("a,1,2,100\na,1,2,105\n", "--format", "rows")
    done = feed("a,1,2,105\na,1,2,100\na,1,2,110\na,1,2,110\n", "--format", "rows")
    assert rows(done.stdout) == [(1, 100, 200, 110)]
    assert "line 1 is left out: the same vehicle and time came before" in done.stderr
    assert "line 2 is left out: 5 s too old" in done.stderr
    assert "line 4 is left out: the same vehicle and time came before" in done.stderr


def test_rows_of_now_and_of_two_hours_ago_make_one_drive():
    text = "".join(f"a,{i},0,{10_000 + i}\na,{i},0,{2_800 + i}\n" for i in range(1000))
    done = feed(text, "--format", "rows")
    assert "positions: 1000, left out: 1000, drives: 1" in done.stderr


def test_bad_values_never_end_a_feed():
    done = feed("a,1,1,1\na,1e308,1,2\na,1e999,1,2\na,nan,1,2\na,1,1,99999999999999\na,2,1,3\n", "--format", "rows")
    assert done.returncode == 0 and len(rows(done.stdout)) == 2 and done.stderr.count("is left out") == 4


def test_a_time_ahead_of_the_clock_is_left_out():
    ahead = int(time.time()) + 3600
    done = feed(f"a,1,1,{ahead}\na,1,1,100\n", "--format", "rows")
    assert rows(done.stdout) == [(1, 100, 100, 100)] and "s ahead of the clock" in done.stderr


def test_a_last_line_without_its_end_is_left_out():
    done = feed("a,1000,2000,100\na,1010,20", "--format", "rows")
    assert rows(done.stdout) == [(1, 100000, 200000, 100)]
    assert "line 2 is left out: the input ends in the middle of the line" in done.stderr


def test_a_feed_without_a_good_row_is_an_error():
    done = feed("a,1\n", "--format", "rows")
    assert done.returncode == 1 and "the feed has no good row" in done.stderr


def test_messages_cannot_forge_lines():
    done = feed("a,1,1,\x1b[31m5\n\na,1,1,1\n", "--format", "rows")
    assert "\x1b" not in done.stderr and "\\x1b" in done.stderr


def test_a_second_feed_on_a_state_is_refused():
    first = start(stdin=subprocess.PIPE, stdout=subprocess.PIPE)
    assert first.stdout.readline() == b"trace,x,y,time\n"
    second = feed("a,1,1,1\n", "--format", "rows")
    first.communicate(b"a,1,1,1\n", timeout=30)
    assert second.returncode == 1 and "another feed uses this state" in second.stderr


def test_a_lost_state_is_an_error():
    run = start(stdin=subprocess.PIPE, stdout=subprocess.PIPE, stderr=subprocess.PIPE)
    assert run.stdout.readline() == b"trace,x,y,time\n"
    os.remove("state.db")
    _, said = run.communicate(b"a,1,1,1\n", timeout=30)
    assert run.returncode == 1 and b"the state was removed or replaced" in said


def test_another_file_is_no_state():
    with open("state.db", "w") as file:
        file.write("trace,id\n1,a\n")
    done = feed("a,1,1,1\n", "--format", "rows")
    assert done.returncode == 1 and "is not the state of a feed" in done.stderr
    sqlite3.connect("other.db").execute("CREATE TABLE a (b)")
    done = feed("a,1,1,1\n", "--format", "rows", "--state", "other.db")
    assert done.returncode == 1 and "is not the state of a feed of this version" in done.stderr


def test_a_pipe_that_does_not_block_gets_all_rows():
    read, write = os.pipe()
    fcntl.fcntl(write, fcntl.F_SETFL, os.O_NONBLOCK)
    with open("feed.csv", "w+") as file:
        file.writelines(f"a,{i},0,{i}\n" for i in range(20_000))
        file.seek(0)
        run = start(stdin=file, stdout=write)
    os.close(write)
    time.sleep(1)
    with os.fdopen(read) as file:
        assert len(rows(file.read())) == 20_000
    assert run.wait(30) == 0


@pytest.mark.parametrize("error", ["/dev/full", None])
def test_a_full_or_closed_standard_error_stops_nothing(error):
    close = (lambda: os.close(2)) if error is None else None
    with open(error or os.devnull, "w") as file:
        run = subprocess.Popen([*FEED, "--state", "state.db", "--format", "rows"], env=environment(), stdin=subprocess.PIPE,
                               stdout=subprocess.PIPE, stderr=file, preexec_fn=close)
        found, _ = run.communicate(b"a,1\n" * 50 + b"a,1,1,1\n", timeout=30)
    assert rows(found.decode()) == [(1, 100, 100, 1)] and run.returncode == 0


def test_a_standard_error_that_nobody_reads_holds_up_nothing():
    run = start(stdin=subprocess.PIPE, stdout=subprocess.PIPE, stderr=subprocess.PIPE)
    run.stdin.write(b"a,1\n" * 20_000 + b"a,1,1,1\n")
    run.stdin.close()
    assert rows(run.stdout.read().decode()) == [(1, 100, 100, 1)]
    assert run.wait(30) == 0
    run.stderr.close()


def test_an_end_by_a_signal_writes_what_waits():
    run = start("--wait", "60", stdin=subprocess.PIPE, stdout=subprocess.PIPE, stderr=subprocess.PIPE)
    header = run.stdout.readline().decode()
    os.write(run.stdin.fileno(), b"a,1,1,1\n")
    time.sleep(2)
    run.send_signal(signal.SIGTERM)
    assert rows(header + run.stdout.read().decode()) == [(1, 100, 100, 1)] and run.wait(30) == 0


def test_rows_in_a_file_are_written_once_over_kills():
    lines = [f"v{i % 7},{i},0,{1000 + i // 7}\n" for i in range(7000)]
    for kill in range(8):
        run = start("--into", "rows.csv", "--wait", "1", stdin=subprocess.PIPE, stderr=subprocess.DEVNULL)
        try:
            for at in range(0, len(lines), 70):
                os.write(run.stdin.fileno(), "".join(lines[at:at + 70]).encode())
                if at > 700 * kill:
                    time.sleep(random.Random(kill).uniform(0, 0.1))
                    run.kill()
                    break
        except BrokenPipeError:
            pass
        run.wait(30)
        run.stdin.close()
    assert feed("".join(lines), "--format", "rows", "--into", "rows.csv").returncode == 0
    found = rows(open("rows.csv").read())
    assert len(found) == len(set(found))
    assert {row[1] // 100 for row in found} == set(range(7000))


@pytest.mark.parametrize("ids", ["rows.csv", "./rows.csv", "state.db", "state.db-wal", "rows.csvt"])
def test_the_table_of_ids_never_replaces_the_rows(ids):
    rows_path = "rows.csvt" if ids == "rows.csvt" else "rows.csv"
    ids = "rows.csv" if ids == "rows.csvt" else ids
    done = feed("a,1,1,1\n", "--format", "rows", "--into", rows_path, "--ids", ids)
    assert (done.returncode, done.stdout) == (2, "") and done.stderr.count("\n") == 1
    assert f"--ids {os.path.normpath(ids)} would replace" in done.stderr and os.listdir() == []


def test_a_feed_outlives_its_terminal_under_nohup():
    run = start(stdin=subprocess.PIPE, stdout=subprocess.PIPE, stderr=subprocess.PIPE,
                preexec_fn=lambda: signal.signal(signal.SIGHUP, signal.SIG_IGN))
    assert run.stdout.readline() == b"trace,x,y,time\n"
    os.write(run.stdin.fileno(), b"a,1,1,1\n")
    time.sleep(0.5)
    run.send_signal(signal.SIGHUP)
    time.sleep(1.5)  # longer than the feed waits for its input at once
    found, _ = run.communicate(b"a,1,1,2\n", timeout=30)
    assert rows("trace,x,y,time\n" + found.decode()) == [(1, 100, 100, 1), (1, 100, 100, 2)]


def test_rows_that_the_state_does_not_know_are_refused():
    feed("a,1,1,1\n", "--format", "rows", "--into", "rows.csv")
    done = feed("a,1,1,2\n", "--format", "rows", "--into", "rows.csv", "--state", "new.db")
    assert done.returncode == 1 and "has rows that the state new.db does not know" in done.stderr
    with open("rows.csv", "a") as file:
        file.write("9,9,9,9\n")
    done = feed("a,1,1,2\n", "--format", "rows", "--into", "rows.csv")
    assert done.returncode == 1 and "it was cut or changed" in done.stderr


def test_closing_rows_have_numbers_of_their_own():
    done = feed("a,1,2,100\na,2,2,101\n", "--format", "rows", "--close")
    far = -1_000_000_000
    assert rows(done.stdout)[1::2] == [(4_000_000_001, far, far, 100), (4_000_000_001, far, far, 101)]


def test_a_clock_that_steps_back_is_said_once_and_bridged():
    said = []
    notices = type("Notices", (), {"say": lambda self, text: said.append(text)})()
    clock = Clock(notices, iter([1000.0, 700.0, 701.0, 1002.0]).__next__)
    times = [clock.now() for _ in range(4)]
    assert times == sorted(set(times)) and times[-1] == 1002.0
    assert len(said) == 1 and "stepped back by 300 s" in said[0]
