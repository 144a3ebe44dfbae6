"""The reader of match texts: what it says, and that no line can be lost, doubled, halved or moved."""
from __future__ import annotations

import subprocess
from pathlib import Path
from typing import List

import numpy as np
import pytest
from hypothesis import given, strategies as st

from fmm._match_text import MatchText, read_match
from fmm.errors import InputError

TOP = Path(__file__).resolve().parents[2]
EXAMPLES = TOP / "examples"


def program_text(command: str) -> bytes:
    """What the program writes for the example."""
    args = [TOP / "fmm", command, EXAMPLES / "network.csv", EXAMPLES / "traces.csv", "--gap", "120"]
    return subprocess.run(args, check=True, stdout=subprocess.PIPE).stdout


TEXTS = {command: program_text(command) for command in ("match", "follow", "streams")}
LINES = {command: text.decode().splitlines(keepends=True) for command, text in TEXTS.items()}


def refused(text: str) -> InputError:
    with pytest.raises(InputError) as caught:
        read_match(text.encode(), "m.txt")
    return caught.value


def plain(text: MatchText) -> List[str]:
    """The text of match again, written line by line."""
    out, pieces = [], list(zip(text.piece_trace.tolist(), text.first.tolist(), text.last.tolist(), text.cost.tolist(),
                               np.split(text.route, text.route_first[1:-1])))
    for place, trace in enumerate(text.traces.tolist()):
        out.append(f"trace {trace}\n")
        ends = {last: (first, cost, route) for of, first, last, cost, route in pieces if of == place}
        for number, at in enumerate(range(text.position_first[place], text.position_first[place + 1])):
            if text.edge[at] < 0:
                out.append(f"none {number}\n")
            else:
                out.append(f"at {number} edge {text.edge[at]} offset {text.offset[at]} d2 {text.d2[at]}\n")
            if number in ends:
                first, cost, route = ends[number]
                out.append(f"piece {first} {number} cost {cost} route {' '.join(map(str, route.tolist()))}\n")
        out.append(f"end {trace}\n")
    out.append(f"total traces {len(text.traces)} points {len(text.edge)} pieces {len(text.cost)} rows {text.rows}\n")
    return out


@pytest.mark.parametrize("command", TEXTS)
def test_the_three_texts_say_the_same(command: str) -> None:
    text = read_match(TEXTS[command])
    assert text.kind == command
    assert plain(text) == LINES["match"]


def test_a_file_and_a_pipe_are_read_alike(tmp_path: Path) -> None:
    path = tmp_path / "match.txt"
    path.write_bytes(TEXTS["match"])
    assert plain(read_match(path)) == LINES["match"]
    with subprocess.Popen(["cat", str(path)], stdout=subprocess.PIPE) as cat:
        assert cat.stdout is not None
        assert plain(read_match(f"/dev/fd/{cat.stdout.fileno()}")) == LINES["match"]


def test_no_traces_and_a_joined_text() -> None:
    text = read_match(b"total traces 0 points 0 pieces 0 rows 0\n")
    assert len(text.traces) == 0 and text.rows == 0
    joined = "".join(LINES["match"][:-1]) + LINES["match"][-1].split(" rows")[0] + "\n"
    assert read_match(joined.encode()).rows is None


@pytest.mark.parametrize("command", TEXTS)
@given(data=st.data())
def test_no_line_can_be_lost_doubled_or_halved(command: str, data: st.DataObject) -> None:
    lines = list(LINES[command])
    at = data.draw(st.integers(0, len(lines) - 1))
    how = data.draw(st.sampled_from(["lost", "doubled", "halved", "joined"]))
    if how == "lost":
        del lines[at]
    elif how == "doubled":
        lines.insert(at, lines[at])
    elif how == "halved":
        # a shorter route or number may be right by the grammar, and a total line without rows is that of a joined text
        words = lines[at].rstrip("\n").split("route")[0].split(" rows")[0]
        cut = data.draw(st.integers(0, max(1, len(words.rstrip("0123456789")) - 1)))
        lines[at] = lines[at][:cut] + "\n"
    else:
        lines[at] = lines[at].rstrip("\n") + " "
    refused("".join(lines))


@given(data=st.data())
def test_lines_of_a_trace_cannot_be_exchanged(data: st.DataObject) -> None:
    lines = list(LINES["match"])
    first, second = sorted(data.draw(st.lists(st.integers(0, len(lines) - 1), min_size=2, max_size=2, unique=True)))
    if lines[first].split()[:2] == lines[second].split()[:2] and lines[first].startswith(("at", "piece", "none")):
        return  # the same place in two traces
    lines[first], lines[second] = lines[second], lines[first]
    error = refused("".join(lines))
    assert error.line is None or error.line >= first + 1


@given(data=st.data())
def test_a_changed_byte_is_refused_or_another_number(data: st.DataObject) -> None:
    text = bytearray(TEXTS["match"])
    at = data.draw(st.integers(0, len(text) - 1))
    byte = data.draw(st.integers(0, 255))
    if chr(text[at]).isdigit() and chr(byte).isdigit() or text[at] == byte:
        return
    text[at] = byte
    try:
        changed = read_match(bytes(text), "m.txt")
    except InputError as fault:
        assert str(fault).startswith("m.txt")
    else:  # 124 5 for 12455, only in a route
        assert "".join(plain(changed)).encode() == bytes(text)


@given(data=st.data())
def test_a_text_that_is_cut_is_refused(data: st.DataObject) -> None:
    command = data.draw(st.sampled_from(sorted(TEXTS)))
    error = refused(TEXTS[command][:data.draw(st.integers(0, len(TEXTS[command]) - 1))].decode())
    assert "cut" in str(error) or "empty" in str(error) or "not a match" in str(error)


GOOD = "trace 1\nat 0 edge 5 offset 3 d2 9\npiece 0 0 cost 1 route 5\nnone 1\nend 1\ntotal traces 1 points 2 pieces 1 rows 0\n"


@pytest.mark.parametrize("old, new, message", [
    ("", "", "m.txt: is empty"),
    (GOOD, "fmm-certificate 1 k 8\n", "m.txt: is a certificate of fmm prove, not a match"),
    (GOOD, "fmm-table 1 bound 2\n", "m.txt: is a table of fmm table, not a match"),
    (GOOD, "edge,from,to,line\n", "m.txt: is not a match: its first line is edge,from,to,line"),
    ("total traces 1 points 2 pieces 1 rows 0\n", "", "m.txt line 5: is cut after this line: it has no total line at its end"),
    ("end 1\ntotal traces 1 points 2 pieces 1 rows 0\n", "", "m.txt line 4: is cut after this line: trace 1 has no end line"),
    ("rows 0\n", "rows 0", "m.txt line 6: is cut in this line: total traces 1 points 2 pieces 1 rows 0"),
    ("offset 3", "offset 03", "m.txt line 2: at 0 edge 5 offset 03 d2 9 has no place there"),
    ("offset 3", "offset 4294967296", "m.txt line 2: at 0 edge 5 offset 4294967296 d2 9 has no place there"),
    ("d2 9", "d2 99999999999999999999", "m.txt line 2: at 0 edge 5 offset 3 d2 99999999999999999999 has no place there"),
    ("d2 9", "d2  9", "m.txt line 2: at 0 edge 5 offset 3 d2 9 has no place there"),
    ("d2 9", "d2 9\r", "m.txt line 2: at 0 edge 5 offset 3 d2 9 has no place there"),
    ("d2 9", "d2 1_0", "m.txt line 2: at 0 edge 5 offset 3 d2 1_0 has no place there"),
    ("route 5", "route", "m.txt line 3: piece 0 0 cost 1 route has no place there"),
    ("route 5", "route 6", "m.txt line 3: piece 0 0 cost 1 route 6 does not begin and end on the edges of its positions"),
    ("piece 0 0", "piece 1 0", "m.txt line 3: piece 1 0 cost 1 route 5 has no place there"),
    ("none 1\n", "none 2\n", "m.txt line 4: none 2 has no place there"),
    ("none 1\n", "\nnone 1\n", "m.txt line 4: an empty line has no place there"),
    ("end 1\n", "end 2\n", "m.txt line 5: end 2 has no place there"),
    ("end 1\n", "fix 0\nend 1\n", "m.txt line 2: at 0 edge 5 offset 3 d2 9 has no place there"),
    ("points 2", "points 3", "m.txt: lacks lines: it has 1 traces, 2 points and 1 pieces, its total line has 1, 3 and 1"),
    ("rows 0\n", "rows 0\ntrace 1\n", "m.txt line 7: trace 1 follows the total line"),
    ("rows 0\n", "rows\n", "m.txt line 6: total traces 1 points 2 pieces 1 rows has no place there"),
])
def test_messages(old: str, new: str, message: str) -> None:
    text = GOOD.replace(old, new) if old else new
    assert str(refused(text)) == message


def test_fixes_are_neither_dropped_nor_doubled() -> None:
    for command in ("follow", "streams"):
        for at in [at for at, line in enumerate(LINES[command]) if " fix " in " " + line or "finish" in line]:
            refused("".join(LINES[command][:at] + LINES[command][at + 1:]))
            refused("".join(LINES[command][:at + 1] + LINES[command][at:]))


def test_ids_of_streams_keep_their_own_lines() -> None:
    text = "".join(LINES["streams"])
    for line in LINES["streams"][:-1]:
        trace = line.split()[0]
        refused(text.replace(line, line.replace(trace, "9" + trace, 1), 1))


# Vehicle 1 has two drives, of which one ends before the file, together with that of vehicle 2.
DRIVES = """1 trace 1
1 fix 0
1 at 0 edge 10 offset 1000 d2 0
2 trace 2
2 fix 0
2 at 0 edge 10 offset 9000 d2 0
1 fix 1
1 finish
1 at 1 edge 10 offset 2000 d2 0
1 piece 0 1 cost 0 route 10
1 end 1
2 finish
2 piece 0 0 cost 0 route 10
2 end 2
1 trace 1
1 fix 0
1 none 0
3 trace 3
3 fix 0
1 finish
1 end 1
3 finish
3 at 0 edge 11 offset 5 d2 4
3 piece 0 0 cost 2 route 11
3 end 3
total traces 4 points 5 pieces 3 rows 1
""".splitlines(keepends=True)


def test_an_id_of_streams_may_have_several_drives() -> None:
    text = read_match("".join(DRIVES).encode())
    assert text.kind == "streams" and text.traces.tolist() == [1, 1, 2, 3]
    assert text.position_first.tolist() == [0, 2, 3, 4, 5] and text.edge.tolist() == [10, 10, -1, 10, 11]
    assert text.piece_trace.tolist() == [0, 2, 3] and text.last.tolist() == [1, 0, 0]


def test_no_line_of_drives_can_be_lost_doubled_or_moved() -> None:
    for at in range(len(DRIVES)):
        refused("".join(DRIVES[:at] + DRIVES[at + 1:]))
        refused("".join(DRIVES[:at + 1] + DRIVES[at:]))
    for at in [at for at, line in enumerate(DRIVES) if "piece" in line or "end" in line]:
        others = DRIVES[:at] + DRIVES[at + 1:]
        for to in [to for to in range(len(others)) if to != at]:
            refused("".join([*others[:to], DRIVES[at], *others[to:]]))


def test_drives_that_end_together_have_their_order() -> None:
    first, second = slice(7, 11), slice(11, 14)
    refused("".join(DRIVES[:7] + DRIVES[second] + DRIVES[first] + DRIVES[14:]))
    first, second = slice(19, 21), slice(21, 25)
    refused("".join(DRIVES[:19] + DRIVES[second] + DRIVES[first] + DRIVES[25:]))
    refused("".join(DRIVES[:7] + DRIVES[11:14] + DRIVES[14:]))  # the second drive begins while the first is open


def test_a_full_drive_ends_after_all_others(tmp_path: Path) -> None:
    subprocess.run(["sh", TOP / "tests" / "cases" / "a_drive_of_100000_positions_ends" / "make"], cwd=tmp_path, check=True)
    lines = (tmp_path / "stdout").read_text().splitlines(keepends=True)
    text = read_match("".join(lines).encode())
    assert text.traces.tolist() == [1, 1, 2] and np.diff(text.position_first).tolist() == [100_000, 1, 1]
    full, second = ["1 finish\n", "1 end 1\n"], ["2 finish\n", "2 end 2\n"]
    at = lines.index(full[0])
    ended = [*lines[:-5], *lines[-3:]]  # vehicle 2 ends before vehicle 1 is full
    begun = lines.index("2 none 0\n")
    assert read_match("".join([*ended[:begun + 1], *second, *ended[begun + 1:]]).encode()).traces.tolist() == [1, 1, 2]
    assert read_match("".join([*ended[:at], *second, *ended[at:]]).encode()).traces.tolist() == [1, 1, 2]
    total = "total traces 2 points 100001 pieces 0 rows 0\n"
    assert len(read_match("".join([*lines[:at], *full, *second, total]).encode()).traces) == 2
    refused("".join([*lines[:at], *second, *full, total]))  # with the file, drives end in their order
