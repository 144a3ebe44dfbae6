"""The strict reader and the writer of tables."""
from __future__ import annotations

import copy
from pathlib import Path

import numpy as np
import pandas as pd
import pytest
from hypothesis import given
from hypothesis import strategies as some

from fmm._output import Outputs
from fmm._tables import numbers, read_table, whole_numbers, write_table
from fmm.errors import InputError, OutputError


def written(folder: Path, data: bytes) -> Path:
    path = folder / "t.csv"
    path.write_bytes(data)
    return path


def test_fields_stay_text(tmp_path: Path) -> None:
    data = b'\xef\xbb\xbfid,a b,x\r\n007,,1.0\r\n\r\n7,"q, ""r""",\xc3\xa4 \r\n'
    frame = read_table(written(tmp_path, data), required=["x"], unique=["id"])
    assert frame.to_dict("list") == {"id": ["007", "7"], "a b": ["", 'q, "r"'], "x": ["1.0", "ä "]}
    assert [frame.attrs["lines"][record] for record in range(2)] == [2, 4]
    assert pd.concat([frame, frame]).shape == (4, 3) and copy.deepcopy(frame).attrs["lines"] is frame.attrs["lines"]


def test_a_header_alone_has_no_records(tmp_path: Path) -> None:
    assert read_table(written(tmp_path, b"a,b\n")).shape == (0, 2)


@pytest.mark.parametrize("data, message", [
    (b"", "is empty"),
    (b"\n\n", "has no header"),
    (b"a,b\n1,2\n3\n", "line 3: 1 fields, and the header has 2"),
    (b"a,b\n1,2,5\n", "line 2: 3 fields, and the header has 2; decimal commas?"),
    (b'a,b\n1,"2"\n1,2,3\n', "line 3: 3 fields"),
    (b"a,b\n1,2\n3,4", "line 3: the last line does not end with a line feed, so the file may be cut"),
    (b'a,b\n1,"2\n3,4\n', "line 2: a quoted field does not end in its line"),
    (b'a,b\n"1\n2",3\n', "line 2: a quoted field does not end in its line"),
    (b'a,b\n1,"2"3\n', "line 2: a stray quote"),
    (b've"hicle,b\n1,2\n', "line 1: a stray quote in the header"),
    (b'"a",b"\n1,2\n', "line 1: a stray quote in the header"),
    (b'a"b,c"d\n1,2\n', "line 1: a stray quote in the header"),
    (b"a,b\n1,2\0\n", r"line 2: is not text \(NUL\)"),
    (b"a,b\n1,2\r3,4\n", "line 2: a carriage return without a line feed"),
    (b"a,b\n1,2\n3,\xff\n", "line 3: is not UTF-8 text; convert it first: iconv"),
    (b"a,\n1,2\n", "line 1: name 2 of the header is empty"),
    (b"a,a\n1,2\n", "line 1: the header names a twice"),
    (b"a;b\n1;2\n", "line 1: the fields are separated by semicolons, not by commas: a;b"),
    (b"a\tb\n1\t2\n", "separated by tabs"),
    (b"a;b\n1,5;2,5\n", "line 1: the fields are separated by semicolons, not by commas: a;b"),
    (b"b,c\n1,2\n", "has no column a; its header is b,c"),
    (b"a,b\n1,2\n1,3\n", "line 3 column a: 1 comes a second time"),
    (b"\x1f\x8b\x08", "is compressed with gzip; unpack it first: gunzip -k"),
    (b"BZh91AY", "is compressed with bzip2"),
    (b"PK\x03\x04", "is a ZIP file or a spreadsheet"),
    (b"SQLite format 3\0", "is a database"),
    (b"\xff\xfev\0", "is UTF-16 text"),
])
def test_faults_are_refused_with_their_place(tmp_path: Path, data: bytes, message: str) -> None:
    with pytest.raises(InputError, match=f"^{tmp_path}/t.csv:? .*{message}|^{tmp_path}/t.csv: {message}") as fault:
        read_table(written(tmp_path, data), required=["a"], unique=["a"])
    assert "\n" not in str(fault.value) and fault.value.path == str(tmp_path / "t.csv")


def test_a_missing_file_is_named(tmp_path: Path) -> None:
    with pytest.raises(InputError, match="no.csv: No such file or directory"):
        read_table(tmp_path / "no.csv")


@given(data=some.data(), cut=some.integers(1, 28))
def test_no_cut_passes(tmp_path_factory: pytest.TempPathFactory, data: some.DataObject, cut: int) -> None:
    folder = tmp_path_factory.getbasetemp()
    rows = data.draw(some.lists(some.integers(10, 10**6), min_size=5, max_size=9))
    whole = "a,b\n" + "".join(f"{row},{row}\n" for row in rows)
    lines = whole[:-cut].count("\n")
    if whole[:-cut].endswith("\n"):
        assert len(read_table(written(folder, whole[:-cut].encode()))) == lines - 1
    else:
        with pytest.raises(InputError, match="may be cut|fields"):
            read_table(written(folder, whole[:-cut].encode()))


TEXT = some.text(some.characters(blacklist_categories=["Cs"]), max_size=8)


@given(rows=some.lists(some.tuples(TEXT, TEXT, some.floats(allow_nan=False, allow_infinity=False)), max_size=6))
def test_what_is_written_can_be_read(tmp_path_factory: pytest.TempPathFactory, rows: list) -> None:
    path = tmp_path_factory.getbasetemp() / "w.csv"
    frame = pd.DataFrame(rows, columns=["=id", "no\nte", "x"]).astype({"=id": object, "no\nte": object, "x": np.float64})
    with Outputs() as outputs:
        write_table(outputs, path, frame)
    found = read_table(path)
    assert list(found.columns) == ["=id", "no\\nte", "x"] and len(found) == len(rows)
    for (name, _, x), text, number in zip(rows, found["=id"], numbers(found, "x")):
        assert x == number and (text == name or not name.isprintable())


def test_keys_with_control_characters_are_refused(tmp_path: Path) -> None:
    frame = pd.DataFrame({"id": ["a", "x\n3999999999,y"], "name": ["q\0", None]})
    with pytest.raises(OutputError, match=r"ids.csv: column id of record 2 has a control character: x\\n3999999999,y"):
        with Outputs() as outputs:
            write_table(outputs, tmp_path / "ids.csv", frame, keys=["id"])
    assert not list(tmp_path.iterdir())


def test_missing_values_are_empty_fields(tmp_path: Path) -> None:
    frame = pd.DataFrame({"whole": pd.array([1, None], dtype="Int64"), "real": pd.array([None, 0.5], dtype="Float64"),
                          "plain": [np.nan, 2.5], "time": pd.to_datetime(["2024-05-06", None]), "text": [None, "a"]})
    with Outputs() as outputs:
        write_table(outputs, tmp_path / "table.csv", frame)
    assert (tmp_path / "table.csv").read_text().splitlines()[1:] == ["1,,,2024-05-06 00:00:00,", ",0.5,2.5,,a"]


def test_numbers_are_strict(tmp_path: Path) -> None:
    good = read_table(written(tmp_path, b"x\n1\n-2.5e3\n .5 \n+7.\n"))
    assert numbers(good, "x").tolist() == [1, -2500, 0.5, 7]
    for text in ("1_0", "nan", "inf", "1e999", "0x1", "９", "1 0", "--1", "1e", "."):
        frame = read_table(written(tmp_path, f"x,y\n1,\n{text},\n".encode()))
        with pytest.raises(InputError, match="line 3 column x: .* is not a number"):
            numbers(frame, "x")
    frame = read_table(written(tmp_path, b'x,y\n"9,43",\n'))
    with pytest.raises(InputError, match="line 2 column x: 9,43 is not a number, decimal comma"):
        numbers(frame, "x")
    with pytest.raises(InputError, match="column y: an empty field is not a number"):
        numbers(frame, "y")
    assert np.isnan(numbers(frame, "y", empty=np.nan)[0])
    with pytest.raises(InputError, match="line 3 column x: -2.5e3 is not in the range from 0 to inf"):
        numbers(good, "x", low=0)
    with pytest.raises(InputError, match="line 3 column x: -2.5e3 is not a whole number from 0 to 9"):
        whole_numbers(good, "x", 0, 9)
    whole = read_table(written(tmp_path, b"x,y\n7,\n007,\n10,\n"))
    assert whole_numbers(whole, "x", 0, 10).tolist() == [7, 7, 10] and whole_numbers(whole.iloc[:0], "x", 0, 9).tolist() == []
    with pytest.raises(InputError, match="line 4 column x: 10 is not a whole number from 0 to 9"):
        whole_numbers(whole, "x", 0, 9)
    with pytest.raises(InputError, match="line 2 column y: an empty field is not a whole number from 0 to 9"):
        whole_numbers(whole, "y", 0, 9)


def test_a_column_of_empty_fields_comes_back(tmp_path: Path) -> None:
    with Outputs() as outputs:
        write_table(outputs, tmp_path / "t.csv", pd.DataFrame({"a": ["", "x", None]}))
    assert read_table(tmp_path / "t.csv").a.tolist() == ["", "x", ""]
