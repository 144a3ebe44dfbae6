"""Whole numbers that are read at once, and what is left to the strict readers."""
from __future__ import annotations

from pathlib import Path

import pytest

from fmm._plain_numbers import plain_numbers


def test_columns_of_whole_numbers(tmp_path: Path) -> None:
    path = tmp_path / "t.csv"
    path.write_text("trace,x,y\n1,-5,007\n2,0,9223372036854775807\n")
    found = plain_numbers(path)
    assert found is not None
    assert {name: values.tolist() for name, values in found.items()} == {
        "trace": [1, 2], "x": [-5, 0], "y": [7, 9223372036854775807]}


@pytest.mark.parametrize("text", [
    "", "a,b\n", "a,b", "a,b\n1,2", "a,b\n1,2\n\n", "a,b\n\n1,2\n", "a,b\n1,2,3\n", "a,b\n1\n", "a,b\n1,\n", "a,b\n,\n",
    "a,b\n1,-\n", "a,b\n1,1-2\n", "a,b\n1,--2\n", "a,b\n1,+2\n", "a,b\n1, 2\n", "a,b\n1,2.0\n", "a,b\n1,2e3\n",
    "a,b\r\n1,2\r\n", '"a",b\n1,2\n', "a,b\n1,2\n\0", "a,ü\n1,2\n", "a,b\n1," + "9" * 40 + "\n", "a,b\n1,-" + "9" * 40 + "\n",
])
def test_everything_else_is_left_to_the_strict_reader(tmp_path: Path, text: str) -> None:
    path = tmp_path / "t.csv"
    path.write_bytes(text.encode())
    assert plain_numbers(path) is None
    assert plain_numbers(tmp_path / "none.csv") is None
