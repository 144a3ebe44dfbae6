"""Side files and checksums."""
from __future__ import annotations

from pathlib import Path

import pytest

from fmm._evidence import checksum_of, compare, part, read_side_file, write_side_file
from fmm._output import Outputs
from fmm.errors import InputError, MismatchError


def test_a_side_file_comes_back(tmp_path: Path) -> None:
    path = tmp_path / "n.json"
    with Outputs() as outputs:
        write_side_file(outputs, path, "network", {"network": {"sha256": "ab", "edges": 3}})
    content = read_side_file(path, "network")
    assert part(content, path, "network", "sha256") == "ab" and part(content, path, "network", "edges", kind=int) == 3
    assert part(content, path, "fmm")
    with pytest.raises(InputError, match=f"{path}: is damaged: network.nodes is missing or no int"):
        part(content, path, "network", "nodes", kind=int)
    with pytest.raises(InputError, match="is the side file of network, not of match"):
        read_side_file(path, "match")


@pytest.mark.parametrize("data", [b"", b"{", b'{"kind": "network"', b"\xff", b"[" * 100000])
def test_damaged_side_files_are_refused(tmp_path: Path, data: bytes) -> None:
    path = tmp_path / "n.json"
    path.write_bytes(data)
    with pytest.raises(InputError, match=f"^{path}: is damaged"):
        read_side_file(path, "network")


def test_checksums_tell_files_apart(tmp_path: Path) -> None:
    (tmp_path / "a").write_bytes(b"")
    empty = "e3b0c44298fc1c149afbf4c8996fb92427ae41e4649b934ca495991b7852b855"
    assert checksum_of(tmp_path / "a") == empty
    compare("the checksum", empty, empty, "a", "b")
    with pytest.raises(MismatchError, match="^a: does not belong to b: the checksum is e3.* here, other there$"):
        compare("the checksum", empty, "other", "a", "b")
