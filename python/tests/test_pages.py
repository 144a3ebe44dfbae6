"""The page on PostGIS, on a server of its own in a temporary folder."""
from __future__ import annotations

import csv
import os
import re
import subprocess
from collections.abc import Iterator
from pathlib import Path

import forks
import pytest
from databases import Server


def blocks(page: Path) -> dict[str, str]:
    """The blocks of a page that have a name after their language."""
    return dict(re.findall(r"^```sh (\w+)\n(.*?)^```", page.read_text(encoding="utf-8"), re.M | re.S))


@pytest.fixture
def python() -> Iterator[str]:
    """What runs the commands of a page."""
    with forks.python() as program:
        yield program


def test_postgis(server: Server, python: str, top: Path, tmp_path: Path) -> None:
    for name in ("fmm", "recipes"):
        os.symlink(top / name, tmp_path / name)
    page = blocks(top / "recipes" / "postgis.md")

    def said(name: str) -> list[dict[str, str]]:
        done = subprocess.run(["bash", "-e", "-c", page[name]], cwd=tmp_path, capture_output=True, text=True,
                              env={**server.environment, "FMM_PYTHON": python})
        assert done.returncode == 0, done.stderr
        return list(csv.DictReader(done.stdout.splitlines()))

    said("load")
    with open(tmp_path / "out" / "edges.csv", newline="") as file:
        edges = list(csv.DictReader(file))
    speeds = said("speeds")
    assert sum(int(row["drives"]) for row in speeds) == sum(row["whole"] == "1" and row["name"] != "" for row in edges)
    assert {row["hour"] for row in speeds} == {"2024-05-06 08:00:00", "2024-05-06 09:00:00"}
    metres = sum(float(row["metres"]) for row in edges)
    assert [(row["id"], row["day"], row["kilometres"]) for row in said("kilometres")] == [
        ("monday", "2024-05-06", f"{metres / 1000:.3f}")]
    assert [row["name"] for row in said("near")] == ["Lange Straße"]
