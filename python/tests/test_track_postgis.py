"""`fmm track` and a real database."""
from __future__ import annotations

import csv
import os
import re
import shutil
import signal
import subprocess
import time
from pathlib import Path
from typing import Any

import pytest
from brokers import Broker, needs_mosquitto
from databases import Server
from test_pages import blocks, python  # noqa: F401  a fixture
from tracks import Run, assert_once_and_as_matched, fleet, of_kind

pytest.importorskip("psycopg2", reason="python3-psycopg2 is not installed")


def rows(server: Server, query: str) -> list[list[str]]:
    done = subprocess.run(["psql", "-d", "fleet", "-A", "-t", "-F", "|", "-c", query], check=True, env=server.environment,
                          capture_output=True, text=True)
    return [line.split("|") for line in done.stdout.splitlines()]


def test_a_database_has_each_position_once(server: Server, tmp_path: Path) -> None:
    made = fleet(tmp_path, 12)
    lines, address = made.lines(), f"postgresql://fleet@/fleet?host={server.folder}"
    words = ["--to", address, "--to", "-", "--wait", "10"]
    half = len(lines) // 2
    run = Run(made.network.path, tmp_path, *words)
    run.give(lines[:half])
    run.wait_for(half // 4)
    run.end(signal.SIGKILL)
    run = Run(made.network.path, tmp_path, *words)
    before = len(of_kind(run.objects(), "position"))
    run.give(lines[:half + 20])
    run.wait_for(before + 5)
    server.stop()
    run.give(lines[half + 20:])
    server.begin()
    assert run.end() == 0
    found = rows(server, "SELECT count(*), count(*) FILTER (WHERE provisional) FROM track_positions")
    assert found == [[str(len(lines)), "0"]]
    objects = {(one["vehicle"], one["time"]): one for one in run.objects() if one["kind"] == "position"}
    assert_once_and_as_matched([*objects.values(), *[one for one in run.objects() if one["kind"] == "drive"]], made, tmp_path)
    columns = "vehicle, drive, coalesce(edge, -1), street, round(st_x(geom)::numeric, 7), round(st_y(geom)::numeric, 7)"
    query = f"SELECT {columns}, to_char(time AT TIME ZONE 'UTC', 'YYYY-MM-DD\"T\"HH24:MI:SS\"Z\"') FROM track_positions"
    assert sorted(rows(server, query)) == sorted(
        [one["vehicle"], str(one["drive"]), str(-1 if one["edge"] is None else one["edge"]), one["street"],
         f"{one['longitude']:.7f}", f"{one['latitude']:.7f}", one["time"]] for one in objects.values())
    drives = rows(server, "SELECT vehicle, positions, st_isvalid(geom) AND st_srid(geom) = 4326 FROM track_drives")
    assert len(drives) == 12 and all(valid == "t" for _, _, valid in drives)
    assert sum(int(count) for _, count, _ in drives) == len(lines)
    assert run.said.read_text().count("the database does not take the positions, which wait") <= 1


@needs_mosquitto
@pytest.mark.skipif(not shutil.which("mosquitto_pub"), reason="mosquitto-clients is not installed")
def test_the_page_leads_from_a_message_to_a_row(server: Server, python: str, top: Path, tmp_path: Path) -> None:  # noqa: F811
    page = blocks(top / "docs" / "LIVE.md")
    shown = re.search(r"```sh now\n.*?```\n```text\n(.*?)```", (top / "docs" / "LIVE.md").read_text(), re.S)
    os.symlink(top / "fmm", tmp_path / "fmm")
    broker = Broker(tmp_path)
    environment = {**server.environment, "FMM_PYTHON": python}

    def bash(text: str, **more: Any) -> Any:
        text = text.replace("localhost", f"localhost:{broker.port}").replace("mosquitto_pub", f"mosquitto_pub -p {broker.port}")
        return subprocess.Popen(["bash", "-e", "-c", text], cwd=tmp_path, env=environment, text=True, **more)

    network = f"./fmm network {top}/recipes/small/village.osm --into network.csv"
    assert bash(network, stderr=subprocess.DEVNULL).wait(60) == 0
    run = bash("exec " + page["track"].strip().rstrip("&"), stderr=subprocess.PIPE)
    try:
        assert "takes messages of fleet/+/position" in run.stderr.readline()
        assert bash(page["vehicle"]).wait(60) == 0
        said, end = "", time.monotonic() + 60
        while "van 7,08:00:05" not in said and time.monotonic() < end:
            said = bash(page["now"], stdout=subprocess.PIPE).communicate()[0]
            time.sleep(0.1)
        assert shown and said == shown[1]
        late = '{"longitude":9.43,"latitude":54.31,"time":1714990000}'
        assert bash(f"mosquitto_pub -q 1 -t fleet/tram/position -m '{late}'").wait(60) == 0
        drives: list[Any] = []
        while not drives and time.monotonic() < end:
            drives = list(csv.DictReader(bash(page["drives"], stdout=subprocess.PIPE).stdout))
        assert drives == [{"vehicle": "van 7", "positions": "2", "metres": "43", "seconds": "5"}]
    finally:
        run.terminate()
        assert run.wait(60) == 0
        broker.stop()
