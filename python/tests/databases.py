"""A PostGIS server for tests, in a temporary folder."""
from __future__ import annotations

import glob
import os
import shutil
import subprocess
import tempfile
from collections.abc import Iterator
from pathlib import Path

import pytest


class Server:
    """A PostGIS server that only listens on a socket in its folder."""

    def __init__(self, folder: Path, binaries: str) -> None:
        self.folder, self.binaries = folder, binaries
        self.user = [] if os.getuid() else ["runuser", "-u", "postgres", "--"]
        self.environment = {**os.environ, "PGHOST": str(folder), "PGUSER": "fleet", "PGTZ": "America/New_York"}

    def call(self, *words: str) -> None:
        """Runs a program of the server."""
        called = [*self.user, f"{self.binaries}/{words[0]}", *words[1:]]
        done = subprocess.run(called, capture_output=True, text=True, cwd=self.folder)
        assert done.returncode == 0, done.stdout + done.stderr

    def start(self) -> None:
        """Starts the server with a database that others are made of."""
        data = str(self.folder / "data")
        self.call("initdb", "-D", data, "-U", "fleet", "-A", "trust", "-E", "UTF8", "--locale=C", "--no-sync")
        self.begin()
        self.ask("createdb", "with_postgis")
        self.ask("psql", "-q", "-d", "with_postgis", "-c", "CREATE EXTENSION postgis")

    def ask(self, *words: str) -> None:
        """Runs a program that asks the server."""
        subprocess.run(words, check=True, env=self.environment, capture_output=True)

    def begin(self) -> None:
        """Starts it on the folder that it has."""
        data = str(self.folder / "data")
        options = f"-c listen_addresses='' -c unix_socket_directories='{self.folder}' -c fsync=off"
        self.call("pg_ctl", "-D", data, "-w", "-l", f"{data}/log", "-o", options, "start")

    def stop(self) -> None:
        """Ends it as a crash would."""
        self.call("pg_ctl", "-D", str(self.folder / "data"), "-m", "immediate", "stop")


@pytest.fixture(scope="session")
def cluster() -> Iterator[Server]:
    found = sorted(glob.glob("/usr/lib/postgresql/*/bin/initdb"))
    has = glob.glob("/usr/share/postgresql/*/extension/postgis.control")
    missing = [name for name in ("ogr2ogr", "psql", "createdb") if not shutil.which(name)]
    if not found or not has or missing or (not os.getuid() and not shutil.which("runuser")):
        pytest.skip("PostGIS, since there is no PostGIS server with psql and ogr2ogr")
    with tempfile.TemporaryDirectory(prefix="fmm-") as name:
        if not os.getuid():
            shutil.chown(name, "postgres")
            os.chmod(name, 0o755)
        made = Server(Path(name), os.path.dirname(found[-1]))
        made.start()
        try:
            yield made
        finally:
            made.stop()


@pytest.fixture
def server(cluster: Server) -> Iterator[Server]:
    """The server with an empty database fleet."""
    cluster.ask("createdb", "-T", "with_postgis", "fleet")
    yield cluster
    cluster.ask("dropdb", "--force", "fleet")
