"""`Matches.to_postgis` and a real database."""
from __future__ import annotations

from pathlib import Path
from typing import Any

import geopandas
import numpy as np
import pytest
from databases import Server

import fmm
from fmm.errors import OutputError
from fmm.matches import Matches

sqlalchemy = pytest.importorskip("sqlalchemy", reason="python3-sqlalchemy is not installed")
pytest.importorskip("psycopg2", reason="python3-psycopg2 is not installed")
pytest.importorskip("geoalchemy2", reason="python3-geoalchemy2 is not installed")
TABLES = ("points", "routes", "edges", "network")


@pytest.fixture(scope="module")
def matches() -> Matches:
    small = Path(__file__).resolve().parents[2] / "recipes" / "small"
    return fmm.match(fmm.Network.from_osm(small / "village.osm"), fmm.read_positions(small / "monday.gpx"))


def counts(engine: Any, schema: str = "public") -> list[int]:
    with engine.connect() as connection:
        return [connection.execute(sqlalchemy.text(f"SELECT count(*) FROM {schema}.{name}")).scalar() for name in TABLES]


def test_the_four_tables_are_written_whole_or_not_at_all(server: Server, matches: Matches) -> None:
    engine = sqlalchemy.create_engine(f"postgresql://fleet@/fleet?host={server.folder}")
    assert matches.network is not None
    wanted = [len(table) for table in (matches.points, matches.routes, matches.edges, matches.network.edges)]
    matches.to_postgis(engine)
    assert counts(engine) == wanted
    found = geopandas.read_postgis("SELECT * FROM edges ORDER BY trace, piece, number", engine, geom_col="geometry")
    assert found.crs == matches.crs
    assert found["name"].fillna("").tolist() == matches.edges["name"].tolist()
    assert np.allclose(found["seconds"], matches.edges["seconds"]) and np.allclose(found["metres"], matches.edges["metres"])
    assert found["whole"].dtype == bool and (found["entry"] == matches.edges["entry"].dt.round("us")).all()
    assert np.allclose(found.geometry.bounds, matches.edges.geometry.bounds, atol=1e-9)
    with engine.connect() as connection:
        query = "SELECT count(*) FROM points WHERE NOT st_isvalid(geometry) OR st_srid(geometry) <> 4326 OR edge IS NULL"
        assert connection.execute(sqlalchemy.text(query)).scalar() == 0
    with pytest.raises(OutputError, match="'points' already exists; give replace=True to replace it"):
        matches.to_postgis(engine)
    with engine.begin() as connection:
        connection.execute(sqlalchemy.text("DROP TABLE points, routes"))
    with pytest.raises(OutputError, match="'edges' already exists"):
        matches.to_postgis(engine)
    with engine.connect() as connection:  # points and routes were written before edges failed, and are not there
        assert connection.execute(sqlalchemy.text("SELECT to_regclass('points'), to_regclass('routes')")).one() == (None, None)
    matches.to_postgis(engine, replace=True)
    matches.to_postgis(engine, replace=True)
    assert counts(engine) == wanted
    with engine.begin() as connection:
        connection.execute(sqlalchemy.text("CREATE SCHEMA fleet"))
    matches.to_postgis(engine, schema="fleet")
    assert counts(engine, "fleet") == wanted
    engine.dispose()


def test_a_database_that_is_not_there(matches: Matches, tmp_path: Path) -> None:
    with pytest.raises(OutputError, match="^the database: "):
        matches.to_postgis(sqlalchemy.create_engine(f"postgresql://fleet@/fleet?host={tmp_path}"))
